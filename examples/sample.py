#!/usr/bin/env python3
"""Writes a grey image of the form P5 on the standard output: a bright disc on a dark ramp, 512 by 512.

    python3 examples/sample.py > sample.pgm
"""

import sys

SIDE, WHITE = 512, 255


def sample(x, y):
    inside = (x - SIDE // 2) ** 2 + (y - SIDE // 2) ** 2 < (SIDE // 3) ** 2
    return WHITE if inside else x * 128 // SIDE


samples = bytes(sample(x, y) for y in range(SIDE) for x in range(SIDE))
sys.stdout.buffer.write(b"P5\n%d %d\n%d\n" % (SIDE, SIDE, WHITE) + samples)
