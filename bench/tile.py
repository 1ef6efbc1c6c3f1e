#!/usr/bin/env python3
"""Times `discard tile` beside a plain C program that does the same job.

    python3 bench/tile.py [PROGRAM ..]

A program is by default the built one, crates/discard/out/discard; where several are named, each is measured. All read a whole
P5 file, check its header, make one tile of side 256 and write it. They take turns, many times over. For each image and zoom the
script prints the median of the processor time of the whole process, and in parentheses the quartiles, in nanoseconds for each
sample that the tile covers; then the ratio of the medians to that of the C program. It stops where the programs write different
bytes. The images, the C program and what is written lie in a scratch folder that is removed.
"""

import os
import random
import sys
import tempfile

from measure import Spread, compiled, programs, spent

SIDE = 256
ZOOMS = (0, 1, 3, 6)
# Width, height, and how many turns.
IMAGES = ((8192, 8192, 15), (640, 480, 101))

PLAIN = r"""
#include <stdio.h>
#include <stdlib.h>
#include <string.h>

static unsigned char *bytes;
static long length, at;

static void fail(const char *why) { fprintf(stderr, "plain: %s\n", why); exit(3); }

static int is_white(int c) { return c == ' ' || c == '\t' || c == '\r' || c == '\n'; }

/* white space and comments, at least one byte of them */
static void white(void)
{
    long begin = at;
    while (at < length) {
        if (bytes[at] == '#') {
            while (at < length && bytes[at] != '\r' && bytes[at] != '\n') at++;
            if (at < length) at++;
        } else if (is_white(bytes[at])) {
            at++;
        } else {
            break;
        }
    }
    if (at == begin) fail("no white space");
}

static unsigned long number(unsigned long most)
{
    unsigned long value = 0;
    while (at < length && bytes[at] >= '0' && bytes[at] <= '9') {
        value = value * 10 + (bytes[at] - '0');
        if (value > 65536) value = 65536;
        at++;
    }
    if (value == 0 || value > most) fail("no such number");
    return value;
}

int main(int argc, char **argv)
{
    if (argc != 8 || strcmp(argv[1], "tile") != 0) fail("usage");
    unsigned long z = strtoul(argv[3], 0, 10), x = strtoul(argv[4], 0, 10), y = strtoul(argv[5], 0, 10);
    unsigned long side = strtoul(argv[7], 0, 10);
    FILE *file = fopen(argv[2], "rb");
    if (!file) fail("no file");
    fseek(file, 0, SEEK_END);
    length = ftell(file);
    fseek(file, 0, SEEK_SET);
    bytes = malloc(length + 1);
    if (!bytes || fread(bytes, 1, length, file) != (size_t)length) fail("not read");
    fclose(file);
    if (length < 2 || bytes[0] != 'P' || bytes[1] != '5') fail("no P5");
    at = 2;
    white();
    unsigned long width = number(8192);
    white();
    unsigned long height = number(8192);
    white();
    unsigned long maxval = number(255);
    if (at >= length || !is_white(bytes[at])) fail("no white space");
    at++;
    if ((unsigned long)(length - at) < width * height) fail("short");
    const unsigned char *samples = bytes + at;
    unsigned char *out = malloc(side * side);
    if (!out) fail("no memory");
    unsigned long scale = 1ul << z, half = (1ul << (2 * z)) / 2;
    for (unsigned long v = 0; v < side; v++) {
        for (unsigned long u = 0; u < side; u++) {
            unsigned long left = (x * side + u) * scale, top = (y * side + v) * scale, sum = 0;
            for (unsigned long row = top; row < top + scale && row < height; row++) {
                for (unsigned long column = left; column < left + scale && column < width; column++) {
                    unsigned char sample = samples[row * width + column];
                    sum += sample < maxval ? sample : maxval;
                }
            }
            out[v * side + u] = (sum + half) >> (2 * z);
        }
    }
    printf("P5\n%lu %lu\n%lu\n", side, side, maxval);
    fwrite(out, 1, side * side, stdout);
    return fflush(stdout) ? 3 : 0;
}
"""

def drawn(folder, width, height):
    """A file with an image of noise."""
    path = os.path.join(folder, f"{width}x{height}.pgm")
    with open(path, "wb") as file:
        file.write(b"P5\n%d %d\n255\n" % (width, height))
        file.write(random.Random(width).randbytes(width * height))
    return path


def bytes_in(path):
    with open(path, "rb") as file:
        return file.read()


def main():
    named = programs()
    with tempfile.TemporaryDirectory(prefix="tile-bench-") as folder:
        plain = compiled(folder, "plain", PLAIN)
        every = [*named, plain]
        outs = [os.path.join(folder, f"out-{at}") for at in range(len(every))]
        for width, height, turns in IMAGES:
            path = drawn(folder, width, height)
            for z in ZOOMS:
                words = ["tile", path, str(z), "0", "0", "--side", str(SIDE)]
                times = [[] for _ in every]
                for _ in range(turns):
                    for program, out, found in zip(every, outs, times):
                        found.append(spent([program, *words], os.devnull, out))
                if len(set(map(bytes_in, outs))) > 1:
                    sys.exit("the programs write different bytes")
                samples = min(width, SIDE << z) * min(height, SIDE << z)
                spreads = [Spread(it) for it in times]
                print(f"{width} by {height}, zoom {z}, {samples} samples, {turns} turns:")
                for program, spread in zip(every, spreads):
                    name = "C" if program == plain else program
                    print(f"  {name}: {spread.each(samples)} ns a sample, {spread.median / spreads[-1].median:.2f} of C")


if __name__ == "__main__":
    main()
