#!/usr/bin/env python3
"""Lays tiles side by side in one picture: P5 tiles of one size on the standard input, a PNG on the standard output.

    python3 examples/mosaic.py COLUMNS < tiles > mosaic.png
"""

import struct
import sys
import zlib


def tiles_of(data):
    """The side of the tiles, and the rows of each."""
    while data:
        magic, sides, maxval, rest = data.split(b"\n", 3)
        side = int(sides.split()[0])
        if magic != b"P5" or len(rest) < side * side:
            sys.exit("the input is no list of tiles")
        white = int(maxval)
        rows = [bytes(value * 255 // white for value in rest[row * side : row * side + side]) for row in range(side)]
        yield side, rows
        data = rest[side * side :]


def chunk(kind, data):
    return struct.pack(">I", len(data)) + kind + data + struct.pack(">I", zlib.crc32(kind + data))


def main():
    columns = int(sys.argv[1])
    tiles = list(tiles_of(sys.stdin.buffer.read()))
    if not tiles:
        sys.exit("there is no tile")
    side, _ = tiles[0]
    black = [bytes(side)] * side
    bands = [[rows for _, rows in tiles[at : at + columns]] for at in range(0, len(tiles), columns)]
    lines = []
    for band in bands:
        band += [black] * (columns - len(band))
        lines += [b"\0" + b"".join(parts) for parts in zip(*band)]
    size = struct.pack(">IIBBBBB", columns * side, len(bands) * side, 8, 0, 0, 0, 0)
    png = chunk(b"IHDR", size) + chunk(b"IDAT", zlib.compress(b"".join(lines))) + chunk(b"IEND", b"")
    sys.stdout.buffer.write(b"\x89PNG\r\n\x1a\n" + png)


main()
