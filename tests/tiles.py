"""The tiles of an image, as a plain model of docs/FORMATS.md."""

import functools


@functools.lru_cache(maxsize=64)
def text_of(image, z, x, y, side):
    """A tile with its head."""
    width, height, maxval, samples = image
    scale, area = 1 << z, 1 << 2 * z
    tile = bytearray(side * side)
    for v in range(side):
        top = (y * side + v) * scale
        if top >= height:
            break
        if z == 0:
            line = samples[top * width + x * side : top * width + min(x * side + side, width)]
            tile[v * side : v * side + len(line)] = line
            continue
        for u in range(side):
            left = (x * side + u) * scale
            if left >= width:
                break
            rows = range(top, min(top + scale, height))
            total = sum(sum(samples[row * width + left : row * width + min(left + scale, width)]) for row in rows)
            tile[v * side + u] = (total + area // 2) // area
    return b"P5\n%d %d\n%d\n" % (side, side, maxval) + tile
