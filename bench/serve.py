#!/usr/bin/env python3
"""Times `discard serve` beside a plain C program that serves the same tiles.

    python3 bench/serve.py [PROGRAM ..] [--quick]

A program is by default the built one, crates/discard/out/discard. The C program has a thread a client and an ordinary cache of as
many entries for each, which never loses a tile; it writes the same bytes. They take turns. For each image, side, mix of requests,
number of clients and limit the script prints the median of the time by the clock, and the ratio to that of the C program; then the
speed-up from 1 client to 2 and 4 of both, what a kept tile and a made tile cost beside the C program's (whose kept tile is a look-up
and the copy), how the cost of a request grows with the entries, and the peak memory above file, replies and granted pages. It stops
where the programs write different bytes. All files lie in a scratch folder that is removed, in memory where that can be. `--quick`
takes fewer turns.
"""

import os
import random
import subprocess
import sys
import tempfile
import time

from measure import Spread, compiled, peak, programs, scratch

PLAIN = r"""
#include <pthread.h>
#include <stdio.h>
#include <stdlib.h>
#include <string.h>
#include <unistd.h>

typedef struct { unsigned client, z, x, y; } Request;
typedef struct Entry { unsigned z, x, y; unsigned char *tile; struct Entry *newer, *older, *next; } Entry;

static unsigned char *bytes, *replies;
static unsigned long width, height, maxval, side, entries, clients, count, head_length, tile_length;
static const unsigned char *samples;
static Request *requests;
static char head[64];

static void fail(const char *why) { fprintf(stderr, "plain: %s\n", why); exit(3); }

static unsigned char *read_all(int from, size_t *length)
{
    size_t room = 1 << 16, have = 0;
    unsigned char *all = malloc(room);
    for (;;) {
        if (have == room) all = realloc(all, room *= 2);
        if (!all) fail("no memory");
        ssize_t got = read(from, all + have, room - have);
        if (got < 0) fail("not read");
        if (got == 0) break;
        have += got;
    }
    *length = have;
    return all;
}

static void make(unsigned z, unsigned x, unsigned y, unsigned char *out)
{
    unsigned long scale = 1ul << z, half = (1ul << (2 * z)) / 2;
    for (unsigned long v = 0; v < side; v++) {
        unsigned long top = (y * side + v) * scale;
        if (z == 0) {
            unsigned long left = x * side, have = 0;
            if (top < height && left < width) {
                have = width - left < side ? width - left : side;
                for (unsigned long u = 0; u < have; u++) {
                    unsigned char sample = samples[top * width + left + u];
                    out[v * side + u] = sample < maxval ? sample : maxval;
                }
            }
            memset(out + v * side + have, 0, side - have);
            continue;
        }
        for (unsigned long u = 0; u < side; u++) {
            unsigned long left = (x * side + u) * scale, sum = 0;
            for (unsigned long row = top; row < top + scale && row < height; row++) {
                for (unsigned long column = left; column < left + scale && column < width; column++) {
                    unsigned char sample = samples[row * width + column];
                    sum += sample < maxval ? sample : maxval;
                }
            }
            out[v * side + u] = (sum + half) >> (2 * z);
        }
    }
}

/* one client: a cache of entries in a hash table of lists, and a list by use */
static void *work(void *given)
{
    unsigned client = (unsigned)(unsigned long)given;
    unsigned long slots = 1, used = 0;
    while (slots < 2 * entries) slots *= 2;
    Entry **table = calloc(slots, sizeof *table), ends = {0};
    Entry *all = calloc(entries, sizeof *all);
    if (!table || !all) fail("no memory");
    ends.newer = ends.older = &ends;
    for (unsigned long at = 0; at < count; at++) {
        Request *r = requests + at;
        if (r->client != client) continue;
        unsigned long slot = (((r->x * 65537ul + r->y) * 8 + r->z) * 0x9e3779b97f4a7c15ul >> 20) & (slots - 1);
        Entry *e = table[slot];
        while (e && (e->z != r->z || e->x != r->x || e->y != r->y)) e = e->next;
        if (e) {
            e->newer->older = e->older;
            e->older->newer = e->newer;
        } else {
            if (used < entries) {
                e = all + used++;
                e->tile = malloc(side * side);
                if (!e->tile) fail("no memory");
            } else {
                e = ends.newer;
                e->newer->older = e->older;
                e->older->newer = e->newer;
                unsigned long old = (((e->x * 65537ul + e->y) * 8 + e->z) * 0x9e3779b97f4a7c15ul >> 20) & (slots - 1);
                Entry **link = table + old;
                while (*link != e) link = &(*link)->next;
                *link = e->next;
            }
            e->z = r->z, e->x = r->x, e->y = r->y;
            e->next = table[slot];
            table[slot] = e;
            make(r->z, r->x, r->y, e->tile);
        }
        e->older = ends.older;
        e->newer = &ends;
        ends.older->newer = e;
        ends.older = e;
        memcpy(replies + at * tile_length, head, head_length);
        memcpy(replies + at * tile_length + head_length, e->tile, side * side);
    }
    return 0;
}

int main(int argc, char **argv)
{
    if (argc != 6) fail("usage: plain FILE CLIENTS SIDE ENTRIES");
    clients = strtoul(argv[3], 0, 10), side = strtoul(argv[4], 0, 10), entries = strtoul(argv[5], 0, 10);
    FILE *file = fopen(argv[2], "rb");
    if (!file) fail("no file");
    fseek(file, 0, SEEK_END);
    size_t length = ftell(file);
    fseek(file, 0, SEEK_SET);
    bytes = malloc(length + 1);
    if (!bytes || fread(bytes, 1, length, file) != length) fail("not read");
    fclose(file);
    bytes[length] = 0;
    int at = 0;
    if (sscanf((char *)bytes, "P5 %lu %lu %lu%n", &width, &height, &maxval, &at) != 3) fail("no P5");
    samples = bytes + at + 1;
    if (length < (size_t)at + 1 + width * height) fail("short");
    size_t size;
    char *text = (char *)read_all(0, &size), *end = text + size;
    requests = malloc(4096 * sizeof *requests);
    for (char *p = text; p < end && count < 4096; count++) {
        Request *r = requests + count;
        r->client = strtoul(p, &p, 10), r->z = strtoul(p, &p, 10), r->x = strtoul(p, &p, 10), r->y = strtoul(p, &p, 10);
        p++;
    }
    head_length = sprintf(head, "P5\n%lu %lu\n%lu\n", side, side, maxval);
    tile_length = head_length + side * side;
    replies = malloc(count * tile_length + 1);
    if (!replies) fail("no memory");
    pthread_t threads[64];
    for (unsigned long c = 1; c <= clients; c++) {
        if (pthread_create(threads + c - 1, 0, work, (void *)c)) fail("no thread");
    }
    for (unsigned long c = 0; c < clients; c++) pthread_join(threads[c], 0);
    for (size_t done = 0; done < count * tile_length;) {
        ssize_t wrote = write(1, replies + done, count * tile_length - done);
        if (wrote <= 0) fail("not written");
        done += wrote;
    }
    return 0;
}
"""

CLIENTS = (1, 2, 4, 16)
IMAGES = ((1024, 1024), (8192, 8192))
MOST = 4096


def drawn(folder, width, height):
    """A file with an image of noise."""
    path = os.path.join(folder, f"{width}x{height}.pgm")
    with open(path, "wb") as file:
        file.write(b"P5\n%d %d\n255\n" % (width, height))
        file.write(random.Random(width).randbytes(width * height))
    return path


def different(width, side, count):
    """So many different tiles: those of zoom 0 first, then of the other zooms, then beside the image."""
    across = -(-width // side)
    every = [(z, x, y) for z in range(7) for y in range(max(1, across >> z)) for x in range(max(1, across >> z))]
    every += [(6, 9 + at, 0) for at in range(max(0, count - len(every)))]
    return every[:count]


def mixes(width, side, count):
    """Lists of tiles: all different, all the same, and a mix of which half are asked a second time."""
    yield "all different", different(width, side, count)
    yield "all the same", [(0, 0, 0)] * count
    half = different(width, side, count // 2)
    yield "half are hits", [tile for tile in half for _ in (0, 1)]


def requests(tiles, clients):
    """Each client asks for the tiles that are its own, in turn; two of the same that follow each other go to one client."""
    lines, client, last = [], 0, None
    for tile in tiles:
        if tile != last or len(set(tiles)) == 1:
            client = client % clients + 1
        last = tile
        lines.append("%d %d %d %d\n" % (client, *tile))
    return "".join(lines).encode()


class Run:
    """One kind of run, with its words for both programs."""

    def __init__(self, folder, name, image, tiles, side, clients, entries, limit, standard=64):
        self.name = name
        self.count = len(tiles)
        self.path = os.path.join(folder, f"requests-{abs(hash((name, clients, side)))}")
        with open(self.path, "wb") as file:
            file.write(requests(tiles, clients))
        self.words = ["serve", image, "--clients", str(clients), "--side", str(side), "--entries", str(entries)]
        self.words += ["--limit", str(limit), "--standard", str(standard)]
        self.plain_words = ["serve", image, str(clients), str(side), str(entries)]

    def words_of(self, program, plain):
        return [program, *(self.plain_words if program == plain else self.words)]


def timed(command, given, out):
    """Seconds by the clock of one run."""
    with open(given, "rb") as source, open(out, "wb") as sink:
        begin = time.perf_counter()
        done = subprocess.run(command, stdin=source, stdout=sink, stderr=subprocess.DEVNULL)
        took = time.perf_counter() - begin
    if done.returncode:
        sys.exit(f"{' '.join(command)}: status {done.returncode}")
    return took


def same(outs):
    first = None
    for out in outs:
        with open(out, "rb") as file:
            content = file.read()
        if first is not None and content != first:
            return False
        first = content
    return True


def compare(folder, every, run, turns):
    """The medians of each program, by turns."""
    outs = [os.path.join(folder, f"out-{at}") for at in range(len(every))]
    times = [[] for _ in every]
    for _ in range(turns):
        for program, out, found in zip(every, outs, times):
            found.append(timed(run.words_of(program, every[-1]), run.path, out))
    if not same(outs):
        sys.exit(f"{run.name}: the programs write different bytes")
    return [Spread(it) for it in times]


def main():
    quick = "--quick" in sys.argv
    if quick:
        sys.argv.remove("--quick")
    named = programs()
    turns = 3 if quick else 9
    with tempfile.TemporaryDirectory(prefix="serve-bench-", dir=scratch()) as folder:
        plain = compiled(folder, "plain", PLAIN, "-pthread")
        every = [*named, plain]
        for width, height in IMAGES:
            image = drawn(folder, width, height)
            for side in (64, 256):
                pages = max(1, side * side // 4096)
                count = MOST if side == 64 else 1024
                for mix, tiles in mixes(width, side, count):
                    needed = len(set(tiles)) * pages
                    for limit in (1048576, max(64, needed // 10)):
                        alone = None
                        for clients in CLIENTS:
                            name = f"{width} by {height}, side {side}, {mix}, {clients} clients, limit {limit}"
                            run = Run(folder, name, image, tiles, side, clients, min(4096, len(set(tiles))), limit)
                            spreads = compare(folder, every, run, turns)
                            alone = alone or spreads
                            print(f"{name}:", flush=True)
                            for program, spread, one in zip(every, spreads, alone):
                                who = "C" if program == plain else program
                                print(
                                    f"  {who}: {spread.each(1, 1e3)} ms, {spread.median / spreads[-1].median:.2f} of C,"
                                    f" {one.median / spread.median:.2f} times as fast as with 1 client"
                                )
        requests_alone(folder, named, plain, turns)
        memory(folder, named)


def requests_alone(folder, named, plain, turns):
    """What single requests cost: the difference of runs that have more of them."""
    image = drawn(folder, *IMAGES[0])
    print("single requests, from the difference of two runs:")
    for side in (64, 256):
        few, many = (1024, 4096) if side == 64 else (256, 1024)
        tile = (0, 0, 0)
        costs = {}
        for what, lists in (
            ("kept", [[tile] * few, [tile] * many]),
            ("made", [different(8192, side, few), different(8192, side, many)]),
        ):
            runs = [Run(folder, f"{what} {len(it)}", image, it, side, 1, 4096, 1048576) for it in lists]
            spreads = [compare(folder, [*named, plain], run, 3 * turns) for run in runs]
            for at, program in enumerate([*named, plain]):
                costs[what, program] = (spreads[1][at].median - spreads[0][at].median) / (many - few)
        for what in ("kept", "made"):
            for program in named:
                own, other = costs[what, program], costs[what, plain]
                more = (own - other) * 1e6
                print(f"  side {side}, a {what} tile: {own * 1e6:.2f} µs, {own / other:.2f} of C's {other * 1e6:.2f} µs, {more:+.2f} µs")
    for entries in (16, 4096):
        tiles = different(8192, 64, 16) * 256
        run = Run(folder, f"{entries} entries", image, tiles, 64, 1, entries, 1048576)
        spreads = compare(folder, [*named, plain], run, 3 * turns)
        print(f"  4,096 requests for 16 tiles with {entries} entries: {spreads[0].each(1, 1e3)} ms")


def memory(folder, named):
    image = drawn(folder, *IMAGES[1])
    tiles = different(8192, 256, 1024)
    run = Run(folder, "memory", image, tiles, 256, 4, 256, 4096)
    for program in named:
        base = peak(folder, [program, "serve", drawn(folder, 8, 8), "--side", "64"], os.devnull)
        more = peak(folder, [program, *run.words], run.path) - base
        parts = (8192 * 8192 + 1024 * (15 + 65536)) // 1024, 4096 * 4
        print(f"{program}: peak {more} KiB above an empty run; file and replies are {parts[0]} KiB, granted pages at most {parts[1]} KiB")


if __name__ == "__main__":
    main()
