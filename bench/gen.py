#!/usr/bin/env python3
"""Times `discard gen 0` beside a plain C program that does the same, and what the words of a run cost.

    python3 bench/gen.py [PROGRAM ..]

A program is by default the built one, crates/discard/out/discard. The C program draws the same image and requests, serves them by
four threads from an ordinary cache of 8 tiles each, and prints the same line. They take turns. The cost of the words is that of an
empty script with every option of `replay`, above a C program that only reads its input to the end.
"""

import os
import sys
import tempfile
import time

from measure import Spread, compiled, programs, spent

TURNS = 101

PLAIN = r"""
#include <pthread.h>
#include <stdio.h>
#include <stdlib.h>
#include <string.h>

enum { WIDTH = 640, HEIGHT = 480, SIDE = 256, REQUESTS = 512, CLIENTS = 4, ENTRIES = 8, HEAD = 15 };
typedef struct { unsigned client, z, x, y; } Request;
typedef struct { unsigned z, x, y; unsigned long used; unsigned char *tile; } Entry;

static unsigned long state;
static unsigned char image[WIDTH * HEIGHT], *replies;
static Request requests[REQUESTS];

static unsigned long draw(void)
{
    state = state * 6364136223846793005ul + 1442695040888963407ul;
    return state >> 33;
}

static void make(unsigned z, unsigned x, unsigned y, unsigned char *out)
{
    unsigned long scale = 1ul << z, half = (1ul << (2 * z)) / 2;
    for (unsigned long v = 0; v < SIDE; v++)
        for (unsigned long u = 0; u < SIDE; u++) {
            unsigned long top = (y * SIDE + v) * scale, left = (x * SIDE + u) * scale, sum = 0;
            for (unsigned long row = top; row < top + scale && row < HEIGHT; row++)
                for (unsigned long column = left; column < left + scale && column < WIDTH; column++)
                    sum += image[row * WIDTH + column];
            out[v * SIDE + u] = (sum + half) >> (2 * z);
        }
}

static void *serve(void *number)
{
    unsigned client = (unsigned)(size_t)number;
    Entry entries[ENTRIES] = {0};
    unsigned long now = 0;
    for (unsigned k = 0; k < REQUESTS; k++) {
        Request *r = &requests[k];
        if (r->client != client) continue;
        Entry *found = 0, *oldest = &entries[0];
        for (int i = 0; i < ENTRIES; i++) {
            Entry *e = &entries[i];
            if (e->tile && e->z == r->z && e->x == r->x && e->y == r->y) found = e;
            if (e->used < oldest->used) oldest = e;
        }
        if (!found) {
            found = oldest;
            if (!found->tile) found->tile = malloc(SIDE * SIDE);
            found->z = r->z, found->x = r->x, found->y = r->y;
            make(r->z, r->x, r->y, found->tile);
        }
        found->used = ++now;
        unsigned char *place = replies + (size_t)k * (HEAD + SIDE * SIDE);
        memcpy(place, "P5\n256 256\n255\n", HEAD);
        memcpy(place + HEAD, found->tile, SIDE * SIDE);
    }
    return 0;
}

int main(int count, char **words)
{
    unsigned long n = count > 2 ? strtoul(words[2], 0, 10) : 0, sum = 0, all = (unsigned long)REQUESTS * (HEAD + SIDE * SIDE);
    state = n;
    for (int at = 0; at < WIDTH * HEIGHT; at++) image[at] = draw() % 256;
    for (int k = 0; k < REQUESTS; k++) {
        unsigned long a = draw(), b = draw(), c = draw(), d = draw();
        requests[k] = (Request){1 + a % 4, b % 3, c % 3, d % 2};
    }
    replies = malloc(all);
    pthread_t threads[CLIENTS];
    for (size_t i = 0; i < CLIENTS; i++) pthread_create(&threads[i], 0, serve, (void *)(i + 1));
    for (size_t i = 0; i < CLIENTS; i++) pthread_join(threads[i], 0);
    for (unsigned long at = 0; at < all; at++) sum += replies[at];
    printf("gen %lu tiles %d bytes %lu sum %lu\n", n, REQUESTS, all, sum);
    return 0;
}
"""

EMPTY = r"""
#include <unistd.h>
int main(void) { char byte[64]; while (read(0, byte, sizeof byte) > 0); return 0; }
"""

WORDS = ["replay", "--limit=1048576", "--standard", "512", "--keep", "256"]


def clocked(command, out):
    """Seconds by the clock of one run."""
    begin = time.perf_counter()
    spent(command, os.devnull, out)
    return time.perf_counter() - begin


def line_of(path):
    with open(path, encoding="ascii") as file:
        return file.read()


def main():
    sys.stdout.reconfigure(line_buffering=True)
    named = programs()
    # the report of a run goes to the standard error, which nobody reads here
    os.dup2(os.open(os.devnull, os.O_WRONLY), 2)
    with tempfile.TemporaryDirectory(prefix="gen-bench-") as folder:
        every = [*named, compiled(folder, "plain", PLAIN, "-pthread")]
        outs = [os.path.join(folder, f"out-{at}") for at in range(len(every))]
        times = [[clocked([program, "gen", "0"], out) for program, out in zip(every, outs)] for _ in range(TURNS)]
        if len({line_of(out) for out in outs}) > 1:
            sys.exit("the programs write different lines")
        spreads = [Spread(it) for it in zip(*times)]
        for program, spread in zip(every, spreads):
            print(f"{program}: gen 0 takes {spread.each(1, 1e3)} ms, {spread.median / spreads[-1].median:.2f} of C")
        empty = compiled(folder, "empty", EMPTY)
        for program in named:
            differences = []
            for _ in range(TURNS):
                own = clocked([program, *WORDS], outs[0])
                differences.append(own - clocked([empty], outs[0]))
            print(f"{program}: an empty script with every option, above a program that does nothing: {Spread(differences).each(1, 1e6)} µs")


main()
