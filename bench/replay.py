#!/usr/bin/env python3
"""Times `discard replay` on scripts of several sizes.

    python3 bench/replay.py [PROGRAM ..]

A program is by default the built one, crates/discard/out/discard; where several are named, as an older build and a newer
one, each is measured. The programs and scripts take turns, an empty script among them, many times over. Of each script the
time is its processor time less that of the empty script in the same turn, so that the start of a process is left out: printed
are the median over all turns and, in parentheses, the quartiles; the scripts of pressure, which take seconds, have three
turns. Where a quarter of these differences is not above 0, the script took less than what the machine's noise hides. Before,
the replies are compared with what the script must give. A program that does not know a script's commands or options is left
out there.
"""

import os
import subprocess
import sys
import tempfile

from measure import TOP, Spread, peak, programs, spent

sys.path.insert(0, os.path.join(TOP, "tests"))

import model  # noqa: E402
import replays  # noqa: E402

TURNS = 101
MOST_BYTES = 1 << 20
COUNTS = (64, 512, 4096)
SEGMENTS = (256, 1024)
PIECES = (250, 1000)


def mixed(count):
    """Grants, writes, reads and tries in turn, with at most 1,024 grants."""
    lines, replies, segments = [], [], 0
    for turn in range(count):
        kind = turn % 4
        if kind == 0 and segments < 1024:
            segments += 1
            lines.append("grant 1 1 1")
            replies.append(f"segment {segments}")
        elif kind < 2:
            lines.append(f"write {segments} 0 00112233")
            replies.append("ok")
        elif kind == 2:
            lines.append(f"read {segments} 0 4")
            replies.append("00112233")
        else:
            lines.append(f"try {segments} {turn + 1}")
            replies.append(f"used {turn + 1}")
    return lines, replies


def locks(count):
    """Locks and unlocks of one page in one segment of 512 pages."""
    lines, replies = ["grant 1 512 1", "unlock 1 0 1 1"], ["segment 1", "held 511"]
    while len(lines) < count:
        held = len(lines) % 2 == 0
        lines.append("lock 1 0 1" if held else "unlock 1 0 1 9")
        replies.append("held" if held else "held 511")
    return lines, replies


def long_script():
    """A script of 1 MiB: writes of 500 bytes, and a comment for the rest."""
    lines, replies = ["grant 1 1 1"], ["segment 1"]
    line = "write 1 0 " + "5a" * 500
    while sum(map(len, lines)) + len(lines) + len(line) + 10 < MOST_BYTES:
        lines.append(line)
        replies.append("ok")
    lines.append("#" * (MOST_BYTES - sum(map(len, lines)) - len(lines) - 1))
    return lines, replies


def low_limit(count):
    """Segments of one page under a limit that leaves room for half of them, so that each later grant purges one."""
    return [line for at in range(1, count + 1) for line in (f"grant 1 1 {at}", f"unlock {at} 0 1 {at}")]


def pressure(count):
    """Held segments, and then pressure up to 4,096 commands: each tries every segment and finds it held."""
    moments = range(2, 4098 - count)
    lines = ["grant 1 1 1"] * count + [f"pressure critical {at}" for at in moments]
    return lines, [f"segment {at}" for at in range(1, count + 1)] + [f"reduced {count} {at}" for at in moments]


def allocations(count):
    """Pieces of one page that fill 16 pages of each segment, with locks and unlocks, and purges by reductions; then all are freed."""
    lines = []
    for at in range(1, count + 1):
        lines += [f"alloc 1 4096 {at}", f"punlock {at} {at}"]
        if at % 16 == 0:
            lines += [f"plock {at - 9}", f"punlock {at - 9} {at}", f"reduce {count // 2} {at + 1}"]
    return lines + [f"pfree {at} {count + 1}" for at in range(1, count + 1)]


def live_pieces(count):
    """Commands up to 4,096 over so many pieces that are there, a page each: locks, writes, reads and unlocks; every fifth is freed and
    another is allocated."""
    lines = [f"alloc 1 4096 {at}" for at in range(1, count + 1)] + [f"punlock {at} {at}" for at in range(1, count + 1)]
    there, drawn, at = list(range(1, count + 1)), count, count
    while len(lines) < 4090:
        place, at = at % count, at + 1
        number = there[place]
        lines += [f"plock {number}", f"pwrite {number} 5 00ff", f"pread {number} 5 2", f"punlock {number} {at}"]
        if place % 5 == 0 and drawn < 1024:
            drawn += 1
            there[place] = drawn
            lines += [f"pfree {number} {at}", f"alloc 1 4096 {at}", f"punlock {drawn} {at}"]
    return lines


def text(lines):
    return "".join(line + "\n" for line in lines).encode()


class Script:
    def __init__(self, folder, name, lines, replies=None, limit=None, standard=None, turns=TURNS):
        self.name = name
        self.turns = turns
        self.words = ["replay"]
        if limit is not None:
            self.words += ["--limit", str(limit)]
        if standard is not None:
            self.words += ["--standard", str(standard)]
        if replies is None:
            replies = replays.text_of(model.commands_of(text(lines)), limit or model.MOST_LIMIT, standard or 64).decode().splitlines()
        self.commands = sum(not line.startswith("#") for line in lines)
        grown = sum(" new " in reply for reply in replies) * (standard or 64)
        self.granted = 4 * (grown + sum(int(line.split()[2]) for line in lines if line.startswith("grant")))
        self.bytes = text(lines)
        self.replies = text(replies)
        self.path = os.path.join(folder, name.replace(" ", "-"))
        with open(self.path, "wb") as file:
            file.write(self.bytes)


def scripts(folder):
    yield Script(folder, "empty", [], [])
    for name, make in (("mixed", mixed), ("locks", locks)):
        for count in COUNTS:
            yield Script(folder, f"{name} {count}", *make(count))
    yield Script(folder, "1 MiB", *long_script())
    for count in SEGMENTS:
        yield Script(folder, f"low limit {count}", low_limit(count), limit=count // 2)
        yield Script(folder, f"pressure {count}", *pressure(count), turns=3)
    yield Script(folder, "allocations 1024", allocations(1024), standard=16)
    for count in PIECES:
        yield Script(folder, f"allocations {count}", allocations(count), standard=16)
        yield Script(folder, f"live pieces {count}", live_pieces(count), standard=16)


def knows(program, script):
    """Whether a program runs a script; it must then give the right replies."""
    done = subprocess.run([program, *script.words], input=script.bytes, stdout=subprocess.PIPE, stderr=subprocess.PIPE)
    if done.returncode in (2, 3):
        return False
    if done.stdout != script.replies or done.stderr:
        sys.exit(f"{program}: the replies to the script {script.name} are not what it must give")
    return True


def main():
    named = programs()
    with tempfile.TemporaryDirectory(prefix="replay-bench-") as folder:
        every = list(scripts(folder))
        known = {(program, script.name) for program in named for script in every if knows(program, script)}
        times = {both: [] for both in known}
        for turn in range(TURNS):
            for script in every:
                for program in named:
                    if turn < script.turns and (program, script.name) in known:
                        times[program, script.name].append(spent([program, *script.words], script.path, os.devnull))
        for program in named:
            tell(folder, program, every, {name: found for (of, name), found in times.items() if of == program})


def tell(folder, program, every, times):
    print(f"{program}, {TURNS} turns")
    base = peak(folder, [program, "replay"], every[0].path)
    print(f"  empty: {Spread(times['empty']).each(1, 1e3)} ms, peak {base} KiB")
    above = {name: Spread([own - empty for own, empty in zip(found, times["empty"])]) for name, found in times.items()}
    for script in every[1:]:
        if script.name not in times:
            continue
        own = above[script.name]
        more = peak(folder, [program, *script.words], script.path) - base
        memory = f"peak {more} KiB above empty, {script.granted} KiB granted"
        if own.is_noise():
            print(f"  {script.name}: below the noise ({own.each(1, 1e6)} µs in all); {memory}")
        else:
            print(f"  {script.name}: {own.each(script.commands)} ns a command, {own.each(len(script.bytes))} ns a byte; {memory}")
    few, many = COUNTS[-2:]
    for name in ("mixed", "locks"):
        more = Spread([own - less for own, less in zip(times[f"{name} {many}"], times[f"{name} {few}"])])
        print(f"  {name}: each command from {few} to {many}: {more.each(many - few)} ns")
    few, many = SEGMENTS
    if f"pressure {many}" in above:
        reductions = {count: 4096 - count for count in SEGMENTS}
        growth = above[f"pressure {many}"].median / reductions[many] / (above[f"pressure {few}"].median / reductions[few])
        print(f"  pressure: a reduction that tries {many} segments costs {growth:.2f} times one that tries {few}")
        growth = above[f"low limit {many}"].median / above[f"low limit {few}"].median
        print(f"  low limit: {many} grants cost {growth:.2f} times {few}")
    few, many = PIECES
    if f"live pieces {many}" in above:
        growth = above[f"allocations {many}"].median / above[f"allocations {few}"].median
        print(f"  allocations: {many} pieces cost {growth:.2f} times {few}")
        growth = above[f"live pieces {many}"].median / above[f"live pieces {few}"].median
        print(f"  live pieces: some 4,090 commands over {many} pieces cost {growth:.2f} times those over {few}")


if __name__ == "__main__":
    main()
