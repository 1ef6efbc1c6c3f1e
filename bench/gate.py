"""Measures what the gate takes: python3 bench/gate.py [--in FOLDER] [COMMAND ..], where the command is `rt ci` unless told.

Looks twice a second at the provers below the command and at what each had used so far. At the end it prints, for each
crate and kind of work, the processor seconds, and the sums in minutes. A gate that takes nothing from earlier runs on
the machine is `rt ci --anew`. What a prover used after the last look at it is missed, at most half a second of each.
"""

import argparse
import os
import resource
import subprocess
import sys
import time
from collections import defaultdict

TICKS = os.sysconf("SC_CLK_TCK")
PROVER = "rattle"

# The kinds of work, in the order of the table. The base is the check that a crate's edits begin with.
KINDS = ["proof", "tests", "base", "edits", "program"]


class Process:
    """A process as /proc shows it: its parent, its name, and its processor seconds with those of its ended children."""

    def __init__(self, number):
        with open(f"/proc/{number}/stat", encoding="utf-8", errors="replace") as it:
            name, _, fields = it.read().partition("(")[2].rpartition(") ")
        fields = fields.split()
        self.number, self.name, self.parent = number, name, int(fields[1])
        self.start = fields[19]
        self.spent = sum(map(int, fields[11:15])) / TICKS


def processes():
    found = {}
    for name in os.listdir("/proc"):
        if name.isdigit():
            try:
                found[int(name)] = Process(int(name))
            except OSError:
                pass
    return found


def below(top, found):
    """The numbers of the processes below one."""
    children = defaultdict(list)
    for it in found.values():
        children[it.parent].append(it.number)
    numbers, left = [], [top]
    while left:
        new = children[left.pop()]
        numbers += new
        left += new
    return numbers


def named(number):
    """The crate that a prover works on and the kind of its work, by its words and its folder."""
    with open(f"/proc/{number}/cmdline", "rb") as it:
        words = it.read().decode(errors="replace").split("\0")
    folder = os.path.basename(os.readlink(f"/proc/{number}/cwd"))
    after = lambda flag: words[words.index(flag) + 1] if flag in words else ""
    if not after("--crate-name"):
        return None
    kept = after("--incremental")
    if "--crate-checked" in words:
        kind = "program"
    elif os.path.basename(kept) == "seed":
        kind = "base"
    elif folder.startswith("rt-edit-"):
        kind = "edits"
    else:
        kind = "tests" if "--test" in words else "proof"
    return after("--crate-name"), kind


class Gate:
    """What each prover had used when it was last seen, by its number and start."""

    def __init__(self):
        self.spent = {}
        self.work = {}

    def look(self, top):
        found = processes()
        provers = {it for it in below(top, found) if found[it].name == PROVER}
        for number in provers:
            it = found[number]
            if it.parent in provers:
                continue
            key = number, it.start
            try:
                self.work[key] = self.work.get(key) or named(number)
            except OSError:
                continue
            # (a copy that the prover forked counts in its own name until it has ended)
            whole = it.spent + sum(found[copy].spent for copy in below(number, found))
            self.spent[key] = max(self.spent.get(key, 0), whole)

    def table(self):
        sums = defaultdict(lambda: defaultdict(float))
        for key, spent in self.spent.items():
            if self.work[key]:
                crate, kind = self.work[key]
                sums[crate][kind] += spent
        return sums


def shown(gate, clock, used, status):
    sums = gate.table()
    print(f"{'crate':<16}" + "".join(f"{it:>9}" for it in KINDS) + f"{'all':>9}  (processor seconds)")
    for crate in sorted(sums, key=lambda it: -sum(sums[it].values())):
        row = sums[crate]
        print(f"{crate:<16}" + "".join(f"{row[it]:>9.1f}" for it in KINDS) + f"{sum(row.values()):>9.1f}")
    of = {kind: sum(row[kind] for row in sums.values()) / 60 for kind in KINDS}
    whole = sum(of.values())
    print(f"{'minutes':<16}" + "".join(f"{of[it]:>9.1f}" for it in KINDS) + f"{whole:>9.1f}")
    print(f"provers {whole:.1f} processor minutes, all else {max(0, used / 60 - whole):.1f}, {clock / 60:.1f} minutes by the clock, status {status}")


def main():
    words = argparse.ArgumentParser(description=__doc__, formatter_class=argparse.RawDescriptionHelpFormatter)
    words.add_argument("--in", dest="folder", default=os.getcwd(), help="the clone to run the command in")
    words.add_argument("command", nargs=argparse.REMAINDER, help="the command, rt ci where none is named")
    told = words.parse_args()
    gate, began = Gate(), time.monotonic()
    run = subprocess.Popen(told.command or ["rt", "ci"], cwd=told.folder, stdin=subprocess.DEVNULL)
    while run.poll() is None:
        gate.look(run.pid)
        time.sleep(0.5)
    used = resource.getrusage(resource.RUSAGE_CHILDREN)
    shown(gate, time.monotonic() - began, used.ru_utime + used.ru_stime, run.returncode)
    return run.returncode


if __name__ == "__main__":
    sys.exit(main())
