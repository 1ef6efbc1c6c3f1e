"""Tries planted bugs outside of the gate: python3 plants/try.py [CRATE ..], or all crates that have some.

Each plant is put into a copy of its crate, and the prover must refuse it. The copy is of the tracked files as they stand,
and begins with what checks on this machine kept, so `rt check` in the crate's folder comes first.
"""

import os
import re
import shutil
import subprocess
import sys
import tempfile

TOP = os.path.dirname(os.path.dirname(os.path.abspath(__file__)))
PLANTS = os.path.join(TOP, "plants")

# What rt says of an edit, and what is printed for it.
SAID = {"refused": "refused", "NOT REFUSED": "NOT REFUSED", "BAD EDIT": "BAD EDIT", "NOT TRIED": "NOT TRIED"}


def plants_of(crate):
    folder = os.path.join(PLANTS, crate)
    return sorted(it for it in os.listdir(folder) if it.endswith(".edit")) if os.path.isdir(folder) else []


def copy_tracked(to):
    """Copies the repository's tracked files as they stand to a folder."""
    listed = subprocess.run(["git", "ls-files", "-z"], cwd=TOP, check=True, capture_output=True, text=True)
    for name in listed.stdout.split("\0"):
        if name and os.path.isfile(os.path.join(TOP, name)):
            os.makedirs(os.path.join(to, os.path.dirname(name)), exist_ok=True)
            shutil.copy2(os.path.join(TOP, name), os.path.join(to, name))


def try_crate(crate, top):
    """Tries the plants of a crate in the copy. The answer is what came of each, by its name."""
    folder = os.path.join(top, "crates", crate, "must-fail")
    shutil.rmtree(folder, ignore_errors=True)
    os.makedirs(folder)
    for plant in plants_of(crate):
        shutil.copy2(os.path.join(PLANTS, crate, plant), folder)
    ran = subprocess.run(["rt", "must-fail", crate], cwd=top, text=True, stdout=subprocess.PIPE, stderr=subprocess.STDOUT)
    found = {}
    for name, said, why in re.findall(rf"must-fail {crate}/(\S+\.edit): ({'|'.join(SAID)})(.*)", ran.stdout):
        found[name] = SAID[said], why.strip(" ,:")
    lost = [it for it in plants_of(crate) if it not in found]
    if lost:
        print(ran.stdout, file=sys.stderr)
    return {**found, **{it: ("NOT TRIED", "rt must-fail did not name it") for it in lost}}


def main(named):
    crates = named or sorted(it for it in os.listdir(PLANTS) if plants_of(it))
    for crate in crates:
        if not os.path.isdir(os.path.join(TOP, "crates", crate)):
            sys.exit(f"{crate} is no crate here")
    passed = failed = 0
    with tempfile.TemporaryDirectory(prefix="plants-") as top:
        copy_tracked(top)
        for crate in crates:
            for plant, (said, why) in sorted(try_crate(crate, top).items()):
                print(f"{crate}/{plant}: {said}" + (f" ({why[:160]})" if why and said != "refused" else ""), flush=True)
                passed += said == "refused"
                failed += said != "refused"
    print(f"{passed} passed, {failed} failed")
    return 1 if failed else 0


if __name__ == "__main__":
    sys.exit(main(sys.argv[1:]))
