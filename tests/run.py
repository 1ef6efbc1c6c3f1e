#!/usr/bin/env python3
"""Runs the built program on the cases of tests/cases, and prints each that fails. One case more is that what the documents name
stands where they say (tests/clauses.py).

    python3 tests/run.py [TEXT]          all cases, or those whose name contains TEXT
    python3 tests/run.py --often [TEXT]  the same; a case of threads is run hundreds of times

The program is crates/discard/out/discard, as `rt ci` or `rt run` leaves it. Where it is not there, or older than the
sources, `rt run` proves and builds it first. The variable DISCARD names another program. The last line is
'N passed, M failed', and the status is 1 where a case failed.
"""

import concurrent.futures
import glob
import multiprocessing
import os
import shutil
import subprocess
import sys
import tempfile

TOP = os.path.dirname(os.path.dirname(os.path.abspath(__file__)))
sys.path.insert(0, os.path.join(TOP, "tests"))

import case_files  # noqa: E402
import clauses  # noqa: E402
import model  # noqa: E402

NOBODY = 65534

# Starts a program with a limit: a word that is `memory` or `file`, a number of bytes, the program and its words.
LIMITED = """
import os, resource, signal, sys
kind, count = sys.argv[1], int(sys.argv[2])
signal.signal(signal.SIGXFSZ, signal.SIG_IGN)
resource.setrlimit(resource.RLIMIT_AS if kind == "memory" else resource.RLIMIT_FSIZE, (count, count))
os.execv(sys.argv[3], sys.argv[3:])
"""


class Skipped(Exception):
    """Why a case was not run."""


def program():
    named = os.environ.get("DISCARD")
    if named:
        return os.path.abspath(named)
    crate = os.path.join(TOP, "crates", "discard")
    built = os.path.join(crate, "out", "discard")
    sources = glob.glob(os.path.join(TOP, "crates", "*", "src", "**", "*.rt"), recursive=True)
    if os.path.exists(built) and os.path.getmtime(built) >= max(map(os.path.getmtime, sources)):
        return built
    print("the program is not built, or older than its sources: rt run proves and builds it", flush=True)
    try:
        status = subprocess.run(["rt", "run", "--", "replay"], cwd=crate, stdin=subprocess.DEVNULL, stdout=subprocess.DEVNULL).returncode
    except FileNotFoundError:
        sys.exit("rt is not on the path: install the kit, or name a program by the variable DISCARD")
    if status or not os.path.exists(built):
        sys.exit("rt run built no program")
    return built


def run(case, program, room):
    """What the runs of a case came to: None, or what was wanted and what came in the first that failed."""
    return next(filter(None, (run_once(case, program, room) for _ in range(case.runs[OFTEN]))), None)


def run_once(case, program, room):
    with tempfile.TemporaryDirectory(dir=room) as folder:
        status, output, report = ends(case, program, folder)
    wrong = []
    for what, wanted, came in (("status", case.status, status), ("output", case.output, output), ("report", case.report, report)):
        if wanted is not None and wanted != came:
            wrong.append(f"  {what}: wanted {shown(wanted)}\n  {' ' * len(what)}     came {shown(came)}")
    wrong += faults_within(case, output or b"", report or b"")
    if case.is_plain() and (case.status, case.output, case.report) != model.outcome(case.words, case.input, case.files):
        wrong.append("  the model of the rules gives something else than this case wants")
    return "\n".join(wrong) or None


def faults_within(case, output, report):
    """What is wrong with the parts of the output and of the report that a case names."""
    for place, held in case.within_output:
        if output[place : place + len(held)] != held:
            yield f"  output at {place}: wanted {shown(held)}, came {shown(output[place : place + len(held)])}"
    if not report.endswith(case.report_end):
        yield f"  report: wanted at its end {shown(case.report_end)}, came {shown(report)}"


def ends(case, program, folder):
    """Status, output and report of one run; the output is None where it was not kept."""
    command, more, opened = [program, *case.words], {}, []
    try:
        more["user"] = lay_files(case, folder)
        if more["user"] is None:
            del more["user"]
        else:
            more.update(group=more["user"], extra_groups=[])
            os.chmod(folder, 0o755)
        given, stdin = case.input, None
        if case.input_from == "folder":
            stdin, given = os.open(folder, os.O_RDONLY), None
            opened.append(stdin)
        elif case.input_from == "closed":
            command, stdin, given = closing("<&-", command), subprocess.DEVNULL, None
        elif case.input_from:
            raise case_files.Bad(f"input-from {case.input_from}")
        stdout = sink(case.output_to, folder, "output", opened)
        stderr = sink(case.report_to, folder, "report", opened)
        if case.output_to == "closed":
            command = closing(">&-", command)
        if case.report_to == "closed":
            command = closing("2>&-", command)
        if case.limit:
            command = [sys.executable, "-c", LIMITED, *case.limit.split(), *command]
        done = subprocess.run(
            command, cwd=folder, env={}, stdout=stdout, stderr=stderr, timeout=case.seconds, **more,
            **({"input": given} if given is not None else {"stdin": stdin}),
        )  # fmt: skip
    except subprocess.TimeoutExpired:
        return f"none after {case.seconds} seconds", None, None
    except PermissionError:
        if "user" in more:
            raise Skipped("no other user can be had here") from None
        raise
    finally:
        for it in opened:
            os.close(it)
    output = done.stdout
    if case.output_to == "file":
        with open(os.path.join(folder, "output"), "rb") as file:
            output = file.read()
    return done.returncode, output, done.stderr


def closing(which, command):
    """The command with one of its three streams closed."""
    return ["/bin/sh", "-c", f'exec "$@" {which}', "sh", *command]


def sink(kind, folder, name, opened):
    """Where a stream goes."""
    if kind in (None, "closed"):
        return subprocess.PIPE
    if kind == "closed-pipe":
        there, here = os.pipe()
        os.close(there)
    elif kind == "full":
        if not os.path.exists("/dev/full"):
            raise Skipped("there is no /dev/full")
        here = os.open("/dev/full", os.O_WRONLY)
    elif kind == "file":
        here = os.open(os.path.join(folder, name), os.O_WRONLY | os.O_CREAT)
    else:
        raise case_files.Bad(f"no such sink: {kind}")
    opened.append(here)
    return here


def lay_files(case, folder):
    """Lays a case's files into the folder, and returns the user that has to run it, where that is another."""
    user = None
    for name, content in case.files.items():
        with open(os.path.join(folder.encode(), name), "wb") as file:
            file.write(content)
    for kind, name, *size in case.odd_files:
        path = os.path.join(folder, name)
        if kind == "folder":
            os.mkdir(path)
        elif kind == "sparse":
            with open(path, "wb") as file:
                file.truncate(int(size[0]))
        else:
            with open(path, "wb") as file:
                file.write(b"P5 1 1 255\n\x07")
            os.chmod(path, 0)
            if os.geteuid() == 0:
                user = NOBODY
            if user and sys.version_info < (3, 9):
                raise Skipped("Python 3.9 is needed to run it as another user")
    return user


def work(given):
    """The outcomes of some cases: of each whether it passed, and what is to be said."""
    numbers, program, room = given
    return [outcome(*CASES[number], program, room) for number in numbers]


def outcome(name, made, program, room):
    try:
        case = made()
        wrong = run(case, program, room)
    except Skipped as why:
        return "skipped", f"skipped: {name}: {why}"
    except case_files.Bad as error:
        return "failed", f"FAILED: {name}\n  the case cannot be read: {error}"
    except OSError as error:
        wrong = f"  {error}"
    return ("failed", f"FAILED: {name}\n  words: {shown(case.words)}\n  input: {shown(case.input)}\n{wrong}") if wrong else ("passed", "")


def shown(value):
    text = repr(value)
    return text if len(text) <= 300 else f"{text[:200]} .. {text[-80:]}, {len(value)} long"


# The name of each case, and what makes it.
CASES = []
OFTEN = "--often" in sys.argv[1:]


def main():
    pattern = next((word for word in sys.argv[1:] if word != "--often"), "")
    try:
        CASES.extend(it for it in case_files.cases_in(os.path.join(TOP, "tests", "cases")) if pattern in it[0])
    except case_files.Bad as error:
        sys.exit(str(error))
    counts = dict(passed=0, failed=0, skipped=0)
    if pattern in "the documents":
        wrong = clauses.faults()
        print("".join(f"{it}\n" for it in wrong), end="", flush=True)
        counts["failed" if wrong else "passed"] += 1
    with tempfile.TemporaryDirectory(prefix="discard-tests-") as room:
        os.chmod(room, 0o755)
        # A copy, where every user can reach it.
        copy = shutil.copyfile(program(), os.path.join(room, "discard"))
        os.chmod(copy, 0o755)
        parts = [(range(at, min(at + 20, len(CASES))), copy, room) for at in range(0, len(CASES), 20)]
        with concurrent.futures.ProcessPoolExecutor(mp_context=multiprocessing.get_context("fork")) as pool:
            for outcomes in pool.map(work, parts):
                for end, text in outcomes:
                    counts[end] += 1
                    if text:
                        print(text, flush=True)
    if counts["skipped"]:
        print(f"{counts['skipped']} skipped")
    print(f"{counts['passed']} passed, {counts['failed']} failed")
    sys.exit(1 if counts["failed"] else 0)


if __name__ == "__main__":
    main()
