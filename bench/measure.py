"""Runs programs and tells what they took, for the scripts beside this file."""

import os
import statistics
import subprocess
import sys

TOP = os.path.dirname(os.path.dirname(os.path.abspath(__file__)))
BUILT = os.path.join(TOP, "crates", "discard", "out", "discard")


def programs():
    """The programs that the command line names, or else the one that was built here."""
    named = [os.path.abspath(it) for it in sys.argv[1:]] or [BUILT]
    for it in named:
        if not os.path.exists(it):
            sys.exit(f"{it} is not there: build the program first (rt run, in crates/discard), or name one")
    return named


def scratch():
    """Where scratch files go: in memory where the system has such a place, so that no disk is timed, and else where it says."""
    return "/dev/shm" if os.path.isdir("/dev/shm") else None


def spent(command, given, out):
    """The processor time of one run in seconds, with one file as its input and one for its output."""
    streams = [
        (os.POSIX_SPAWN_OPEN, 0, given, os.O_RDONLY, 0),
        (os.POSIX_SPAWN_OPEN, 1, out, os.O_WRONLY | os.O_CREAT | os.O_TRUNC, 0o600),
    ]
    child = os.posix_spawn(command[0], command, {}, file_actions=streams)
    _, status, usage = os.wait4(child, 0)
    if status:
        sys.exit(f"{' '.join(command)}: status {status >> 8}")
    return usage.ru_utime + usage.ru_stime


class Spread:
    """The median of some measures, and the quartiles below and above it."""

    def __init__(self, values):
        self.low, self.median, self.high = statistics.quantiles(values, n=4)

    def is_noise(self):
        """Whether a quarter of the measures of a difference is not above 0."""
        return self.low <= 0

    def each(self, count, unit=1e9):
        """The share of one of so many, in nanoseconds where no other unit is named."""
        median, low, high = (shown(it / count * unit) for it in (self.median, self.low, self.high))
        return f"{median} ({low} to {high})"


def shown(value):
    return f"{value:,.0f}" if abs(value) >= 100 else f"{value:.3g}"


# A program that Python starts counts Python's own pages as its peak, so a small program starts the one that is measured.
PEAK = r"""
#include <stdio.h>
#include <sys/resource.h>
#include <sys/wait.h>
#include <unistd.h>
int main(int argc, char **argv) {
    struct rusage usage;
    int status;
    pid_t child = fork();
    if (child == 0) {
        execv(argv[1], argv + 1);
        _exit(127);
    }
    wait4(child, &status, 0, &usage);
    fprintf(stderr, "%ld", usage.ru_maxrss);
    return status ? 1 : 0;
}
"""


def compiled(folder, name, source, *options):
    """A program in C, built in a folder."""
    program = os.path.join(folder, name)
    if not os.path.exists(program):
        with open(program + ".c", "w") as file:
            file.write(source)
        subprocess.run(["gcc", "-O2", *options, "-o", program, program + ".c"], check=True)
    return program


def peak(folder, command, given):
    """The peak memory of one run, in KiB."""
    with open(given, "rb") as file:
        done = subprocess.run(
            [compiled(folder, "peak", PEAK), *command], stdin=file, stdout=subprocess.DEVNULL, stderr=subprocess.PIPE, check=True
        )
    # (the program's own report stands before it)
    return int(done.stderr.split()[-1])
