"""Runs a program and tells what it took. Linux counts for a process also the memory that it had before it became the program, and a fork has all of
its parent's. So a small process of its own starts the program: this file, run as a script.

usage: python3 -IS checks/lib/measured.py FILE BYTES SECONDS PROGRAM [WORD..]

FILE gets the status, the processor seconds and the KiB of memory; BYTES of addresses and SECONDS of a processor are the limits, each -1 for none."""

from __future__ import annotations

import os
import resource
import sys

Limits = tuple[int, int]
"""Bytes of addresses and seconds of a processor; -1 for as many as there are."""
NO_LIMITS = -1, -1


class Taken:
    """What a run took: its exit status, or less than 0 for a signal, processor seconds and megabytes."""

    def __init__(self, line: str) -> None:
        status, seconds, kibibytes = line.split()
        self.status, self.seconds, self.megabytes = int(status), float(seconds), int(kibibytes) / 1024


def words(told: str, limits: Limits, program: list[str]) -> list[str]:
    """The words of a process that runs this program and tells in the file what it took."""
    return [sys.executable, "-IS", os.path.realpath(__file__), told, *map(str, limits), *program]


def taken(told: str) -> Taken:
    """What the run took that told in this file."""
    with open(told, encoding="ascii") as file:
        return Taken(file.read())


def main() -> None:
    told, (memory, seconds), program = sys.argv[1], map(int, sys.argv[2:4]), sys.argv[4:]
    child = os.fork()
    if not child:
        resource.setrlimit(resource.RLIMIT_AS, (memory, memory))
        resource.setrlimit(resource.RLIMIT_CPU, (seconds, seconds))
        resource.setrlimit(resource.RLIMIT_CORE, (0, 0))
        os.execvp(program[0], program)
    _, status, used = os.wait4(child, 0)
    with open(told, "w", encoding="ascii") as file:
        file.write(f"{os.waitstatus_to_exitcode(status)} {used.ru_utime + used.ru_stime} {used.ru_maxrss}")


if __name__ == "__main__":
    main()
