"""A folder for one store, and runs of the program over it."""

from __future__ import annotations

import os
import re
import shutil
import subprocess
import tempfile
from collections.abc import Callable, Sequence
from typing import NamedTuple

from lib.places import MEMORY, PATIENCE, bytes_of
from lib.played import REFUSED
from lib.wanted import Deviation

NO_MEMORY = b"! 90 NO-MEMORY\n"
DEVICE = b"! 60 DEVICE\n"
INPUT = b"! 67 INPUT\n"
OUTPUT = b"! 68 OUTPUT\n"

HALVES = ("half-a", "half-b")

Files = Sequence["bytes | None"]
"""The bytes of both halves; None of one that is missing."""


class Answer(NamedTuple):
    """What a run gave."""

    status: int
    out: bytes
    err: bytes


# The line on the place of a refusal that ended a session, and the count after it that a quiet one ends with.
PLACE = re.compile(
    rb"(?:line \d+, column \d+|after \d+ bytes)(: refused with .* in form \d+), which began .*\n"
    rb"(answers \d+ refusals \d+\n|)"
)


# The line of a fault of the output, with the line with its cause.
OF_OUTPUT = re.compile(rb"\A" + OUTPUT + rb"standard output: .*\n")


# What to do about a half that is kept with one sync.
OF_SYNCS = re.compile(rb"^the store is kept with one sync: .*\n", re.M)


def without_cause(faults: bytes) -> bytes:
    """What was told of a fault without the line with its cause, and of a refusal without its lines, which want of
    memory may hide; nor the lines on forms that were refused in a session which goes on."""
    faults = OF_SYNCS.sub(b"", REFUSED.sub(b"", faults))
    faults = OF_OUTPUT.sub(OUTPUT, faults)
    if faults.startswith(DEVICE) and faults.count(b"\n") == 2:
        return DEVICE
    place = PLACE.fullmatch(faults)
    return place[1] + place[2] if place else faults


class Room:
    """A folder for one store and for logs."""

    def __init__(self, program: str, place: str | None = None) -> None:
        self.program = program
        self.folder = tempfile.mkdtemp(prefix="campaign-", dir=place or MEMORY)
        # (a folder in memory may hold no code)
        self.code = tempfile.mkdtemp(prefix="campaign-")
        self.store = os.path.join(self.folder, "store")
        # what the last run told on standard error
        self.told = b""

    def path(self, name: str) -> str:
        """A file of this name beside the store."""
        return os.path.join(self.folder, name)

    def clear(self) -> None:
        """Removes all of it."""
        shutil.rmtree(self.folder)
        shutil.rmtree(self.code)

    def program_for(self, become: Callable[[], object]) -> str:
        """The program, or a copy, where who `become` makes of a process may start it: folders above it may be their
        owner's alone."""
        for folder in (self.folder, self.code):
            os.chmod(folder, 0o755)
        for program in (self.program, os.path.join(self.folder, "program"), os.path.join(self.code, "program")):
            if not os.path.exists(program):
                shutil.copy(self.program, program)
            try:
                # pylint: disable-next=subprocess-popen-preexec-fn # no thread is started beside it
                subprocess.run([program, "--version"], preexec_fn=become, capture_output=True, check=True)
            except OSError:
                continue
            return program
        raise Deviation("another user may start no copy of the program")

    def sweep(self) -> None:
        """Removes the folders that tests left, which were stopped."""
        for entry in os.scandir(self.folder):
            if entry.is_dir(follow_symlinks=False) and entry.path != self.store:
                shutil.rmtree(entry.path)

    def files(self) -> list[bytes | None]:
        """The files of the store."""
        paths = [os.path.join(self.store, name) for name in HALVES]
        return [bytes_of(path) if os.path.exists(path) else None for path in paths]

    def put(self, files: Files | None) -> None:
        """Makes the store anew, of these files; `None`: no folder."""
        shutil.rmtree(self.store, ignore_errors=True)
        if files is None:
            return
        os.mkdir(self.store)
        for name, held in zip(HALVES, files):
            if held is not None:
                with open(os.path.join(self.store, name), "wb") as file:
                    file.write(held)

    def run(self, words: Sequence[str], text: bytes = b"", environment: dict[str, str] | None = None) -> Answer:
        """Runs the program over the store with these words."""
        command, *options = words
        called = [self.program, command, self.store, *options]
        done = subprocess.run(
            called, input=text, capture_output=True, timeout=PATIENCE, env=environment, check=False
        )
        self.told = done.stderr
        return Answer(done.returncode, done.stdout, without_cause(done.stderr))
