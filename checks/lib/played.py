"""Sessions of the program as files of checks/sessions have them, played over a program. README.md there says how they
are written."""

# pylint: disable=too-few-public-methods

from __future__ import annotations

import contextlib
import fcntl
import glob
import os
import re
import shutil
import subprocess
import tempfile
from collections.abc import Iterable, Iterator
from typing import IO, Any, Union

from lib.places import MEMORY, PATIENCE, SESSIONS


# What a program is started with that nobody asks to tell why forms are refused.
BARE = {name: value for name, value in os.environ.items() if name != "PAZTURROK_REASONS"}

# A line of standard error on a form that was refused in a session which goes on.
REFUSED = re.compile(rb"^(?:standard error: )?(?:line \d+, column \d+|after \d+ bytes): \d+: .* \(help \d+\)\n", re.M)


def bytes_of(text: str) -> bytes:
    """The bytes of a text, in which %XX is one byte."""
    return re.sub(rb"%([0-9A-Fa-f]{2})", lambda found: bytes([int(found[1], 16)]), text.encode())


def repeated(text: str) -> bytes:
    """`N TEXT`: the text so many times."""
    number, text = text.split(" ", 1)
    return bytes_of(text) * int(number)


def joined(parts: Iterable[Part]) -> bytes:
    """The bytes of parts, each of which is bytes or a run."""
    return b"".join(part.output if isinstance(part, Run) else part for part in parts)


def text_of(status: int, out: bytes, err: bytes) -> bytes:
    """What a run gave: the status on a line, the output, with a backslash after it if it does not end with a newline,
    and after `standard error: ` what it told of faults."""
    end = b"\\\n" if out and not out.endswith(b"\n") else b""
    return b"%d\n%s%s%s" % (status, out, end, b"standard error: " + err if err else b"")


def without_reasons(text: bytes) -> bytes:
    """The same as `text_of` has it, without the lines on forms that were refused."""
    front, mark, faults = text.partition(b"\nstandard error: ")
    rest = REFUSED.sub(b"", faults)
    return front + (mark + rest if rest else mark[:1])


class Run:
    """A run of the program: its words, its input, and what is wanted of it: the status, the output, and what it tells
    of faults."""

    def __init__(self, words: list[str], lacks: str) -> None:
        self.words, self.lacks = words, lacks
        # Each part of the input, and of what is wanted, is bytes, or the run whose output it is.
        self.input: list[Part] = []
        self.wanted: list[Part] = []
        self.is_open = False
        self.output = b""

    def is_playable(self) -> bool:
        """Whether what it lacks is known, and a status is wanted of it."""
        first = self.wanted[0] if self.wanted else b""
        return self.lacks in ("", "<", ">", "#") and isinstance(first, bytes) and bool(re.fullmatch(rb"\d+\n", first))

    def answer(
        self, program: str, folder: str, environment: dict[str, str] | None = None, by_file: bool = False
    ) -> tuple[int, bytes, bytes]:
        """The status of the run, and what it wrote to standard output and standard error, of which the lines on forms that were
        refused are left out if it is wanted without them."""
        status, output, faults = self.whole_answer(program, folder, environment, by_file)
        tells = REFUSED.search(joined(self.wanted))
        return status, output, faults if tells else REFUSED.sub(b"", faults)

    def whole_answer(
        self, program: str, folder: str, environment: dict[str, str] | None = None, by_file: bool = False
    ) -> tuple[int, bytes, bytes]:
        """The same with all that it wrote to standard error. Its input comes by a pipe, in pieces as it happens, or by a file,
        in the same ones each time."""
        words = [program] + [re.sub(r"^DIR(?=/|$)", folder, word) if word != "''" else "" for word in self.words]
        with contextlib.ExitStack() as held:
            if self.lacks == "#":
                lock_halves(folder, held)
            sink: Any = held.enter_context(open("/dev/full", "wb")) if self.lacks == ">" else subprocess.PIPE
            ran = subprocess.run(
                words, stdout=sink, stderr=subprocess.PIPE, timeout=PATIENCE, cwd=folder, env=environment, check=False,
                **self.streams(folder, by_file, held)
            )
        self.output = ran.stdout or b""
        return ran.returncode, self.output, ran.stderr.replace(os.fsencode(folder), b"DIR")

    def streams(self, folder: str, by_file: bool, held: contextlib.ExitStack) -> dict[str, Any]:
        """By what its input comes."""
        if self.lacks == "<":
            place = os.open(folder, os.O_RDONLY)
            held.callback(os.close, place)
            return {"stdin": place}
        if not by_file:
            return {"input": joined(self.input)}
        # pylint: disable-next=consider-using-with # (it is entered)
        file: IO[bytes] = held.enter_context(tempfile.TemporaryFile())
        file.write(joined(self.input))
        file.seek(0)
        return {"stdin": file}

    def difference(self, program: str, folder: str, is_bare: bool = False) -> str | None:
        """What a run gives in place of what is wanted, or None. A bare one tells nothing of forms that are refused, unless
        it is quiet else."""
        try:
            if is_bare and "--quiet" not in self.words:
                given = self.whole_answer(program, folder, BARE)
                found, wanted = text_of(*given), without_reasons(joined(self.wanted))
            else:
                given = self.answer(program, folder, BARE if is_bare else None)
                found, wanted = text_of(*given), joined(self.wanted)
        except subprocess.TimeoutExpired as late:
            return f"{' '.join(self.words)}: no end after {late.timeout} seconds"
        if found == wanted or self.is_open and found.startswith(wanted):
            return None
        return f"{' '.join(self.words)}\n--- wanted\n{shown(wanted)}--- found\n{shown(found)}"


def lock_halves(folder: str, held: contextlib.ExitStack) -> None:
    """Locks both files of a store, as another process does that has it."""
    for name in ("half-a", "half-b"):
        # pylint: disable-next=consider-using-with # (it is entered)
        file = held.enter_context(open(os.path.join(folder, name), "rb"))
        fcntl.flock(file, fcntl.LOCK_EX)
        # a child that another thread starts has the file for a moment, and would keep the lock
        held.callback(fcntl.flock, file, fcntl.LOCK_UN)


class Look:
    """`FILE LENGTH [PLACE BYTES]`: a file of the folder has this length, and these bytes from a place on. `FILE -`:
    there is none."""

    def __init__(self, text: str) -> None:
        name, length, *rest = text.split(" ", 3)
        self.name, self.length = name, None if length == "-" else int(length)
        self.place, self.bytes = (int(rest[0]), bytes_of(rest[1])) if rest else (0, b"")

    def difference(self, _program: str, folder: str) -> str | None:
        """What is there in place of what is wanted, or None."""
        path = os.path.join(folder, self.name)
        if self.length is None or not os.path.exists(path):
            is_right = os.path.exists(path) is (self.length is not None)
            return None if is_right else f"{self.name}: there is one, or none"
        with open(path, "rb") as file:
            found = file.read()
        if len(found) != self.length:
            return f"{self.name} has {len(found)} bytes, and not {self.length}"
        there = found[self.place : self.place + len(self.bytes)]
        return None if there == self.bytes else f"{self.name} has {there!r} at {self.place}, and not {self.bytes!r}"


class Change:
    """`FILE PLACE BYTES`: these bytes are written into a file; or `FILE LENGTH`: it is cut there, or made longer."""

    def __init__(self, text: str) -> None:
        self.name, place, *rest = text.split(" ", 2)
        self.place, self.bytes = int(place), bytes_of(rest[0]) if rest else None

    def difference(self, _program: str, folder: str) -> None:
        """Makes the change."""
        path = os.path.join(folder, self.name)
        with open(path, "r+b" if os.path.exists(path) else "w+b") as file:
            if self.bytes is None:
                file.truncate(self.place)
            else:
                file.seek(self.place)
                file.write(self.bytes)


class Cuts:
    """`FILE FROM-TO`: the file is cut to each of these lengths in turn, the next run is played at each, and leaves the
    length."""

    def __init__(self, text: str) -> None:
        self.name, _, lengths = text.partition(" ")
        self.first, self.last = (int(length) for length in lengths.split("-"))

    def each(self, run: Step) -> Iterator[Step]:
        """The steps at each length."""
        for length in range(self.first, self.last - 1, -1):
            yield from (Change(f"{self.name} {length}"), run, Look(f"{self.name} {length}"))


Part = Union[bytes, Run]
Step = Union[Run, Look, Change]


def shown(text: bytes) -> str:
    """A text with its lines cut, for a message."""
    lines = text.decode(errors="replace").splitlines(True)
    return "".join(line if len(line) < 200 else f"{line[:100]}[..]{line[-80:]}" for line in lines[:40])


def steps_of(lines: Iterable[str]) -> list[Step]:
    """The steps of a script."""
    steps: list[Step | Cuts] = []
    for line in lines:
        mark, text = line[:2], line[2:]
        if line.startswith("$"):
            mark, _, words = line[1:].partition(" ")
            steps.append(Run(words.split(), mark))
        elif mark == "@ ":
            steps.append(Look(text))
        elif re.match(r"! \S+ \d+-\d+$", line):
            steps.append(Cuts(text))
        elif mark == "! " and (not steps or re.match(r"half-[ab] ", text)):
            steps.append(Change(text))
        elif line:
            add(line, [step for step in steps if isinstance(step, Run)])
    return [one for at, step in enumerate(steps) for one in with_cuts(step, steps[at + 1 : at + 2])]


def with_cuts(step: Step | Cuts, after: list[Step | Cuts]) -> Iterator[Step]:
    """A step; or those that cuts make of the run after them."""
    if not isinstance(step, Cuts):
        yield step
    elif after and not isinstance(after[0], Cuts):
        yield from step.each(after[0])


def add(line: str, runs: list[Run]) -> None:
    """Adds a line to the input of the last run, or to what is wanted of it."""
    run, kind, text = runs[-1], line[:3], line[3:]
    if kind == "<- ":
        run.input.append(bytes_of(text))
    elif kind == "<* ":
        run.input.append(repeated(text))
    elif kind == "<= ":
        run.input.append(runs[int(text) - 1])
    elif line[:2] in ("< ", "<"):
        run.input.append(bytes_of(line[2:]) + b"\n")
    elif kind == ">* ":
        run.wanted.append(repeated(text))
    elif kind == ">= ":
        run.wanted.append(runs[int(text) - 1])
    elif kind == ">^ ":
        run.wanted.append(bytes_of(text))
        run.is_open = True
    else:
        run.wanted.append(bytes_of(line[2:] if line[:2] == "> " else line) + b"\n")


def scripts_of(path: str) -> Iterator[tuple[str, list[Step]]]:
    """The scripts of a file, each with its name. It is an error if there are none, if lines come before the first one,
    or if one shows nothing: it has no run, or one that lacks something else than README.md says, or of which no status
    is wanted."""
    with open(path, encoding="ascii", newline="\n") as file:
        front, *parts = re.split(r"^== (.*)\n", file.read(), flags=re.M)
    if not parts or any(line and not line.startswith("# ") for line in front.split("\n")):
        raise ValueError(f"{path}: no script, or lines before the first one")
    for name, text in zip(parts[::2], parts[1::2]):
        steps = steps_of(line for line in text.split("\n") if not line.startswith("# "))
        runs = [step for step in steps if isinstance(step, Run)]
        if not runs or not all(run.is_playable() for run in runs):
            raise ValueError(f"{path}: {name}: a script that shows nothing")
        yield name, steps


def scripts(files: list[str]) -> Iterator[tuple[str, str, list[Step]]]:
    """The scripts of these files, or of all where none is named: of each the file, its name and its steps."""
    for path in files or sorted(glob.glob(os.path.join(SESSIONS, "*.txt"))):
        for name, steps in scripts_of(path):
            yield os.path.basename(path), name, steps


def deviation(program: str, steps: list[Step], is_bare: bool = False) -> str | None:
    """What the first step of a script gives that gives something else, or None. A bare program is asked for no reasons."""
    folder = tempfile.mkdtemp(prefix="pazturrok-", dir=MEMORY)
    try:
        for step in steps:
            found = step.difference(program, folder, is_bare) if isinstance(step, Run) else step.difference(program, folder)
            if found:
                return found
    finally:
        shutil.rmtree(folder)
    return None
