"""The sessions of checks/sessions by the library: the same answers, and the same files as the program leaves."""
import os
import re
import shutil
import tempfile

from lib import halves, played
from lib.places import MEMORY, files_of

# What `run` takes that is no matter of the command line.
OWN = ("--rescue", "--strict", "--existing", "--snapshot-every", "--snapshot-ratio")
UNSPLIT = 77
# What the program tells of a fault of the device before its cause, and the library does not: the call and the path.
PATH = re.compile(rb"(! 60 DEVICE\n)(?:cannot [a-z ]+ )?DIR[^:\n]*: ")
# What the program says of a store that another word would open. The library has no words.
WORD = re.compile(rb"(! 66 VERSION\n)the store is kept with one sync: [^\n]*\n?")


class Unplayable(Exception):
    """A run that is a matter of the command line, or an input that cannot be split into forms."""


def is_played(step):
    """Whether the run is one that the library can play."""
    if b"no form of the input was answered" in b"".join(part for part in step.wanted if isinstance(part, bytes)):
        return False
    options = [word for word in step.words[2:] if not word.isdigit()]
    return len(step.words) > 1 and step.words[0] == "run" and step.words[1].startswith("DIR") and all(word in OWN for word in options)


def answered(step, player, folder):
    """The status of a run by the library, and what it wrote. Where a line is wanted of the place of a refusal, it has
    none to tell."""
    wanted = played.joined(step.wanted)
    environment = dict(os.environ)
    if b"! 1 END-OF-FILE" in wanted:
        environment["PLAYER_UNREAD"] = "1"
    status, out, err = step.answer(player, folder, environment)
    if status == UNSPLIT:
        raise Unplayable
    if not err and (status == 1 or played.REFUSED.search(wanted)):
        found = re.search(rb"standard error: (.*)", wanted, re.DOTALL)
        err = found[1] if found else b""
    return played.text_of(status, out, err)


def are_same(files, others):
    """Whether the library left these files as the program left its own, but for the identities of stores, and for zeros
    at their end: a session of the program cuts those that stand behind the half in use."""
    if files.keys() != others.keys():
        return False
    pairs = [(halves.without_identity(file), halves.without_identity(others[name])) for name, file in files.items()]
    return all(file.startswith(other) and not file[len(other) :].strip(b"\0") for file, other in pairs)


def difference(step, player, program, folder, other):
    """What a step gives over the library in place of what is wanted, or None. The same step is done by the program in
    another folder."""
    if isinstance(step, played.Look):
        # (after each run the library's files are compared with these)
        return step.difference(program, other)
    if not isinstance(step, played.Run):
        step.difference(program, other)
        return step.difference(program, folder)
    by_program = played.text_of(*step.answer(program, other))
    if not is_played(step):
        found = played.text_of(*step.answer(program, folder))
        return None if found == by_program.replace(other.encode(), folder.encode()) else f"{step.words}: {found!r}"
    found = answered(step, player, folder)
    wanted = WORD.sub(rb"\1", PATH.sub(rb"\1", played.joined(step.wanted)))
    if found != wanted and not (step.is_open and found.startswith(wanted)):
        return f"{step.words}: wanted {wanted[:300]!r}, found {found[:300]!r}"
    if not are_same(files_of(folder), files_of(other)):
        return f"{step.words}: other files than the program's"
    return None


def played_over(steps, player, program):
    """How many runs of a script the library played, and the first difference, or None."""
    folder, other = (tempfile.mkdtemp(prefix="pazturrok-", dir=MEMORY) for _ in range(2))
    count = 0
    try:
        for step in steps:
            found = difference(step, player, program, folder, other)
            if found:
                return count, found
            count += isinstance(step, played.Run) and is_played(step)
    finally:
        shutil.rmtree(folder)
        shutil.rmtree(other)
    return count, None


def run(player, program):
    """Plays all scripts. Gives how many runs were played, how many scripts were passed over, and the differences."""
    runs = left = 0
    differences = []
    for file, name, steps in played.scripts([]):
        try:
            count, found = played_over(steps, player, program)
        except Unplayable:
            left += 1
            continue
        runs += count
        if found:
            differences.append(f"{file}: {name}: {found}")
    return runs, left, differences
