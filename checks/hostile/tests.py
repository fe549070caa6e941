"""Each test of a built tests binary with growths of memory refused: it passes, or ends with that error, and no
assertion fails."""
import collections
import os
import subprocess

from hostile.store import library, logged
from lib.places import PATIENCE
from lib.wanted import want

CRATES = ("program_tests", "reader_tests")

# The modules of program_tests that call laws: they compare what came of a store with what a law says of it, where there
# is ample memory.
CALLERS_OF_LAWS = set("""again alike answers batches closed crashed cuts exports fed_again first_answers forgotten
    ledgers lives migration once ordered parts reopened replicas room rounds same torn""".split())

# What the error names with which a test ends that met want of memory. A disk in memory that finds none answers with a
# fault of the device.
ERRORS = (b"AllocError", b"AllocFailed", b"Memory", b"Device")

# A test that asks for memory as often is run a few times alone.
MANY = 20_000
FEW = 2


def binaries(crates):
    """The tests binaries that the gate left in a folder of crates, of which none may be missing."""
    found = [os.path.join(os.path.abspath(crates), name, "out", name + "_tests") for name in CRATES]
    for path in found:
        want(os.path.isfile(path), path, "is missing: `rt ci` makes it")
    return found


def run(room, paths, most):
    """At most so many growths of each test, each second one with all that come after it. Gives how many runs there
    were, and what came."""
    loaded = library("growth", room)
    kinds = collections.Counter()
    for path in paths:
        for test in tests_of(path):
            for number, goes_on in places(growths(room, path, test, loaded), most):
                kinds[outcome(room, path, test, loaded, number, goes_on)] += 1
    return sum(kinds.values()), dict(kinds)


def tests_of(path):
    """The names of the tests of a binary that are to keep their word without memory."""
    listed = subprocess.run([path, "--list"], capture_output=True, text=True, check=True).stdout
    found = [line.split(": ")[0] for line in listed.splitlines() if line.endswith(": test")]
    found = [test for test in found if test.split("::")[0] not in CALLERS_OF_LAWS]
    want(found, os.path.basename(path), "has no test")
    return found


def places(total, most):
    """The growths of a test that are refused, and whether all after them are."""
    step = max(1, -(-total // (most if total < MANY else min(most, FEW))))
    return [(number, index % 2 == 1) for index, number in enumerate(range(1, total + 1, step))]


def tried(room, path, test, environment):
    """A run of one test, whose files go into the room."""
    environment = {"TMPDIR": room.folder, **environment}
    return subprocess.run([path, test], capture_output=True, timeout=PATIENCE, cwd=room.folder, env=environment)


def growths(room, path, test, loaded):
    """How often a test asks for memory."""
    log = room.path("growths")
    done = tried(room, path, test, {"LD_PRELOAD": loaded, "GROWTH_LOG": log})
    want(done.returncode == 0, os.path.basename(path), test, "undisturbed:", done.returncode, done.stderr)
    words = logged(log)
    want(words is not None, os.path.basename(path), test, "did not come to its end")
    return int(words[0])


def outcome(room, path, test, loaded, number, goes_on):
    environment = {"LD_PRELOAD": loaded, "GROWTH_AT": str(number)}
    if goes_on:
        environment["GROWTH_ON"] = "1"
    done = tried(room, path, test, environment)
    room.sweep()
    where = f"{os.path.basename(path)}, {test}, growth {number}{' and on' if goes_on else ''}:"
    want(done.returncode in (0, 101), where, done.returncode, done.stderr[-300:])
    is_error = done.stderr.startswith(b"error: ") and any(error in done.stderr for error in ERRORS)
    want(done.returncode == 0 or is_error, where, done.stderr[-300:])
    return "passed" if done.returncode == 0 else "out of memory"
