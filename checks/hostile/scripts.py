"""The sessions of checks/sessions, where a growth of memory is refused at some places of each run."""
import collections
import os
import re
import shutil

from hostile.store import library, logged
from lib import played
from lib.room import DEVICE, NO_MEMORY, OUTPUT, Answer, without_cause
from lib.wanted import want

REFUSED = NO_MEMORY.decode().strip()


def run(room, most):
    """At most so many growths of each run. Gives how many runs there were, and what came of them."""
    loaded, kinds = library("growth", room), collections.Counter()
    for file, name, steps in played.scripts([]):
        folder = room.path("played")
        os.mkdir(folder)
        for step in steps:
            if isinstance(step, played.Run):
                kinds.update(outcomes(room, folder, name, step, loaded, most, sum(kinds.values())))
            found = step.difference(room.program, folder)
            want(not found, file, name, found)
        shutil.rmtree(folder)
    want(kinds[REFUSED] > 0, "no growth was answered with 90")
    return sum(kinds.values()), dict(kinds)


def without_count(words, err):
    """Standard error without the count of the answers that a quiet session ends with."""
    return re.sub(rb"answers \d+ refusals \d+\n\Z", b"", err) if "--quiet" in words else err


def shortages(words):
    """What tells of want of memory: a call of the disk that cannot be noted fails. A quiet session gathers the lines of
    refusals, and where they find none its output has failed."""
    return (NO_MEMORY, DEVICE, OUTPUT) if "--quiet" in words else (NO_MEMORY, DEVICE)


def is_without_tip(got, ample):
    """Whether wrong words are refused as with ample memory, but without the tip, which takes memory."""
    first = got.err.split(b"\n")[0]
    return got.status == ample.status == 2 and got.out == ample.out and first.startswith(b"error: ") and ample.err.startswith(first)


def outcomes(room, folder, name, step, loaded, most, before_it):
    """What came of a run where one growth of it is refused, after so many of other runs: the first one of it goes by
    these, so that runs which begin alike are not all refused the same growths. The folder is left as it was."""
    before, log = room.path("before"), room.path("growths")
    shutil.copytree(folder, before)

    def tried(number):
        # how often it asks for memory goes by the pieces of its input too
        environment = {"LD_PRELOAD": loaded, "GROWTH_AT": str(number), "GROWTH_LOG": log}
        status, out, err = step.answer(room.program, folder, environment, by_file=True)
        shutil.rmtree(folder)
        shutil.copytree(before, folder)
        return Answer(status, out, without_cause(err)), logged(log)

    ample, words = tried(0)
    want(words is not None, name, "did not come to its end")
    total = int(words[0])
    every = max(1, -(-total // most))
    for number in range(1 + before_it % every, total + 1, every):
        got, words = tried(number)
        want(words is not None and words[1] == "1", name, step.words, "growth", number,
             "was not refused, or the program did not end")
        told = without_count(step.words, got.err)
        is_short = got.status == 3 and told in shortages(step.words) and ample.out.startswith(got.out)
        is_same = got == ample or is_without_tip(got, ample)
        want(is_same or is_short, name, step.words, "growth", number, got, "in place of", ample)
        yield "absorbed" if is_same else told.decode().strip()
    shutil.rmtree(before)
