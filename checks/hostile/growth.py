"""Each growth of memory refused in turn: that one alone, and it and all after it."""
import collections

from hostile.store import are_alike, check, courses, has_messages, library, logged
from lib.room import DEVICE, NO_MEMORY
from lib.wanted import want


REFUSED = NO_MEMORY.decode().strip()
# What tells of want of memory: the disk notes each call before it makes it, and a call that it cannot note fails.
SHORTAGES = (NO_MEMORY, DEVICE)


def run(room, every, names=()):
    """One growth of so many is tried. Gives how many runs there were, and what came of them."""
    loaded = library("growth", room)
    log = room.path("growths")
    kinds = collections.Counter()
    for one in courses(room, names):
        before = kinds[REFUSED]
        for goes_on in (False, True):
            number = 1
            while disturbed(room, one, loaded, log, number, goes_on, kinds):
                number += every
        want(kinds[REFUSED] > before, one.session.name, "no growth was answered with 90")
    return sum(kinds.values()), dict(kinds)


def disturbed(room, one, loaded, log, number, goes_on, kinds):
    """Whether the growth of this number was reached."""
    room.put(one.before)
    environment = {"LD_PRELOAD": loaded, "GROWTH_AT": str(number), "GROWTH_LOG": log}
    if goes_on:
        environment["GROWTH_ON"] = "1"
    got = room.run(one.session.words, one.session.text, environment)
    where = f"{one.session.name}, growth {number}{' and on' if goes_on else ''}:"
    words = logged(log)
    want(words is not None, where, "the program did not come to its end:", got)
    if words[1] == "0":
        want(got == one.ample, where, "none was refused, and yet", got)
        return False
    left = room.files()
    want(got == one.ample or got.status == 3 and got.err in SHORTAGES, where, got)
    want(got.out in (b"", one.ample.out) or got.out.endswith(b"\n"), where, "a part of a line:", got)
    if got == one.ample:
        # messages that were answered one by one have a position each in the log
        want(are_alike(left, one.after) or has_messages(one.session), where, "other files")
        kinds["absorbed"] += 1
    else:
        kinds[got.err.decode().strip()] += 1
    check(room, one, got)
    return True
