"""Each growth of memory of the library refused in turn: that one alone, and it and all after it."""
import collections

from hostile.store import check, courses, library, logged
from lib.room import DEVICE, NO_MEMORY
from lib.wanted import want


def run(room, every, names):
    """One growth of so many is tried. Gives how many runs there were, and what came of them."""
    loaded, log, kinds = library("growth", room), room.path("growths"), collections.Counter()
    for one in courses(room, names):
        for goes_on in (False, True):
            number = 1
            while disturbed(room, one, loaded, log, number, goes_on, kinds):
                number += every
    want(kinds["90"] > 0, "no growth was answered with 90")
    return sum(kinds.values()), kinds


def disturbed(room, one, loaded, log, number, goes_on, kinds):
    """Whether the growth of this number was reached. An order that finds no memory is a fault of the device."""
    room.put(one.before)
    environment = {"LD_PRELOAD": loaded, "GROWTH_AT": str(number), "GROWTH_LOG": log}
    if goes_on:
        environment["GROWTH_ON"] = "1"
    got = room.run(one.session.words, one.session.text, environment)
    where = f"{one.session.name}, growth {number}{' and on' if goes_on else ''}:"
    words = logged(log)
    want(words is not None, where, "the player did not come to its end:", got)
    if words[1] == "0":
        want(got == one.ample, where, "none was refused, and yet", got)
        return False
    want(got == one.ample or got.status == 3 and got.err in (NO_MEMORY, DEVICE), where, got)
    kinds["as ever" if got == one.ample else "90" if got.err == NO_MEMORY else "60"] += 1
    check(room, one, got)
    return True
