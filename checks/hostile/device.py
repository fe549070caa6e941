"""Each call to the system failing, short, torn, interrupted, or the last one of the process."""
import collections
import os
import re

from hostile.store import are_alike, check, courses, has_messages, library, logged
from lib.room import DEVICE, INPUT, OUTPUT
from lib.wanted import want

# an error once, want of room, an interrupt, an error from then on, half of the bytes, half of them and an error; an
# error of a read of standard input, which comes in pieces; the end of the process before the call, after it, and in it
MODES = ("e5", "e28", "e4", "E5", "s", "t", "p5", "x", "y", "h")

# a fault of the device: of a write of a half, a sync, a cut, a read, a lock; then of standard input and of standard
# output
TOLD = {"w": DEVICE, "s": DEVICE, "c": DEVICE, "r": DEVICE, "f": DEVICE, "R": INPUT, "W": OUTPUT}

# calls that open a file, make the folder or ask how long a file is: a fault of the device too, or nothing is seen of it
ASKED = "oml"

# what is told of each of these, and the path behind it
CALLS = {"w": b"write", "s": b"sync", "c": b"cut", "r": b"read", "f": b"lock", "o": b"open|make", "m": b"make", "l": b"look at|tell the length of"}
CAUSE = rb"cannot (%s) %s(/half-[ab]|/\.\.)?: [A-Z][^(]*\(os error %d\)\n"

# calls that are made again after an interrupt
AGAIN = "wrs"


def run(room, every, names=()):
    """One call of so many is tried. Gives how many runs there were, and what came of them."""
    loaded = library("device", room)
    kinds = collections.Counter()
    for one in courses(room, names):
        hits = set()
        for mode in MODES:
            number = 1
            while disturbed(room, one, loaded, number, mode, kinds, hits):
                number += every
        want(every > 1 or hits >= needed(one.session), one.session.name, "reached only calls", *sorted(hits))
        for number in (1, 2):
            interrupted(room, one, loaded, number, kinds)
    return sum(kinds.values()), dict(kinds)


def needed(session):
    """The calls without which a session cannot be: opening, locking, reading and syncing the files, reading forms,
    writing answers."""
    return set("ofrsWR" if session.words[0] == "run" else "ofrsW")


def run_with(room, one, loaded, number, mode):
    """What comes of a session of which the call of this number is disturbed, and the letter of that call."""
    room.put(one.before)
    log = room.path("calls")
    environment = {"LD_PRELOAD": loaded, "DEVICE_AT": str(number), "DEVICE_MODE": mode, "DEVICE_LOG": log}
    got = room.run(one.session.words, one.session.text, environment)
    words = logged(log)
    want(words is not None, one.session.name, "call", number, mode, "the program did not come to its end:", got)
    return got, words[1]


def is_named(room, hit, mode):
    """Whether what was told of a call that failed is that call, the path of its file, and the error."""
    if hit not in CALLS or mode not in ("e5", "e28", "E5") or not room.told.startswith(DEVICE):
        return True
    cause = CAUSE % (CALLS[hit], re.escape(os.fsencode(room.store)), int(mode[1:]))
    return re.fullmatch(cause, room.told[len(DEVICE):]) is not None


def tells_refusals(one):
    """Whether standard error tells of a refusal: of one that ends a session, or of a form."""
    return one.ample.status == 1 or not has_messages(one.session) and b"\n! " in b"\n" + one.ample.out


def disturbed(room, one, loaded, number, mode, kinds, hits):
    """Whether the call of this number was reached."""
    got, hit = run_with(room, one, loaded, number, mode)
    hits.add(hit)
    where = f"{one.session.name}, call {number} ({hit}) {mode}:"
    if hit == "-":
        want(got == one.ample, where, "no call was disturbed, and yet", got)
        return False
    is_as_ever = got == one.ample
    want(is_named(room, hit, mode), where, "another call was told, or another file:", room.told)
    if hit == "W" and tells_refusals(one) and got == one.ample._replace(err=got.err):
        # the line of standard error on a refusal may be lost, as the refusal itself is on standard output
        return True
    if mode in ("x", "y", "h"):
        want(got.status == 99, where, "the process was ended, and yet", got)
    elif mode == "s" or mode == "e4" and hit in AGAIN:
        want(is_as_ever, where, "it was not tried again:", got)
    elif mode != "e4" and hit in TOLD:
        # where all writes fail, nothing can be told
        told = (TOLD[hit], b"") if mode == "E5" and hit == "W" else (TOLD[hit],)
        want(got.status == 3 and got.err in told, where, "the fault was not told:", got)
    else:
        want(is_as_ever or got.status == 3 and (hit not in ASKED or got.err == DEVICE), where, got)
    kinds["as ever" if is_as_ever else "ended" if got.status == 99 else got.err.decode().strip() or "nothing can be told"] += 1
    check(room, one, got)
    return True


def interrupted(room, one, loaded, number, kinds):
    """Every second write, read and sync is interrupted, from this one on. Nothing is seen of it."""
    got, _ = run_with(room, one, loaded, number, "i4")
    want(got == one.ample and are_alike(room.files(), one.after), one.session.name, "every second call interrupted:", got)
    kinds["as ever"] += 1
