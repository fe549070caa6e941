"""Loss of power: at each call of a session, what the disk model allows to be left of both files."""
import os
import random
import shutil
import subprocess

from hostile.store import answers, are_alike, check_world, courses, library, one_sync_of
from lib.places import PATIENCE
from lib.wanted import want

NAMES = ("property", "brackets", "snapshots", "together", "more snapshots", "a closed half", "operators", "messages",
         "more messages", "snapshot", "version 1", "version 3", "batches", "after version 3", "upgrade", "one sync",
         "batches with one sync", "more with one sync", "to one sync", "messages with one sync", "upgrade to one sync")


class File:
    """A file, with what was written or cut since the last sync."""

    def __init__(self, held):
        self.synced = self.now = held
        self.pending = []

    def write(self, place, held):
        self.pending.append((place, place + len(held), held))
        self.now = self.now[:place] + held + self.now[place + len(held):]

    def cut(self, length):
        self.pending.append((length, length, None))
        self.now = self.now[:length].ljust(length, b"\0")

    def sync(self):
        self.synced, self.pending = self.now, []

    def left(self, kind, dice):
        """What a crash of this kind leaves: all, nothing, or any bytes where something was written, and any length in
        between."""
        if kind == "kept":
            return self.now
        if kind == "lost":
            return self.synced
        if kind == "scattered":
            return self.scattered(dice)
        shortest = longest = length = len(self.synced)
        touched = []
        for start, end, held in self.pending:
            if held is None:
                touched.append((start, length))
                shortest, length = min(shortest, start), start
            else:
                touched.append((start, end))
                length = max(length, end)
                longest = max(longest, length)
        count = longest if isinstance(kind, int) else dice.randint(shortest, longest)
        found = bytearray(self.synced[:count].ljust(count, b"\0"))
        for start, end in [*touched, (len(self.synced), count)]:
            end = min(end, count)
            if start < end:
                found[start:end] = self.mixed(kind, start, end, dice)
        return bytes(found)

    def scattered(self, dice):
        """What a crash leaves on a disk whose writes mix: of each write some of its bytes, and past the old end 0 in place of
        the others; of a cut what it leaves on every disk."""
        found = bytearray(self.synced)
        for start, end, held in self.pending:
            length = len(found)
            if held is None:
                found[start:] = dice.randbytes(dice.randint(0, max(0, length - start)))
                continue
            # few, half or nearly all of the bytes are written; or those of the front, or of the end
            odds, front, back = dice.choice([(0.03, 0, 0), (0.5, 0, 0), (0.97, 0, 0), (0, 1, 0), (0, 0, 1)])
            some, middle = dice.randint(0, len(held)), bytearray(found[start:end].ljust(len(held), b"\0"))
            for at, byte in enumerate(held):
                if front and at < some or back and at >= some or dice.random() < odds:
                    middle[at] = byte
            found[start:end] = middle
            del found[dice.randint(length, max(length, len(found))) :]
        return bytes(found)

    def mixed(self, kind, start, end, dice):
        """What a crash of this kind leaves of a range in which any bytes may be left."""
        if isinstance(kind, int):
            return bytes([kind]) * (end - start)
        some = dice.randbytes(end - start)
        if kind == "any":
            return some
        old = self.synced[start:end].ljust(end - start, b"\0")
        new = self.now[start:end].ljust(end - start, b"\xa5")
        return bytes(was if one & 1 else now for one, was, now in zip(some, old, new))


def traced(room, one, loaded):
    """The calls of a session."""
    trace = room.path("trace")
    room.put(one.before)
    got = room.run(one.session.words, one.session.text, {"LD_PRELOAD": loaded, "DEVICE_TRACE": trace})
    want(got == one.ample, one.session.name, "traced:", got)
    yield from calls_in(trace)


def calls_in(trace):
    """The calls of which a file tells: what was made, opened, locked, written, cut, synced and answered."""
    with open(trace, "rb") as file:
        text = file.read()
    while text:
        head, text = text.split(b"\n", 1)
        call, number, place, length = head.split()
        held = b""
        if call in b"woad":
            held, text = text[: int(length)], text[int(length):]
        yield call.decode(), int(number), int(place), held


def made_folders_last(room, loaded):
    """Wants a store in a folder of which three are made to sync the folder above each of them before the first answer."""
    trace, top = room.path("trace"), room.path("above")
    words = [room.program, "run", os.path.join(top, "between", "store")]
    subprocess.run(words, input=b"(INTERN 'A)\n", env={"LD_PRELOAD": loaded, "DEVICE_TRACE": trace}, check=True,
                   capture_output=True, timeout=PATIENCE)
    above, opened, synced = set(), {}, set()
    for call, file, _, held in calls_in(trace):
        if call == "d":
            above.add(os.path.dirname(held))
        elif call == "o":
            opened[file] = os.path.realpath(held)
        elif call == "s":
            synced.add(opened.get(file))
        elif call == "a" and file == 1:
            break
    shutil.rmtree(top)
    want(len(above) == 3 and above <= synced, "made in", *sorted(above), "and synced", *sorted(synced))


def run(room, times, names=()):
    """So many random images of both kinds at each call. Gives how many images there were, and of what sessions."""
    loaded = library("device", room)
    made_folders_last(room, loaded)
    dice = random.Random(5)
    images, told = 0, {}
    for one in courses(room, names or NAMES):
        told[one.session.name] = images_of(room, one, loaded, times, dice)
        images += told[one.session.name]
    return images, told


def images_of(room, one, loaded, times, dice):
    """How many images of a session there were."""
    halves = [File(held or b"") for held in one.before or (b"", b"")]
    files = {b"half-a": halves[0], b"half-b": halves[1], os.path.basename(room.store).encode(): File(b"")}
    opened, locked, lasting, answered = {}, set(), set(), 0
    images = crashed(room, one, halves, answered, times, dice, "the start")
    for number, (call, file, place, held) in enumerate(traced(room, one, loaded)):
        name = opened.get(file)
        if call == "o":
            opened[file] = os.path.basename(held)
        elif call == "f":
            locked.add(name)
        elif call == "a" and file == 1:
            # a standard stream has a number up to 2, and what is meant for it may not get into a file
            both = {b"half-a", b"half-b"}
            want(locked == both and min(opened) > 2, one.session.name, "answered with", opened, locked)
            want(lasting >= both, one.session.name, "answered before the folder was synced with both files in it")
            answered += answers(one, held)
            images += crashed(room, one, halves, answered, times, dice, f"answer at call {number}")
        elif name in files:
            target = files[name]
            {"w": lambda: target.write(place, held), "c": lambda: target.cut(place), "s": target.sync}[call]()
            if target not in halves:
                lasting = set(opened.values())
            images += crashed(room, one, halves, answered, times, dice, f"call {number}")
    want(are_alike([half.now for half in halves], one.after), one.session.name, "the trace is not that of the files")
    return images


def crashed(room, one, files, answered, times, dice, moment):
    kinds = ["kept", "lost"] + (["scattered"] * (2 * times) if one_sync_of(one.session) else [0xA5, 0] + ["mixed", "any"] * times)
    for kind in kinds:
        room.put([file.left(kind, dice) for file in files])
        try:
            check_world(room, one, answered, apart=False)
        except Exception as deviation:
            raise type(deviation)(f"{one.session.name}, {moment}, {kind}: {deviation}") from deviation
    return len(kinds)
