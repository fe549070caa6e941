"""The orders of calls cut short after each of them, with each kind of crash then: the files mean the world after the
forms that were answered, or after the one under way too, and go on from there."""
import copy

from calls import CRASHES, File, done, files_after, opened, world
from lib.wanted import want
from limits import BOTH, EIGHT, GET, NINE, SEVEN, VERSION_1
from embedded.orders import CUTS, SYNCS, WRITES

SEVENTEEN = b"(SETF (GET 'A 'B) 17)"
BRACKETS = [b"(SET-MACRO-CHARACTER #\\[ :SQUARE)", b"(SET-MACRO-CHARACTER #\\] :CLOSE)", b"(SETF (GET 'A 'V) [1 2])"]


class Together(tuple):
    """Forms that are executed together."""


def starts(made):
    """Files that rows begin with."""
    seven = files_after(made, SEVEN)
    return {
        "fresh": (b"", b""),
        "seven": seven,
        "older": files_after(made, SEVEN, None, b"(SETF (GET 'A 'C) 7)"),
        "version 1": (VERSION_1, b""),
        "closed": closed(made, seven),
    }


def closed(made, files):
    """What a snapshot leaves whose last write, of the gate, is not done."""
    store = opened(made, files)
    halves = copy.deepcopy(store.halves)
    want(store.snapshot() == 0, "no snapshot")
    last = max(at for at, order in enumerate(store.orders) if order[0] == WRITES)
    for order in store.orders[:last]:
        done(halves, order)
    store.close()
    return [half.now for half in halves]


ROWS = [
    ("fresh", []),
    ("seven", [EIGHT]),
    ("fresh", [EIGHT, None, SEVENTEEN]),
    ("version 1", [EIGHT, None, SEVENTEEN]),
    ("fresh", BRACKETS),
    ("seven", [Together([EIGHT, NINE])]),
    ("seven", [Together([EIGHT, NINE]), SEVENTEEN]),
    *((start, [None]) for start in ("fresh", "seven", "older", "closed", "version 1")),
]


class Course:
    """A store in the course of the calls of a row, and what its files held after each order of them."""

    def __init__(self, made, files, steps):
        self.made, self.images = made, 0
        store = opened(made, files)
        self.worlds = [world(made, store.files())]
        halves = [File(bytes(held)) for held in files]
        self.cut_short(halves, store.orders, 0, 0)
        for step in steps:
            was = len(self.worlds) - 1
            self.take(store, step)
            self.worlds.append(world(made, store.files()))
            self.cut_short(halves, store.orders, was, len(self.worlds) - 1)
        store.close()

    def take(self, store, step):
        if step is None:
            want(store.snapshot() == 0, "no snapshot")
        elif isinstance(step, Together):
            want(all(number == 0 for number, _ in store.together(step)), step, "is refused")
        else:
            want(store.form(step)[0] == 0, step, "is refused")

    def cut_short(self, halves, orders, was, will):
        """Before each order and after the last one there is each kind of crash. What was answered before is there; and
        the step under way, or not."""
        for count in range(len(orders) + 1):
            for kind in CRASHES:
                left = [half.left(kind, None) for half in halves]
                may = {self.worlds[will]} if count == len(orders) and orders[-1:] and orders[-1][0] == SYNCS else {self.worlds[was], self.worlds[will]}
                want(world(self.made, left) in may, "after", count, "of", len(orders), "orders, and a crash:", kind)
                self.goes_on(left)
                self.images += 1
            if count < len(orders):
                done(halves, orders[count])

    def goes_on(self, left):
        """One more form is accepted over what was left, and is there after a crash."""
        store = opened(self.made, left)
        want(store.form(b"(SETF (GET 'A 'B) 9)") == (0, b"9"), "no form is accepted over what was left")
        again = opened(self.made, [half.left("lost", None) for half in store.halves])
        want(again.form(GET) == (0, b"9"), "one more form is not there after a crash")
        again.close()
        store.close()


# What a half gets in an append, and in a start over a half of each kind: W writes, C cuts, S syncs; and the half, as in
# use or the other one.
APPEND = "W+ S+ W+ S+"
STARTS = {
    "seven": "W- S- W- S- W- S-", "older": "W- S- C- S- W- S- W- S-", "closed": "C- S- W- S- W- S-",
    "version 1": "W- S- W- S- W- S-",
}


def shape(orders, half):
    letters = {WRITES: "W", CUTS: "C", SYNCS: "S"}
    return " ".join(letters[kind] + ("+" if one == half else "-") for kind, one, _, _ in orders)


def check_shapes(made, files):
    """An append gives just four orders, for one form and for many; a start those of its kind."""
    for steps in ([EIGHT], [Together([EIGHT, NINE])]):
        store = opened(made, files["seven"])
        for step in steps:
            store.together(step) if isinstance(step, Together) else store.form(step)
        want(shape(store.orders, 0) == APPEND, steps, "gives", shape(store.orders, 0))
        want(len(store.orders[2][3]) == 1, "the gate is not written alone")
        store.close()
    for name, wanted in STARTS.items():
        store = opened(made, files[name])
        in_use = 1 - store.figures()[0] % 2
        want(store.snapshot() == 0, "no snapshot")
        want(shape(store.orders, in_use) == wanted, name, "gives", shape(store.orders, in_use))
        store.close()


# The orders of an append that are done, and what is there after each kind of crash: the old value, or the new one.
OLD, NEW = "old", "new"
LEFT = [(0, OLD, OLD, OLD, OLD), (1, OLD, OLD, OLD, OLD), (2, OLD, OLD, OLD, OLD), (3, NEW, OLD, NEW, OLD),
        (4, NEW, NEW, NEW, NEW)]


def check_exactly(made, files, step, values):
    """A form, or all of a group, is there from its last write on."""
    for count, *wanted in LEFT:
        for kind, which in zip(CRASHES, wanted):
            store = opened(made, files["seven"])
            halves = copy.deepcopy(store.halves)
            store.together(step) if isinstance(step, Together) else store.form(step)
            for order in store.orders[:count]:
                done(halves, order)
            store.close()
            again = opened(made, [half.left(kind, None) for half in halves])
            found = again.form(BOTH)[1]
            want(found == values[which], count, "orders of", step, "and a crash:", kind, "leave", found)
            again.close()


def check_half(made, files, start):
    """The other half is in use from the last write of a snapshot on."""
    store = opened(made, files[start])
    before, halves = store.figures(), copy.deepcopy(store.halves)
    want(store.snapshot() == 0, "no snapshot")
    after, orders = store.figures(), store.orders
    store.close()
    for count in range(len(orders) + 1):
        for kind in CRASHES:
            is_taken = count == len(orders) or count + 1 == len(orders) and kind in ("kept", 0xA5)
            again = opened(made, [half.left(kind, None) for half in halves])
            want(again.figures() == (after if is_taken else before), start, "after", count, "orders and a crash:", kind,
                 again.figures())
            again.close()
        if count < len(orders):
            done(halves, orders[count])


def run(made):
    files, images = starts(made), 0
    for start, steps in ROWS:
        images += Course(made, files[start], steps).images
    check_shapes(made, files)
    check_exactly(made, files, EIGHT, {OLD: b"(7 NIL)", NEW: b"(8 NIL)"})
    check_exactly(made, files, Together([EIGHT, NINE]), {OLD: b"(7 NIL)", NEW: b"(8 9)"})
    for start in ("seven", "closed", "older", "version 1"):
        check_half(made, files, start)
    return images
