"""Each growth of memory refused in turn, in each call of worked rows: what is refused with 90 gave no orders and
changed nothing, and the same call made again gives what is wanted."""
import collections

from calls import AMPLE, opened, Store, world
from lib.wanted import want

NO_MEMORY, DEVICE, REOPEN = 90, 60, 61

# Files of a limit; forms in a mode, each with its number and its answer.
ROWS = {
    "property": (AMPLE, [(False, b"(SETF (GET 'A 'B) 7)", 0, b"7"), (False, b"(GET 'A 'B)", 0, b"7")]),
    "tokens": (AMPLE, [(False, b"'(\\1 |1| 1 1. -0 +4/6 1+)", 0, b"(|1| |1| 1 1 0 2/3 |1+|)")]),
    "brackets": (AMPLE, [
        (False, b"(SET-MACRO-CHARACTER #\\[ :SQUARE)", 0, b"T"), (False, b"(SET-MACRO-CHARACTER #\\] :CLOSE)", 0, b"T"),
        (False, b"(SETF (GET 'A 'V) [1 2])", 0, b"#(1 2)"), (False, b"(GET 'A 'V)", 0, b"#(1 2)"),
        (False, b"]", 20, b""),
        (False, b"(PROGN (SETF (GET 'A 'V) [1 [2]]) 8)", 0, b"8")]),
    "rescue": (AMPLE, [
        (False, b"(SET-SYNTAX-FROM-CHAR #\\( #\\;)", 0, b"T"), (True, b"(COPY-READTABLE NIL :USER)", 0, b":USER"),
        (False, b"(GET 'A 'B)", 0, b"NIL")]),
    "full": (202, [(False, b"(SETF (GET 'A 'B) 7)", 0, b"7"), (False, b"(SETF (GET 'A 'B) 8)", 64, b"")]),
    "sharp sign": (AMPLE, [
        (False, b"(LIST #xFF #36rZ #b-1/10 #\\space)", 0, b"(255 35 -1/2 #\\Space)"),
        (False, b"'(#:a #'f #|x #|y|# z|# \"\")", 0, b"(#:A (FUNCTION F) \"\")")]),
    "dispatch": (AMPLE, [
        (False, b"(MAKE-DISPATCH-MACRO-CHARACTER #\\@)", 0, b"T"),
        (False, b"(SET-DISPATCH-MACRO-CHARACTER #\\@ #\\s :SCALE)", 0, b"T"),
        (False, b"@3S14", 0, b"42"), (False, b"@S14", 20, b"")]),
}


class Calls:
    """The calls of a row, each with a growth refused at each place of it."""

    def __init__(self, made, limit, forms):
        self.made, self.limit, self.kinds = made, limit, collections.Counter()
        files = self.each_opening((b"", b""))
        for rescue, text, number, answer in forms:
            self.each_opening(files)
            wanted = (number, b"" if number else answer)
            files = self.each(files, lambda store, rescue=rescue, text=text: plain(store.form(text, rescue)), wanted)
            self.each(files,
                      lambda store, rescue=rescue, text=text: plain_all(store.together([text]) if not rescue else 0),
                      None)
        self.each(files, lambda store: (store.snapshot(), b""), (0, b""))

    def each_opening(self, files):
        """An opening that finds no memory is 90, and the same files are opened then."""
        for number in range(1, 1_000_000):
            self.made.refuse_growth(number, 0)
            store = Store(self.made, files, self.limit)
            was_refused = self.made.refused_growths()
            self.made.refuse_growth(0, 0)
            if not was_refused:
                return store.close()
            want(store.number in (0, NO_MEMORY, DEVICE), "an opening is refused with", store.number)
            self.kinds[store.number or "as ever"] += 1
            store.close()
            self.opens(files)

    def opens(self, files):
        store = opened(self.made, files, self.limit)
        store.close()

    def each(self, files, call, wanted):
        """A call over these files. Gives the files that it leaves undisturbed."""
        store = opened(self.made, files, self.limit)
        ample = call(store)
        want(wanted in (None, ample), "undisturbed:", ample)
        figures, after = store.figures(), store.close()
        before = world(self.made, files)
        for number in range(1, 1_000_000):
            if not self.disturbed(files, call, ample, number, before, figures, after):
                return after

    def disturbed(self, files, call, ample, number, before, figures, after):
        """Whether the growth of this number was reached."""
        store = opened(self.made, files, self.limit)
        was, own = store.figures(), store.files()
        self.made.refuse_growth(number, 0)
        found = call(store)
        was_refused = self.made.refused_growths()
        self.made.refuse_growth(0, 0)
        if not was_refused:
            store.close()
            return False
        self.kinds[found[0] if found != ample else "as ever"] += 1
        if found[0] == DEVICE:
            self.has_failed(store)
        elif found[0] == NO_MEMORY and store.orders:
            # the answer could not be printed: the form is there
            want((store.figures(), store.files()) == (figures, after),
                 "a call without memory for its answer left something else")
            self.kinds["90, and done"] += 1
        elif found[0] == NO_MEMORY:
            want(not store.orders and store.files() == own and store.figures() == was,
                 "a call without memory did something")
            want(self.world_now(files, call, number) == before, "a call without memory changed the world")
            want(call(store) == ample, "the call made again:", ample)
            want((store.figures(), store.files()) == (figures, after), "the call made again left something else")
        else:
            want(found == ample, found, "in place of", ample)
        store.close()
        return True

    def world_now(self, files, call, number):
        """The text of the world of a store in which a call found no memory."""
        store = opened(self.made, files, self.limit)
        self.made.refuse_growth(number, 0)
        call(store)
        self.made.refuse_growth(0, 0)
        if store.snapshot():
            return None
        generation = store.figures()[0]
        held = next(held for held in store.close() if int.from_bytes(held[3:11], "big") == generation)
        return held[15 : 15 + int.from_bytes(held[11:15], "big")]

    def has_failed(self, store):
        """After a fault of the device each call is refused, and the files are opened again."""
        left = store.files()
        found = [store.form(b"1")[0], store.together([b"1"]), store.snapshot()]
        want(found == [REOPEN, [(REOPEN, b"")], REOPEN] and not store.orders and store.files() == left,
             "after a fault of the device:", found)
        self.opens(left)


def plain(found):
    number, answer = found
    return number, b"" if number else answer


def plain_all(found):
    """The same of one form that was executed as one of many."""
    return (found, b"") if isinstance(found, int) else plain(found[0])


def run(made):
    kinds = collections.Counter()
    for limit, forms in ROWS.values():
        kinds.update(Calls(made, limit, forms).kinds)
    want(kinds[NO_MEMORY] > 100, "few growths were refused with 90:", dict(kinds))
    return sum(kinds.values()), kinds
