"""What fits a half and what does not, and how many records are left: each row is worked out by hand. A half with the
first world has 154 bytes, a record of (SETF (GET 'A 'B) 7) has 26, and a snapshot after it 12 more than the first
one."""
from calls import AMPLE, SYNCS, Store, files_after, opened
from lib.wanted import want

SEVEN = b"(SETF (GET 'A 'B) 7)"
EIGHT = b"(SETF (GET 'A 'B) 8)"
NINE = b"(SETF (GET 'A 'C) 9)"
GET = b"(GET 'A 'B)"
BOTH = b"(LIST (GET 'A 'B) (GET 'A 'C))"

# Half A of version 1 with the first world, and a record in it.
FIRST = (b"\xa5\0\x01\0\0\0\0\0\0\0\x01\0\0\0\x87"
         b'(("COMMON-LISP-USER" ("COMMON-LISP") NIL NIL NIL) ("KEYWORD" NIL NIL NIL NIL))\nNIL\n'
         b'("COMMON-LISP-USER" "USER" (("USER" "UPCASE" NIL)))\n')
VERSION_1 = FIRST + b"\xa5\0\0\0\0\x14" + SEVEN + b"\0"

TAKEN, FULL, TOO_LARGE = 0, 64, 65

# The limit of the halves; the files; steps, each a form or None for a snapshot; the number that each gives; then the
# generation, the records and the version, and the lengths of both halves.
ROWS = [
    ("no room for the first world", 153, (b"", b""), [], [TOO_LARGE], None, None),
    ("room for it", 154, (b"", b""), [], [], (1, 0, 2), (154, 0)),
    ("no room for a record", 165, (b"", b""), [SEVEN, GET], [FULL, FULL], (1, 0, 2), (154, 0)),
    ("room for a shorter one", 179, (b"", b""), [SEVEN, GET], [FULL, TAKEN], (1, 1, 2), (171, 0)),
    ("room for one", 180, (b"", b""), [SEVEN, EIGHT, GET], [TAKEN, FULL, TAKEN], (1, 1, 2), (180, 0)),
    ("one that only reads is not logged", 180, (b"", b""), [SEVEN, GET, b"(REMPROP 'A 'A)", b"'C", SEVEN],
     [TAKEN, TAKEN, TAKEN, FULL, FULL],
     (1, 1, 2), (180, 0)),
    ("a snapshot makes room", 202, (b"", b""), [SEVEN, EIGHT, GET, None, EIGHT], [TAKEN, FULL, TAKEN, TAKEN, TAKEN],
     (2, 1, 2), (180, 192)),
    ("a snapshot without room", 224, (b"", b""),
     [b"(PROGN (SETF (GET 'A 'B) '#200(1)) 1)", None, b"(SETF (GET 'A 'C) 2)"],
     [TAKEN, TOO_LARGE, TAKEN], (1, 2, 2), (223, 0)),
    ("version 1 is full, and renewed", 202, (VERSION_1, b""), [EIGHT, None, EIGHT], [FULL, TAKEN, TAKEN], (2, 1, 2),
     (len(VERSION_1), 192)),
    ("a text is one form", AMPLE, (b"", b""), [b"1 2", b"", b"1 ", b" 1"], [26, 1, TAKEN, TAKEN], (1, 0, 2), (154, 0)),
]

# The last generation that there is, in half A.
LAST = FIRST[:1] + b"\0\x02" + b"\xff" * 8


def check_row(made, name, limit, files, steps, numbers, figures, lengths):
    store = Store(made, files, limit)
    if store.number:
        want([store.number] == numbers and not steps, name, "is refused with", store.number)
        return
    found = [store.snapshot() if step is None else store.form(step)[0] for step in steps]
    want(found == numbers, name, "gives", found)
    want(store.figures() == figures, name, "leaves", store.figures())
    left = store.close()
    want(lengths in (None, tuple(map(len, left))), name, "leaves", *map(len, left), "bytes")


def check_opened(made):
    """A half that is longer than the limit is opened, and stays as it is."""
    whole = files_after(made, SEVEN)
    store = opened(made, whole, 153)
    want(all(order[0] == SYNCS for order in store.orders) and store.files() == whole, "an opening wrote")
    want(store.form(GET) == (0, b"7") and not store.orders, "a half past the limit is not read, or was written")
    want(store.form(SEVEN)[0] == FULL, "a half past the limit takes a record")
    store.close()


def check_last(made):
    """No half comes after the last generation."""
    text = files_after(made)[0][15:-1]
    store = opened(made, (LAST + len(text).to_bytes(4, "big") + text + b"\0", b""))
    want(store.figures() == (2**64 - 1, 0, 2), "the last generation is not opened", store.figures())
    want((store.snapshot(), store.form(SEVEN)) == (TOO_LARGE, (0, b"7")), "a snapshot after the last generation")
    store.close()


def check_together(made):
    """Forms that have no room together are executed one by one."""
    # a form that looks is the first with 'C where the second one had no room: it writes then, and has none either
    for limit, numbers, look, records in ((202, [TAKEN, FULL], FULL, 1), (AMPLE, [TAKEN, TAKEN], TAKEN, 2)):
        store = opened(made, limit=limit)
        want([number for number, _ in store.together([EIGHT, NINE])] == numbers, "together under", limit)
        want((store.form(BOTH)[0], store.figures()) == (look, (1, records, 2)), "after two together under", limit,
             store.figures())
        store.close()


# Two that write, one that reads, one that is refused, one that is not read, and one that writes; and what they give.
FORMS = [SEVEN, b" 'C ", GET, b"(CAR 'A)", b"(", EIGHT]
OUTCOMES = [(0, b"7"), (0, b"C"), (0, b"7"), (31, b""), (1, b""), (0, b"8")]


def check_alike(made):
    """Forms that are executed together give the outcomes and the bytes of forms that are executed one by one."""
    together, alone = opened(made), opened(made)
    first, second = together.together(FORMS), [alone.form(text) for text in FORMS]
    want([(number, b"" if number else answer) for number, answer in second] == OUTCOMES, "one by one:", second)
    want(first == OUTCOMES, "together:", first)
    want(together.figures() == alone.figures() == (1, 3, 2), together.figures(), alone.figures())
    want(together.close() == alone.close(), "other bytes together")


def check_silent(made):
    """A form that only reads gives no orders."""
    store = opened(made)
    for text, answer in ((b"(LIST 1)", b"(1)"), (b"(GET 'LIST 'GET)", b"NIL")):
        want(store.form(text) == (0, answer) and not store.orders, text, "gives orders")
    want(store.form(b"'C") == (0, b"C") and store.orders, "a new symbol is not logged")
    store.close()


# Lengths of records about those of the pieces in which a half is read.
LENGTHS = [30, 4_095, 4_096, 4_097, 16_383, 16_384, 65_530, 65_535, 65_536, 65_537, 131_072, 1_048_576]


def check_lengths(made):
    """Records of each length are replayed, alone and one after the other."""
    store = opened(made)
    for length in LENGTHS:
        front, back = b"(PROGN (SETF (GET 'A 'B) \"", b"\") %d)" % length
        text = front + b"x" * (length - len(front) - len(back)) + back
        want(len(text) == length or length == 30, "a row of another length")
        want(store.form(text) == (0, b"%d" % length), "a form of", length, "bytes")
        again = opened(made, store.files())
        want(again.figures() == store.figures() and again.files() == store.files(), "replayed after", length)
        want(again.form(GET)[1] == b'"' + b"x" * (length - len(front) - len(back)) + b'"', "replayed after", length)
        again.close()
    store.close()


def run(made):
    for row in ROWS:
        check_row(made, *row)
    others = (check_opened, check_last, check_together, check_alike, check_silent, check_lengths)
    for check in others:
        check(made)
    return len(ROWS) + len(others)
