"""What worlds hold: the first symbols and no other ones; as many packages and symbols as there can be, and none more;
what a form wrote that is refused in the end is undone; and the numbers that have a name."""
import ctypes

from calls import opened, snapshot_in, world
from lib.wanted import want
from hostile.store import OPERATORS

OPERATOR_NAMES = b"""QUOTE PROGN IF LIST GET SETF REMPROP SYMBOL-PLIST INCF PUSH MAKE-PACKAGE IN-PACKAGE EXPORT IMPORT USE-PACKAGE INTERN
COPY-READTABLE IN-READTABLE SET-SYNTAX-FROM-CHAR SET-MACRO-CHARACTER GET-MACRO-CHARACTER MAKE-DISPATCH-MACRO-CHARACTER
SET-DISPATCH-MACRO-CHARACTER GET-DISPATCH-MACRO-CHARACTER READTABLE-CASE""".split()
OTHER_NAMES = b"T NIL FUNCTION *PACKAGE* *READTABLE* *READ-BASE*".split()
KEYWORDS = b"""STANDARD USER UPCASE DOWNCASE PRESERVE INVERT STD-LIST STD-CLOSE STD-QUOTE STD-COMMENT STD-STRING STD-OUT STD-CHAR STD-FUNCTION
STD-VECTOR STD-UNINTERNED STD-BLOCK STD-BINARY STD-OCTAL STD-HEX STD-RADIX STD-DISPATCH""".split()

PACKAGES, SYMBOLS = 1_000, 1_000_000

# Reading, evaluation, the store, and memory.
NUMBERS = {*range(1, 27), *range(30, 48), *range(60, 69), 90}


def check_first(made):
    """The first symbols are there, so that a form with one is not logged; another one is."""
    store = opened(made)
    for name in OPERATOR_NAMES + OTHER_NAMES:
        want(store.form(b"'CL:" + name) == (0, name), name, "is not external in COMMON-LISP")
        want(store.form(b"'" + name) == (0, name) and not store.orders, name, "is logged")
    for name in KEYWORDS:
        want(store.form(b":" + name) == (0, b":" + name) and not store.orders, name, "is logged")
    want(store.form(b":OTHER") == (0, b":OTHER") and store.orders, "a new keyword is not logged")
    store.close()


def name_of(number):
    """A name of five letters, another for each number below 16^5."""
    return bytes(ord("A") + (number >> shift & 15) for shift in (16, 12, 8, 4, 0))


def listed(numbers):
    """A form with the symbols of these numbers."""
    return b"'(" + b" ".join(map(name_of, numbers)) + b")"


# What is asked of a world that has as many packages and symbols as there can be. An import makes no symbol.
AT_LIMITS = [
    (b'(MAKE-PACKAGE "ONE-MORE")', 46), (b'(MAKE-PACKAGE "CL-USER")', 35), (b'(MAKE-PACKAGE "")', 33),
    (b'(INTERN "ONE-MORE")', 46), (b"'ONE-MORE", 46), (b":ONE-MORE", 46), (b'(INTERN "ONE-MORE" "CL")', 36),
    (b'(INTERN "ONE-MORE" "NO")', 34),
    (b'(INTERN "LIST")', 0), (b'(INTERN "%s")' % name_of(SYMBOLS - 1), 0),
    (b"(IMPORT '%s \"KEYWORD\")" % name_of(SYMBOLS - 1), 36),
    (b"(IMPORT '%s \"%s\")" % (name_of(SYMBOLS - 1), name_of(3)), 0),
]


def check_limits(made):
    """Packages and symbols up to the limits: those of a refused form count for nothing, and all are there after an
    opening."""
    store, first = opened(made), len(OPERATOR_NAMES + OTHER_NAMES + KEYWORDS)
    for number in range(3, PACKAGES):
        want(store.form(b'(MAKE-PACKAGE "%s")' % name_of(number))[0] == 0, "no package", number)
    for start in range(first, SYMBOLS, 150_000):
        form = listed(range(start, min(start + 150_000, SYMBOLS)))
        want(store.form(b"(PROGN %s (T))" % form)[0] == 31 and not store.orders, "a form that is refused is logged")
        want(store.form(form) == (0, form[1:]), "no symbols from", start)
    for text, number in AT_LIMITS:
        found = store.form(text)[0]
        want(found == number, text, "at the limits gives", found)
    again = opened(made, store.files())
    want(again.form(b"'ONE-MORE")[0] == 46 and again.form(b"'" + name_of(SYMBOLS - 1)) == (0, name_of(SYMBOLS - 1)),
         "other symbols after an opening")
    again.close()
    store.close()


# Forms that write, each of a kind of its own.
BEFORE = b"""(SETF (GET 'A 'B) 1)
(SETF (GET 'A 'B) 2)
(SETF (GET 'A 'N) 3)
(REMPROP 'A 'B)
(COPY-READTABLE :USER :UPCASE)
(SETF (READTABLE-CASE :UPCASE) :INVERT)
(SET-SYNTAX-FROM-CHAR #\\$ #\\")
(SET-MACRO-CHARACTER #\\! :STD-LIST)
(MAKE-DISPATCH-MACRO-CHARACTER #\\!)
(SET-DISPATCH-MACRO-CHARACTER #\\! #\\s :STD-CHAR)
"""
# Under INVERT, as OPERATORS leave it.
AFTER = b"""(in-readtable :upcase)
(in-package "KEYWORD")
"""
FORMS = (BEFORE + OPERATORS + AFTER).splitlines()
# What is refused alone too.
REFUSED = {b"!a line": 1, b"NEWONE": 30, b"(FROB newsym)": 31}


def text_now(store):
    """The text of the world that a store has in memory: that of a snapshot."""
    want(store.snapshot() == 0, "no snapshot")
    return snapshot_in(store.files()[1 - store.figures()[0] % 2])


def undone(made, files, form):
    """Whether a form that is refused after it wrote what this one writes, alone and in a group, leaves the world of the
    files."""
    alone, together = opened(made, files), opened(made, files)
    text, number = b"(cl:progn %s (cl:t))" % form, REFUSED.get(form, 31)
    found = [alone.form(text)[0], together.together([b"1", text])[1][0]]
    before = world(made, files)
    same = [not it.orders and text_now(it) == before for it in (alone, together)]
    alone.close()
    together.close()
    return found == [number, number] and all(same)


def check_undone(made):
    """Each form that writes, refused in the end over the world that those before it left."""
    store = opened(made)
    for form in FORMS:
        want(undone(made, store.files(), form), form, "is not undone")
        want(store.form(form)[0] == REFUSED.get(form, 0), form, "is not executed")
    store.close()
    return len(FORMS)


def check_names(made):
    """Those numbers that are of a refusal have a name, each one of its own."""
    room, names = ctypes.create_string_buffer(64), {}
    made.pzt_name.restype = ctypes.c_size_t
    for number in range(100):
        length = made.pzt_name(ctypes.c_uint16(number), room, ctypes.c_size_t(64))
        if length:
            names[number] = room.raw[:length]
    want(set(names) == NUMBERS and len(set(names.values())) == len(NUMBERS), "the numbers with a name are",
         sorted(names))
    want((names[1], names[30], names[90]) == (b"END-OF-FILE", b"NOT-A-FORM", b"NO-MEMORY"), "other names")


def run(made):
    check_first(made)
    check_limits(made)
    check_names(made)
    return len(AT_LIMITS) + len(NUMBERS) + check_undone(made)
