"""Hostile texts under a limit of memory and of processor time: the program ends by itself, with an answer, a refusal of
the reader or want of memory, and what it answered is in a store that opens."""
import subprocess

from lib import measured
from lib.room import NO_MEMORY, PLACE, without_cause
from lib.wanted import want

MEMORY = 2 << 30
SECONDS = 60


def forms(text, numbers):
    return b"".join(text % ((number,) * text.count(b"%d")) for number in numbers)


def names(count):
    return b" ".join(b"g%x" % number for number in range(count))


SQUARE = b"(SET-MACRO-CHARACTER #\\[ :SQUARE)\n"

TEXTS = {
    "101 parentheses": b"(" * 101,
    "101 quotes": b"'" * 101 + b"A",
    "a token of 4,097 letters": b"'" + b"A" * 4097,
    "a comment of 1,100,000 bytes": b";" + b"A" * 1_100_000,
    "a text at the limit of a form": b'"' + b"A" * 1_048_574 + b'"\n',
    "a text one byte past it": b'"' + b"A" * 1_048_575 + b'"\n',
    "a block comment at the limit": b"'#|" + b"A" * 1_048_570 + b"|#A \n",
    "a vector of too many": b"'#9999999(",
    "a vector of 999,999": b"'#999999(A)\n",
    "a vector of 1,000,000": b"'#1000000(A)\n",
    "vectors in vectors": b"'#1000(#999(A))\n'#1000(#1000(A))\n'#999999(#999999(#999999(A)))\n",
    "100 in one another, each of 100": b"'" + b"#100(" * 98 + b"A" + b")" * 98 + b"\n",
    "98 in one another, each of two": b"'" + b"#2(" * 98 + b"A" + b")" * 98 + b"\n",
    "4 large vectors": b"'(" + b"#999999(A)" * 4 + b")\n",
    "100,000 large vectors": b"'(" + b"#999999(A)" * 100_000 + b")\n",
    "20,000 large vectors of a text": b"'(" + b'#999999("' + b"a" * 40 + b'")' * 20_000 + b")\n",
    "large vectors of a long text": b"'(" + b'#999999("' + b"a" * 20_000 + b'")' + b")\n",
    "100,000 symbols": b"'(" + names(100_000) + b")\n",
    "250 names of 4,096 letters": b"'(" + b" ".join(b"Q%03d" % number + b"Q" * 4092 for number in range(250)) + b")\n",
    "500,000 quotes": b"'(" + b"'A" * 500_000 + b")\n",
    "500,000 empty lists": b"'(" + b"()" * 500_000 + b")\n",
    "dots": b"'" + b"." * 60_000 + b"\n",
    "digits": b"'" + b"9" * 4096 + b"\n",
    "a ratio of 4,000 digits": b"'1/" + b"9" * 4000 + b"\n",
    "bars": b"'" + b"||" * 500_000 + b"A\n",
    "escapes": b"'" + b"\\A" * 4096 + b"\n",
    "block comments in one another": b"#|" * 250_000 + b"|#" * 250_000 + b"'A\n",
    "a numeric argument of zeros": b"#" + b"0" * 1_000_000 + b"(\n",
    "a large value": b"(SETF (GET 'A 'B) '#999999(A))\n(GET 'A 'B)\n",
    "40 large values": forms(b"(SETF (GET 'A 'B%d) '#999999(A))\n", range(40)),
    "a list of 4,000 large values": forms(b"(SETF (GET 'A 'B%d) '#999999(A))\n",
                                          range(4)) + b"(LIST " + b"(GET 'A 'B0)" * 4000 + b")\n",
    "3,000 large lists": b"(PROGN " + b"(LIST '#999998(A))" * 3000 + b")\n",
    "a list that doubles": b"(SETF (GET 'A 'B) '(1))\n" + b"(SETF (GET 'A 'B) (LIST (GET 'A 'B) (GET 'A 'B)))\n" * 25,
    "case inverted": b"(SETF (READTABLE-CASE *READTABLE*) :INVERT)\n'" + b"aB" * 2048 + b"\n",
    "a macro function of a large vector": SQUARE + b"'[" + b"#999999(A)" * 2 + b"]\n'[#999998(A)]\n",
    "a macro function of 500,000": SQUARE + b"'[" + b"1 " * 500_000 + b"]\n",
    "a macro function of a long text": b"(SET-MACRO-CHARACTER #\\{ :UNIT)\n'{" + b"a" * 1_000_000 + b"}\n",
    "a macro function of a long line": b"(SET-MACRO-CHARACTER #\\! :NOTE)\n!" + b"a" * 1_048_574 + b"\n1\n!" + b"a" * 1_048_576 + b"\n1\n",
    "an argument of 999,999": b"(MAKE-DISPATCH-MACRO-CHARACTER #\\@)\n(SET-DISPATCH-MACRO-CHARACTER #\\@ #\\s :SCALE)\n@999999S%d\n" % (2**127 - 1),
    "bytes of zero": b"\0" * 10_000,
    "bytes over 127": bytes(range(128, 256)),
    "10 MB of blanks": b" " * 10_000_000 + b"1\n",
    "9 MB of comments": b";a\n" * 3_000_000 + b"1\n",
    "1,000 packages": forms(b'(MAKE-PACKAGE "P%d")\n', range(1000)),
    "70 readtables": forms(b"(COPY-READTABLE NIL :T%d)\n", range(70)),
    "5,000 properties": forms(b"(SETF (GET 'A 'I%d) %d)\n", range(5000)) + b"(SYMBOL-PLIST 'A)\n" * 50,
    "20,000 pushes on one place": b"(PUSH 1 (GET 'A 'B))\n" * 20_000,
}


def tried(room, text):
    """What a session of this text ended with, and how much memory and processor time it took."""
    room.put(None)
    with open(room.path("input"), "wb") as file:
        file.write(text)
    with open(room.path("input"), "rb") as given, open(room.path("output"),
                                                       "wb") as answers, open(room.path("faults"), "wb") as faults:
        asked = measured.words(room.path("taken"), (MEMORY, SECONDS), [room.program, "run", room.store])
        subprocess.run(asked, stdin=given, stdout=answers, stderr=faults, check=True)
    took = measured.taken(room.path("taken"))
    with open(room.path("faults"), "rb") as file:
        return took.status, file.read(), round(took.megabytes), took.seconds


def run(room, names_of=()):
    """Gives how many texts were tried, and what came of them."""
    kinds = {"answered": 0, "refused by the reader": 0, "out of memory": 0}
    for name, text in TEXTS.items():
        if names_of and name not in names_of:
            continue
        status, faults, memory, seconds = tried(room, text)
        is_told = {0: not without_cause(faults), 1: PLACE.match(faults), 3: faults == NO_MEMORY}
        want(is_told.get(status), name, "ended with", status, faults)
        opened = room.run(["verify"])
        want(opened.status == 0, name, "left a store that does not open:", opened)
        kinds["out of memory" if status == 3 else "refused by the reader" if status == 1 else "answered"] += 1
        print(f"campaign: inputs: {name}: status {status}, {seconds:.2f} s, {memory} MB", flush=True)
    return sum(kinds.values()), kinds
