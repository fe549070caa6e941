"""`check --run`: each form of a file that is refused, with its place and its text, and nothing that is written."""
import glob
import os
import subprocess

from calls import called, check, is_refused

FORMS = b"""(SETF (GET 'A 'B) 7)
(FROB 1) (GET 'A) (INCF (GET 'A 'B))
(PROGN
  (FROB "a
b")) X (GET 'A 'B)
(GET 'A 1.5) (LOST)
#| a remark (FROB) |# (SETF (GET 'A 'B) (FROB)) ; (FROB)
(IF (GET 'A 'B) 1 (FROB))
(SETF (GET 'A
"""

TOLD = b"""line 2, column 1: refused with 31 UNKNOWN-OPERATOR in form 2, which began at line 2, column 1
    (FROB 1)%20
line 2, column 10: refused with 32 ARGUMENT-COUNT in form 3, which began at line 2, column 10
    (GET 'A)%20
line 3, column 1: refused with 31 UNKNOWN-OPERATOR in form 5, which began at line 3, column 1
    (PROGN
line 5, column 6: refused with 30 NOT-A-FORM in form 6, which began at line 5, column 6
    X%20
line 6, column 12: refused with 7 FLOAT-TOKEN in form 8, which began at line 6, column 1
    (GET 'A 1.5) (LOST)
line 7, column 23: refused with 31 UNKNOWN-OPERATOR in form 9, which began at line 7, column 23
    (SETF (GET 'A 'B) (FROB)) ; (FROB)
line 10, column 1: refused with 1 END-OF-FILE in form 11, which began at line 9, column 1
    (SETF (GET 'A
forms 11 refused 7
""".replace(b"%20", b" ")


# What begins the line on what a refusal is about, and the first of these lines.
ABOUT = b"    about: "
OF_FORMS = [ABOUT + b"no operator FROB", ABOUT + b"(GET 'A)", ABOUT + b"no operator FROB, in line 4",
            ABOUT + b"X; quoted it is a value: 'X", ABOUT + b"1.5", ABOUT + b"no operator FROB", ABOUT + b"(SETF (GET 'A"]


def without_about(out: bytes) -> bytes:
    """The output without what the refusals are about."""
    return b"".join(line for line in out.splitlines(keepends=True) if not line.startswith(ABOUT))


def over_a_store(script: str, room: str, file: str) -> None:
    """The forms see the store, and nothing of it changes, also while it is served."""
    store = os.path.join(room, "carried out")
    called(script, "run", store, stdin=b"(MAKE-PACKAGE \"P\") (SETF (GET 'A 'B) 1)")
    before = called(script, "dump", store, "--existing")
    with open(file, "wb") as text:
        text.write(b"(SETF (GET 'P::X 'A) (GET 'A 'B)) (INCF (GET 'A 'B) 'X)")
    status, out, err = called(script, "check", "--run", file, "--store", store)
    check("over a store", (status, without_about(out), err), (1, b"line 1, column 35: refused with 33 ARGUMENT-KIND in form 2, which began at line 1, column 35\n"
                                 b"    (INCF (GET 'A 'B) 'X)\nforms 2 refused 1\n", b""))
    check("the store", called(script, "dump", store, "--existing"), before)
    check("over nothing", called(script, "check", "--run", file)[1].splitlines()[0],
          b"line 1, column 17: refused with 11 NO-PACKAGE in form 1, which began at line 1, column 1")
    check("no store", (called(script, "check", file, "--run", f"--store={room}/none")[0], os.path.exists(f"{room}/none")), (3, False))


def before_a_reader_that_goes(script: str, *words: str) -> bytes:
    """Who reads the output goes before the first line: nothing is told of that, and nothing is left. What the status is told as."""
    rooms = "/dev/shm/pazturrok-check.*"
    before = set(glob.glob(rooms))
    # the reader has gone once the other end of a pipe that it has is closed
    shell = 'mkfifo "$0.gone"; { cat "$0.gone"; rm "$0.gone"; "$0" "$@"; echo "status $?" >&2; } | { exec <&-; : >"$0.gone"; }'
    told = subprocess.run(["sh", "-c", shell, script, *words], stderr=subprocess.PIPE, check=False).stderr
    *lines, status = [line for line in told.splitlines() if b"compiled, not proved" not in line]
    check(f"{words} before a reader that goes", (lines, set(glob.glob(rooms)) - before), ([], set()))
    return status


def check_all(script: str, room: str) -> None:
    """Checks all of it in a room."""
    file = os.path.join(room, "forms to carry out")
    with open(file, "wb") as text:
        text.write(FORMS)
    status, out, err = called(script, "check", "--run", file)
    check("each refusal", (status, without_about(out), err), (1, TOLD, b""))
    about = [line for line in out.splitlines() if line.startswith(ABOUT)]
    check("what they are about", about, OF_FORMS)
    before_a_reader_that_goes(script, "check", "--run", file)
    helps = (["help", "31"], ["help", "GET"], ["help"], ["--help"], ["help", "run"], ["run", "--help"])
    check("the statuses of help before a reader that goes", [before_a_reader_that_goes(script, *words) for words in helps], [b"status 0"] * len(helps))
    status, out, err = called(script, "check", "--run", stdin=FORMS)
    check("from standard input", (status, without_about(out), err), (1, TOLD, b""))
    check("no refusal", called(script, "check", "-", "--run", stdin=b"(MAKE-PACKAGE \"P\")\n(GET 'P::X 'Y) 7"), (0, b"forms 3 refused 0\n", b""))
    check("no form", called(script, "check", "--run"), (0, b"forms 0 refused 0\n", b""))
    many = b"(FROB)" * 9 + b"\n" + b"(LIST 1) " * 2_000 + b"(FROB)"
    check("many forms", without_about(called(script, "check", "--run", stdin=many)[1]).splitlines()[-3:],
          [b"line 2, column 18001: refused with 31 UNKNOWN-OPERATOR in form 2010, which began at line 2, column 18001", b"    (FROB)", b"forms 2010 refused 10"])
    over_a_store(script, room, file)
    for place in (file + " not", room):
        is_refused("no file", script, "check", "--run", place, says="is no file that can be read")
    told = f"pazturrok: there is no folder {file} not\n! 60 DEVICE\n{file} not: there is no store in this folder\n".encode()
    check("no store", called(script, "check", "--run", file, "--store", file + " not"), (3, b"", told))
    is_refused("words", script, "check", "--run", "a", "b", says="one file")
    is_refused("words", script, "check", "--run", "--bogus", says="knows no --bogus")
    is_refused("words", script, "check", "--run", "--store", says="is missing")
