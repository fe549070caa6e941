"""Sessions of the program over folders that are thrown away, and what has to hold after one that was disturbed."""
import collections
import os
import re
import subprocess

from hostile.undisturbed import WANTED
from lib import halves, kit
from lib.frames import framed, message, question
from lib.room import Answer
from lib.wanted import Deviation, want

HERE = os.path.dirname(os.path.abspath(__file__))

Session = collections.namedtuple("Session", "name words text base")
# What a session does undisturbed: the files before it, its answer, the files after it, and after each number of its
# parts how many answers there are, and the text of the world. `looked` has the files that were looked at, each with how
# many answers there were: what was left by one run is looked at once, though many runs leave it.
Course = collections.namedtuple("Course", "session before ample after dumps looked")

# A form that is read and accepted in every world, in Rescue mode.
ONE_MORE = b"(COMMON-LISP:SETF (COMMON-LISP:GET 'COMMON-LISP-USER::A 'COMMON-LISP-USER::B) 9)\n"

OPERATORS = b"""(MAKE-PACKAGE "P")
(IN-PACKAGE "P")
'NEWONE
(COMMON-LISP:SETF (COMMON-LISP:GET 'NEWONE 'IND) '(1 2 "three" #\\a #(1 2) |odd name| #:un))
(COMMON-LISP:EXPORT 'NEWONE)
(COMMON-LISP:IN-PACKAGE COMMON-LISP-USER)
(USE-PACKAGE "P")
NEWONE
(INTERN "made")
(IMPORT 'P::OTHER)
(PUSH 1 (GET 'A 'B))
(PUSH 2 (GET 'A 'B))
(INCF (GET 'A 'N) 3)
(INCF (GET 'A 'N))
(SYMBOL-PLIST 'A)
(REMPROP 'A 'B)
(PROGN (SETF *READ-BASE* 10.) (IF (GET 'A 'B) 2 (LIST *PACKAGE* *READTABLE* *READ-BASE*)))
(LIST (READTABLE-CASE *READTABLE*) (GET-MACRO-CHARACTER #\\') (GET-DISPATCH-MACRO-CHARACTER #\\# #\\\\))
(COPY-READTABLE NIL :OTHER)
(IN-READTABLE :OTHER)
(SET-MACRO-CHARACTER #\\! :NOTE)
!a line
(MAKE-DISPATCH-MACRO-CHARACTER #\\@)
(SET-DISPATCH-MACRO-CHARACTER #\\@ #\\s :SCALE)
(SETF (GET 'A 'D) @3S14)
(SETF (READTABLE-CASE *READTABLE*) :INVERT)
(symbol-plist 'a)
(FROB newsym)
"""


# Frames, of which the last one that is carried out writes: so the world tells one position however they are cut into
# batches.
MESSAGES = b"".join([
    message(1, b"(SETF (GET 'A 'B) 7)"),
    question(b"(GET 'A 'B)"),
    question(b"(SETF (GET 'A 'B) 9)"),
    message(1, b"(INCF (GET 'A 'B))"),
    message(4, b"(INCF (GET 'A 'B))"),
    question(b") ("),
    message(8, b"(SETF (GET 'NEW 'C) \"t\n\")"),
])

# Files of old bytes behind a closed gate, which are cut before a half is started.
CLOSED = [bytes(10), bytes(200)]

# Stores of version 1 and of version 3 with a property, and no half B in use; one of the latter is kept with one sync.
PACKAGES = b'(("COMMON-LISP-USER" ("COMMON-LISP") NIL NIL NIL) ("KEYWORD" NIL NIL NIL NIL))\nNIL\n'
SEVEN = halves.Record(False, b"(SETF (GET 'A 'B) 7)")
VERSION_1 = [halves.gated(1, 1, PACKAGES + b'("COMMON-LISP-USER" "USER" (("USER" "UPCASE" NIL)))\n', [SEVEN]), b""]
WORLD = PACKAGES + b'("COMMON-LISP-USER" "USER" 10 (("USER" "UPCASE" NIL)))\n'
VERSION_3 = [halves.batched(1, WORLD, [[SEVEN]]), b""]
ONE_SYNC = [halves.batched(1, WORLD, [[SEVEN]], halves.ONE_SYNC), b""]

SESSIONS = [
    Session("property", ["run"], b"(SETF (GET 'A 'B) 7)\n(GET 'A 'B)\n", None),
    Session("tokens", ["run"], b"'(\\1 |1| 1 1. -0 +4/6 1+)\n", None),
    Session("brackets", ["run"],
            b"(SET-MACRO-CHARACTER #\\[ :SQUARE)\n(SET-MACRO-CHARACTER #\\] :CLOSE)\n(SETF (GET 'A 'V) [1 2])\n", None),
    Session("brackets again", ["run"], b"(GET 'A 'V)\n]\n", "brackets"),
    Session("no way in", ["run"], b"(SET-SYNTAX-FROM-CHAR #\\( #\\;)\n(GET 'A 'B)\n", None),
    Session("rescue", ["run", "--rescue"], b"(COPY-READTABLE NIL :USER)\n", "no way in"),
    Session("rescued", ["run"], b"(GET 'A 'B)\n", "rescue"),
    Session("snapshots", ["run", "--snapshot-every", "1"],
            b"(SETF (GET 'A 'B) 7)\n(SETF (GET 'A 'B) 8)\n(SETF (GET 'A 'C) \"t\")\n", None),
    Session("together", ["run", "--group"],
            b"(SETF (GET 'A 'B) 7)\n(SETF (GET 'A 'B) 8)\n(CAR 'A)\n(GET 'A 'B)\n(SETF (GET 'A 'C) \"t\")\n", None),
    Session("more snapshots", ["run", "--snapshot-every", "2"],
            b"(SETF (GET 'A 'B) 9)\n(GET 'A 'B)\n(SETF (GET 'A 'C) 10)\n(INCF (GET 'A 'C))\n", "snapshots"),
    Session("sharp sign", ["run"], b"(LIST #xFF #36rZ #b-1/10 #\\space)\n'(#:a #'f #|x #|y|# z|# \"\")\n", None),
    Session("dispatch", ["run"],
            b"(MAKE-DISPATCH-MACRO-CHARACTER #\\@)\n(SET-DISPATCH-MACRO-CHARACTER #\\@ #\\s :SCALE)\n@3S14\n@S14\n",
            None),
    Session("a closed half", ["run", "--snapshot-every", "1"], b"(SETF (GET 'A 'B) 7)\n(SETF (GET 'A 'B) 8)\n", CLOSED),
    Session("operators", ["run", "--snapshot-every", "3"], OPERATORS, None),
    Session("messages", ["run", "--messages"], MESSAGES, None),
    Session("more messages", ["run", "--messages", "--snapshot-every", "1"],
            message(9, b"(INCF (GET 'A 'B) 10)") + question(b"(GET 'A 'B)") + message(10, b"(SETF (GET 'A 'C) 9)"),
            "messages"),
    Session("after operators", ["run", "--snapshot-every", "1"], b"(setf (get 'b 'x) (symbol-plist 'a))\n(get 'b 'x)\n",
            "operators"),
    Session("dump", ["dump"], b"", "operators"),
    Session("verify", ["verify"], b"", "operators"),
    Session("snapshot", ["snapshot"], b"", "operators"),
    Session("a further snapshot", ["snapshot", "--existing"], b"", "snapshot"),
    Session("strict", ["run", "--strict"],
            b"(SETF (GET 'A 'B) 7)\n(SETF (GET 'A 'B) 8)\n(FROB)\n(SETF (GET 'A 'B) 9)\n", None),
    Session("version 1", ["run", "--snapshot-every", "2"],
            b"(SETF (GET 'A 'B) 8)\n(SETF (GET 'A 'B) 17)\n(SETF (GET 'A 'B) 18)\n", VERSION_1),
    Session("version 3", ["run"],
            b"(SETF (GET 'A 'B) 8)\n(GET 'A 'B)\n(SETF (GET 'A 'C) \"t\")\n(FROB)\n(INCF (GET 'A 'B))\n", VERSION_3),
    Session("batches", ["run", "--group"],
            b"(SETF (GET 'A 'B) 7)\n(SETF (GET 'A 'B) 8)\n(CAR 'A)\n(GET 'A 'B)\n(SETF (GET 'A 'C) \"t\")\n", VERSION_3),
    Session("after version 3", ["run", "--snapshot-every", "2"],
            b"(SETF (GET 'A 'B) 8)\n(SETF (GET 'A 'B) 17)\n(SETF (GET 'A 'B) 18)\n", VERSION_3),
    Session("upgrade", ["upgrade"], b"", VERSION_1),
    Session("one sync", ["run", "--one-sync"],
            b"(SETF (GET 'A 'B) 8)\n(GET 'A 'B)\n(SETF (GET 'A 'C) \"t\")\n(FROB)\n(INCF (GET 'A 'B))\n", ONE_SYNC),
    Session("batches with one sync", ["run", "--group", "--one-sync"],
            b"(SETF (GET 'A 'B) 7)\n(SETF (GET 'A 'B) 8)\n(CAR 'A)\n(GET 'A 'B)\n(SETF (GET 'A 'C) \"t\")\n", None),
    Session("more with one sync", ["run", "--one-sync"], b"(SETF (GET 'A 'B) 9)\n(GET 'A 'C)\n(INCF (GET 'A 'B))\n",
            "batches with one sync"),
    Session("to one sync", ["run", "--snapshot-every", "2", "--one-sync"],
            b"(SETF (GET 'A 'B) 8)\n(SETF (GET 'A 'B) 17)\n(SETF (GET 'A 'B) 18)\n", VERSION_1),
    Session("messages with one sync", ["run", "--messages", "--one-sync"], MESSAGES, None),
    Session("upgrade to one sync", ["upgrade", "--one-sync"], b"", VERSION_1),
    Session("export", ["export"], b"", "operators"),
    Session("export of data", ["export", "--data"], b"", "operators"),
]


def library(name, room):
    """The library of this name, built without headers by the tool's own compiler, to be loaded before a program. It is
    put where it can be loaded from: a folder in memory may hold no code."""
    for folder in (room.folder, room.code):
        built = kit.shared(os.path.join(HERE, f"{name}.c"), os.path.join(folder, f"{name}.so"))
        log = room.path("loaded")
        subprocess.run(["/bin/true"], env={"LD_PRELOAD": built, f"{name.upper()}_LOG": log}, capture_output=True,
                       check=True)
        if os.path.exists(log):
            os.unlink(log)
            return built
    raise Deviation(f"{name}.so cannot be loaded before a program")


def logged(log):
    """The words of what a library wrote at the end of a program, or `None` if the program did not come to its end."""
    try:
        with open(log, encoding="ascii") as file:
            words = file.read().split()
    except FileNotFoundError:
        return None
    os.unlink(log)
    return words


def course(room, session, before):
    room.put(before)
    ample = room.run(session.words, session.text)
    want((ample.status, ample.out) == WANTED[session.name], session.name, "undisturbed:", ample)
    after = room.files()
    parts = parts_of(session)
    dumps = []
    for count in range(len(parts) + 1):
        room.put(before)
        # before the first of its parts a session of messages has not begun
        words = ["run", *one_sync_of(session)] if session.words[0] != "run" or has_messages(session) and not count else session.words
        answer = room.run(words, b"".join(parts[:count]))
        dumps.append((answered_in(session, answer.out), told(room, session, "dump").out))
    return Course(session, before, ample, after, dumps, set())


def one_sync_of(session):
    """The word by which a session opens a store that is kept with one sync, if it has it."""
    return [word for word in session.words if word == "--one-sync"]


def told(room, session, command):
    """What a command tells of the store, once it is opened. One that may be kept with one sync is opened by a session first, as such a
    command only looks into it."""
    if not one_sync_of(session):
        return room.run([command])
    opened = room.run(["run", "--one-sync"])
    return room.run([command, "--existing"]) if opened.status == 0 else opened


def has_messages(session):
    return "--messages" in session.words


def parts_of(session):
    """What a session answers one after the other: its lines; or that messages are begun, which it answers with the
    position, and each frame."""
    return [b"", *framed(session.text)] if has_messages(session) else session.text.splitlines(keepends=True)


def courses(room, names=()):
    """The sessions of these names, or all, each over the files that its base leaves, or that are its base."""
    after = {None: None}
    for session in SESSIONS:
        before = session.base if isinstance(session.base, list) else after[session.base]
        one = course(room, session, before)
        after[session.name] = one.after
        if not names or session.name in names:
            yield one


def are_alike(files, others):
    """Whether both halves hold the same in the same bytes, however their records came together: a group ends at a form
    that is refused only where reasons are asked for, and is carried out form by form where memory runs out. The identity
    of a store is drawn anew in each run, and so is its sum."""
    return [halves.without_identity(file or b"") for file in files] == [halves.without_identity(file or b"") for file in others]


def check(room, one, got):
    """What was answered is a prefix of what is answered undisturbed; the store is that of the forms that were answered,
    or of one more; it is whole, and takes a form."""
    want(got.status >= 0, one.session.name, "the program died:", got)
    want(one.ample.out.startswith(got.out), one.session.name, "the answers are no prefix:", got)
    check_world(room, one, answers(one, got.out))


def answers(one, out):
    """How many forms these bytes answer: those of a session, and none of another command."""
    return answered_in(one.session, out) if one.session.words[0] == "run" else 0


def answered_in(session, out):
    """How many parts of a session these bytes answer."""
    if not has_messages(session):
        return out.count(b"\n")
    told = re.match(rb"at [0-9]+\n", out)
    return len(framed(out[told.end() if told else 0 :])) + bool(told)


def may_be_there(one, answered, apart):
    """After how many parts the world may be that is there. A group has all parts that come at once, as the campaign asks for no reasons of
    refusals."""
    messages, words = has_messages(one.session), one.session.words
    if messages and not answered:
        # that messages are begun is logged before a frame is read
        return {0, 1}
    together = "--group" in words or messages and "--snapshot-every" not in words
    return {answered, len(one.dumps) - 1 if together else answered + 1, answered + 1 if apart else answered}


def check_world(room, one, answered, apart=True):
    """A session with groups has one of all its forms, and one of messages without snapshots has one of all frames: all of them may be there,
    and not some, unless it was executed form by form (`apart`) as memory ran out in it."""
    left = (*room.files(), answered)
    if left in one.looked:
        return
    one.looked.add(left)
    dump = told(room, one.session, "dump")
    want(dump.status == 0, one.session.name, "no dump:", dump)
    prefixes = [count for count, text in one.dumps if text == dump.out]
    may = may_be_there(one, answered, apart)
    want(may & set(prefixes), one.session.name, answered, "answered, and the world is that after", prefixes)
    verified = told(room, one.session, "verify")
    want(verified.status == 0, one.session.name, "not verified:", verified)
    if one.session.words[0] == "upgrade":
        again = room.run(one.session.words)
        want(again == one.ample and told(room, one.session, "dump").out == dump.out, one.session.name, "not made whole:", again)
    more = room.run(["run", "--rescue", *one_sync_of(one.session)], ONE_MORE)
    want(more == Answer(0, b"9\n", b""), one.session.name, "one more form:", more)
