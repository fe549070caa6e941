"""Sessions that wait for their turn, and who is told to have the store."""
import os
import subprocess
import time
from typing import List

from calls import called, check, command, is_refused

# How many sessions are started at once, and for how many seconds each may wait: on a machine that works none does.
SESSIONS, PATIENCE = 30, "600"


def begun(script: str, *words: str) -> "subprocess.Popen[bytes]":
    """A session that reads what it is sent."""
    pipe = subprocess.PIPE
    return subprocess.Popen([script, "run", *words], stdin=pipe, stdout=pipe, stderr=pipe)


def answered(running: "subprocess.Popen[bytes]", form: bytes) -> bytes:
    """The answer to a form, of a session that goes on."""
    assert running.stdin and running.stdout
    running.stdin.write(form + b"\n")
    running.stdin.flush()
    return running.stdout.readline()


def together(script: str, store: str) -> None:
    """Many sessions at once, each of which pushes its number, and the list that they made."""
    running = [begun(script, store, "--wait", PATIENCE) for _ in range(SESSIONS)]
    for number, session in enumerate(running):
        assert session.stdin
        session.stdin.write(f"(PROGN (PUSH {number} (GET 'A 'L)) {number})".encode())
        session.stdin.close()
        session.stdin = None
    answers = [session.communicate() for session in running]
    check("answers of sessions at once", answers, [(f"{number}\n".encode(), b"") for number in range(SESSIONS)])
    check("statuses of sessions at once", [session.returncode for session in running], [0] * SESSIONS)
    pushed = called(script, "run", store, stdin=b"(GET 'A 'L)")[1].strip(b"()\n").split()
    check("what they made", sorted(map(int, pushed)), list(range(SESSIONS)))


def refused(script: str, store: str, holder: int, words: List[str], least: float) -> None:
    """A session of these words ends, but not before so many seconds, as this process has the store."""
    start = time.monotonic()
    status, out, err = called(script, "run", *words)
    told, *rest = err.decode().splitlines()
    check(f"another has it: {words}", (status, out, rest), (3, b"", ["! 60 DEVICE", f"{store}: locked by another process"]))
    named = told.startswith(f"pazturrok: {store} is served by process {holder} (")
    check(f"who has it is told: {words}", (named, time.monotonic() - start >= least), (True, True))


def taken(script: str, store: str) -> None:
    """A store that another process has: its number is told, at once or after the time; or its end is waited for."""
    running = begun(script, store)
    check("the session that was first", answered(running, b"(LIST 1)"), b"(1)\n")
    refused(script, store, running.pid, [store], 0)
    refused(script, store, running.pid, [store, "--wait", "1"], 1)
    refused(script, store, running.pid, ["--snapshot-every", "7", "--wait=01", store], 1)
    refused(script, store, running.pid, [store, "--wait", "0", "--messages"], 0)
    check("a snapshot of it", b"is served by process" in called(script, "snapshot", store)[2], True)
    check("a look at it", called(script, "verify", store, "--existing")[2], b"")
    waiting = begun(script, store, "--wait", PATIENCE)
    time.sleep(0.3)
    check("it waits", waiting.poll(), None)
    check("the first one ends", (running.communicate(), running.returncode), ((b"", b""), 0))
    check("the one that waited", (waiting.communicate(b"(LIST 2)"), waiting.returncode), ((b"(2)\n", b""), 0))


def beside_a_new_store(script: str, room: str) -> None:
    """A session that makes its store keeps nobody waiting who wants another store beside it."""
    one = begun(script, os.path.join(room, "new one"), "--wait", PATIENCE)
    check("a new store", answered(one, b"(LIST 1)"), b"(1)\n")
    start = time.monotonic()
    two = called(script, "run", os.path.join(room, "new two"), "--wait", PATIENCE, stdin=b"(LIST 2)")
    check("another one beside it", (two, time.monotonic() - start < int(PATIENCE) / 2, one.poll()), ((0, b"(2)\n", b""), True, None))
    refused(script, os.path.join(room, "new one"), one.pid, [os.path.join(room, "new one"), "--wait", "1"], 1)
    check("its end", (one.communicate(), one.returncode), ((b"", b""), 0))


# What stands in the place of stat: it tells the file of another store, on a device that may be another.
STAT = """#!/bin/sh
echo "{device} {number}"
"""


def on_another_device(script: str, room: str) -> None:
    """A lock on a file of the same number, of another file system, is none on this store."""
    one, two = os.path.join(room, "device one"), os.path.join(room, "device two")
    called(script, "run", two, stdin=b"(LIST 1)")
    running = begun(script, one)
    answered(running, b"(LIST 1)")
    half = os.stat(os.path.join(one, "half-a"))
    for device, is_served in ((half.st_dev, True), (half.st_dev + 1, False), (half.st_dev + 256, False)):
        folder = command(room, "stat", STAT.format(device=device, number=half.st_ino))
        err = called(script, "snapshot", two, PATH=folder + ":" + os.environ["PATH"])[2]
        check(f"a lock on the device {device}", err.startswith(f"pazturrok: {two} is served by process {running.pid} (".encode()), is_served)
    os.remove(os.path.join(room, "commands", "stat"))
    running.communicate()


def with_operators(script: str, room: str) -> None:
    """The functions are known to a new store and to an old one, under any package and readtable, and a second time nothing is told."""
    store, none = os.path.join(room, "functions"), os.path.join(room, "no functions")
    form = b"(IF (< 1 2) 1 0)"
    check("a store without them", called(script, "run", store, stdin=b"(MAKE-PACKAGE \"P\") (IN-PACKAGE P) (< 1 2)")[:2], (0, b'"P"\n"P"\n! 31 UNKNOWN-OPERATOR\n'))
    for words in (["--operators"], ["--operators", "--wait", PATIENCE], ["--wait=9", "--rescue", "--operators"]):
        check(f"they are known: {words}", called(script, "run", store, *words, stdin=b"(COMMON-LISP:IN-PACKAGE COMMON-LISP-USER)" + form), (0, b'"COMMON-LISP-USER"\n1\n', b""))
    check("a new store", called(script, "run", none + "1", "--wait", PATIENCE, "--operators", stdin=form), (0, b"1\n", b""))
    check("no store", (called(script, "run", none, "--existing", "--operators"), os.path.exists(none)), (called(script, "run", none, "--existing"), False))
    check("wrong words", (called(script, "run", none, "--operators", "--bogus")[0], os.path.exists(none)), (2, False))
    called(script, "run", none, stdin=b"'EQL")
    status, out, err = called(script, "run", none, "--operators", stdin=b"(PAZTURROK:EQL 2 2)")
    check("a symbol of such a name", (status, out, err.count(b"\n"), b"is there already (37 NAME-CONFLICT): EQL. Write" in err), (0, b"T\n", 1, True))
    called(script, "run", none + "2", stdin=b"'(COND < A)")
    err = called(script, "run", none + "2", "--operators")[2]
    check("several of such names", b"is there already (37 NAME-CONFLICT): < COND. Write" in err, True)
    check("a store with one sync", called(script, "run", none + "3", "--one-sync", "--operators", stdin=form), (0, b"1\n", b""))
    check("it is kept so", called(script, "info", none + "3", "--files")[1].splitlines()[1:3], [b"version 3", b"syncs 1"])
    status, out, err = called(script, "run", none + "3", "--operators")
    check("without the word", (status, out, err), (3, b"", b"! 66 VERSION\nthe store is kept with one sync: open it with --one-sync\n"))
    running = begun(script, none, "--operators")
    answered(running, b"(LIST 1)")
    status, out, err = called(script, "run", none, "--operators")
    check("another has it", (status, out, err.count(b"is served by"), err.count(b"! 60 DEVICE")), (3, b"", 1, 1))
    running.communicate()


def check_all(script: str, room: str) -> None:
    """Checks all of it in a room."""
    store = os.path.join(room, "turns")
    together(script, store)
    together(script, os.path.join(room, "turns two"))
    taken(script, store)
    on_another_device(script, room)
    beside_a_new_store(script, room)
    with_operators(script, room)
    for text in ("", "x", "1x", "-1", "1.5", "9999999999"):
        is_refused("seconds", script, "run", store, "--wait", text, says="a number of seconds")
    is_refused("seconds", script, "run", store, "--wait", says="a number of seconds")
