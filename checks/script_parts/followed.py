"""The log as it grows, by `log --follow`: each record once, over snapshots too, until it is stopped."""
import os
import select
import signal
import subprocess
import time
from typing import List, Tuple

from calls import called, check, is_refused

# Seconds that a record may take until it is told.
PATIENCE = 120


class Follower:
    """A process that follows the log of a store, and what it has told."""

    def __init__(self, script: str, store: str, *words: str) -> None:
        pipe = subprocess.PIPE
        self.running = subprocess.Popen([script, "log", store, "--follow", *words], stdin=subprocess.DEVNULL, stdout=pipe, stderr=pipe)
        self.told = b""

    def lines_up_to(self, end: bytes) -> List[bytes]:
        """The lines since the last call, once one ends so."""
        assert self.running.stdout
        until = time.monotonic() + PATIENCE
        while not self.told.endswith(end + b"\n") and time.monotonic() < until:
            if select.select([self.running.stdout], [], [], 1)[0]:
                more = os.read(self.running.stdout.fileno(), 65536)
                if not more:
                    break
                self.told += more
        lines, self.told = self.told.splitlines(), b""
        return lines

    def stop(self) -> Tuple[int, bytes]:
        """Its status after a signal, and what it told on standard error."""
        self.running.send_signal(signal.SIGTERM)
        err = self.running.communicate(timeout=PATIENCE)[1]
        return self.running.returncode, err


def check_followed(script: str, room: str) -> None:
    store = os.path.join(room, "followed")
    called(script, "run", store, stdin=b"(SETF (GET 'A 'B) 1)(SETF (GET 'A 'B) 2)")
    follower = Follower(script, store, "--places", "--from", "2")
    check("what is there", follower.lines_up_to(b"2)"), [b"1.2 current (SETF (GET 'A 'B) 2)"])
    called(script, "run", store, stdin=b"(SETF (GET 'A 'B) \"3\n\")(LIST 1)(SETF (GET 'A 'B) 4)")
    check("what comes", follower.lines_up_to(b"4)"), [b"1.3 current (SETF (GET 'A 'B) \"3\\x0A\")", b"1.4 current (SETF (GET 'A 'B) 4)"])
    called(script, "run", store, stdin=b"(SETF (GET 'A 'B) 5)")
    called(script, "snapshot", store)
    called(script, "run", store, stdin=b"(SETF (GET 'A 'B) 6)")
    check("what comes round a snapshot", follower.lines_up_to(b"6)"), [b"1.5 current (SETF (GET 'A 'B) 5)", b"2.1 current (SETF (GET 'A 'B) 6)"])
    check("it is stopped", follower.stop(), (143, b""))
    follower = Follower(script, store, "--from", "1.5", "--json")
    check("from the half before", follower.lines_up_to(b"6)\"}"), [b'{"generation":1,"record":5,"mode":"current","form":"(SETF (GET \'A \'B) 5)"}',
                                                              b'{"generation":2,"record":1,"mode":"current","form":"(SETF (GET \'A \'B) 6)"}'])
    follower.stop()
    called(script, "snapshot", store)
    called(script, "snapshot", store)
    follower = Follower(script, store, "--from", "1.5")
    called(script, "run", store, stdin=b"(SETF (GET 'A 'B) 7)")
    check("after two snapshots", follower.lines_up_to(b"7)"), [b"1 current (SETF (GET 'A 'B) 7)"])
    gone = b"pazturrok: records after 1.4 are in no file any more: snapshots were taken faster than the log was looked at\n"
    check("it says what is gone", follower.stop()[1], gone)


def check_all(script: str, room: str) -> None:
    """Checks all of it."""
    check_followed(script, room)
    store = os.path.join(room, "followed")
    is_refused("no word", script, "log", store, "--follow", "--count", says="knows no --count")
    is_refused("no number", script, "log", store, "--follow", "--from", "x", says="the number of a record")
    is_refused("no folder", script, "log", "--follow", says="a folder is wanted")
    is_refused("a typo", script, "log", store, "--folow", says="did you mean --follow?")
    status, out, err = called(script, "log", os.path.join(room, "none"), "--follow")
    check("no store", (status, out, err.startswith(b"pazturrok: there is no folder "), b"\n! 60 DEVICE\n" in err), (3, b"", True, True))
