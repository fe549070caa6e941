"""A program that takes frames, and its answers as they come."""
import os
import queue
import re
import signal
import subprocess
import threading

from lib.frames import Answers, question
from lib.places import PATIENCE

LIMIT = float(PATIENCE)
"""As many seconds as no answer takes, on a slow machine either."""


class Session:
    """A program that serves frames over a folder: what it answers comes into a queue, as it comes."""

    def __init__(self, program, folder, *options):
        words = [*program, "run", folder, "--messages", *options]
        self.child = subprocess.Popen(words, stdin=subprocess.PIPE, stdout=subprocess.PIPE, stderr=subprocess.PIPE)
        self.answers, self.came, self.fault = Answers(), queue.Queue(), None
        self.told = b""
        self.readers = [threading.Thread(target=work, daemon=True) for work in (self._read, self._listen)]
        for reader in self.readers:
            reader.start()
        first = self.came.get(timeout=LIMIT)
        assert first == "at", f"it ended before it told the position: {self.end()}"

    def _read(self):
        told = False
        while piece := self.child.stdout.read1(65536):
            try:
                found = self.answers.feed(piece)
            except AssertionError as fault:
                self.fault = str(fault)
                break
            if not told and self.answers.position is not None:
                told = True
                self.came.put("at")
            for answer in found:
                self.came.put(answer)
        self.came.put(None)

    def _listen(self):
        self.told = self.child.stderr.read()

    @property
    def position(self):
        return self.answers.position

    def send(self, piece):
        """Whether it was taken: a program that has ended takes nothing."""
        try:
            self.child.stdin.write(piece)
            self.child.stdin.flush()
            return True
        except OSError:
            return False

    def next(self):
        """The next answer; None at the end."""
        return self.came.get(timeout=LIMIT)

    def ask(self, text):
        self.send(question(text))
        answer = self.next()
        assert answer is not None and answer[0] is None, f"no answer to a question: {answer}"
        return answer[1]

    def kill(self):
        """Kills it; gives the answers that it gave and nobody has taken."""
        self.child.send_signal(signal.SIGKILL)
        return self.rest()

    def rest(self):
        """The answers up to its end."""
        try:
            self.child.stdin.close()
        except OSError:
            pass
        found = []
        while (answer := self.next()) is not None:
            found.append(answer)
        self.end()
        return found

    def end(self):
        """Its status and what it told, once it has ended."""
        for reader in self.readers:
            reader.join(LIMIT)
        status = self.child.wait(LIMIT)
        self.child.stdout.close()
        self.child.stderr.close()
        if self.fault:
            raise AssertionError(self.fault)
        return status, self.told.decode("latin-1")


def dump(program, folder):
    """What a store holds, without the position."""
    told = subprocess.run([*program, "dump", folder], capture_output=True, timeout=LIMIT)
    assert told.returncode == 0, f"dump: {told.stderr!r}"
    return re.sub(rb"[0-9]+", b"N",
                  b"\n".join(line for line in told.stdout.split(b"\n") if b"position" in line)), b"\n".join(
        line for line in told.stdout.split(b"\n") if b"position" not in line
    )


def fresh(folder, name):
    path = os.path.join(folder, name)
    assert not os.path.exists(path), path
    return path
