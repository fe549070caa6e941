"""The running program: its pipes, its end, and a limit on how long an answer may take."""

from __future__ import annotations

import contextlib
import fcntl
import itertools
import os
import re
import selectors
import subprocess
import tempfile
import time
from collections.abc import Callable, Sequence
from typing import Protocol

from .answers import AnswerSplitter
from .errors import MalformedAnswerError, NoProgramError, StoppedError, TimeLimitError

END_LIMIT = 10.0
"""How many seconds the program may take to end, before it is killed. That loses nothing that was answered."""

PIECE = 65536

ERRORS_KEPT = 1 << 20
"""So many bytes of standard error are kept at most, once they were read and nothing is under way."""

REFUSED = re.compile(
    r"(?:pazturrok: )?(?:line ([0-9]+), column [0-9]+|after [0-9]+ bytes): [0-9]+: (.*?)(?: \(help [0-9]+\))?"
    r"|[0-9]+ refusals were told; of the next ones there is no line here"
)
"""A line of standard error on a form that was refused: where the form begins, and what stands behind the number."""

NOT_PROVED = "pazturrok: compiled, not proved"
"""So begins the line of standard error with which the script `pazturrok` starts a program that is not proved."""


def flags_of(existing: bool, one_sync: bool) -> list[str]:
    """The words of the command line for what is asked for."""
    return [word for word, is_asked in (("--existing", existing), ("--one-sync", one_sync)) if is_asked]


def is_beside_fault(line: str) -> bool:
    """Whether a line of standard error says nothing of why the program has ended."""
    return line.startswith(NOT_PROVED) or REFUSED.fullmatch(line) is not None


class Splitter(Protocol):
    """Splits what a program writes into answers, as it comes."""

    @property
    def is_empty(self) -> bool:
        """Whether no byte has come since the last answer."""

    def feed(self, data: bytes) -> list[str]:
        """The answers that these bytes make whole."""


class Program:
    """A program that runs, or that has ended."""

    def __init__(self, words: Sequence[str], splitter: Splitter | None = None) -> None:
        try:
            self._errors = tempfile.TemporaryFile()  # noqa: SIM115
            # what the program writes goes to its end, so that the file may be emptied
            fcntl.fcntl(self._errors, fcntl.F_SETFL, fcntl.fcntl(self._errors, fcntl.F_GETFL) | os.O_APPEND)
        except OSError as error:
            raise NoProgramError(words[0], f"no file takes what it tells: {error}") from error
        try:
            self.process = subprocess.Popen(
                words,
                bufsize=0,
                stdin=subprocess.PIPE,
                stdout=subprocess.PIPE,
                stderr=self._errors,
                env={**os.environ, "PAZTURROK_REASONS": "all"},
            )
        except OSError as error:
            self._errors.close()
            raise NoProgramError(words[0], error.strerror or str(error)) from error
        except BaseException:
            self._errors.close()
            raise
        assert self.process.stdin and self.process.stdout
        self._to, self._from = self.process.stdin, self.process.stdout
        for pipe in (self._to, self._from):
            os.set_blocking(pipe.fileno(), False)
        self._splitter = splitter or AnswerSplitter()
        self._begins = [1]  # in which line each text of the last exchange begins, and the next one
        self._heard = 0  # so many bytes of standard error
        self._reasons: dict[int, str] = {}

    def exchange(
        self, texts: Sequence[str], answers: list[str], is_last: Callable[[str], bool], seconds: float | None
    ) -> None:
        """Sends texts, and appends the answer to each, up to one that is the last of the session.

        It reads while it writes, so neither program waits for the other with its pipe full.
        """
        if self._read() or not self._splitter.is_empty:
            raise MalformedAnswerError("", "more was answered than was asked")
        self._empty_errors()
        unsent = memoryview("".join(text + "\n" for text in texts).encode("ascii"))
        heights = (text.count("\n") + 1 for text in texts)
        self._begins = list(itertools.accumulate(heights, initial=self._begins[-1]))
        end = None if seconds is None else time.monotonic() + seconds
        with selectors.DefaultSelector() as selector:
            selector.register(self._from, selectors.EVENT_READ)
            selector.register(self._to, selectors.EVENT_WRITE)
            while unsent or len(answers) < len(texts):
                for key, _ in selector.select(None if end is None else max(0.0, end - time.monotonic())):
                    if key.fileobj is self._to:
                        unsent = unsent[self._write(unsent) :]
                        if not unsent:
                            selector.unregister(self._to)
                    else:
                        answers += self._read()
                        if answers and is_last(answers[-1]):
                            return
                if end is not None and time.monotonic() >= end:
                    self.end(0)
                    raise TimeLimitError(seconds or 0)
        if len(answers) > len(texts) or not self._splitter.is_empty:
            raise MalformedAnswerError(answers[-1], "more was answered than was asked")

    def _empty_errors(self) -> None:
        """Empties what standard error has, where that is much. All is answered, so the program writes nothing meanwhile."""
        if os.fstat(self._errors.fileno()).st_size > ERRORS_KEPT:
            os.truncate(self._errors.fileno(), 0)
            self._heard = 0
        self._reasons.clear()

    def _write(self, data: memoryview) -> int:
        try:
            return os.write(self._to.fileno(), data[:PIECE])
        except BlockingIOError:
            return 0
        except OSError:
            raise self.stopped() from None

    def _read(self) -> list[str]:
        try:
            data = os.read(self._from.fileno(), PIECE)
        except BlockingIOError:
            return []
        if not data:
            raise self.stopped()
        return self._splitter.feed(data)

    def reason(self, place: int) -> str | None:
        """What standard error tells of the refusal of a text of the last exchange."""
        while not self._errors.closed and (data := os.pread(self._errors.fileno(), PIECE, self._heard)):
            end = data.rfind(b"\n") + 1
            if not end:
                break
            self._heard += end
            for line in data[:end].decode("utf-8", "replace").splitlines():
                if (told := REFUSED.fullmatch(line)) and told[1]:
                    self._reasons[int(told[1])] = told[2]
        return self._reasons.pop(self._begins[place], None)

    def stopped(self) -> StoppedError:
        """Ends the program, and tells how it ended."""
        status, text = self.end()
        return StoppedError(status, "\n".join(line for line in text.splitlines() if not is_beside_fault(line)))

    def leave_to_parent(self) -> None:
        """Closes what a child of a fork has of the pipes, so that the program ends where the parent closes them."""
        self._close_pipes()
        self._errors.close()
        self.process.returncode = 0  # it is no child of this process, which cannot wait for it

    def _close_pipes(self) -> None:
        for pipe in (self._to, self._from):
            with contextlib.suppress(OSError):
                pipe.close()

    def end(self, limit: float | None = None) -> tuple[int, str]:
        """Ends the program, and gives its status and what it wrote to standard error, the end of it where it is long.

        Both pipes are closed first: so it does not wait for anybody to read what it may still have to say.
        """
        self._close_pipes()
        try:
            status = self.process.wait(END_LIMIT if limit is None else limit)
        except subprocess.TimeoutExpired:
            self.process.kill()
            status = self.process.wait()
        if self._errors.closed:
            return status, ""
        with self._errors:
            self._errors.seek(max(0, os.fstat(self._errors.fileno()).st_size - PIECE))
            return status, self._errors.read().decode("utf-8", "replace").rstrip("\n")
