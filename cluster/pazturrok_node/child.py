"""The store of a node: a program that serves messages, started again whenever it ends."""

from __future__ import annotations

import asyncio
import contextlib
import fcntl
import logging
import os
import sys
from collections.abc import Callable, Sequence

from .faults import Fault
from .frames import POSITION, NoFrameError

logger = logging.getLogger(__name__)

PIECE = 1 << 16
"""So many bytes of answers are read at once."""

PIPE = 1 << 20
"""As many bytes may be in each pipe, to a program and from it, where the system allows it: the answer to a form with a long text is as long. On a busy
machine each end waits for its turn whenever a pipe is full, or empty."""

SET_PIPE_SIZE = 1031
"""F_SETPIPE_SZ of Linux, which Python has a name for since 3.10."""


class Child:
    """A program over a folder, which has told its position."""

    def __init__(self, process: asyncio.subprocess.Process, answers: int) -> None:
        loop = asyncio.get_running_loop()
        self.process, self.position = process, 0
        self.fault = Fault()
        """Why it ended, where it wrote that to standard error."""
        self.is_over: asyncio.Future[None] = loop.create_future()
        """Done once the program answers no more, or what is none of its answers."""
        self._answers = answers
        self._begun = b""
        self._has_begun: asyncio.Future[None] = loop.create_future()
        self._take: Callable[[bytes], None] = self._take_first_line
        self._complaints = asyncio.ensure_future(self._hear_complaints())
        os.set_blocking(answers, False)
        loop.add_reader(answers, self._read)

    @classmethod
    async def start(cls, words: Sequence[str]) -> Child | Fault:
        """Starts the program: why it ended, where it ends before it has told its position."""
        pipe, (answers, its_end) = asyncio.subprocess.PIPE, os.pipe()
        try:
            # what a terminal sends to all of its programs, as by Ctrl-C, is for the node, which ends the store
            process = await asyncio.create_subprocess_exec(*words, stdin=pipe, stdout=its_end, stderr=pipe, start_new_session=True)
        except BaseException:
            os.close(answers)
            raise
        finally:
            os.close(its_end)
        assert process.stdin
        for end in (process.stdin.get_extra_info("pipe"), answers):
            # a program that has ended already has no pipe: ValueError
            with contextlib.suppress(OSError, ValueError):
                fcntl.fcntl(end, SET_PIPE_SIZE, PIPE)
        child = cls(process, answers)
        try:
            await asyncio.wait([child.is_over, child._has_begun], return_when=asyncio.FIRST_COMPLETED)
        except BaseException:
            await child.end()
            raise
        if child._has_begun.done():
            return child
        await child.end()
        logger.error("the store ended with status %s as it was opened", process.returncode)
        return child.fault

    async def _hear_complaints(self) -> None:
        """Writes on what the program writes to standard error."""
        assert self.process.stderr
        while line := await self.process.stderr.readline():
            self.fault = self.fault.heard(line)
            sys.stderr.write(line.decode("utf-8", "replace"))
            sys.stderr.flush()

    # What it answers

    def hear(self, take: Callable[[bytes], None]) -> None:
        """Has taken from now on what the program answers, piece by piece as it comes. NoFrameError says that it is none."""
        self._take = take
        if self._begun:
            self._hand_on(self._begun)
            self._begun = b""

    def _read(self) -> None:
        """Reads what is there, at most what a pipe may have."""
        pieces: list[bytes] = []
        is_over = False
        while len(pieces) * PIECE < PIPE:
            try:
                data = os.read(self._answers, PIECE)
            except BlockingIOError:
                break
            except OSError as error:
                logger.error("what the store answers cannot be read: %s", error)
                data = b""
            if not data:
                is_over = True
                break
            pieces.append(data)
            if len(data) < PIECE:
                break
        if pieces:
            self._hand_on(pieces[0] if len(pieces) == 1 else b"".join(pieces))
        if is_over:
            self._close()

    def _hand_on(self, data: bytes) -> None:
        try:
            self._take(data)
        except NoFrameError as error:
            logger.error("what the store answers is no answer: %s", error)
            self.leave()

    def _take_first_line(self, data: bytes) -> None:
        self._begun += data
        line, newline, rest = self._begun.partition(b"\n")
        if newline and not self._has_begun.done():
            told = POSITION.fullmatch(line + newline)
            if told is None:
                raise NoFrameError(f"{line[:80]!r} is no position")
            self.position, self._begun = int(told[1]), rest
            self._has_begun.set_result(None)

    def leave(self) -> None:
        """Nobody hears any more what it answers: that is read, so that it may end."""
        self._take = lambda _: None
        if not self.is_over.done():
            self.is_over.set_result(None)

    def _close(self) -> None:
        self.leave()
        if self._answers >= 0:
            asyncio.get_running_loop().remove_reader(self._answers)
            os.close(self._answers)
            self._answers = -1

    # What it is sent

    @property
    def is_full(self) -> bool:
        """Whether something that was sent has not gone to the program."""
        assert self.process.stdin
        return self.process.stdin.transport.get_write_buffer_size() > 0

    def send(self, frames: bytes) -> None:
        assert self.process.stdin
        self.process.stdin.write(frames)

    async def drain(self) -> None:
        """Waits until most of what was sent has gone."""
        assert self.process.stdin
        await self.process.stdin.drain()

    async def end(self) -> int:
        """Ends the program, which loses nothing that it answered, and gives its status."""
        assert self.process.stdin
        self.leave()
        self.process.stdin.close()
        try:
            status = await asyncio.wait_for(self.process.wait(), 10)
        except asyncio.TimeoutError:
            self.process.kill()
            status = await self.process.wait()
        await asyncio.wait([self._complaints], timeout=1)
        self._close()
        return status
