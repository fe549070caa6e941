"""A connection to a node."""

from __future__ import annotations

import contextlib
import selectors
import socket
import ssl
from collections.abc import Sequence

from .errors import MalformedAnswerError
from .messages import FrameSplitter

PIECE = 65536


class Connection:
    """A connection to a node, HOST:PORT or the path of a socket, with or without `unix:` before it."""

    def __init__(self, node: str, context: ssl.SSLContext | None, seconds: float) -> None:
        self._splitter = FrameSplitter(0)
        if "/" in node or node.startswith("unix:"):
            self._socket = socket.socket(socket.AF_UNIX)
            self._socket.settimeout(seconds)
            try:
                self._socket.connect(node.removeprefix("unix:"))
            except BaseException:
                self._socket.close()
                raise
        else:
            host, _, port = node.rpartition(":")
            self._socket = socket.create_connection((host.strip("[]"), int(port)), seconds)
            if context:
                self._socket = context.wrap_socket(self._socket, server_hostname=host.strip("[]"))
        self._socket.setblocking(False)

    def exchange(self, frames: Sequence[str], answers: list[tuple[str, str]], seconds: float) -> None:
        """Sends frames, and appends the answers: the head of each, and its text.

        It reads while it writes. OSError where the connection is lost, or nothing comes or goes for so long.
        """
        unsent = memoryview("".join(frame + "\n" for frame in frames).encode("ascii"))
        wanted = len(answers) + len(frames)
        while unsent or len(answers) < wanted:
            written = self._write(unsent)
            unsent = unsent[written:]
            if not self._read(answers) and not written:
                self._wait(bool(unsent), seconds)
        if len(answers) > wanted:
            raise MalformedAnswerError(answers[-1][1], "more was answered than was asked")

    def _wait(self, writes: bool, seconds: float) -> None:
        with selectors.DefaultSelector() as selector:
            selector.register(self._socket, selectors.EVENT_READ | (selectors.EVENT_WRITE if writes else 0))
            if not selector.select(seconds):
                raise TimeoutError(f"it said nothing for {seconds:.1f} seconds")

    def _write(self, data: memoryview) -> int:
        with contextlib.suppress(BlockingIOError, ssl.SSLWantReadError, ssl.SSLWantWriteError):
            return self._socket.send(data[:PIECE]) if data else 0
        return 0

    def _read(self, answers: list[tuple[str, str]]) -> bool:
        """Takes what has come, and says whether something had."""
        try:
            data = self._socket.recv(PIECE)
        except (BlockingIOError, ssl.SSLWantReadError, ssl.SSLWantWriteError):
            return False
        if not data:
            raise ConnectionError("it closed the connection")
        for answer in self._splitter.feed(data):
            head, _, text = answer.partition("\n")
            answers.append((head.rpartition(" ")[0], text))
        return True

    def close(self) -> None:
        self._socket.close()
