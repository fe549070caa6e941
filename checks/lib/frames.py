"""Frames as bytes, and the answers to them."""

from __future__ import annotations

import re

# The first line of a frame, and of an answer.
HEAD = re.compile(rb"(?:do [0-9]+|ask|[0-9]+) ([0-9]+)\n")

Answered = tuple["int | None", str]
"""An answer: the number, or None of a question, and the text."""


def message(number: int, text: bytes) -> bytes:
    """A message with a number."""
    return b"do %d %d\n%s\n" % (number, len(text), text)


def question(text: bytes) -> bytes:
    """A question, which has no number."""
    return b"ask %d\n%s\n" % (len(text), text)


def framed(text: bytes) -> list[bytes]:
    """The frames or answers that stand whole at the front of bytes."""
    found = []
    while (head := HEAD.match(text)) and (size := head.end() + int(head[1]) + 1) <= len(text):
        found.append(text[:size])
        text = text[size:]
    return found


class Answers:  # pylint: disable=too-few-public-methods
    """Reads the position, and then answers, of bytes that come in pieces."""

    def __init__(self) -> None:
        self.held = b""
        self.position: int | None = None

    def feed(self, piece: bytes) -> list[Answered]:
        """The answers that are whole now."""
        self.held += piece
        found: list[Answered] = []
        while True:
            line, newline, rest = self.held.partition(b"\n")
            if not newline:
                return found
            if self.position is None:
                told = re.fullmatch(rb"at (0|[1-9][0-9]*)", line)
                assert told, f"no position: {line!r}"
                self.position = int(told[1])
                self.held = rest
                continue
            head = re.fullmatch(rb"(ask|0|[1-9][0-9]*) (0|[1-9][0-9]*)", line)
            assert head, f"no head of an answer: {line!r}"
            size = int(head[2])
            if len(rest) <= size:
                return found
            newline = rest[size : size + 1]
            assert newline == b"\n", f"no newline after an answer of {size} bytes: {rest[: size + 1]!r}"
            found.append((None if head[1] == b"ask" else int(head[1]), rest[:size].decode("latin-1")))
            self.held = rest[size + 1 :]
