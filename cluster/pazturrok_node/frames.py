"""Frames and answers (docs/run/protocol.md of the store): bytes are split into them, and they are made."""

from __future__ import annotations

import re
from collections.abc import Iterator
from typing import NamedTuple

VERSION = 2
"""Of the frames between clients and nodes. Where a frame means something else, or is new, the number is a greater one."""

VERSION_WITHOUT_NAMES = 1
"""That of clients, and of nodes, that know no messages of clients with a name."""

LIMIT = 1_048_576
"""The greatest length of a text of a client."""

LONGEST_HEAD = 200
"""And that of the line before it."""

NUMBER = r"(0|[1-9][0-9]{0,18})"
NAME = r"([A-Za-z0-9._-]{1,100})"
LONG_NUMBER = r"(0|[1-9][0-9]{0,19})"
REQUEST = re.compile(rf"(?:do(?: {NAME})?|(ask|read|seed)|(ask|version|by) {LONG_NUMBER}) {NUMBER}\n".encode())
NAMED = re.compile(rf"{NAME}(?= |\Z)".encode())
"""What the text of a message of a client with a name begins with: nothing after it has the client go."""

GREATEST_NUMBER = (1 << 64) - 1
"""Of such a message."""

ANSWER = re.compile(rf"(?:(by )?{LONG_NUMBER}|ask) {NUMBER}\n".encode())
POSITION = re.compile(rf"at {NUMBER}\n".encode())

LOST = b"! 50 OLD-NUMBER"
"""The answer to an entry that was carried out, once, and whose own answer nobody has any more. It is this object where the node says so, and other
bytes where the store does."""

SKIPPED = b"! 53 SKIPPED"
"""The answer to an entry that all stores skip."""

NO_ROOM = b"! 54 NO-ROOM"
"""The answer to a form for which the log has no room: nothing of it was carried out, and its name is free."""

OTHER_TEXT = b"! 55 OTHER-TEXT"
"""The answer to a form whose name the log has with another text: nothing of it was carried out."""

NO_FRAME = b"! 56 NO-FRAME"
"""The answer to bytes that are no request, as where a name is none. The connection ends after it."""

TEXT_TOO_LONG = b"! 57 TEXT-TOO-LONG"
"""The answer to a request whose text is over LIMIT. The connection ends after it."""

OTHER_VERSION = b"! 58 OTHER-VERSION"
"""The answer to a client of another version. The connection ends after it."""

NO_SUCH_ENTRY = b"! 59 NO-SUCH-ENTRY"
"""The answer to a question that waits for an entry which the log does not have."""

NO_DEVICE = b"! 60 DEVICE"
"""The answer to who asks for a copy of the store, where none can be made."""

NO_MEMORY = b"! 90 NO-MEMORY"
"""The answer to a question beside which the store has ended twice: it is not asked again."""


class NoFrameError(Exception):
    """These bytes are no frame; and what is answered to a client that has sent them."""

    def __init__(self, reason: str, refusal: bytes = NO_FRAME) -> None:
        super().__init__(reason)
        self.refusal = refusal


class Request(NamedTuple):
    """A request of a client: `do`, with a name, if it has one; `by`, with a name and a number; `ask`, with a number, if it has one; `read`; `seed`;
    or `version`, with a number."""

    kind: str
    name: bytes | None
    number: int | None
    text: bytes


class Frames:
    """Bytes, as they come, split into frames: the match of each head, whose last group is a length, and the text after it."""

    def __init__(self, head: re.Pattern[bytes], most: int | None = None) -> None:
        self._head, self._most = head, most
        self._length = head.groups
        self._pieces: list[bytes] = []
        self._missing = 0
        """So many bytes have to come before another frame can be whole."""

    def split(self, data: bytes) -> Iterator[tuple[re.Match[bytes], bytes]]:
        """The frames that these bytes make whole; NoFrameError after those that stand before what is none."""
        if self._pieces:
            self._pieces.append(data)
            self._missing -= len(data)
            if self._missing > 0:
                return
            data = b"".join(self._pieces)
        self._missing, place, whole = 0, 0, len(data)
        while place < whole and (head := self._head.match(data, place)):
            size, start = int(head[self._length]), head.end()
            if self._most is not None and size > self._most:
                raise NoFrameError(f"a text of {size} bytes, and at most {self._most} are taken", TEXT_TOO_LONG)
            end = start + size
            if end >= whole:
                self._missing = end + 1 - whole
                break
            if data[end] != 10:
                raise NoFrameError("a text is longer than its length")
            yield head, data[start:end]
            place = end + 1
        else:
            line = data[place : place + LONGEST_HEAD]
            if b"\n" in line or len(line) == LONGEST_HEAD:
                raise NoFrameError(f"{line[:80]!r} is no head of a frame")
        self._pieces = [data[place:]] if place < whole else []


def request_of(head: re.Match[bytes], text: bytes) -> Request:
    name, plain, numbered, number, _ = head.groups()
    if numbered == b"by":
        return named_request(int(number), text)
    if plain or numbered:
        return Request((plain or numbered).decode("ascii"), None, None if plain else int(number), text)
    return Request("do", name, None, text)


def named_request(number: int, text: bytes) -> Request:
    """A message of a client with a name: its text is what comes after that. It has no name where there is none."""
    if number > GREATEST_NUMBER:
        raise NoFrameError(f"a message with the number {number}")
    named = NAMED.match(text)
    return Request("by", named[1] if named else None, number, text[named.end() :] if named else text)


def message(number: int, text: bytes) -> bytes:
    return b"do %d %d\n%s\n" % (number, len(text), text)


def named_message(name: bytes, number: int, text: bytes) -> bytes:
    """A message of a client, of which this text comes after its name."""
    return b"by %d %d\n%s%s\n" % (number, len(name) + len(text), name, text)


def question(text: bytes) -> bytes:
    return b"ask %d\n%s\n" % (len(text), text)


def answer_at(position: int, text: bytes) -> bytes:
    return b"ask %d %d\n%s\n" % (position, len(text), text)


def named_answer(number: int, text: bytes) -> bytes:
    return b"by %d %d\n%s\n" % (number, len(text), text)


def answer(number: int | None, text: bytes) -> bytes:
    return b"%s %d\n%s\n" % (b"ask" if number is None else b"%d" % number, len(text), text)
