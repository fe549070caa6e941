"""Messages of clients with a name. The store says whether one was carried out before, and has its answer."""

from __future__ import annotations

import asyncio
import re
from collections.abc import Callable
from typing import NamedTuple

from .appender import Appender
from .etcd import EtcdError, PutBackError
from .frames import LOST, NO_FRAME, OTHER_TEXT, Request, named_answer
from .log import Placed, Refused, name_of_message
from .node import Node

ENTRY = re.compile(rb'\(([0-9]+)\.? "((?:[^"\\]|\\.)*)" "((?:[^"\\]|\\.)*)"\)', re.DOTALL)
"""What the store tells of a client: the number, the form and the answer of its last message."""


class Message(NamedTuple):
    """A message, who sent it, and who takes its answer; None is taken where nobody can say whether it is carried out."""

    sender: object
    request: Request
    take: Callable[[bytes | None], None]
    placed: Callable[[], None]
    """Is called once it waits for the log no more."""
    is_wanted: Callable[[], bool]
    """Whether somebody waits for its answer still."""

    @property
    def number(self) -> int:
        return self.request.number or 0

    @property
    def name(self) -> bytes:
        """That of its entry."""
        return name_of_message(self.request.name or b"", self.number)

    def answer(self, text: bytes) -> None:
        self.take(named_answer(self.number, text))


class NamedMessages:
    def __init__(self, node: Node, appender: Appender) -> None:
        self._node, self._appender = node, appender
        self._under_way: dict[bytes, tuple[int, bytes]] = {}
        """Those that have no answer: the number and the text of the entry. Who sends one again waits for that: each entry of a message for which there
        is no memory would end the store twice."""
        self._looks: set[asyncio.Task[None]] = set()

    def append(self, message: Message) -> None:
        """Puts it into the log, unless it is under way, and has its answer taken."""
        if message.request.name is None:
            message.placed()
            message.answer(NO_FRAME)
            return
        placed, text = self._under_way.get(message.name, (0, b""))
        if placed and text == message.request.text:
            message.placed()
            self._wait(message, placed)
            return
        self._appender.append(message.sender, message.name, message.request.text, lambda placed: self._take_place(message, placed))

    def _take_place(self, message: Message, placed: Placed | None) -> None:
        message.placed()
        if placed is None:
            message.take(None)
        elif isinstance(placed, Refused):
            look = asyncio.ensure_future(self._look(message, placed.answer))
            self._looks.add(look)
            look.add_done_callback(self._looks.discard)
        else:
            self._under_way[message.name] = placed, message.request.text
            self._wait(message, placed)

    def _wait(self, message: Message, placed: int) -> None:
        self._node.answers.answer_to(placed, lambda text: self._take_answer(message, placed, text))

    def _take_answer(self, message: Message, placed: int, text: bytes) -> None:
        if self._under_way.get(message.name, (0, b""))[0] == placed:
            del self._under_way[message.name]
        if text is LOST and message.is_wanted():
            # it was carried out as the store ended, which is asked for its answer by the same message
            self.append(message)
        else:
            message.answer(text)

    async def _look(self, message: Message, refusal: bytes) -> None:
        """Where there is no room for it: it may have been carried out before, and the store has its answer then."""
        try:
            await self._node.reach_last()
        except (EtcdError, PutBackError):
            message.take(None)
            return
        name = b"%%CLIENTS::|%s|" % (message.request.name or b"")
        question = b"(COMMON-LISP:GET (COMMON-LISP:QUOTE %s) (COMMON-LISP:QUOTE %%CLIENTS::%%MESSAGE))" % name
        self._node.ask(question, lambda told: message.answer(kept_answer(told.text, message, refusal)))


def kept_answer(entry: bytes, message: Message, refusal: bytes) -> bytes:
    """The answer to a message by what the store tells of its client; the refusal, where it was not carried out."""
    found = ENTRY.fullmatch(entry)
    if found is None or int(found[1]) < message.number:
        return refusal
    if int(found[1]) > message.number:
        return LOST
    form, answer = (re.sub(rb"\\(.)", rb"\1", found[place], flags=re.DOTALL) for place in (2, 3))
    return answer if b" " + form == message.request.text else OTHER_TEXT
