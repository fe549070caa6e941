"""Clients: each sends requests on a connection, and gets the answers in their order."""

from __future__ import annotations

import asyncio
import collections
import itertools
import logging
import socket
import uuid
from collections.abc import Coroutine
from typing import Any

from . import VERSION
from .appender import Appender
from .etcd import EtcdError, PutBackError
from .frames import (
    LIMIT,
    NO_ROOM,
    NO_SUCH_ENTRY,
    OTHER_VERSION,
    REQUEST,
    VERSION_WITHOUT_NAMES,
    Frames,
    NoFrameError,
    Request,
    answer,
    answer_at,
    request_of,
)
from .frames import VERSION as VERSION_OF_FRAMES
from .log import Placed, Refused
from .named import Message, NamedMessages
from .node import Node, Told
from .seed import Giver

logger = logging.getLogger(__name__)

AT_ONCE = 1000
"""How many requests of one client may be under way, before more are read."""

UNREAD = 1 << 24
"""A client that leaves so many bytes of answers unread is let go. It may ask again, under the names of its requests."""

UNPLACED = 1 << 22
"""And so many bytes of its forms may wait for the log, before more are read."""

MOST_CLIENTS = 10_000
"""How many may be connected."""

LINGER = 2.0
"""Seconds in which a client that is refused may read why."""

PROBES = ((socket.TCP_KEEPIDLE, 60), (socket.TCP_KEEPINTVL, 20), (socket.TCP_KEEPCNT, 3))
"""After so many seconds of silence a machine is looked for, as often and so far apart."""


class Clients:
    def __init__(self, node: Node, appender: Appender, giver: Giver, most: int = MOST_CLIENTS) -> None:
        self.node, self.appender, self.giver, self._most = node, appender, giver, most
        self._connected: collections.OrderedDict[Client, None] = collections.OrderedDict()
        """Those that are connected, by their last request."""
        self.requests: collections.Counter[str] = collections.Counter()
        self.named = NamedMessages(node, appender)
        self._due: list[Client] = []
        """Those that have answers to send."""
        self._own, self._count = uuid.uuid4().hex, itertools.count()
        node.have_heard = self._send_all

    @property
    def version(self) -> int:
        """The greatest one of frames that this node knows now."""
        return VERSION_OF_FRAMES if self.node.log.takes_named else VERSION_WITHOUT_NAMES

    @property
    def greeting(self) -> bytes:
        """The answer to a client of this version, or of an older one."""
        return f'(:VERSION {self.version} :NODE "{VERSION}" :NAME "{self.giver.name}")'.encode("ascii")

    def new_name(self) -> bytes:
        """A name for a form that has none: no other node has it, and no other run of this one."""
        return b"%s-%d" % (self._own.encode("ascii"), next(self._count))

    @property
    def count(self) -> int:
        return len(self._connected)

    def serve(self) -> asyncio.Protocol:
        """What answers the requests of one more client, until it goes or sends what is no frame."""
        return Client(self)

    def take(self, client: Client) -> bool:
        """Takes one that has come. Where as many are connected as may be, the one goes that has asked nothing for longest; False where all
        wait for answers."""
        while len(self._connected) >= self._most:
            idle = next((client for client in self._connected if client.is_idle), None)
            if idle is None:
                logger.warning("%d clients wait for answers: another one is refused", len(self._connected))
                return False
            logger.warning("%d clients are connected: one that has asked nothing for longest is let go", len(self._connected))
            self.forget(idle)
            idle.let_go()
        self._connected[client] = None
        return True

    def forget(self, client: Client) -> None:
        self._connected.pop(client, None)

    def send_soon(self, client: Client) -> None:
        """Has the answers of a client sent once all are taken that have come."""
        if not self._due and not self.node.is_hearing:
            asyncio.get_running_loop().call_soon(self._send_all)
        self._due.append(client)

    def _send_all(self) -> None:
        due, self._due = self._due, []
        for client in due:
            client.send()

    def heed(self, client: Client, kind: str) -> None:
        """A client has sent a request."""
        self.requests[kind] += 1
        if client in self._connected:
            self._connected.move_to_end(client)


def keep_alive(transport: asyncio.BaseTransport) -> None:
    """Has the system look whether the machine of a client is still there: one that is gone is let go after two minutes."""
    one = transport.get_extra_info("socket")
    if one is not None and one.family in (socket.AF_INET, socket.AF_INET6):
        one.setsockopt(socket.SOL_SOCKET, socket.SO_KEEPALIVE, 1)
        for option, value in PROBES:
            one.setsockopt(socket.IPPROTO_TCP, option, value)


class Slot:
    """A request that has no answer yet, or whose answer waits for those before it."""

    __slots__ = ("answer", "is_begun", "request")

    def __init__(self, request: Request) -> None:
        self.request, self.is_begun = request, False
        self.answer: bytes | None = None


class Client(asyncio.Protocol):
    def __init__(self, clients: Clients) -> None:
        self._clients, self._node, self._appender = clients, clients.node, clients.appender
        self._frames = Frames(REQUEST, LIMIT)
        self._slots: collections.deque[Slot] = collections.deque()
        self._transport: asyncio.Transport | None = None
        self._works: set[asyncio.Task[None]] = set()
        self._unplaced = 0
        self._may_write = asyncio.Event()
        self._may_write.set()
        self._is_over = self._is_refused = self._is_paused = self._is_due = False

    @property
    def is_idle(self) -> bool:
        """Whether it waits for no answer."""
        return not self._slots

    def let_go(self) -> None:
        """Closes the connection, once what was answered is sent."""
        if self._transport is None:
            return
        if not self._is_refused:
            self._transport.close()
            return
        # what it sends now is read: where it is left unread, the system may take the refusal away from it
        self._is_refused = False
        if self._transport.can_write_eof():
            self._transport.write_eof()
        asyncio.get_running_loop().call_later(LINGER, self._transport.close)

    # What the loop tells of the connection

    def connection_made(self, transport: asyncio.BaseTransport) -> None:
        assert isinstance(transport, asyncio.Transport)
        self._transport = transport
        if self._clients.take(self):
            keep_alive(transport)
        else:
            transport.write(answer(0, NO_ROOM))
            transport.close()

    def connection_lost(self, exc: Exception | None) -> None:
        """Nobody waits for the answers any more. What is to be carried out will be."""
        self._clients.forget(self)
        self._transport = None
        self._slots.clear()
        for task in self._works:
            task.cancel()

    def data_received(self, data: bytes) -> None:
        if self._is_over:
            return
        try:
            for head, text in self._frames.split(data):
                self._take(request_of(head, text))
        except NoFrameError as error:
            self._refuse(error.refusal)
        self._pace()

    def eof_received(self) -> bool:
        self._end()
        # a connection by TLS has no half that stays open
        return self._transport is not None and self._transport.get_extra_info("sslcontext") is None

    def pause_writing(self) -> None:
        self._may_write.clear()
        self._pace()

    def resume_writing(self) -> None:
        self._may_write.set()
        self._pace()

    def _end(self) -> None:
        """The client sends no more: it goes once all that it asked before is answered."""
        self._is_over = True
        if self.is_idle:
            self.let_go()

    def _refuse(self, refusal: bytes) -> None:
        """The client has sent what is no request: once all that it asked before is answered it is told so, and goes."""
        self._is_over = self._is_refused = True
        slot = Slot(Request("", None, None, b""))
        slot.is_begun = True
        self._slots.append(slot)
        self._answer(slot, answer(0, refusal))

    def _pace(self) -> None:
        """Reads no more while too much is under way."""
        if self._transport is None or self._is_over:
            return
        wants = not self._may_write.is_set() or len(self._slots) >= AT_ONCE or self._unplaced > UNPLACED
        if wants != self._is_paused:
            self._is_paused = wants
            if wants:
                self._transport.pause_reading()
            else:
                self._transport.resume_reading()

    # Requests

    def _take(self, request: Request) -> None:
        if request.kind == "version" and not 1 <= (request.number or 0) <= self._clients.version:
            raise NoFrameError(f"a client of version {request.number}", OTHER_VERSION)
        if request.kind == "by" and not self._node.log.takes_named:
            raise NoFrameError("a message of a client with a name, which this log does not take")
        slot = Slot(request)
        self._slots.append(slot)
        self._clients.heed(self, request.kind)
        if request.kind == "do":
            slot.is_begun = True
            self._unplaced += len(request.text)
            name = request.name or self._clients.new_name()
            self._appender.append(self, name, request.text, lambda placed: self._take_place(slot, placed))
        elif request.kind == "by":
            slot.is_begun = True
            self._take_named(slot, request)
        elif request.kind == "version":
            slot.is_begun = True
            self._answer(slot, answer(None, self._clients.greeting))
        else:
            self._begin_first()

    def _take_place(self, slot: Slot, placed: Placed | None) -> None:
        """A form has come into the log, or will not."""
        self._count_placed(slot.request)
        if placed is None:
            self.let_go()
        elif isinstance(placed, Refused):
            self._answer(slot, answer(0, placed.answer))
        else:
            number = placed
            self._node.answers.answer_to(number, lambda text: self._answer(slot, answer(number, text)))

    def _take_named(self, slot: Slot, request: Request) -> None:
        """A message of a client with a name is put into the log."""

        def take(text: bytes | None) -> None:
            if text is None:
                self.let_go()
            else:
                self._answer(slot, text)

        self._unplaced += len(request.text)
        message = Message(self, request, take, lambda: self._count_placed(request), lambda: self._transport is not None)
        self._clients.named.append(message)

    def _count_placed(self, request: Request) -> None:
        """It waits for the log no more."""
        self._unplaced -= len(request.text)

    def _begin_first(self) -> None:
        """A question is asked once all before it is answered: so it sees what the same client has sent before."""
        if not self._slots or self._slots[0].is_begun:
            return
        slot = self._slots[0]
        slot.is_begun = True
        if slot.request.kind == "seed":
            self._work(self._give(slot))
        elif slot.request.kind == "read" or slot.request.number is not None and slot.request.number > self._node.position:
            self._work(self._ask_later(slot))
        else:
            self._ask(slot)

    def _work(self, work: Coroutine[Any, Any, None]) -> None:
        """Does what takes time, unless the client goes."""
        task = asyncio.ensure_future(work)
        self._works.add(task)
        task.add_done_callback(self._works.discard)

    async def _ask_later(self, slot: Slot) -> None:
        number, is_there = slot.request.number, True
        try:
            if number is None:
                await self._node.reach_last()
            else:
                is_there = await self._node.reach_entry(number)
        except (EtcdError, PutBackError):
            self.let_go()
            return
        if is_there:
            self._ask(slot)
        else:
            self._answer(slot, answer_at(self._node.position, NO_SUCH_ENTRY))

    async def _give(self, slot: Slot) -> None:
        """Sends a copy of the store, which other answers wait for."""
        async with self._clients.giver.copy() as copy:
            if isinstance(copy, bytes):
                self._answer(slot, answer(None, copy))
                return
            try:
                async for piece in copy.pieces():
                    await self._may_write.wait()
                    if self._transport:
                        self._transport.write(piece)
            except OSError as error:
                logger.error("a copy of the store cannot be read: %s", error)
                if self._transport:
                    self._transport.abort()
                return
        self._answer(slot, b"\n")

    def _ask(self, slot: Slot) -> None:
        def take(told: Told) -> None:
            has_number = slot.request.number is not None
            self._answer(slot, answer_at(told.position, told.text) if has_number else answer(None, told.text))

        self._node.ask(slot.request.text, take)

    # Answers

    def _answer(self, slot: Slot, text: bytes) -> None:
        slot.answer = text
        if self._slots and self._slots[0] is slot and not self._is_due:
            self._is_due = True
            self._clients.send_soon(self)

    def send(self) -> None:
        """Sends the answers that have come, in the order of the requests."""
        self._is_due = False
        texts: list[bytes] = []
        while self._slots and (text := self._slots[0].answer) is not None:
            texts.append(text)
            self._slots.popleft()
        if self._transport is None or not texts:
            return
        self._transport.write(b"".join(texts))
        if self._transport.get_write_buffer_size() > UNREAD + len(texts[-1]):
            self._transport.abort()
        self._begin_first()
        if self._is_over and self.is_idle:
            self.let_go()
        self._pace()
