"""What clients send is put into the log: all that came while others were being put is put at once."""

from __future__ import annotations

import asyncio
import collections
import logging
import time
from collections.abc import Callable, Sequence
from typing import NamedTuple

from .frames import NO_ROOM
from .log import BusyError, FullError, Placed, Refused, is_named
from .node import Node

logger = logging.getLogger(__name__)

BETWEEN = 10.0
"""Seconds between two lines that there is no room."""

PAUSE = 1.0
"""Seconds after which entries are put again that the log did not take for now."""


class Unplaced(NamedTuple):
    """A request that is no entry yet, who sent it, and how far its node had come when it came.

    Taken is None where it waited for so long that an entry of its name may be deleted already.
    """

    sender: object
    name: bytes
    text: bytes
    position: int
    take: Callable[[Placed | None], None]


class Appender:
    def __init__(self, node: Node) -> None:
        self._node, self._log = node, node.log
        self._waiting: collections.deque[Unplaced] = collections.deque()
        self._senders: set[object] = set()
        """Who has requests that are being put: no others of theirs are put beside them, and so they are in the log in
        their order."""
        self._idle: list[asyncio.Future[None]] = []
        """Lanes that have nothing to put."""
        self._told = -BETWEEN
        """When it was told last that there is no room."""
        self._first = 0
        """The position of the store as it was opened, before any of them came."""
        self._is_due = self._has_begun = False
        self._fault: asyncio.Future[None] | None = None

    def append(self, sender: object, name: bytes, text: bytes, take: Callable[[Placed | None], None]) -> None:
        """Puts an entry into the log, once, however often it is tried, and after those of earlier calls of this sender."""
        self._waiting.append(Unplaced(sender, name, text, self._node.position, take))
        if not self._is_due:
            self._is_due = True
            asyncio.get_running_loop().call_soon(self._put_all)

    async def run(self) -> None:
        """Puts them, for ever."""
        await self._node.is_admitted.wait()
        self._first = self._node.position
        self._fault = asyncio.get_running_loop().create_future()
        self._has_begun = True
        await asyncio.gather(self._fault, *(self._work() for _ in range(self._log.lanes)))

    def _put_all(self) -> None:
        """Puts what came in this turn of the loop, by one write where the log is quick, or else by a lane."""
        self._is_due = False
        if self._fault and self._fault.done():
            # the device has failed: a sync that succeeds after one that failed tells nothing of what that one left out
            return
        try:
            while self._has_begun and self._log.is_quick and not self._senders and (some := self._take()):
                self._place_at_once(some)
        except OSError as error:
            # the device has failed: that ends `run`
            if self._fault and not self._fault.done():
                self._fault.set_exception(error)
            return
        if self._waiting:
            self._wake()

    def _place_at_once(self, some: Sequence[Unplaced]) -> None:
        try:
            numbers: Sequence[Placed] = self._log.append_at_once([(one.name, one.text) for one in some])
        except FullError as error:
            numbers = self._refused(some, error)
        for one, number in zip(some, numbers):
            one.take(number)

    async def _work(self) -> None:
        while True:
            while not (some := self._take()):
                idle: asyncio.Future[None] = asyncio.get_running_loop().create_future()
                self._idle.append(idle)
                await idle
            senders = {one.sender for one in some}
            self._senders |= senders
            try:
                await self._place(some)
            finally:
                self._senders -= senders
            self._wake()

    def _wake(self) -> None:
        """A lane looks for what it may put."""
        while self._idle:
            idle = self._idle.pop()
            if not idle.done():
                idle.set_result(None)
                return

    async def _place(self, some: list[Unplaced]) -> None:
        numbers = None
        while some and (numbers := await self._put(some)) is None:
            some = await self._leave(some)
        for one, number in zip(some, numbers or ()):
            one.take(number)

    async def _leave(self, some: Sequence[Unplaced]) -> list[Unplaced]:
        """Lets go of those that came before entries which are deleted now: the client may have sent them to another
        node since."""
        trimmed = await self._log.trimmed()
        stay = [one for one in some if self._log.place(self._floor_of(one)) > trimmed]
        for one in some:
            if one not in stay:
                one.take(None)
        if len(stay) < len(some):
            logger.warning("%d requests waited for longer than entries are kept, and are left", len(some) - len(stay))
        return stay

    def _floor_of(self, one: Unplaced) -> int:
        """No entry after this number may be deleted, or one of that name may have been. A message of a client with a name may be put again: the store
        knows whether it was carried out."""
        return max(self._node.position if is_named(one.name) else one.position, self._first)

    async def _put(self, some: Sequence[Unplaced]) -> list[Placed] | None:
        floor = min(map(self._floor_of, some))
        while True:
            try:
                return list(await self._log.append([(one.name, one.text) for one in some], floor) or ()) or None
            except BusyError as error:
                logger.error("%s", error)
                await asyncio.sleep(PAUSE)
            except FullError as error:
                return self._refused(some, error)

    def _refused(self, some: Sequence[Unplaced], error: FullError) -> list[Placed]:
        """What those have for whom there is no room, beside those that the log has already."""
        self._tell_full(error)
        return [error.placed.get(one.name, Refused(NO_ROOM)) for one in some]

    def _tell_full(self, error: FullError) -> None:
        now = time.monotonic()
        if now > self._told + BETWEEN:
            logger.error("%s", error)
            self._told = now

    def _take(self) -> list[Unplaced]:
        """The first ones that wait, of different names, as many as may be appended at once."""
        some: list[Unplaced] = []
        size, names, later = 0, set(), []
        while self._waiting and len(some) < self._log.most_entries:
            one = self._waiting[0]
            if one.sender in self._senders:
                later.append(self._waiting.popleft())
                continue
            size += len(one.text)
            if one.name in names or (some and size > self._log.most_bytes):
                break
            names.add(one.name)
            some.append(self._waiting.popleft())
        self._waiting.extendleft(reversed(later))
        return some
