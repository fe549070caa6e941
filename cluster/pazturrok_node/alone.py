"""A store on one machine for many clients: its log is the journal beside it."""

from __future__ import annotations

import asyncio
import logging
import time

from .journal import Journal
from .log import BehindError, Entry, FullError, Keeper
from .marks import Marker
from .node import Node

logger = logging.getLogger(__name__)

BEAT = 1.0
"""Seconds between two looks for what is old."""

PASSED = (b"! 56 ", b"! 64 ", b"! 65 ", b"! 90 ")
"""A form at which the store ends twice with one of these is answered so: it does not fit, or the program knows no such message, and the next ones
may."""


class AloneKeeper(Keeper):
    """The store is this node's alone, and nobody else has carried out what it has not."""

    def __init__(self, journal: Journal) -> None:
        self._journal = journal

    async def look(self) -> None:
        """Nothing: a store that was changed by another way is still the only one."""

    async def admit(self, position: int) -> None:
        await asyncio.get_running_loop().run_in_executor(None, self._journal.open, position)

    async def heed_skips(self, position: int) -> None:
        """Nothing: it is this node itself that skips."""

    async def ended_at(self, number: int, refusal: bytes) -> None:
        if not refusal.startswith(PASSED):
            return
        told = refusal.decode("ascii", "replace")
        try:
            await self._journal.skip(number, refusal)
        except FullError as error:
            logger.error("%s: the form with the number %d is tried once more before it is answered with %s", error, number, told)
        else:
            logger.warning("the form with the number %d is answered with %s, and is not tried again", number, told)

    def will_skip(self, number: int) -> None:
        """Nothing: the journal has it."""

    def saw(self, entry: Entry) -> None:
        """Nothing: the position tells it."""

    async def ended(self) -> None:
        """Nothing is written down."""

    async def catch_up(self, error: BehindError) -> None:
        """Nobody else has this store."""
        raise error


class Sweeper:
    """Deletes what is old from the journal, and looks for room where there was none. Has the store write its position now and then, where something has
    come since, so that it is known what the store would still have after a crash."""

    def __init__(self, journal: Journal, node: Node, marker: Marker, pause: float) -> None:
        self._journal, self._node, self._marker, self._pause = journal, node, marker, pause
        self._marked = time.monotonic()

    async def run(self) -> None:
        await self._node.is_admitted.wait()
        while True:
            await asyncio.sleep(BEAT)
            await self._journal.look_again()
            if self._journal.has_old:
                await self._journal.trim(self._node.lasting)
            self._marker.heed()
            is_due = self._journal.has_old or time.monotonic() - self._marked > self._pause
            if is_due and self._node.position > max(self._node.lasting, self._node.unread_mark):
                self._marked = time.monotonic()
                self._marker.mark()
