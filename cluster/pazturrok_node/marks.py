"""Up to which entry a store has all for good: what an opening of it would tell."""

from __future__ import annotations

import asyncio
import logging
import uuid

from .appender import Appender
from .log import COMPARED, MARK, name_of_mark
from .looks import position_of
from .node import Node

logger = logging.getLogger(__name__)


class Marker:
    """Has stores write their position. A form does so; where the readtable of a store does not read that, its files
    are looked at."""

    def __init__(self, node: Node, appender: Appender, program: str, folder: str) -> None:
        self._node, self._appender, self._program, self._folder = node, appender, program, folder
        self._looked = 0
        self._looking: asyncio.Future[None] | None = None

    def mark(self, compares: bool = False) -> None:
        """Puts such a form into the log, for all stores of it."""
        name = name_of_mark() if self._node.log.is_shared else uuid.uuid4().hex.encode("ascii")
        self._appender.append(self, name, COMPARED if compares else MARK, lambda _: None)

    def heed(self) -> None:
        """Has the files looked at, where this store could not read a mark since."""
        node = self._node
        if node.unread_mark > max(node.lasting, self._looked) and (self._looking is None or self._looking.done()):
            self._looked = node.unread_mark
            self._looking = asyncio.ensure_future(self._look_at_files())

    async def _look_at_files(self) -> None:
        position = await position_of(self._program, self._folder)
        if position is not None:
            # the record that was seen is there for good once its message is answered
            await self._node.reach(position)
            self._node.lasting = max(self._node.lasting, position)
