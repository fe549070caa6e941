"""From which other node a store is taken."""

from __future__ import annotations

import asyncio
import time

from .etcd_log import EtcdLog
from .reports import Reports
from .seed import BusyGiverError, NoSeedError, Taker

PAUSE = 3.0
"""Seconds between two rounds of all nodes."""

PATIENCE = 15.0
"""So many seconds are waited for a node that gives its store: others may be starting too."""

LONG_PATIENCE = 600.0
"""And so many where one gives it to another node, or opens it."""


class Sources:
    """The nodes of a log that tell where they are reached, or one that an operator has named."""

    def __init__(self, log: EtcdLog, taker: Taker, name: str, place: str | None = None) -> None:
        self._log, self._taker, self._name, self._place = log, taker, name, place

    async def take(self, needed: int, patience: float = PATIENCE) -> tuple[int, str]:
        """Takes the store of the first one that gives it and has come as far as is needed; gives its position, and
        where that node is."""
        began = time.monotonic()
        while True:
            reasons: list[str] = []
            for place in [self._place] if self._place else await self._places():
                try:
                    return await self._taker.take(place, self._log.token, needed), place
                except NoSeedError as error:
                    reasons.append(f"{place}: {error}")
                    patience = LONG_PATIENCE if isinstance(error, BusyGiverError) else patience
            if time.monotonic() - began >= patience:
                raise NoSeedError("; ".join(reasons) or "no other one runs that says where it is reached")
            await asyncio.sleep(PAUSE)

    async def _places(self) -> list[str]:
        reports = await Reports(self._log).all()
        others = [(int(told["answered"]), str(told["at"])) for name, told in reports.items() if name != self._name]
        return [place for _, place in sorted(others, reverse=True) if place]
