"""How full etcd is: beyond its quota it takes nothing at all, so forms are refused well before that."""

from __future__ import annotations

import asyncio
import logging

from .etcd import STATUS, Etcd

logger = logging.getLogger(__name__)

QUOTA = 2 << 30
"""That of a member of etcd that is given none."""

CROWDED = 0.3
"""From this part of the quota on entries stay as long as clients may need them, and no node is waited for that lags."""

FULL = 0.45
"""From this part on no form is taken: where much is deleted at once, the file of a member becomes twice as long as
what is used."""

LARGEST_FILE = 0.95
"""And from this part on that a member's file has, though much of it may be free: etcd takes nothing more then
either."""

WASTEFUL = 0.85
"""A file of this part, of which less than half is used, is made shorter: its member answers nothing meanwhile."""

LONGEST_PAUSE = 600.0
"""At most so many seconds that takes."""

LEAST = 150.0
"""Longer than a client sends a form again."""

REASON = "a member of etcd uses {:.0f} % of its quota: no form is taken"
ALARM = "etcd has raised an alarm ({}): no form is taken until that is disarmed"
FILE = "the file of a member of etcd has {:.0f} % of its quota: no form is taken until it is defragmented"


class Room:
    def __init__(self, etcd: Etcd, quota: int = QUOTA) -> None:
        self._etcd, self._quota = etcd, quota
        self._used = self._file = 0
        self._alarm = ""
        self._wasteful: str | None = None
        self._shortening: asyncio.Future[None] | None = None
        self._put = 0
        """Bytes that were put since it was looked last."""
        self._looking = asyncio.Lock()

    async def look(self) -> None:
        found = await self._etcd.of_each(STATUS)
        sizes = {url: int(told.get("dbSize", "0")) for url, told in found.items()}
        used = {url: int(told.get("dbSizeInUse", told.get("dbSize", "0"))) for url, told in found.items()}
        if found:
            self._used, self._file, self._put = max(used.values()), max(sizes.values()), 0
        self._alarm = next((one for told in found.values() for one in told.get("errors", ()) if "alarm:" in one), "").strip()
        wasteful = (url for url, size in sizes.items() if size > WASTEFUL * self._quota and used[url] < size / 2)
        self._wasteful = next(wasteful, None)

    def shorten(self) -> None:
        """Has the file of a member made shorter, one after the other, where much of it is free."""
        if self._wasteful and (self._shortening is None or self._shortening.done()):
            self._shortening = asyncio.ensure_future(self._defragment(self._wasteful))

    async def _defragment(self, url: str) -> None:
        logger.warning("%s: most of its file is free: it is defragmented", url)
        await self._etcd.of(url, "/v3/maintenance/defragment", LONGEST_PAUSE)
        await self.look()

    def count(self, size: int) -> None:
        """So many bytes are about to be put."""
        self._put += size

    async def heed(self) -> None:
        """Looks again, where much was put since."""
        async with self._looking:
            if self._put > self._quota // 50:
                await self.look()

    @property
    def part(self) -> float:
        """Of the quota that is used."""
        return (self._used + self._put) / self._quota

    @property
    def is_crowded(self) -> bool:
        return self.part > CROWDED or self._file > LARGEST_FILE * self._quota

    @property
    def is_alarmed(self) -> bool:
        """Whether etcd takes nothing at all."""
        return self._alarm != ""

    @property
    def reason(self) -> str | None:
        """Why no form is taken, or None."""
        if self._alarm:
            return ALARM.format(self._alarm)
        if self.part > FULL:
            return REASON.format(100 * self.part)
        if self._file > LARGEST_FILE * self._quota:
            return FILE.format(100 * self._file / self._quota)
        return None
