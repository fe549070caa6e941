"""Old entries are deleted: those that each store has for good, and that no client will send again."""

from __future__ import annotations

import asyncio
import collections
import contextlib
import logging
import time
from typing import Any

from . import room
from .etcd import CompactedError, EtcdError, among, among_end, decoded, encoded
from .etcd_log import NAMED, EtcdLog
from .log import MARKED
from .marks import Marker
from .names import Name
from .node import Node
from .reports import Reports

logger = logging.getLogger(__name__)

BEAT = 3.0
"""Seconds between two reports of a node."""

AT_ONCE = 100
"""How many entries are deleted by one transaction."""

FEW = 20
"""And how many where there is little room: a member frees them at once, and takes room for that."""

PAGE = 10_000
"""How many of them are asked for at once: etcd looks at all entries for that."""


class Trimmer:
    """Reports a node, and deletes old entries where no other node does. Entries stay `keep` seconds at least."""

    def __init__(self, log: EtcdLog, name: Name, node: Node, marker: Marker, keep: float, reports: Reports) -> None:
        self._name, self._node, self._marker, self._keep = name, node, marker, keep
        self._log, self._etcd, self._reports = log, log.etcd, reports
        self._holder = log.prefix + b"trimmer"
        self.is_holder = False
        """Whether it is this node that sees to the log."""
        self._marked, self._trimmed, self._noted = 0.0, 0, 0
        self._answered: collections.deque[tuple[float, int]] = collections.deque()
        """Up to where entries were carried out by some store, and when."""
        self._late: set[str] = set()

    async def run(self) -> None:
        """Does so for ever. A node whose store is not open yet is one of those that are waited for."""
        while True:
            try:
                await self._log.room.look()
                if self._node.is_admitted.is_set():
                    await self._look_at_store()
                reports = await self._report()
                if self._node.is_admitted.is_set():
                    await self._see_to_log(reports)
            except EtcdError as error:
                logger.error("etcd: %s", error)
            await asyncio.sleep(BEAT)

    async def _look_at_store(self) -> None:
        if self._node.position != self._noted:
            self._noted = self._node.position
            self._node.note()
        await self._node.heed_skips()
        self._marker.heed()

    async def _see_to_log(self, reports: dict[str, dict[str, Any]]) -> None:
        self.is_holder = await self._is_holder(self._name.text not in self._lag(reports))
        if self.is_holder:
            self._log.room.shorten()
            await self._trim(reports)

    async def _report(self) -> dict[str, dict[str, Any]]:
        """Reports this node, and gives the reports of all."""
        await self._reports.put(self._name, self._node)
        reports, now = await self._reports.all(), time.monotonic()
        await self._reports.look_at_names(reports)
        self._answered.append((now, max((told["answered"] for told in reports.values()), default=0)))
        while len(self._answered) > 1 and self._answered[1][0] < now - max(self._keep, room.LEAST):
            self._answered.popleft()
        ahead = (seen for seen, position in self._answered if position > self._node.position)
        self._log.behind_since = next(ahead, None) if self._node.is_admitted.is_set() else None
        return reports

    async def _is_holder(self, may_be: bool) -> bool:
        """Whether it is this node that trims: it takes the key where nobody has it, or lets it go, as its store lags and it can put nothing."""
        key, name = encoded(self._holder), self._name.text.encode("ascii")
        compare: dict[str, Any] = {"key": key, "target": "CREATE", "result": "EQUAL", "create_revision": "0"}
        if not may_be:
            own = {"key": key, "target": "VALUE", "result": "EQUAL", "value": encoded(name)}
            await self._etcd.call("/v3/kv/txn", {"compare": [own], "success": [{"request_delete_range": {"key": key}}]})
            return False
        put = {"request_put": {"key": key, "value": encoded(name), "lease": str(self._name.lease)}}
        found = await self._etcd.call("/v3/kv/txn", {"compare": [compare], "success": [put], "failure": [{"request_range": {"key": key}}]})
        if found.get("succeeded"):
            return True
        held = found["responses"][0]["response_range"].get("kvs", [])
        return bool(held) and decoded(held[0]["value"]) == name

    async def _trim(self, reports: dict[str, dict[str, Any]]) -> None:
        self._mark()
        is_crowded = self._log.room.is_crowded
        self._trimmed = self._trimmed or await self._log.trimmed()
        upto = await self._last_old(self._least(reports), is_crowded)
        if upto <= self._trimmed:
            return
        await self._log.will_trim(upto)
        count = FEW if is_crowded else AT_ONCE
        for ranged in ({"key": encoded(self._log.entries), "range_end": encoded(self._log.tail)}, among(self._log.batches)):
            while keys := await self._old_keys(ranged, upto):
                for place in range(0, len(keys), count):
                    deletes = [delete_old(key, upto) for key in keys[place : place + count]]
                    found = await self._etcd.call("/v3/kv/txn", {"success": deletes})
                    if is_crowded:
                        # what was deleted takes room until that is compacted; nodes that are behind then read what the keys hold
                        await self._compact(int(found["header"]["revision"]))
        self._trimmed = upto
        await self._compact(upto)

    async def _last_old(self, least: int, is_crowded: bool) -> int:
        """The last revision whose entries may be deleted, as all stores have those up to a position for good. Forms stay as long as a client may send them
        again under their names. A message of a client with a name needs none in the log: where there is little room it goes at once."""
        keep = min(self._keep, room.LEAST) if is_crowded else self._keep
        old = self._log.place(min(least, self._position_before(keep)))
        if is_crowded:
            first = await self._first_of_forms(old)
            old = max(old, min(self._log.place(least), first or self._log.place(least)))
        # what comes after a position may have its revision, so that one stays
        return old - 1

    async def _first_of_forms(self, revision: int) -> int:
        """The revision of the first entry since this one that is a form, and neither a mark nor a message of a client with a name; 0 where there is none."""
        entries, tail = self._log.entries, self._log.tail
        bounds = ((among_end(entries + MARKED), entries + NAMED), (among_end(entries + NAMED), tail))
        first: dict[str, Any] = {"min_create_revision": str(revision), "limit": "1", "sort_order": "ASCEND", "sort_target": "CREATE", "keys_only": True}
        reads = [{"request_range": {"key": encoded(begin), "range_end": encoded(end), **first}} for begin, end in bounds]
        found = await self._etcd.call("/v3/kv/txn", {"success": reads})
        keys = [kv for response in found["responses"] for kv in response["response_range"].get("kvs", [])]
        return min((int(kv["create_revision"]) for kv in keys), default=0)

    async def _compact(self, revision: int) -> None:
        with contextlib.suppress(CompactedError):
            await self._etcd.call("/v3/kv/compaction", {"revision": str(revision)})

    def _lag(self, reports: dict[str, dict[str, Any]]) -> set[str]:
        """The nodes whose stores lag by LEAST seconds."""
        wanted = self._position_before(room.LEAST)
        return {name for name, told in reports.items() if told["lasting"] < wanted and told["answered"] < wanted}

    def _least(self, reports: dict[str, dict[str, Any]]) -> int:
        """The position that the stores of all nodes have for good. Where there is little room no node is waited for that lags."""
        late = self._lag(reports) if self._log.room.is_crowded else set()
        if late - self._late:
            logger.error("etcd has little room: it is not waited any more for %s", ", ".join(sorted(late)))
        self._late = late
        return min((told["lasting"] for name, told in reports.items() if name not in late), default=0)

    def _mark(self) -> None:
        """Has all stores write their position now and then, where something has come since."""
        now = time.monotonic()
        pause = min(self._keep / 10, BEAT if self._log.room.is_crowded else self._keep)
        if self._node.position > max(self._node.lasting, self._node.unread_mark) and now - self._marked > pause:
            self._marked = now
            self._marker.mark()

    async def _old_keys(self, ranged: dict[str, Any], upto: int) -> list[str]:
        found = await self._etcd.call("/v3/kv/range", {**ranged, "keys_only": True, "max_create_revision": str(upto), "limit": str(PAGE)})
        return [entry["key"] for entry in found.get("kvs", [])]

    def _position_before(self, seconds: float) -> int:
        """Up to where a store had carried out entries so many seconds ago, or 0 where nobody has seen it."""
        moment = time.monotonic() - seconds
        return max((position for seen, position in self._answered if seen <= moment), default=0)


def delete_old(key: str, upto: int) -> dict[str, Any]:
    """An operation that deletes a key, unless it was made anew after a revision: it may be carried out late, and twice."""
    compare = {"key": key, "target": "CREATE", "result": "LESS", "create_revision": str(upto + 1)}
    return {"request_txn": {"compare": [compare], "success": [{"request_delete_range": {"key": key}}]}}
