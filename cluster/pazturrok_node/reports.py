"""What the nodes of a log tell of themselves in etcd, each under a lease."""

from __future__ import annotations

import json
from typing import TYPE_CHECKING, Any

from . import VERSION
from .etcd import among, decoded, encoded
from .etcd_log import EtcdLog

if TYPE_CHECKING:
    from .names import Name
    from .node import Node


class Reports:
    def __init__(self, log: EtcdLog, place: str = "", knows_named: bool = False) -> None:
        self._log, self._prefix, self._place = log, log.prefix + b"nodes/", place
        self._knows_named = knows_named
        """Whether this node and its program know messages of clients with a name."""

    async def put(self, name: Name, node: Node) -> None:
        """Tells it, where the name is still this node's; and those who watch the log see that it is alive."""
        told: dict[str, Any] = {"at": self._place, "version": VERSION}
        told |= {"answered": node.position, "lasting": node.lasting, "stuck": node.stuck, "named": self._knows_named}
        told["open"] = node.is_admitted.is_set()
        key = encoded(self._prefix + name.text.encode("ascii"))
        report = {"key": key, "value": encoded(json.dumps(told).encode("ascii")), "lease": str(name.lease)}
        beat = {"key": encoded(self._log.beat), "value": ""}
        puts = [{"request_put": report}, {"request_put": beat}]
        await self._log.etcd.call("/v3/kv/txn", {"compare": [name.is_held()], "success": puts})

    async def all(self) -> dict[str, dict[str, Any]]:
        """The reports by the names of their nodes, each with its lease."""
        found = await self._log.etcd.call("/v3/kv/range", among(self._prefix))
        reports = ((decoded(one["key"]), {**report_of(decoded(one["value"])), "lease": one.get("lease", "0")}) for one in found.get("kvs", []))
        return {key[len(self._prefix) :].decode("ascii"): report for key, report in reports}

    async def silence(self, lease: str) -> int:
        """For how many seconds a node has not kept its lease, which one that runs does every few seconds."""
        found = await self._log.etcd.call("/v3/lease/timetolive", {"ID": lease})
        return int(found.get("grantedTTL", "0")) - max(int(found.get("TTL", "0")), 0)

    async def look_at_names(self, reports: dict[str, dict[str, Any]]) -> None:
        """The log takes messages of clients with a name once all nodes that run know them."""
        self._log.may_take_named = self._knows_named and all(told["named"] for told in reports.values())
        if not self._log.has_named:
            # another node may have put one
            await self._log.identify()


def report_of(value: bytes) -> dict[str, Any]:
    """A report. What is none says that its node has carried out nothing: then nothing is deleted that it may want."""
    try:
        found = json.loads(value)
    except ValueError:
        found = None
    found = found if isinstance(found, dict) else {}
    numbers = ((kind, found.get(kind)) for kind in ("answered", "lasting", "stuck"))
    numbers_of = {kind: number if isinstance(number, int) else 0 for kind, number in numbers}
    texts_of = {kind: str(found.get(kind, "")) for kind in ("at", "version")}
    # an older node does not say whether its store is open
    return {**numbers_of, **texts_of, "named": found.get("named") is True, "open": found.get("open") is not False}
