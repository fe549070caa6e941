"""The name of a node among those of its log: one that runs has it by a lease, and no other may."""

from __future__ import annotations

import asyncio
import contextlib
import logging
from typing import Any

from .etcd import EtcdError, decoded, encoded
from .etcd_log import EtcdLog
from .replica import Replica

logger = logging.getLogger(__name__)

LEASE = 15
"""After so many seconds without a beat a node is none any more: its name is free, and nothing is kept for it."""

BEAT = 3.0
"""Seconds between two beats."""

PATIENCE = LEASE + 5.0
"""So many seconds a node waits for a name that another has, which may have died."""

TAKEN = "another node of this log goes by the name {}: give each a name of its own (--name)"


class TakenNameError(Exception):
    """A node that runs has this name."""


class Name:
    """A name, and the lease by which this node has it. What it wrote down of its lease beside the store tells its next life that it is the same."""

    def __init__(self, log: EtcdLog, name: str, replica: Replica) -> None:
        self.text, self.lease = name, 0
        self._etcd, self._replica, self._before = log.etcd, replica, replica.lease
        self._key = encoded(log.prefix + b"names/" + name.encode("ascii"))

    async def hold(self) -> None:
        """Takes the name, or keeps it for LEASE seconds more. Waits for one that another has, and raises TakenNameError where that goes on."""
        if self.lease and not await self._keep():
            self.lease = 0
        if not self.lease:
            self.lease = int((await self._etcd.call("/v3/lease/grant", {"TTL": LEASE}))["ID"])
        until = asyncio.get_running_loop().time() + PATIENCE
        is_told = False
        while not await self._take():
            if asyncio.get_running_loop().time() > until:
                await self.let_go()
                raise TakenNameError(TAKEN.format(self.text))
            if not is_told:
                logger.warning("another node has the name %s, or had it until now: waiting", self.text)
                is_told = True
            await asyncio.sleep(1)
            await self._keep()
        self._replica.note_lease(self.lease)

    async def run(self) -> None:
        """Keeps the name while this node runs, whatever else takes long."""
        while True:
            await asyncio.sleep(BEAT)
            try:
                await self.hold()
            except EtcdError as error:
                logger.error("etcd: %s", error)

    def is_held(self) -> dict[str, Any]:
        """What a transaction compares that is to do nothing once another node has the name."""
        return {"key": self._key, "target": "VALUE", "result": "EQUAL", "value": encoded(b"%d" % self.lease)}

    async def let_go(self) -> None:
        """Nobody has to wait for what this node had, where etcd can be told so."""
        lease, self.lease = self.lease, 0
        if lease:
            with contextlib.suppress(EtcdError, asyncio.TimeoutError):
                await asyncio.wait_for(self._etcd.call("/v3/lease/revoke", {"ID": str(lease)}), 2)

    async def _keep(self) -> bool:
        """Whether the lease goes on."""
        found = await self._etcd.call("/v3/lease/keepalive", {"ID": str(self.lease)})
        return int(found.get("result", {}).get("TTL", "0")) > 0

    async def _take(self) -> bool:
        """Whether it is this node's own now: it takes it where nobody has it, or its own earlier life."""
        put = {"request_put": {"key": self._key, "value": encoded(b"%d" % self.lease), "lease": str(self.lease)}}
        free = {"key": self._key, "target": "CREATE", "result": "EQUAL", "create_revision": "0"}
        found = await self._etcd.call("/v3/kv/txn", {"compare": [free], "success": [put], "failure": [{"request_range": {"key": self._key}}]})
        if found.get("succeeded"):
            return True
        held = decoded(found["responses"][0]["response_range"]["kvs"][0]["value"])
        if held != b"%d" % self._before:
            return held == b"%d" % self.lease
        same = {"key": self._key, "target": "VALUE", "result": "EQUAL", "value": encoded(held)}
        return bool((await self._etcd.call("/v3/kv/txn", {"compare": [same], "success": [put]})).get("succeeded"))
