"""The worlds of the stores are compared, each as it was after the same entry: so a store is found that came to
another one."""

from __future__ import annotations

import asyncio
import collections
import hashlib
import json
import logging
import re
import time
from collections.abc import AsyncIterator

from .etcd import EtcdError, among, decoded, encoded
from .etcd_log import EtcdLog
from .log import RefusedStoreError
from .marks import Marker
from .names import Name
from .node import Node
from .trim import Trimmer

logger = logging.getLogger(__name__)

BEAT = 3.0
"""Seconds between two looks for what the others have."""

RECORD = re.compile(rb"([0-9]+\.[0-9]+) rescue \(SETF \(GET '\|position\| '\|position\|\) ([0-9]+)\)\n")
"""What `log --places` tells of a record of the position."""

OTHER_WORLD = "after entry {} this store has another world than those of {}: {} of the nodes have the same one"
DIFFER = (
    "after entry {} the stores of {} have another world than this one, and no more nodes have the one than the other"
)


class Comparer:
    """Tells the others a digest of the store's world, and looks at theirs. A node whose world fewer have than another
    one is refused."""

    def __init__(self, log: EtcdLog, name: Name, node: Node, trimmer: Trimmer, every: float) -> None:
        self._log, self._name, self._node, self._trimmer, self._every = log, name, node, trimmer, every
        self._prefix = log.prefix + b"digests/"
        self._marked, self._number, self._digest = time.monotonic(), 0, ""

    async def run(self, marker: Marker, program: str, folder: str) -> None:
        await self._node.is_admitted.wait()
        while True:
            await asyncio.sleep(BEAT)
            try:
                self._mark(marker)
                if self._node.compared > self._number:
                    await self._tell(self._node.compared, program, folder)
                if self._digest:
                    await self._compare()
            except EtcdError as error:
                logger.error("etcd: %s", error)

    def _mark(self, marker: Marker) -> None:
        """Has the worlds compared, where something has come since, and it is this node that sees to the log."""
        is_due = self._every > 0 and time.monotonic() - self._marked > self._every
        if is_due and self._trimmer.is_holder and self._node.position > self._node.compared:
            self._marked = time.monotonic()
            marker.mark(compares=True)

    async def _tell(self, number: int, program: str, folder: str) -> None:
        self._number, self._digest = number, await digest_at(number, program, folder) or ""
        if not self._digest:
            logger.warning("the world after entry %d is not compared: a snapshot came after it", number)
            return
        key = encoded(self._prefix + self._name.text.encode("ascii"))
        put = {"request_put": {"key": key, "value": encoded(json.dumps([number, self._digest]).encode("ascii"))}}
        await self._log.etcd.call("/v3/kv/txn", {"compare": [self._name.is_held()], "success": [put]})

    async def _compare(self) -> None:
        found = await self._log.etcd.call("/v3/kv/range", among(self._prefix))
        names: dict[str, list[str]] = collections.defaultdict(list)
        for one in found.get("kvs", []):
            number, digest = json.loads(decoded(one["value"]))
            if number == self._number:
                names[digest].append(decoded(one["key"])[len(self._prefix) :].decode("ascii"))
        own = names.pop(self._digest, [])
        most: list[str] = max(names.values(), key=len, default=[])
        if len(most) > len(own):
            raise RefusedStoreError(OTHER_WORLD.format(self._number, ", ".join(most), len(most)))
        trouble = DIFFER.format(self._number, ", ".join(most)) if most and own else ""
        if trouble and trouble != self._node.difference:
            logger.error("%s", trouble)
        self._node.difference = trouble


async def digest_at(number: int, program: str, folder: str) -> str | None:
    """A digest of the world that the store had after this entry, by looks at its files; None where they do not tell
    it any more."""
    place, told = b"", hashlib.sha256()
    async for line in lines_of(program, "log", folder, "--places"):
        found = RECORD.fullmatch(line)
        if found and int(found[2]) == number:
            place = found[1]
    if not place:
        return None
    size = 0
    async for line in lines_of(program, "dump", folder, "--at", place.decode("ascii")):
        told.update(line)
        size += len(line)
    return told.hexdigest() if size else None


async def lines_of(*words: str) -> AsyncIterator[bytes]:
    """What a command that looks writes, in pieces that end with a line or are long."""
    pipe, nothing = asyncio.subprocess.PIPE, asyncio.subprocess.DEVNULL
    process = await asyncio.create_subprocess_exec(*words, stdout=pipe, stderr=nothing)
    assert process.stdout
    rest = b""
    while piece := await process.stdout.read(1 << 16):
        *lines, rest = (rest + piece).split(b"\n")
        for line in lines:
            yield line + b"\n"
        if len(rest) > 1 << 22:
            yield rest
            rest = b""
    if rest:
        yield rest
    await process.wait()
