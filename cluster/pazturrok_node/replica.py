"""Whether a store is a replica of a log: what its files say, what the log says, and what this node has written down of it."""

from __future__ import annotations

import asyncio
import hashlib
import json
import logging
import os
import random
import shutil
import time
from collections.abc import AsyncIterator
from typing import Any

from .child import Child
from .etcd_log import EPOCH, LAST_EPOCH, EtcdLog, Identity
from .log import BehindError, Entry, Keeper, RefusedStoreError
from .looks import takes_named
from .seed import NoSeedError, put_in_place
from .sources import Sources

logger = logging.getLogger(__name__)

WHILE, OFTEN = 600.0, 3
"""In so many seconds stores are taken from other nodes so often at most."""

VERSION = 1
"""Of what stands in it."""

NOTES = "replica"
"""The file beside the halves in which a node writes down what it knows of the store."""

RECORD = b" rescue (SETF (GET '|position| '|position|) "
"""What stands in the last record of a store that was fed nothing but messages."""

FIGURES = ("half", "generation", "records", "bytes", "half-a-bytes", "half-b-bytes")
"""What `info` tells of the files. A newer program may tell more."""

NO_LOG = "etcd has no log of this name, and this store is of one, at {}: begin one anew with the store that has come farthest (pazturrok-node begin)"
OTHER_WORLD = "the log begins with another world than that of this store: start all of them from copies of one store"
OTHER_LOG = "this store is of another log, at {}"
NEW = "this store is new, and the log began with another one"
NOTED = "{}: what a node writes down of its store is not what stands there: delete the file"
OTHER_VERSION = "{}: a node of another version has written it"
OTHER_WAY = "forms came into this store by another way than the log, after entry {}"
CHANGED = "the files have changed since the node was ended, at {}. If they are copies of another replica's, delete the file `replica` beside them"
AHEAD = "this store has come to {}, and the log ends before that: etcd is another one, or was put back to an older state"
OTHER_ENTRY = "the log has another entry {} than this store carried out: etcd is another one, or was put back to an older state"
SKIPPED = "the other stores skip entry {}, and this one may have carried it out"
NO_NAMES = "messages of clients with a name are in the log, and {} takes none: a newer program goes on with it"


class Replica(Keeper):
    """A store in a folder. Before each opening the node looks at it, and after it asks whether it is one of the log."""

    def __init__(self, log: EtcdLog, program: str, folder: str, sources: Sources) -> None:
        self._log, self._program, self._folder, self._sources = log, program, folder, sources
        self._path = os.path.join(folder, NOTES)
        put_in_place(folder)
        self._noted = self._read()
        self.lease: int = self._noted.get("lease", 0)
        """By which the node of this store has its name, or had it in its earlier life."""
        self._is_foreign = self._is_changed = False
        self.takes_named = False
        """Whether the program takes messages of clients with a name."""
        self._caught_up: list[float] = []
        """When stores were taken from other nodes."""

    def _read(self) -> dict[str, Any]:
        """What was written down; nothing of a new store, or of one that comes from elsewhere."""
        try:
            with open(self._path, encoding="ascii") as file:
                found = json.load(file)
        except FileNotFoundError:
            return {}
        except ValueError:
            found = None
        if not isinstance(found, dict) or not isinstance(found.get("lease", 0), int):
            raise RefusedStoreError(NOTED.format(self._path))
        if found.get("version", VERSION) != VERSION:
            raise RefusedStoreError(OTHER_VERSION.format(self._path))
        return found

    async def look(self) -> None:
        last = rest = b""
        async for piece in self._told("log"):
            *lines, rest = (rest + piece).split(b"\n")
            last = lines[-1] if lines else last
        self._is_foreign = last != b"" and RECORD not in last
        ended = self._noted.get("ended")
        self._is_changed = ended is not None and await self._figures() != figures_of(ended.split("; "))

    async def look_at_program(self) -> None:
        """Finds out what the program takes."""
        self.takes_named = await takes_named(self._program, self._folder)

    async def admit(self, position: int) -> None:
        identity = await self._log.identify()
        if self._log.has_named and not self.takes_named:
            raise RefusedStoreError(NO_NAMES.format(self._program))
        if identity is None:
            if position:
                raise RefusedStoreError(NO_LOG.format(position))
            identity = await self.begin(position)
        if position != identity.first or await self._world() != identity.world:
            await self._look_at_admission(position, identity)
        self._write(ended=None)

    async def _look_at_admission(self, position: int, identity: Identity) -> None:
        """The store is not the one with which the log begins."""
        if position == 0 and await self._is_new():
            raise BehindError(NEW, identity.first)
        if position == identity.first:
            raise RefusedStoreError(OTHER_WORLD)
        if position // EPOCH != identity.epoch:
            raise RefusedStoreError(OTHER_LOG.format(position))
        if self._is_foreign:
            raise RefusedStoreError(OTHER_WAY.format(position))
        if self._is_changed:
            raise RefusedStoreError(CHANGED.format(position))
        await self._compare(position, identity)

    async def _is_new(self) -> bool:
        """Whether the store has the world of one that the program has just made."""
        empty = os.path.join(self._folder, "pazturrok-empty")
        shutil.rmtree(empty, ignore_errors=True)
        child = await Child.start([self._program, "run", empty, "--messages"])
        try:
            if isinstance(child, Child):
                await child.end()
            return await self._world(empty) == await self._world()
        finally:
            shutil.rmtree(empty, ignore_errors=True)

    async def _compare(self, position: int, identity: Identity) -> None:
        """What the log has is what this store carried out, as far as that can be told."""
        if self._log.place(position) > await self._log.last():
            raise RefusedStoreError(AHEAD.format(position))
        seen = self._noted.get("seen")
        if seen and identity.epoch == seen["number"] // EPOCH:
            entry = await self._log.entry(seen["name"].encode("ascii"))
            is_there = entry is not None or self._log.place(seen["number"]) > await self._log.trimmed()
            if is_there and (entry is None or mark(entry) != seen["mark"]):
                raise RefusedStoreError(OTHER_ENTRY.format(seen["number"]))
        if not self._noted:
            self._write(skipped=sorted(number for number in await self._log.skipped() if number <= position))
        await self.heed_skips(position)

    async def heed_skips(self, position: int) -> None:
        for number in (await self._log.skipped()).keys() - set(self._noted.get("skipped", ())):
            if number <= position:
                raise RefusedStoreError(SKIPPED.format(number))

    async def begin(self, position: int, before: Identity | None = None) -> Identity:
        """Begins the log with this store, which a program has opened at this position, unless it has begun; or in place of the
        one before it, if that is there still and no node has it."""
        least = max(position // EPOCH, before.epoch if before else 0)
        epoch = least + random.randrange(1, 100 if least else 20_000)
        if epoch > LAST_EPOCH:
            raise RefusedStoreError(f"no log can begin after {position}")
        identity = Identity(epoch, position, await self._world())
        return await (self._log.begin_again(identity, before) if before else self._log.begin(identity))

    async def ended_at(self, number: int, refusal: bytes) -> None:
        """Nothing: an operator says whether all stores skip it."""

    async def catch_up(self, error: BehindError) -> None:
        """Takes the store of another node, which has come far enough; raises the error where none gives one."""
        now = time.monotonic()
        self._caught_up = [*(one for one in self._caught_up if one > now - WHILE), now]
        if len(self._caught_up) > OFTEN:
            raise error
        logger.warning("%s: the store of another node is taken", error)
        try:
            position, place = await self._sources.take(error.needed)
        except NoSeedError as why:
            raise BehindError(f"{error}. No other node gives its store ({why})", error.needed) from None
        self._noted = {}
        logger.info("the store of the node at %s is taken, at %d", place, position)

    # What is written down

    def will_skip(self, number: int) -> None:
        logger.warning("entry %d is skipped, as an operator said", number)
        self._write(skipped=sorted({*self._noted.get("skipped", ()), number}))

    def saw(self, entry: Entry) -> None:
        self._write(seen={"number": entry.number, "name": entry.name.decode("ascii"), "mark": mark(entry)})

    def note_lease(self, lease: int) -> None:
        """The node of this store has its name by this lease. It is written with the first note, which a new store has when it is admitted."""
        if lease != self.lease:
            self.lease = lease
            if self._noted:
                self._write()

    async def ended(self) -> None:
        self._write(ended=await self._figures())

    def _write(self, **noted: Any) -> None:
        self._noted.update(noted, lease=self.lease, version=VERSION)
        with open(self._path + ".new", "wb") as file:
            file.write(json.dumps(self._noted).encode("ascii") + b"\n")
            file.flush()
            os.fsync(file.fileno())
        os.replace(self._path + ".new", self._path)

    # Commands that only look

    async def _told(self, command: str, *further: str, folder: str = "") -> AsyncIterator[bytes]:
        """What a command tells of the store, piece after piece; nothing where there is none."""
        process = await asyncio.create_subprocess_exec(
            self._program, command, folder or self._folder, *further, stdout=asyncio.subprocess.PIPE, stderr=asyncio.subprocess.DEVNULL
        )
        assert process.stdout
        while piece := await process.stdout.read(1 << 16):
            yield piece
        await process.wait()

    async def _world(self, folder: str = "") -> str:
        told = hashlib.sha256()
        async for piece in self._told("dump", "--existing", folder=folder):
            told.update(piece)
        return told.hexdigest()

    async def _figures(self) -> str:
        text = b"".join([piece async for piece in self._told("info")])
        return figures_of(text.decode("ascii", "replace").split("\n"))


def figures_of(lines: list[str]) -> str:
    return "; ".join(line for line in lines if line.partition(" ")[0] in FIGURES)


def mark(entry: Entry) -> str:
    return hashlib.sha256(b"%d %s" % (entry.number, entry.text)).hexdigest()
