"""A store is taken from another node: what that one gives, and how it comes in the place of the store that was there.

A copy is a line of JSON, which says whose it is, and the two halves. It stands in folders beside the halves:
`pazturrok-given` while it is given, `pazturrok-taken` while it comes, `pazturrok-whole` once it has come and was looked
at. What was there before is kept in `pazturrok-before`.
"""

from __future__ import annotations

import asyncio
import contextlib
import fcntl
import hashlib
import json
import logging
import os
import shutil
import ssl
from collections.abc import AsyncIterator, Iterator
from typing import Any, NamedTuple

from .frames import NO_DEVICE, NO_ROOM, VERSION
from .looks import position_of
from .node import Node
from .segments import sync_folder

logger = logging.getLogger(__name__)

HALVES = ("half-a", "half-b")
GIVEN, TAKEN, WHOLE, BEFORE = "pazturrok-given", "pazturrok-taken", "pazturrok-whole", "pazturrok-before"
"""The folders of this node's own. No other thing in the folder of a store is ever taken away."""

COPY = 1
"""The version of a copy."""

PIECE = 1 << 18
"""How many bytes are sent at once."""

PATIENCE = 10.0
"""Seconds in which a node has to be connected."""

LONG_PATIENCE = 900.0
"""And in which it has to have made its copy."""

SILENCE = 60.0
"""And in which more of it has to come."""

FAULTS = (OSError, asyncio.TimeoutError, asyncio.IncompleteReadError, ValueError, KeyError, TypeError)
"""What may be wrong with what comes from a node."""


class NoSeedError(Exception):
    """A node gives no store, or none that is of use."""


class BusyGiverError(NoSeedError):
    """A node gives none now, and may later."""


class Copy(NamedTuple):
    """A copy of a store that stands in a folder, with its line."""

    folder: str
    line: bytes
    size: int

    async def pieces(self) -> AsyncIterator[bytes]:
        yield b"seed %d\n%s" % (len(self.line) + self.size, self.line)
        for half in HALVES:
            with open(os.path.join(self.folder, half), "rb") as file:
                while piece := file.read(PIECE):
                    yield piece


class Giver:
    """Gives copies of a store, which goes on meanwhile: one at a time."""

    def __init__(self, name: str, program: str, folder: str, node: Node) -> None:
        self.name, self._program, self._folder, self._node = name, program, folder, node
        self._is_giving = False
        self._clear()

    def _clear(self) -> None:
        """Takes away what there is of a copy, also that of an earlier life."""
        for left in (GIVEN, GIVEN + ".partial"):
            shutil.rmtree(os.path.join(self._folder, left), ignore_errors=True)

    @contextlib.asynccontextmanager
    async def copy(self) -> AsyncIterator[Copy | bytes]:
        """A copy, or the refusal."""
        if self._is_giving or not self._node.is_admitted.is_set():
            yield NO_ROOM
            return
        self._is_giving = True
        path = os.path.join(self._folder, GIVEN)
        try:
            yield await self._made_or_refused(path)
        finally:
            self._is_giving = False
            self._clear()

    async def _made_or_refused(self, path: str) -> Copy | bytes:
        try:
            return await self._made(path)
        except (OSError, NoSeedError) as error:
            logger.error("a node has asked for a copy of the store, and none was made: %s", error)
            return NO_DEVICE

    async def _made(self, path: str) -> Copy:
        pipe, nothing = asyncio.subprocess.PIPE, asyncio.subprocess.DEVNULL
        words = (self._program, "backup", self._folder, path)
        process = await asyncio.create_subprocess_exec(*words, stdout=nothing, stderr=pipe)
        try:
            _, told = await process.communicate()
        except asyncio.CancelledError:
            process.kill()
            raise
        if process.returncode:
            raise NoSeedError(told.decode("utf-8", "replace").strip())
        logger.info("another node takes a copy of the store")
        return await asyncio.get_running_loop().run_in_executor(None, copy_of, path, self.name, self._node.log.token)


def copy_of(folder: str, name: str, token: str) -> Copy:
    paths = {half: os.path.join(folder, half) for half in HALVES}
    halves = {half: (os.path.getsize(path), digest_of(path)) for half, path in paths.items()}
    line = json.dumps({"copy": COPY, "node": name, "log": token, "halves": halves}).encode("ascii") + b"\n"
    return Copy(folder, line, sum(size for size, _ in halves.values()))


def digest_of(path: str) -> str:
    found = hashlib.sha256()
    with open(path, "rb") as file:
        while piece := file.read(PIECE):
            found.update(piece)
    return found.hexdigest()


class Taker:
    """Takes a store from another node, in place of that in a folder."""

    def __init__(self, folder: str, program: str, name: str, context: ssl.SSLContext | None) -> None:
        self._folder, self._program, self._name, self._context = folder, program, name, context

    async def take(self, place: str, token: str, needed: int) -> int:
        """Takes that of the node at this place, and gives its position. NoSeedError where it is none of this log, or
        has not come as far as is needed; then nothing has changed."""
        taken = os.path.join(self._folder, TAKEN)
        shutil.rmtree(taken, ignore_errors=True)
        os.makedirs(taken, mode=0o700)
        try:
            await self._receive(place, token, taken)
            position = await position_of(self._program, taken)
            if position is None:
                raise NoSeedError("what it gives is no store that this program opens")
            if position < needed:
                raise NoSeedError(f"its store is at {position}, and one at {needed} is needed")
            await asyncio.get_running_loop().run_in_executor(None, self._put_in_place, taken)
            return position
        except FAULTS as error:
            raise NoSeedError(str(error) or type(error).__name__) from error
        finally:
            shutil.rmtree(taken, ignore_errors=True)

    async def _receive(self, place: str, token: str, taken: str) -> None:
        reader, writer = await asyncio.wait_for(connected(place, self._context), PATIENCE)
        try:
            writer.write(b"version %d 0\n\nseed 0\n\n" % VERSION)
            for patience in (PATIENCE, LONG_PATIENCE):
                # the first answer is to the version
                head = await asyncio.wait_for(reader.readline(), patience)
                line = await asyncio.wait_for(reader.readline(), SILENCE)
                heed_refusal(head, line)
            for half, (size, digest) in self._halves_of(json.loads(line), token).items():
                await receive(reader, os.path.join(taken, half), size, digest)
        finally:
            writer.close()

    def _halves_of(self, told: dict[str, Any], token: str) -> dict[str, tuple[int, str]]:
        """The sizes and the digests of the halves, by the line of a copy."""
        if told["copy"] != COPY:
            raise NoSeedError(f"its copy is of version {told['copy']}, and this node knows {COPY}")
        if told["node"] == self._name:
            raise NoSeedError(f"it is {self._name} itself")
        if told["log"] != token:
            raise NoSeedError("it is a node of another log")
        return {half: (int(told["halves"][half][0]), str(told["halves"][half][1])) for half in HALVES}

    def _put_in_place(self, taken: str) -> None:
        for half in HALVES:
            with open(os.path.join(taken, half), "rb") as file:
                os.fsync(file.fileno())
        sync_folder(taken)
        with locked(self._folder):
            os.rename(taken, os.path.join(self._folder, WHOLE))
            sync_folder(self._folder)
            put_in_place(self._folder)


async def connected(place: str, context: ssl.SSLContext | None) -> tuple[asyncio.StreamReader, asyncio.StreamWriter]:
    """A connection to a node at HOST:PORT, or at the path of a socket."""
    if "/" in place:
        return await asyncio.open_unix_connection(place, limit=PIECE)
    host, _, port = place.rpartition(":")
    return await asyncio.open_connection(host.strip("[]"), int(port), ssl=context, limit=PIECE)


def heed_refusal(head: bytes, line: bytes) -> None:
    """NoSeedError where a node has refused what it was asked for."""
    if line.startswith(NO_ROOM):
        raise BusyGiverError("it gives its store to another node, or has to open it")
    if line.startswith(b"! "):
        raise NoSeedError(f"it answers {line.decode('ascii', 'replace').strip()}")
    if not line.endswith(b"\n"):
        raise NoSeedError(f"it closed the connection after {(head + line)[:80]!r}")


async def receive(reader: asyncio.StreamReader, path: str, size: int, digest: str) -> None:
    """Takes so many bytes into a file."""
    found = hashlib.sha256()
    with open(path, "xb", opener=lambda name, flags: os.open(name, flags, 0o600)) as file:
        while size:
            piece = await asyncio.wait_for(reader.read(min(size, PIECE)), SILENCE)
            if not piece:
                raise NoSeedError("it closed the connection within its copy")
            found.update(piece)
            file.write(piece)
            size -= len(piece)
    if found.hexdigest() != digest:
        raise NoSeedError("what came is not what it sent")


@contextlib.contextmanager
def locked(folder: str) -> Iterator[None]:
    """Has the store in the folder, so that no program opens it. NoSeedError where one has it."""
    with contextlib.ExitStack() as files:
        for half in HALVES:
            with contextlib.suppress(FileNotFoundError):
                file = files.enter_context(open(os.path.join(folder, half), "rb"))
                try:
                    fcntl.flock(file, fcntl.LOCK_EX | fcntl.LOCK_NB)
                except BlockingIOError:
                    raise NoSeedError(f"another program serves the store in {folder}") from None
        yield


def put_in_place(folder: str) -> bool:
    """Where a store was taken whole, puts its halves in the place of those that are there, which are kept. It may have
    been stopped within that, and is called again before the store is opened."""
    whole, before = os.path.join(folder, WHOLE), os.path.join(folder, BEFORE)
    # what has not come whole
    shutil.rmtree(os.path.join(folder, TAKEN), ignore_errors=True)
    if not os.path.isdir(whole):
        return False
    os.makedirs(before, mode=0o700, exist_ok=True)
    with contextlib.suppress(FileNotFoundError):
        # what the node knew of the store before
        os.replace(os.path.join(folder, "replica"), os.path.join(before, "replica"))
    for half in HALVES:
        new, own = os.path.join(whole, half), os.path.join(folder, half)
        if os.path.exists(new):
            if os.path.exists(own):
                os.replace(own, os.path.join(before, half))
            os.replace(new, own)
    sync_folder(before)
    sync_folder(folder)
    os.rmdir(whole)
    sync_folder(folder)
    return True
