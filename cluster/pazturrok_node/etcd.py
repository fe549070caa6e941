"""etcd by its gateway of HTTP and JSON, of version 3.4 or later: transactions, ranges, watches and leases."""

from __future__ import annotations

import asyncio
import base64
import contextlib
import json
import logging
import socket
import ssl
import time
import urllib.parse
from collections.abc import AsyncIterator, Iterable
from typing import Any

from .elections import FAULTS, Elections

logger = logging.getLogger(__name__)

TIMEOUT = 5.0
"""Seconds that a call may take, before another member is asked."""

QUICK = 1.5
"""And at most so many where it is a short one, for which clients wait."""

QUICKEST = 0.5
"""And at least so many of these."""

TYPICAL = 10.0
"""Between them a short call may take so many times as long as those before it took."""

MOST_TRIES = 4
"""So many tries of one call may be under way at once."""

PAUSE = 0.1
"""Seconds after a try that failed."""

MOST_DOUBLINGS = 3
"""A watch that told nothing in time is begun anew, and waited for twice as long, so often at most: a member that seeks all that a node has missed says
nothing meanwhile, and where it was left it would begin to seek again."""

SILENCE = 5.0
"""After so many seconds in which no member answers that is told; again after twice as many, and so on."""

UNABLE = (4, 10, 13, 14)
"""The codes by which a member says that it could not do a call, as one that has no leader does: another one is asked."""

BY_A_MEMBER = "/v3/cluster/member/list"
"""The one call that a member may answer by itself: each other one wants a leader, and a majority of the members."""

STATUS = "/v3/maintenance/status"
"""By which a member tells of itself, whether there is a leader or not."""


class EtcdError(Exception):
    """etcd answered that it does not do this."""


class CompactedError(EtcdError):
    """What was at this revision is not told any more."""


class PutBackError(Exception):
    """etcd has come back with less than it had told of: it is another one, or was put back to an older state."""


def encoded(text: bytes) -> str:
    return base64.b64encode(text).decode("ascii")


def decoded(text: str) -> bytes:
    return base64.b64decode(text)


class Connection:
    """A connection to one member, on which one call after the other goes."""

    def __init__(self, url: str, context: ssl.SSLContext | None) -> None:
        self._parts = urllib.parse.urlsplit(url)
        self._context = context
        self._reader: asyncio.StreamReader | None = None
        self._writer: asyncio.StreamWriter | None = None

    async def post(self, path: str, body: dict[str, Any]) -> tuple[int, dict[str, str]]:
        """Sends a body, and gives the status and the heads of the response."""
        if self._writer is None:
            secure = self._context if self._parts.scheme == "https" else None
            self._reader, self._writer = await asyncio.open_connection(
                self._parts.hostname, self._parts.port or 2379, ssl=secure, limit=1 << 24
            )
        text = json.dumps(body).encode("ascii")
        head = f"POST {path} HTTP/1.1\r\nHost: {self._parts.netloc}\r\nContent-Length: {len(text)}\r\n\r\n"
        self._writer.write(head.encode("ascii") + text)
        await self._writer.drain()
        return await self._heads()

    async def _heads(self) -> tuple[int, dict[str, str]]:
        assert self._reader
        status = (await self._reader.readline()).split()
        if len(status) < 2:
            raise ConnectionError("etcd closed a connection")
        heads = {}
        while (line := (await self._reader.readline()).strip()) != b"":
            name, _, value = line.partition(b":")
            heads[name.decode("latin-1").lower()] = value.strip().decode("latin-1")
        return int(status[1]), heads

    async def body(self, heads: dict[str, str]) -> bytes:
        assert self._reader
        if heads.get("transfer-encoding") == "chunked":
            return b"".join([chunk async for chunk in self.chunks()])
        return await self._reader.readexactly(int(heads.get("content-length", "0")))

    async def chunks(self) -> AsyncIterator[bytes]:
        assert self._reader
        while size := int((await self._reader.readline()).strip() or b"0", 16):
            yield await self._reader.readexactly(size)
            await self._reader.readexactly(2)
        await self._reader.readline()

    def close(self) -> None:
        self.cut()
        self._reader = self._writer = None

    def cut(self) -> None:
        """Who waits for something from it has its end."""
        if self._writer is not None:
            self._writer.close()


class Etcd:
    """The members of a cluster: a call goes to one of them, first of this machine, and to the next where it does not answer."""

    def __init__(self, urls: list[str], context: ssl.SSLContext | None = None) -> None:
        self._urls, self._context = sorted(urls, key=is_elsewhere), context
        self._at = self._watched = 0
        self._silent_since: float | None = None
        self._without_leader_since: float | None = None
        self._told = SILENCE
        self._free: list[tuple[int, Connection]] = []
        self._revision = 0
        """The greatest that was told. It never falls."""
        self._took = QUICK / TYPICAL
        """How many seconds calls take, the last ones above all."""
        self._silent: set[int] = set()
        """The members that did not answer the last call to them."""
        self._watch: Connection | None = None
        self._is_in_doubt = False
        """Whether a member was silent, or there is a new leader, and the watch has told nothing since: it may be that of a member which has
        stopped, and which no call goes to."""
        self._doublings = 0
        """How many watches, one after the other, told nothing in time."""
        self._elections = Elections(range(len(urls)), self._statuses)

    async def call(self, path: str, body: dict[str, Any], patience: float = TIMEOUT) -> dict[str, Any]:
        """The answer of a call, which is made until a member answers it: where none does in so many seconds, or where there is a new leader meanwhile, the
        next one is asked too. So it has to be one that may be made twice."""
        tries: dict[asyncio.Task[dict[str, Any] | None], int] = {}
        try:
            while True:
                if len(tries) == MOST_TRIES:
                    oldest = next(iter(tries))
                    del tries[oldest]
                    oldest.cancel()
                at, connection = self._take()
                one = asyncio.ensure_future(self._try(at, connection, path, body))
                # where another try has its answer first, nobody looks at this one
                one.add_done_callback(lambda done: done.cancelled() or done.exception())
                tries[one] = at
                ended, elected = await self._first_of(tries, patience)
                for one in ended:
                    del tries[one]
                    found = one.result()
                    if found is not None:
                        return found
                if ended:
                    await asyncio.sleep(PAUSE)
                else:
                    self._heed_silence(at, "it has not answered yet")
                    self._at = self._at if elected is None else elected
        finally:
            for one in tries:
                one.cancel()

    async def _first_of(self, tries: Iterable[asyncio.Task[Any]], patience: float) -> tuple[list[asyncio.Task[Any]], int | None]:
        """Those of the tries that end first; or none, and the place of a member that tells of a new leader, if one does, in so many seconds."""
        elected, soon = self._elections.next, min(patience, QUICKEST)
        for seconds in (soon, patience - soon):
            done, _ = await asyncio.wait({*tries, elected}, timeout=seconds, return_when=asyncio.FIRST_COMPLETED)
            if done:
                return [one for one in tries if one in done], elected.result() if elected.done() else None
            self._elections.begin()
        return [], None

    async def _statuses(self, at: int) -> AsyncIterator[dict[str, Any]]:
        """What a member tells of itself, again and again, on one connection; nothing where it does not answer."""
        connection = Connection(self._urls[at], self._context)
        try:
            while True:
                try:
                    found = await asyncio.wait_for(self._ask(connection, STATUS, {}), QUICK)
                except FAULTS:
                    connection.close()
                    found = {}
                yield found
                await asyncio.sleep(PAUSE)
        finally:
            connection.close()

    async def _try(self, at: int, connection: Connection, path: str, body: dict[str, Any]) -> dict[str, Any] | None:
        """What one member answers; None where it does not, or where another one, or the same again, is to be asked."""
        before, began = self._revision, time.monotonic()
        try:
            found = await asyncio.wait_for(self._ask(connection, path, body), MOST_TRIES * TIMEOUT)
        except FAULTS as error:
            connection.close()
            self._heed_silence(at, str(error) or type(error).__name__)
            return None
        except BaseException:
            connection.close()
            raise
        self._heed_leader(at, path, found, began)
        self._silent_since, self._told = None, SILENCE
        self._free.append((at, connection))
        self._took += (min(time.monotonic() - began, QUICK) - self._took) / TYPICAL
        self._heed_answer(at)
        if "error" not in found:
            self._look_back(path, found, before)
            return found
        if "compacted" in found["error"]:
            raise CompactedError(found["error"])
        if found.get("code") not in UNABLE:
            raise EtcdError(found["error"])
        self._leave(at)
        return None

    @property
    def quick(self) -> float:
        """How many seconds a short call may take."""
        return min(max(TYPICAL * self._took, QUICKEST), QUICK)

    def _heed_answer(self, at: int) -> None:
        """A member has answered. Where the one that is watched did not, or may not, this one is watched from now on."""
        self._silent.discard(at)
        if self._watched in self._silent or (self._is_in_doubt and self._watched != at):
            self._watched = at
            if self._watch:
                self._watch.cut()
        self._is_in_doubt = False

    def _heed_leader(self, at: int, path: str, found: dict[str, Any], began: float) -> None:
        """A member has answered a call. Where it could not do that, etcd has no leader, until a call that wants one is done; it had none either while no
        member answered just before."""
        if "error" not in found:
            if path != BY_A_MEMBER:
                self._without_leader_since = None
                self._is_in_doubt |= self._elections.end(at, found)
        elif is_unable(found):
            self._without_leader_since = self._without_leader_since or self._silent_since or began

    def _leave(self, at: int) -> None:
        """The next member is asked, unless another call has seen to that."""
        if at == self._at:
            self._at = (at + 1) % len(self._urls)

    async def of(self, url: str, path: str, patience: float = QUICK) -> dict[str, Any] | None:
        """What one member tells of itself; None where it does not answer in time."""
        connection = Connection(url, self._context)
        try:
            return await asyncio.wait_for(self._ask(connection, path, {}), patience)
        except FAULTS:
            return None
        finally:
            connection.close()

    async def of_each(self, path: str) -> dict[str, dict[str, Any]]:
        """The same of all members that answer."""
        found = await asyncio.gather(*(self.of(url, path) for url in self._urls))
        return {url: told for url, told in zip(self._urls, found) if told is not None}

    def _look_back(self, path: str, found: dict[str, Any], before: int) -> None:
        """PutBackError where a call was answered with a lower revision than one that had ended before it."""
        if path not in ("/v3/kv/range", "/v3/kv/txn", "/v3/kv/put"):
            # others tell what one member knows
            return
        revision = int(found["header"]["revision"])
        if revision < before:
            raise PutBackError
        self._revision = max(self._revision, revision)

    def _heed_silence(self, at: int, why: str) -> None:
        """A member does not answer, and the next one is asked. Tells an operator what keeps this node from etcd, now and then."""
        self._silent.add(at)
        self._is_in_doubt = True
        self._leave(at)
        now = time.monotonic()
        self._silent_since = self._silent_since or now
        silent = now - self._silent_since
        if silent > self._told:
            logger.warning("no member of etcd answers for %.0f s; %s: %s", silent, self._urls[at], why)
            self._told = 2 * silent

    @property
    def silent_seconds(self) -> float:
        """For how long no member has answered what was asked."""
        return 0.0 if self._silent_since is None else time.monotonic() - self._silent_since

    @property
    def without_leader_seconds(self) -> float:
        """For how long etcd has done nothing that wants a leader, though a member has answered."""
        return 0.0 if self._without_leader_since is None else time.monotonic() - self._without_leader_since

    async def look_at_members(self) -> None:
        """Tells an operator where etcd has more members than this node was given."""
        count = len((await self.call(BY_A_MEMBER, {})).get("members", []))
        if count > len(self._urls):
            logger.warning("--etcd names %d of %d members: where they stop, this node answers nothing", len(self._urls), count)

    def _take(self) -> tuple[int, Connection]:
        while self._free:
            at, connection = self._free.pop()
            if at == self._at:
                return at, connection
            connection.close()
        return self._at, Connection(self._urls[self._at], self._context)

    @staticmethod
    async def _ask(connection: Connection, path: str, body: dict[str, Any]) -> dict[str, Any]:
        _, heads = await connection.post(path, body)
        found = json.loads(await connection.body(heads))
        if not isinstance(found, dict):
            raise ValueError(found)
        return found

    async def watch(self, ranged: dict[str, Any], revision: int, pause: float) -> AsyncIterator[dict[str, Any]]:
        """The results of a watch from a revision on, one after the other, until its member is silent for so long; or for longer, where those before it
        told nothing at all."""
        at, patience, has_told = self._watched, 2**self._doublings, False
        self._watch = connection = Connection(self._urls[at], self._context)
        try:
            # results are cut to the size of a request: a member does not make one of all that a node has missed
            request = {**ranged, "start_revision": str(revision), "fragment": True}
            await asyncio.wait_for(connection.post("/v3/watch", {"create_request": request}), TIMEOUT * patience)
            text, chunks = b"", connection.chunks()
            while True:
                *lines, text = (text + await asyncio.wait_for(chunks.__anext__(), pause * patience)).split(b"\n")
                self._is_in_doubt = False
                for line in lines:
                    result = watched(json.loads(line))
                    if "events" in result:
                        self._doublings, patience, has_told = 0, 1, True
                    yield result
        except asyncio.TimeoutError:
            if not has_told:
                self._doublings = min(self._doublings + 1, MOST_DOUBLINGS)
        except (OSError, asyncio.IncompleteReadError, ValueError, StopAsyncIteration):
            pass
        finally:
            connection.close()
        if self._watched == at:
            # the next one, and first those that did not keep silent
            self._watched = min(range(len(self._urls)), key=lambda other: (other in self._silent, (other - at - 1) % len(self._urls)))
        await asyncio.sleep(PAUSE)


def is_unable(found: dict[str, Any]) -> bool:
    """Whether an error says that a member could not do a call. That of a stream, as of a lease's keepalive, has its code within."""
    error = found["error"]
    return (error.get("grpc_code", error.get("code")) if isinstance(error, dict) else found.get("code")) in UNABLE


def is_elsewhere(url: str) -> bool:
    """Whether a member is on another machine: nobody can listen at its address here."""
    with contextlib.suppress(OSError):
        for family, kind, protocol, _, address in socket.getaddrinfo(urllib.parse.urlsplit(url).hostname, 0, type=socket.SOCK_DGRAM):
            with contextlib.suppress(OSError), socket.socket(family, kind, protocol) as one:
                one.bind(address)
                return False
    return True


def watched(found: dict[str, Any]) -> dict[str, Any]:
    """The result that a watch tells, if it goes on."""
    result: dict[str, Any] = found.get("result", {})
    if int(result.get("compact_revision", "0")):
        raise CompactedError(f"what was before revision {result['compact_revision']} is compacted")
    if result.get("canceled") or "error" in found:
        raise ConnectionError(str(result.get("cancel_reason", found.get("error"))))
    return result


def among(prefix: bytes) -> dict[str, Any]:
    """The keys that begin with a prefix, which does not end with a byte 255."""
    return {"key": encoded(prefix), "range_end": encoded(among_end(prefix))}


def among_end(prefix: bytes) -> bytes:
    """The first key after them."""
    return prefix[:-1] + bytes([prefix[-1] + 1])
