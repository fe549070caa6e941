"""What a monitoring system asks of a node, by HTTP on a place of its own: GET /health and GET /metrics."""

from __future__ import annotations

import asyncio
import contextlib
import json
import time

from . import VERSION
from .clients import Clients
from .etcd_log import EtcdLog
from .journal import Journal
from .log import Log
from .node import Node

PATIENCE = 10.0
"""Seconds in which a request has to come."""

MOST_BYTES = 8192
"""And how many bytes it may have."""

SILENCE = 5.0
"""A node is not well where no member of etcd answers for so many seconds."""

WITHOUT_LEADER = 2.0
"""And where etcd has had no leader for so many seconds: a new one comes within a second or two."""

LATE = 30.0
"""And where its store is so many seconds behind that of another node."""

REASONS = {200: "OK", 400: "Bad Request", 404: "Not Found", 405: "Method Not Allowed", 503: "Service Unavailable"}

Sample = tuple[str, float]
"""The labels of a figure, in braces, and its value."""


class Monitor:
    def __init__(self, name: str, node: Node, clients: Clients) -> None:
        self._name, self._node, self._clients = name, node, clients

    async def serve(self, reader: asyncio.StreamReader, writer: asyncio.StreamWriter) -> None:
        """Answers one request, and closes the connection."""
        with contextlib.suppress(ConnectionError, asyncio.TimeoutError, asyncio.IncompleteReadError):
            status, kind, text = await self._answer(reader)
            head = f"HTTP/1.1 {status} {REASONS[status]}\r\nContent-Type: {kind}\r\nContent-Length: {len(text)}\r\nConnection: close\r\n\r\n"
            writer.write(head.encode("ascii") + text)
            await writer.drain()
        writer.close()

    async def _answer(self, reader: asyncio.StreamReader) -> tuple[int, str, bytes]:
        try:
            head = await asyncio.wait_for(reader.readuntil(b"\r\n\r\n"), PATIENCE)
        except asyncio.LimitOverrunError:
            return 400, "text/plain", b"a request has at most 8192 bytes\n"
        method, _, rest = head.partition(b" ")
        path = rest.split(b" ")[0].partition(b"?")[0]
        if path not in (b"/health", b"/metrics"):
            return 404, "text/plain", b"there are /health and /metrics\n"
        if method != b"GET":
            return 405, "text/plain", b"GET alone\n"
        if path == b"/metrics":
            return 200, "text/plain; version=0.0.4", self.metrics().encode("ascii")
        troubles = self.troubles()
        text = json.dumps({"healthy": not troubles, "troubles": troubles}) + "\n"
        return 503 if troubles else 200, "application/json", text.encode("ascii")

    def troubles(self) -> list[str]:
        """Why this node does not answer now; nothing where it is well."""
        found, silent = [], self._node.log.silent_seconds
        why = str(self._node.fault) and f" ({self._node.fault})"
        if not self._node.is_admitted.is_set():
            found.append(f"the store was not opened yet{why}")
        elif not self._node.is_running:
            found.append(f"the store has ended{why}, and is started again")
        if self._node.stuck:
            found.append(f"the store ends at entry {self._node.stuck} again and again")
        found += [trouble for trouble in (self._node.log.trouble, self._node.difference) if trouble]
        if silent > SILENCE:
            found.append(f"no member of etcd answers for {silent:.0f} s")
        if (without := without_leader_seconds(self._node.log)) > WITHOUT_LEADER:
            found.append(f"etcd has had no leader for {without:.0f} s")
        if (late := behind_seconds(self._node.log)) > LATE:
            found.append(f"the store is {late:.0f} s behind that of another node")
        return found

    def metrics(self) -> str:
        """The figures, as Prometheus reads them."""
        return "".join(figure(*one) for one in self._figures())

    def _figures(self) -> list[tuple[str, str, str, list[Sample]]]:
        node, log = self._node, self._node.log
        is_known = node.is_admitted.is_set()
        about = f'{{name="{self._name}",version="{VERSION}"}}'
        requests: list[Sample] = [(f'{{kind="{kind}"}}', self._clients.requests[kind]) for kind in ("do", "by", "ask", "read")]
        return [
            ("info", "gauge", "Which node this is.", [(about, 1)]),
            ("revision", "gauge", "The revision of the last entry that the store has answered.", [("", log.place(node.position) if is_known else 0)]),
            ("lasting_revision", "gauge", "A revision that an opening of the store would tell.", [("", log.place(node.lasting) if is_known else 0)]),
            ("entries_total", "counter", "Entries that the store has answered.", [("", node.count_of_entries)]),
            ("entries_under_way", "gauge", "Entries that were sent to the store and have no answer.", [("", node.under_way)]),
            ("requests_total", "counter", "Requests of clients.", requests),
            ("clients", "gauge", "Clients that are connected.", [("", self._clients.count)]),
            ("store_up", "gauge", "Whether the store runs.", [("", node.is_running)]),
            ("store_ends_total", "counter", "How often the store has ended by itself.", [("", node.count_of_ends)]),
            ("stuck", "gauge", "Whether the store ends at one entry again and again.", [("", node.stuck > 0)]),
            *figures_of(node.log),
        ]


def figures_of(log: Log) -> list[tuple[str, str, str, list[Sample]]]:
    """What is of one kind of log alone."""
    if isinstance(log, Journal):
        return [
            ("journal_names", "gauge", "Names that are kept.", [("", log.names)]),
            ("journal_bytes", "gauge", "Bytes of the journal.", [("", log.size)]),
        ]
    assert isinstance(log, EtcdLog)
    return [
        ("etcd_silent_seconds", "gauge", "For how long no member of etcd has answered.", [("", log.silent_seconds)]),
        ("etcd_without_leader_seconds", "gauge", "For how long etcd has done nothing that wants a leader.", [("", without_leader_seconds(log))]),
        ("behind_seconds", "gauge", "For how long another store has had what this one has not.", [("", behind_seconds(log))]),
        ("etcd_used_ratio", "gauge", "Which part of its quota a member of etcd uses.", [("", log.room.part)]),
    ]


def without_leader_seconds(log: Log) -> float:
    return log.etcd.without_leader_seconds if isinstance(log, EtcdLog) else 0.0


def behind_seconds(log: Log) -> float:
    """For how long the store of another node has had what this one has not carried out."""
    return time.monotonic() - log.behind_since if isinstance(log, EtcdLog) and log.behind_since is not None else 0.0


def figure(name: str, kind: str, about: str, samples: list[Sample]) -> str:
    lines = [f"# HELP pazturrok_node_{name} {about}", f"# TYPE pazturrok_node_{name} {kind}"]
    lines += [f"pazturrok_node_{name}{labels} {float(value):.15g}" for labels, value in samples]
    return "".join(line + "\n" for line in lines)
