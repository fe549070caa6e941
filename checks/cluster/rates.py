"""Answers a second that many clients have of something, and medians of rounds.

Each client waits for an answer before it sends again.

The clients are in processes of their own, lean ones: what is measured has the rest of the machine.
"""
from __future__ import annotations

import argparse
import asyncio
import base64
import json
import multiprocessing
import os
import shlex
import statistics
import subprocess
import sys
import time
from collections.abc import Callable, Sequence
from multiprocessing.connection import Connection
from typing import NamedTuple, Union

FORM = b"(INCF (GET 'COUNTER 'KY))"
COUNTS = (1, 10, 100)
"""How many clients there are at once."""

PROCESSES = 3


def form(name: bytes, number: int) -> bytes:
    return b"do %s-%d %d\n%s\n" % (name, number, len(FORM), FORM)


def named(name: bytes, number: int) -> bytes:
    """A message of a client with a name."""
    return b"by %d %d\n%s %s\n" % (number, len(name) + 1 + len(FORM), name, FORM)


def redis(_name: bytes, _number: int) -> bytes:
    return b"*2\r\n$4\r\nINCR\r\n$7\r\ncounter\r\n"


def put(name: bytes, number: int) -> bytes:
    """A put of etcd, by the same gateway as that of a node."""
    key, value = (base64.b64encode(text).decode("ascii") for text in (b"own/%s/%d" % (name, number), FORM))
    body = json.dumps({"key": key, "value": value})
    return f"POST /v3/kv/put HTTP/1.1\r\nHost: etcd\r\nContent-Length: {len(body)}\r\n\r\n{body}".encode("ascii")


def length_of_answer(data: bytes) -> int:
    """Of one of a node; 0 where its head has not come. ValueError where it is a refusal."""
    head, newline, text = data.partition(b"\n")
    if text.startswith(b"! "):
        raise ValueError(data)
    return len(head) + int(head.split()[-1]) + 2 if newline else 0


def length_of_line(data: bytes) -> int:
    """Of one of redis. ValueError where it is a refusal."""
    if data.startswith(b"-"):
        raise ValueError(data)
    return data.find(b"\n") + 1


def length_of_response(data: bytes) -> int:
    """Of one of etcd. ValueError where it is a refusal."""
    head, empty, _ = data.partition(b"\r\n\r\n")
    if not empty:
        return 0
    if b" 200 " not in head.partition(b"\n")[0]:
        raise ValueError(data)
    return len(head) + 4 + int(head.lower().partition(b"content-length:")[2].partition(b"\r\n")[0])


class Kind(NamedTuple):
    """What a client sends, by its name and the number of its request, and how long the answer is that begins so."""

    request: Callable[[bytes, int], bytes]
    length: Callable[[bytes], int]


KINDS = {
    "forms": Kind(form, length_of_answer),
    "named": Kind(named, length_of_answer),
    "redis": Kind(redis, length_of_line),
    "puts": Kind(put, length_of_response),
}

Place = Union[str, list[Union[str, int]]]
"""The path of a socket, or a host and a port."""


class Rate(NamedTuple):
    """Answers a second, and the milliseconds that half of them and 99 of 100 took at most."""

    a_second: float
    half: float
    most: float


class Caller(asyncio.Protocol):
    """A client that sends a request, and the next one once that is answered."""

    def __init__(self, kind: Kind, name: bytes, until: float, times: list[float]) -> None:
        self._kind, self._name, self._until, self._times = kind, name, until, times
        self._number, self._begin, self._data = 0, 0.0, b""
        self._transport: asyncio.Transport | None = None
        self.ended: asyncio.Future[None] = asyncio.get_running_loop().create_future()

    def connection_made(self, transport: asyncio.BaseTransport) -> None:
        assert isinstance(transport, asyncio.Transport)
        self._transport = transport
        self._call()

    def _call(self) -> None:
        assert self._transport
        self._number, self._begin = self._number + 1, time.perf_counter()
        self._transport.write(self._kind.request(self._name, self._number))

    def data_received(self, data: bytes) -> None:
        assert self._transport
        self._data += data
        length = self._kind.length(self._data)
        if not length or len(self._data) < length:
            return
        self._data, now = b"", time.perf_counter()
        self._times.append(now - self._begin)
        if now < self._until:
            self._call()
        else:
            self._transport.close()

    def connection_lost(self, exc: Exception | None) -> None:
        self.ended.set_result(None)


async def call_all(kind: Kind, places: Sequence[Place], names: Sequence[bytes], seconds: float) -> list[float]:
    times: list[float] = []
    until, loop = time.perf_counter() + seconds, asyncio.get_running_loop()
    callers: list[Caller] = []
    for name in names:
        def make(name: bytes = name) -> Caller:
            return Caller(kind, name, until, times)

        place = places[int(name.rpartition(b"-")[2]) % len(places)]
        if isinstance(place, str):
            _, one = await loop.create_unix_connection(make, place)
        else:
            host, port = place
            _, one = await loop.create_connection(make, str(host), int(port))
        callers.append(one)
    await asyncio.gather(*(caller.ended for caller in callers))
    return times


def load(kind: str, places: Sequence[Place], names: Sequence[bytes], seconds: float, pipe: Connection) -> None:
    pipe.send(asyncio.run(call_all(KINDS[kind], places, names, seconds)))


def measured(kind: str, places: Sequence[Place], count: int, seconds: float, run: str) -> Rate:
    """The rate of so many clients. No other run has its name, or theirs."""
    names = [b"%s-%d-%d" % (run.encode("ascii"), count, number) for number in range(count)]
    ways, processes = [], []
    for place in range(min(PROCESSES, count)):
        mine, its = multiprocessing.Pipe()
        ways.append(mine)
        job = (kind, places, names[place::PROCESSES], seconds, its)
        processes.append(multiprocessing.Process(target=load, args=job))
        processes[-1].start()
    times = sorted(one for way in ways for one in way.recv())
    for process in processes:
        process.join()
    return Rate(len(times) / seconds, 1000 * times[len(times) // 2], 1000 * times[len(times) * 99 // 100])


class Subject(NamedTuple):
    """What is measured: a title, what is sent, and where to."""

    title: str
    kind: str
    places: list[Place]


def words(about: str | None) -> argparse.ArgumentParser:
    """The words that every measurement takes."""
    parser = argparse.ArgumentParser(description=about)
    parser.add_argument("program")
    parser.add_argument("--seconds", type=float, default=5)
    parser.add_argument("--rounds", type=int, default=3)
    parser.add_argument("--counts", default=",".join(map(str, COUNTS)))
    parser.add_argument("--room")
    parser.add_argument("--under", default="", help="a command that starts the measuring process, once all is up")
    return parser


def compare(subjects: Sequence[Subject], asked: argparse.Namespace) -> None:
    """Measures them in turn, by a process of its own, and prints medians beside those of the first one."""
    counts = [int(count) for count in asked.counts.split(",")]
    job = json.dumps([subjects, asked.seconds, asked.rounds, counts])
    subprocess.run([*shlex.split(asked.under), sys.executable, os.path.abspath(__file__), job], check=True)


def compared(subjects: Sequence[Subject], seconds: float, rounds: int, counts: Sequence[int]) -> None:
    for count in counts:
        found: dict[str, list[Rate]] = {one.title: [] for one in subjects}
        for round_ in range(rounds):
            for one in subjects:
                run = f"{os.getpid()}-{round_}-{one.kind}"
                found[one.title].append(measured(one.kind, one.places, count, seconds, run))
        first = found[subjects[0].title]
        for title, rates in found.items():
            ratio = statistics.median(one.a_second / other.a_second for one, other in zip(rates, first))
            tell(count, title, rates, ratio)


def tell(count: int, title: str, rates: Sequence[Rate], ratio: float) -> None:
    low, high = (value(one.a_second for one in rates) for value in (min, max))
    middle, half, most = (statistics.median(one[place] for one in rates) for place in range(3))
    print(
        f"{count:3} clients: {title:52} {middle:7,.0f} a second ({low:,.0f} to {high:,.0f}), {ratio:.2f} of the first; "
        f"half within {half:.2f} ms, 99 of 100 within {most:.2f} ms; load {os.getloadavg()[0]:.1f}",
        flush=True,
    )


if __name__ == "__main__":
    told, *further = json.loads(sys.argv[1])
    compared([Subject(*one) for one in told], *further)
