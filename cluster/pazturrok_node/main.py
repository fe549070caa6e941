"""The command line of a node."""

from __future__ import annotations

import argparse
import asyncio
import contextlib
import errno
import logging
import os
import resource
import signal
import socket
import ssl
import stat
import subprocess
from collections.abc import Coroutine
from typing import Any

from .alone import AloneKeeper, Sweeper
from .appender import Appender
from .clients import MOST_CLIENTS, Clients
from .compare import Comparer
from .etcd import Etcd, EtcdError, PutBackError
from .etcd_log import EtcdLog
from .faults import ENDED_BY_DEVICE, NO_STORE, is_of_device
from .journal import Journal
from .log import BehindError, RefusedStoreError
from .marks import Marker
from .monitor import MOST_BYTES, Monitor
from .names import Name, TakenNameError
from .node import Node
from .orders import begin, seed, skip, tell_nodes
from .replica import Replica
from .reports import Reports
from .room import QUOTA
from .seed import Giver, Taker
from .sources import Sources
from .tasks import end_all
from .trim import Trimmer
from .words import words

logger = logging.getLogger(__name__)

REFUSED = "%s. Nothing more is carried out"
PUT_BACK = "etcd is another one, or was put back to an older state, while this node ran"
SEED_ALONE = "a store that was put back goes without the journal of the one before it"
SEED = "have it take the store of another node (pazturrok-node seed)"

DEVICE_FAILED = "%s. The device has failed, and what the system still has in memory is not what the disk has: look at the disk, and start the machine anew before this node"

HALVES = ("half-a", "half-b")

NO_AUTHORITY = "{}: it is no certificate of who signs for others: {}"
NO_CERTIFICATE = "{}: it is no certificate with its key: {}"

SOON = 30 * 24 * 3600
"""A certificate that ends within so many seconds is told."""

SPARE = 100
"""So many descriptors are for etcd, the store and the files beside it, and not for clients."""


def context_for_etcd(asked: argparse.Namespace) -> ssl.SSLContext | None:
    return context_to(asked.etcd_ca, asked.etcd_cert) if "https:" in asked.etcd else None


def context_to(authority: str | None, certificate: str | None) -> ssl.SSLContext:
    """By which this node is a client of others."""
    try:
        context = ssl.create_default_context(cafile=authority)
    except OSError as error:
        raise OSError(NO_AUTHORITY.format(authority, error)) from None
    if certificate:
        load_own(context, certificate)
    return context


def load_own(context: ssl.SSLContext, certificate: str) -> None:
    """OSError, which names the file, where it is none or is over."""
    try:
        context.load_cert_chain(certificate)
    except OSError as error:
        raise OSError(NO_CERTIFICATE.format(certificate, error)) from None


def free_socket(place: str) -> None:
    """Takes away a socket at which nobody listens any more. OSError where somebody does, or where another thing is there."""
    if not os.path.lexists(place):
        return
    if not stat.S_ISSOCK(os.lstat(place).st_mode):
        raise OSError(errno.EEXIST, "it is no socket", place)
    with socket.socket(socket.AF_UNIX) as one:
        try:
            one.connect(place)
        except ConnectionRefusedError:
            os.unlink(place)
            return
    raise OSError(errno.EADDRINUSE, "somebody listens there", place)


async def listen(place: str, clients: Clients, context: ssl.SSLContext | None) -> asyncio.AbstractServer:
    """Hears clients at HOST:PORT, or at the path of a socket."""
    loop = asyncio.get_running_loop()
    if "/" in place:
        free_socket(place)
        return await loop.create_unix_server(clients.serve, place, backlog=1024)
    host, _, port = place.rpartition(":")
    return await loop.create_server(clients.serve, host.strip("[]"), int(port), ssl=context, backlog=1024)


async def listen_to_monitors(place: str, monitor: Monitor) -> asyncio.AbstractServer:
    if "/" in place:
        free_socket(place)
        return await asyncio.start_unix_server(monitor.serve, place, limit=MOST_BYTES)
    host, _, port = place.rpartition(":")
    return await asyncio.start_server(monitor.serve, host.strip("[]"), int(port), limit=MOST_BYTES)


def place_for_nodes(asked: argparse.Namespace) -> str:
    """Where other nodes reach this one."""
    place = str(asked.advertise or asked.listen)
    if "/" in place:
        return os.path.abspath(place)
    return "" if place.rpartition(":")[0].strip("[]") in ("0.0.0.0", "::", "") else place


def context_for_nodes(asked: argparse.Namespace) -> ssl.SSLContext | None:
    """By which this node asks another one."""
    return context_to(asked.client_ca, asked.cert) if asked.cert else None


def context_for_clients(asked: argparse.Namespace) -> ssl.SSLContext | None:
    if not asked.cert:
        return None
    context = ssl.SSLContext(ssl.PROTOCOL_TLS_SERVER)
    load_own(context, asked.cert)
    if asked.client_ca:
        try:
            context.load_verify_locations(asked.client_ca)
        except OSError as error:
            raise OSError(NO_AUTHORITY.format(asked.client_ca, error)) from None
        context.verify_mode = ssl.CERT_REQUIRED
    return context


async def hold_name(name: Name) -> None:
    """Takes the name. Where etcd is full it waits until an operator has made room."""
    while True:
        try:
            return await name.hold()
        except EtcdError as error:
            if "space exceeded" not in str(error):
                raise
            logger.error("etcd: %s: waiting", error)
        await asyncio.sleep(3)


async def has_name(name: Name, stop: asyncio.Task[bool]) -> bool:
    """Takes the name; or gives false, where the end is asked for before that."""
    taking = asyncio.ensure_future(hold_name(name))
    await asyncio.wait([taking, stop], return_when=asyncio.FIRST_COMPLETED)
    if not taking.done():
        await end_all([taking], 1)
        return False
    taking.result()
    return True


def descriptors() -> int:
    """Takes as many as this process may have, and gives how many clients that leaves room for."""
    most = resource.getrlimit(resource.RLIMIT_NOFILE)[1]
    resource.setrlimit(resource.RLIMIT_NOFILE, (most, most))
    return MOST_CLIENTS if most == resource.RLIM_INFINITY else max(most - SPARE, 1)


def until_signal() -> asyncio.Task[bool]:
    """Ends once a signal asks for the end."""
    ended = asyncio.Event()
    for number in (signal.SIGTERM, signal.SIGINT):
        asyncio.get_running_loop().add_signal_handler(number, ended.set)
    return asyncio.ensure_future(ended.wait())


async def serve(asked: argparse.Namespace, stop: asyncio.Task[bool], node: Node, appender: Appender, *works: Coroutine[Any, Any, None]) -> None:
    """Serves clients until the end is asked for, or the store or the name is refused."""
    giver = Giver(asked.name, asked.program, asked.order[1], node)
    clients = Clients(node, appender, giver, min(asked.most_clients, descriptors()))
    try:
        servers = [await listen(asked.listen, clients, context_for_clients(asked))]
        if asked.monitor:
            servers.append(await listen_to_monitors(asked.monitor, Monitor(asked.name, node, clients)))
    except OSError:
        for work in works:
            work.close()
        raise
    ready = asyncio.ensure_future(tell_ready(asked, node))
    tasks = [stop, *(asyncio.ensure_future(one) for one in (node.run(), appender.run(), *works))]
    done, others = await asyncio.wait(tasks, return_when=asyncio.FIRST_COMPLETED)
    for server in servers:
        server.close()
    await end_all([*others, ready], 15)
    for task in done:
        task.result()
    await node.end()


async def tell_ready(asked: argparse.Namespace, node: Node) -> None:
    """Tells that clients are answered from now on."""
    await node.is_admitted.wait()
    logger.info("ready: the store is at %d, and clients are heard at %s", node.position, asked.listen)
    if isinstance(node.log, EtcdLog):
        with contextlib.suppress(EtcdError):
            await node.log.etcd.look_at_members()


async def serve_alone(asked: argparse.Namespace) -> int:
    """A store on this machine, without etcd."""
    folder = asked.order[1]
    if asked.existing and not all(os.path.exists(os.path.join(folder, half)) for half in HALVES):
        # as where a disk is not mounted: no journal is made in its place
        raise FileNotFoundError(errno.ENOENT, NO_STORE, folder)
    journal = Journal(folder, asked.keep)
    node = Node(journal, AloneKeeper(journal), program_of(asked), asked.store_silence)
    appender = Appender(node)
    marker = Marker(node, appender, asked.program, folder)
    await serve(asked, until_signal(), node, appender, Sweeper(journal, node, marker, asked.keep / 10).run())
    return 0


async def serve_log(asked: argparse.Namespace, log: EtcdLog, replica: Replica) -> int:
    """A replica of a store, by a log in etcd."""
    name, stop = Name(log, asked.name, replica), until_signal()
    await replica.look_at_program()
    reports = Reports(log, place_for_nodes(asked), replica.takes_named)
    if not await has_name(name, stop):
        return 0
    await reports.look_at_names(await reports.all())
    node = Node(log, replica, program_of(asked), asked.store_silence)
    appender = Appender(node)
    marker = Marker(node, appender, asked.program, asked.order[1])
    trimmer = Trimmer(log, name, node, marker, asked.keep, reports)
    comparer = Comparer(log, name, node, trimmer, asked.compare_every)
    try:
        await serve(asked, stop, node, appender, name.run(), trimmer.run(), comparer.run(marker, asked.program, asked.order[1]))
    finally:
        await name.let_go()
    return 0


def program_of(asked: argparse.Namespace) -> list[str]:
    """The words of the program over the store."""
    further = ["--snapshot-every", asked.snapshot_every] if asked.snapshot_every else []
    flags = [word for word, is_given in (("--existing", asked.existing), ("--one-sync", asked.one_sync)) if is_given]
    return [asked.program, "run", asked.order[1], "--messages", *further, *flags]


async def follow(asked: argparse.Namespace) -> int:
    order, thing = asked.order
    if asked.alone:
        return await serve_alone(asked)
    log = EtcdLog(Etcd(asked.etcd.split(","), context_for_etcd(asked)), asked.log, asked.quota or QUOTA)
    if order in ("skip", "nodes"):
        return await (skip(log, int(thing)) if order == "skip" else tell_nodes(log))
    sources = Sources(log, Taker(thing, asked.program, asked.name, context_for_nodes(asked)), asked.name, asked.source)
    if order == "seed":
        return await seed(log, asked.name, sources)
    replica = Replica(log, asked.program, thing, sources)
    return await (begin(log, replica, program_of(asked), asked.again) if order == "begin" else serve_log(asked, log, replica))


def tell_ends(asked: argparse.Namespace) -> None:
    """Says which certificates of this node end soon, where openssl can tell."""
    for path in {asked.cert, asked.etcd_cert} - {None}:
        with contextlib.suppress(OSError, subprocess.TimeoutExpired):
            look = ["openssl", "x509", "-noout", "-checkend", str(SOON), "-in", path]
            if subprocess.run(look, capture_output=True, timeout=10, check=False).returncode == 1:
                logger.warning("%s: this certificate ends within 30 days, or has ended", path)


async def carry_out(asked: argparse.Namespace) -> int:
    tell_ends(asked)
    try:
        return await follow(asked)
    except BehindError as error:
        logger.error(REFUSED, f"{error}: {SEED_ALONE if asked.alone else SEED}")
        return 4
    except (RefusedStoreError, PutBackError) as error:
        logger.error(REFUSED, PUT_BACK if isinstance(error, PutBackError) else error)
        return 4
    except TakenNameError as error:
        logger.error("%s", error)
        return 4
    except EtcdError as error:
        logger.error("etcd: %s", error)
        return 3
    except OSError as error:
        # as where there is no such program, or another one listens at this place
        if is_of_device(error):
            logger.error(DEVICE_FAILED, error)
            return ENDED_BY_DEVICE
        logger.error("%s", error)
        return 3


def main() -> int:
    logging.basicConfig(level=logging.INFO, format="%(asctime)s %(levelname)s %(message)s", datefmt="%Y-%m-%dT%H:%M:%S%z")
    return asyncio.run(carry_out(words()))
