"""What an operator orders: a log is begun with a store, an entry is skipped."""

from __future__ import annotations

import sys
from collections.abc import Sequence

from .child import Child
from .etcd_log import EPOCH, EtcdLog
from .faults import Fault
from .names import BEAT
from .replica import Replica
from .reports import Reports
from .seed import BEFORE, NoSeedError
from .sources import Sources

MOST_SILENT = 2 * BEAT
"""A node of which nothing is heard for more seconds than this may be none any more."""


async def begin(log: EtcdLog, replica: Replica, words: Sequence[str], is_again: bool) -> int:
    """Begins a log with a store, whatever it has come to elsewhere; where there is one, in its place, if that is asked for."""
    before = await log.identify()
    if before is not None and not is_again:
        return refused("etcd has a log of this name already: --again begins another one in its place")
    child = await Child.start(words)
    if isinstance(child, Fault):
        child.look(was_open=False)
        return 3
    try:
        identity = await replica.begin(child.position, before)
    finally:
        await child.end()
    print(f"the log begins with this store, at {identity.first}: start its node, and have the others take it (pazturrok-node seed)")
    return 0


async def skip(log: EtcdLog, number: int) -> int:
    """Has all nodes skip an entry, before which the store of each ends again and again."""
    if (identity := await log.identify()) is None or number // EPOCH != identity.epoch:
        return refused(f"{number} is no entry of this log")
    nodes = await Reports(log).all()
    if not nodes:
        return refused("no node runs")
    for name, told in nodes.items():
        if told["answered"] >= number:
            return refused(f"{name} has carried it out: start the others with a backup of its store, where they cannot")
        if told["stuck"] != number:
            return refused(f"{name} is at {told['answered']}, and does not end there")
    await log.skip(number)
    print(f"all stores skip {number}")
    return 0


async def seed(log: EtcdLog, name: str, sources: Sources) -> int:
    """Takes the store of another node, in place of the one that is here."""
    if await log.identify() is None:
        return refused("etcd has no log of this name")
    if name in await log.names():
        return refused(f"a node with the name {name} runs, or did 15 seconds ago: end it first")
    try:
        position, place = await sources.take(0, 0.0)
    except NoSeedError as error:
        return refused(f"no other node gives its store ({error})")
    print(f"the store of the node at {place} is here, at {position}. What was here is in the folder `{BEFORE}`")
    return 0


async def tell_nodes(log: EtcdLog) -> int:
    """Tells of each node that runs what it tells of itself."""
    if await log.identify() is None:
        return refused("etcd has no log of this name")
    of_nodes = Reports(log)
    reports = await of_nodes.all()
    for name, told in sorted(reports.items()):
        notes = [f", ends again and again at {told['stuck']}" if told["stuck"] else "", "" if told["open"] else ", its store is not open yet"]
        silent = await of_nodes.silence(told["lease"])
        if silent > MOST_SILENT:
            notes.append(f", not heard of for {silent} s: it was killed, or is cut off from etcd")
        print(f"{name} {told['at'] or '-'} version {told['version'] or '-'} at {told['answered']}{''.join(notes)}")
    return 0 if reports else refused("no node runs")


def refused(why: str) -> int:
    print(f"pazturrok-node: {why}", file=sys.stderr)
    return 2
