"""What becomes of nodes where etcd has little room, where a store hangs, and where stores come to different worlds. Each part gives what is
wrong."""
import base64
import contextlib
import os
import signal
import time

from cluster import Client, free_ports, has_readtables
from questions import exchange
from refusals import ADD, LOOK, ask_long, begun, trimmed, value
from waits import LONG, Worker, until
from watched import figures, until_health

QUOTA = 48 << 20
NO_ROOM, LOST = "! 54 NO-ROOM", "! 50 OLD-NUMBER"
BIG = b"(SETF (GET 'BIG 'KY) \"" + 50_000 * b"x" + b'")'
AT_ONCE = 20
"""So many of them are sent at once where they are to come faster than they are deleted."""

CLOSES = b"(SET-MACRO-CHARACTER #\\: :CLOSE)"
"""After this form no name with a package can be read."""


def put(cluster, name, size):
    """Puts a key that is none of the log, as much as etcd lets."""
    cluster.call("/v3/kv/put", {"key": base64.b64encode(name).decode(), "value": base64.b64encode(size * b"x").decode()})


def alarms(cluster):
    return cluster.call("/v3/maintenance/alarm", {"action": "GET"}).get("alarms", [])


def full(folder, program):
    """Forms come faster than they are deleted: they are refused well before the quota, and taken again later. What was answered stays so."""
    path = os.path.join(folder, "monitor")
    cluster = begun(folder, program, nodes=1, quota=QUOTA, least=LONG, options=("--monitor", path))
    try:
        client, answers = Client(cluster.places), []
        while NO_ROOM not in answers and len(answers) < 1200:
            some = [(b"do big-%d" % (len(answers) + number), BIG) for number in range(AT_ONCE)]
            answers += [text.decode() for _, text in exchange(cluster.places[0], *some)]
        faults = [] if NO_ROOM in answers else ["forms are taken up to the quota"]
        faults += [] if client.request(b"do add-4", ADD)[1] in ("5", NO_ROOM) else ["a form that was answered is answered otherwise"]
        faults += [] if not alarms(cluster) else ["etcd has come to its quota"]
        faults += [] if figures(path)["pazturrok_node_etcd_used_ratio"] > 0.4 else ["the part that is used is not told"]
        cluster.nodes[0].kill()
        cluster.nodes[0].start()
        faults += [] if value(cluster, 0) == "5" else ["a node does not start beside an etcd that has little room"]
        until(lambda: client.request(b"do later", ADD)[1] != NO_ROOM, "forms are taken again", 3 * LONG)
        faults += [] if value(cluster, 0) == "6" else ["forms are not taken again"]
        return faults + ([] if until_health(path, 200)[0] == 200 else ["the node is not well again"])
    finally:
        cluster.end()


def go_on(store):
    with contextlib.suppress(ProcessLookupError):
        os.kill(store, signal.SIGCONT)


def lagging_store(folder, program):
    """A store that hangs is not waited for where there is little room: the others go on beyond the quota, and its node is then behind."""
    cluster = begun(folder, program, nodes=2, quota=QUOTA)
    store = cluster.store_process(1)
    try:
        os.kill(store, signal.SIGSTOP)
        client, sent, taken, deadline = Client(cluster.places[:1]), 0, 0, time.monotonic() + 5 * LONG
        while taken < 1200 and time.monotonic() < deadline:
            sent += 1
            taken += client.request(b"do big-%d" % sent, BIG)[1] != NO_ROOM
            time.sleep(0.005)
        faults = [] if taken == 1200 else [f"{taken} of {sent} forms were taken, beside a store that hangs"]
        faults += [] if not alarms(cluster) else ["etcd has come to its quota"]
        client.request(b"do last", ADD)
        go_on(store)
        return faults + caught_up_or_behind(cluster)
    finally:
        go_on(store)
        cluster.end()


def caught_up_or_behind(cluster):
    """What is wrong with a node that was not waited for: it had all entries on their way to it, or is refused."""
    node, deadline = cluster.nodes[1], time.monotonic() + LONG
    while node.child.poll() is None and time.monotonic() < deadline:
        try:
            _, text = Client(cluster.places[1:]).request(b"read", LOOK, limit=5)
            return [] if text == "6" else [f"a node that was not waited for has {text}"]
        except TimeoutError:
            pass
    return [] if node.child.poll() == 4 and "behind what is left" in node.told() else [f"the node that was left behind: {node.told()[-300:]}"]


def hung_store(folder, program):
    """A store that says nothing is ended and started again."""
    cluster = begun(folder, program, nodes=1, options=("--store-silence", "3"))
    store = cluster.store_process(0)
    try:
        os.kill(store, signal.SIGSTOP)
        number, text = Client(cluster.places).request(b"do after", ADD)
        told = cluster.nodes[0].told()
        return [] if text == "6" and "has said nothing for" in told else [f"beside a store that hangs: {number} {text} {told[-300:]}"]
    finally:
        cluster.end()


def exceeded(folder, program):
    """Something else fills etcd to its quota: forms are refused, and the node says why it is not well; one that is started waits. With room and
    without the alarm all go on."""
    path = os.path.join(folder, "monitor")
    cluster = begun(folder, program, nodes=1, quota=QUOTA, options=("--monitor", path))
    try:
        count = 0
        while not alarms(cluster) and count < 100:
            try:
                put(cluster, b"other/%d" % count, 500_000)
            except OSError:
                pass
            count += 1
        until(lambda: "NOSPACE" in str(until_health(path, 503)), "the node says that etcd is full")
        status, told = until_health(path, 503)
        faults = [] if status == 503 and "NOSPACE" in str(told) else [f"beside a full etcd: {status} {told}"]
        told = Client(cluster.places).request(b"do full", ADD)
        faults += [] if told == (0, NO_ROOM) else [f"beside a full etcd a form is answered {told}"]
        node = cluster.nodes[0]
        node.finish()
        node.start()
        time.sleep(5)
        faults += [] if node.child.poll() is None else ["a node ends where etcd is full"]
        answers = []
        waits = Worker(ask_long, cluster.places, b"do after", ADD, answers)
        waits.start()
        found = cluster.call("/v3/kv/deleterange", {"key": base64.b64encode(b"other/").decode(), "range_end": base64.b64encode(b"other0").decode()})
        cluster.call("/v3/kv/compaction", {"revision": found["header"]["revision"], "physical": True})
        cluster.call("/v3/maintenance/defragment", {})
        for alarm in alarms(cluster):
            cluster.call("/v3/maintenance/alarm", {"action": "DEACTIVATE", **alarm})
        waits.join()
        return faults + ([] if [text for _, text in answers] == ["6"] else [f"after there was room: {answers}"])
    finally:
        cluster.end()


def closes(folder, program):
    """A store whose readtable reads no name with a package: entries are deleted even so."""
    if not has_readtables(program):
        return []
    cluster = begun(folder, program, nodes=2, keep=1)
    try:
        client = Client(cluster.places)
        client.request(b"do closes", CLOSES)
        number = client.request(b"do after", ADD)[0]
        trimmed(cluster, 0, number % (1 << 48) // 128, ADD)
        return []
    finally:
        cluster.end()


# ---- another world


def other_program(folder, program):
    """A program that takes a form otherwise."""
    path = os.path.join(folder, "other-program")
    with open(path, "w", encoding="ascii") as file:
        file.write(f'#!/bin/sh\n[ "$1" = run ] || exec {program} "$@"\nsed -u "s/EVEN/ODDS/g" | {program} "$@"\n')
    os.chmod(path, 0o755)
    return path


def differs(folder, program):
    """One store of three comes to another world: its node says so and ends, and the others go on."""
    cluster = begun(folder, program, members=1, nodes=3, options=("--compare-every", "4"), programs=[program, other_program(folder, program)])
    try:
        client = Client(cluster.places[:1])
        time.sleep(12)
        faults = [f"{node.log}: {node.told()[-300:]}" for node in cluster.nodes if node.child.poll() is not None]
        client.request(b"do even", b"(SETF (GET 'EVEN 'KY) 1)")
        until(lambda: cluster.nodes[1].child.poll() is not None, "a node ends whose store has another world", 2 * LONG)
        told = cluster.nodes[1].told()
        faults += [] if cluster.nodes[1].child.poll() == 4 and "another world than those of n0, n2" in told else [f"the other store: {told[-300:]}"]
        client.request(b"do add", ADD)
        return faults + ([] if value(cluster, 0) == value(cluster, 2) == "6" else ["the others do not go on"])
    finally:
        cluster.end()


def two_differ(folder, program):
    """Of two stores nobody can say which is right: both say that they differ, and go on."""
    path = os.path.join(folder, "monitor")
    options = ("--compare-every", "4", "--monitor", path)
    cluster = begun(folder, program, nodes=1, options=options)
    try:
        cluster.programs = [program, other_program(folder, program)]
        cluster.places.append((cluster.host(0), free_ports(1)[0]))
        cluster.nodes.append(cluster.node(1, options=("--compare-every", "4")))
        cluster.nodes[1].start()
        Client(cluster.places[1:]).request(b"do even", b"(SETF (GET 'EVEN 'KY) 1)")
        status, told = until_health(path, 503)
        return [] if status == 503 and "have another world" in told["troubles"][0] else [f"two that differ: {status} {told}"]
    finally:
        cluster.end()


LONG_ONES = ("exceeded", "full", "lagging store", "two differ")
PARTS = {
    "full": full, "lagging store": lagging_store, "hung store": hung_store, "exceeded": exceeded, "closes": closes, "differs": differs,
    "two differ": two_differ,
}  # fmt: skip
