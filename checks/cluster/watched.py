"""What is seen of a node from outside: its health, its figures, its lines; and how many clients may be connected. Each part gives what is
wrong."""
import contextlib
import http.client
import json
import os
import re
import signal
import socket
import subprocess
import sys
import time

from cluster import NODE, Client
from refusals import ADD, LOOK, begun, value
from waits import LONG, Late, Worker, until

LINE = re.compile(r"[0-9]{4}-[0-9]{2}-[0-9]{2}T[0-9]{2}:[0-9]{2}:[0-9]{2}[+-][0-9]{4} (INFO|WARNING|ERROR) .+")
FIGURE = re.compile(r'(pazturrok_node_[a-z_]+)((?:\{[a-z]+="[^"]*"(?:,[a-z]+="[^"]*")*\})?) ([0-9.e+-]+)')


class Monitored(http.client.HTTPConnection):
    """A connection to the socket on which a node tells how it is."""

    def __init__(self, path):
        super().__init__("node", timeout=LONG)
        self.path = path

    def connect(self):
        self.sock = socket.socket(socket.AF_UNIX)
        self.sock.settimeout(LONG)
        self.sock.connect(self.path)


def got(path, *words, **further):
    """The status and the text of a response."""
    one = Monitored(path)
    try:
        one.request(*words, **further)
        response = one.getresponse()
        return response.status, response.read().decode()
    finally:
        one.close()


def figures(path):
    """The figures of a node, by their names and labels; AssertionError where a line is none."""
    status, text = got(path, "GET", "/metrics")
    assert status == 200 and text.endswith("\n"), text
    lines = [line for line in text.splitlines() if not line.startswith(("# HELP ", "# TYPE "))]
    assert all(FIGURE.fullmatch(line) for line in lines), text
    return {found[1] + found[2]: float(found[3]) for found in map(FIGURE.fullmatch, lines)}


def until_health(path, status):
    """What a node tells of its health, once that has this status."""
    deadline, told = time.monotonic() + LONG, (0, "null")
    while told[0] != status:
        if time.monotonic() > deadline:
            raise Late(f"the health of a node is {told}, and not {status}")
        time.sleep(0.1)
        # before a node listens there is nobody, and one that ends answers nothing
        with contextlib.suppress(OSError, http.client.HTTPException):
            told = got(path, "GET", "/health")
    return told[0], json.loads(told[1])


def monitored(folder, program):
    """A node tells that it is well, and when it is not; its figures; and its lines have a time and a level."""
    path = os.path.join(folder, "monitor")
    cluster = begun(folder, program, nodes=1, options=("--monitor", path))
    try:
        faults = [] if until_health(path, 200) == (200, {"healthy": True, "troubles": []}) else ["a node that is well says otherwise"]
        told = figures(path)
        least = {'requests_total{kind="do"}': 6, 'requests_total{kind="read"}': 1, "entries_total": 6, "revision": 7, "store_up": 1}
        most = {"store_ends_total": 0, "stuck": 0, "store_up": 1}
        faults += [f"{name}: {told.get('pazturrok_node_' + name)}" for name, count in least.items() if told["pazturrok_node_" + name] < count]
        faults += [f"{name}: {told.get('pazturrok_node_' + name)}" for name, count in most.items() if told["pazturrok_node_" + name] > count]
        os.kill(cluster.store_process(0), signal.SIGKILL)
        faults += [] if value(cluster, 0) == "5" and figures(path)["pazturrok_node_store_ends_total"] == 1 else ["an end of the store is not counted"]
        cluster.members[0].signal(signal.SIGSTOP)
        until(lambda: "no member of etcd answers" in str(until_health(path, 503)), "a node without etcd says so")
        cluster.members[0].signal(signal.SIGCONT)
        faults += [] if until_health(path, 200)[0] == 200 else ["a node is not well again"]
        statuses = [got(path, *words)[0] for words in (("POST", "/health"), ("GET", "/"), ("GET", "/" + "x" * 10_000))]
        faults += [] if statuses == [405, 404, 400] else [f"what is no request is answered {statuses}"]
        return faults + lines_of(cluster)
    finally:
        cluster.end()


def lines_of(cluster):
    lines = cluster.nodes[0].told().splitlines()
    odd = [line for line in lines if not LINE.fullmatch(line)]
    faults = [f"a line without time and level: {odd[0]}"] if odd else []
    if sum("INFO ready: the store is at " in line for line in lines) != 1:
        faults.append("a node does not say once that it is ready")
    told = subprocess.run([sys.executable, NODE, "--version"], capture_output=True, text=True)
    return faults + ([] if re.fullmatch(r"pazturrok-node \d+\.\d+\.\d+\n", told.stdout) else [f"version: {told}"])


def idle_clients(folder, program):
    """As many clients as may be are connected and say nothing: the oldest ones go where others come. Who waits for an answer stays."""
    path = os.path.join(folder, "monitor")
    cluster = begun(folder, program, nodes=1, options=("--monitor", path, "--most-clients", "20"))
    store = cluster.store_process(0)
    try:
        os.kill(store, signal.SIGSTOP)
        waits = socket.create_connection(cluster.places[0], LONG)
        waits.sendall(b"ask %d\n%s\n" % (len(LOOK), LOOK))
        until(lambda: figures(path)['pazturrok_node_requests_total{kind="ask"}'] == 1, "a question comes to the node")
        silent = [socket.create_connection(cluster.places[0], LONG) for _ in range(60)]
        silent[0].settimeout(LONG)
        faults = [] if silent[0].recv(1) == b"" else ["one that is let go is not told"]
        until(lambda: figures(path)["pazturrok_node_clients"] >= 20, "20 clients are connected")
        count = figures(path)["pazturrok_node_clients"]
        faults += [] if count == 20 else [f"{count} clients are connected"]
        os.kill(store, signal.SIGCONT)
        faults += [] if waits.recv(100) == b"ask 1\n5\n" else ["who waited for an answer has none"]
        return faults + ([] if value(cluster, 0) == "5" else ["another client has no answer"])
    finally:
        os.kill(store, signal.SIGCONT)
        cluster.end()


def behind(folder, program):
    """A node whose store has stopped says that it is behind, and is well again once the store goes on."""
    cluster, path = begun(folder, program, nodes=2), os.path.join(folder, "monitor")
    try:
        cluster.nodes[1].finish()
        cluster.nodes[1].words += ["--monitor", path]
        cluster.nodes[1].start()
        value(cluster, 1)
        faults = [] if until_health(path, 200)[0] == 200 else ["a node that is not behind is not well"]
        store = cluster.store_process(1)
        os.kill(store, signal.SIGSTOP)
        Client(cluster.places[:1]).request(b"do after", ADD)
        told = until_health(path, 503)[1]["troubles"]
        faults += [] if "behind that of another node" in told[0] and figures(path)["pazturrok_node_behind_seconds"] > 30 else [f"a node that is behind says {told}"]
        os.kill(store, signal.SIGCONT)
        faults += [] if until_health(path, 200)[0] == 200 and value(cluster, 1) == "6" else ["a node that was behind is not well again"]
        return faults
    finally:
        cluster.end()


SLOW = """#!/bin/sh
[ "$1" = run ] && sleep 8
exec {} "$@"
"""
"""A program that takes its time to open a store."""


def told_of(cluster, name):
    """What `nodes` writes of a node; nothing where it does not list it."""
    lines = cluster.order("nodes")[1].splitlines()
    return next((line for line in lines if line.startswith(name + " ")), "")


def is_at_a_number(cluster, name):
    return told_of(cluster, name).split(" at ")[1].isdigit()


def killed(folder, program):
    """`nodes` says of a node that was killed that nothing is heard of it, until it is listed no more; and of one that has started that its store is
    not open yet."""
    cluster, slow = begun(folder, program, nodes=2), os.path.join(folder, os.path.basename(program))
    try:
        faults = []
        until(lambda: is_at_a_number(cluster, "n1"), "`nodes` tells of a node that runs")
        cluster.nodes[1].kill()
        until(lambda: ", not heard of for " in told_of(cluster, "n1"), "`nodes` tells of the node that was killed")
        faults += [] if is_at_a_number(cluster, "n0") else [f"of the other node: {told_of(cluster, 'n0')}"]
        until(lambda: told_of(cluster, "n1") == "", "the node that was killed is listed no more")
        with open(slow, "w", encoding="utf-8") as file:
            file.write(SLOW.format(program))
        os.chmod(slow, 0o755)
        words = cluster.nodes[1].words
        words[words.index("--program") + 1] = slow
        cluster.nodes[1].start()
        until(lambda: told_of(cluster, "n1").endswith(" at 0, its store is not open yet"), "`nodes` tells of a store that is not open yet")
        faults += [] if value(cluster, 1) == "5" else ["the node has another counter"]
        until(lambda: told_of(cluster, "n1").split(" at ")[1] == told_of(cluster, "n0").split(" at ")[1], "both nodes are at one number")
        return faults
    finally:
        cluster.end()


SOON, STEADY = 10.0, 20.0
"""Within so many seconds each node says that etcd has no majority, and it says so for so long without a break."""


def without_majority(folder, program):
    """Two of three members of etcd are stopped, and then killed: each node says so soon, without a break, and is well again once they are back. In
    one case a form waits meanwhile."""
    cluster, paths = begun(folder, program, members=3, nodes=3), [os.path.join(folder, f"monitor-{place}") for place in range(3)]
    faults = []
    try:
        for node, path in zip(cluster.nodes, paths):
            node.finish()
            node.words += ["--monitor", path]
            node.start()
        for gone, has_form in ((lambda one: one.signal(signal.SIGSTOP), True), (lambda one: one.kill(), False)):
            until(lambda: all(until_health(path, 200) for path in paths), "all nodes are well")
            for member in cluster.members[1:]:
                gone(member)
            form = Worker(Client(cluster.places[:1], patience=LONG).request, b"do waits", ADD)
            if has_form:
                form.start()
            faults += faults_without_majority(paths)
            for member in cluster.members[1:]:
                member.signal(signal.SIGCONT)
                if member.child.poll() is not None:
                    member.start()
            faults += [f"node {place} is not well again" for place, path in enumerate(paths) if until_health(path, 200)[0] != 200]
            if has_form:
                form.join()
        faults += [f"{name} is {count} at a node that is well" for path in paths for name, count in figures(path).items() if "without_leader" in name and count]
        return faults + ([] if value(cluster, 2) == "6" else ["the form that waited was not carried out once"])
    finally:
        cluster.end()


def faults_without_majority(paths):
    """What a node says that it should not, from the moment on at which etcd lost its majority."""
    began, last = time.monotonic(), {}
    for place, path in enumerate(paths):
        until(lambda path=path: got(path, "GET", "/health")[0] == 503, f"node {place} says that etcd has no majority", SOON)
    print(f"cluster: without a majority of etcd each node says so after {time.monotonic() - began:.1f} s, load {os.getloadavg()[0]:.0f}", flush=True)
    ended = time.monotonic() + STEADY
    while time.monotonic() < ended:
        for place, path in enumerate(paths):
            status, last[place] = got(path, "GET", "/health")
            if status != 503:
                return [f"node {place} is well again after {time.monotonic() - began:.1f} s, without a majority of etcd"]
        time.sleep(0.1)
    return [f"node {place} says {told}" for place, told in last.items() if "etcd has had no leader for " not in told]


LONG_ONES = ("behind another", "without majority", "killed")
PARTS = {"monitored": monitored, "behind another": behind, "idle clients": idle_clients, "without majority": without_majority, "killed": killed}
