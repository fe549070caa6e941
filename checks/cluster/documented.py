"""The commands of cluster/README.md, on three places with the addresses that stand there; and members that stop. Each part gives what is
wrong."""
import concurrent.futures
import contextlib
import json
import os
import re
import shutil
import signal
import subprocess
import threading
import time
import urllib.request

import apart
from cluster import HERE, Client, has_readtables
from refusals import ADD, begun, value
from waits import LONG, Late, until

TOP = os.path.join(HERE, "..", "..")
PAGE = os.path.join(TOP, "cluster", "README.md")
PAGE_OF_REPLACING = os.path.join(TOP, "docs", "run", "machines.md")
NET = "10.0.0."
LEFT_OUT = ("apt-get", "scp ")
"""Commands that install packages, or copy to another machine: all places of this check have one folder of certificates."""


def blocks_of_page():
    """The commands for the certificates, those of each machine, and those for two clients, as the page has them."""
    with open(PAGE, encoding="utf-8") as page:
        blocks = re.findall(r"(?m)(?:^    .*\n)+", page.read())
    return [[line.strip() for line in block.splitlines()] for block in blocks[:3]]


def health_of_page():
    """The command by which the page asks how a node is."""
    with open(PAGE, encoding="utf-8") as page:
        return re.findall(r"`(curl [^`]*/health)`", page.read())[:1]


def commands():
    """The same without those that are left out."""
    return [[line for line in block if not line.startswith(LEFT_OUT)] for block in blocks_of_page()]


def without_tls(lines):
    """The same as the page has it for a network of one's own."""
    return [line.replace("https:", "http:").replace(" $TLS", "").replace("--keys $KEYS", "--open") for line in lines]


def in_room(text, room):
    """The folders of the page are those of this check."""
    return text.replace("/etc/pazturrok", f"{room}/keys").replace("/var/lib/pazturrok", f"{room}/$NAME").replace("/var/log", f"{room}/$NAME")


def words_of_machine(lines, place, room, program):
    """What a shell is told on a machine; the program is that of this check."""
    lines = sorted(lines, key=lambda line: not line.startswith("NAME="))
    text = "\n".join(lines).replace("NAME=a; IP=10.0.0.1", f"NAME={'abc'[place]}; IP={NET}{place + 1}")
    return in_room(re.sub(r"PROGRAM=\S+;", f"PROGRAM={program};", text), room)


class Machines:
    """Three places on which the commands of the page were carried out."""

    def __init__(self, room, program, has_tls=True):
        self.net, self.room = apart.Apart(3, NET), room
        keys, lines, clients = commands()
        self.clients = clients if has_tls else without_tls(clients)
        lines = lines if has_tls else without_tls(lines)
        subprocess.run(["bash", "-c", in_room("\n".join(keys), room)], cwd=TOP, env={**os.environ, "HOME": room}, check=True, capture_output=True)
        self.words = [words_of_machine(lines, place, room, program) for place in range(3)]
        self.shells = {}
        for place in range(3):
            self.start(place)

    def start(self, place, etcd="etcd "):
        """Carries the commands of a machine out, with these words for etcd."""
        shell = [*self.net.words(place), "bash", "-c", self.words[place].replace("\netcd ", "\n" + etcd) + "\nwait"]
        with open(os.path.join(self.room, f"shell-{place}"), "wb") as log:
            self.shells[place] = subprocess.Popen(shell, cwd=TOP, stdin=subprocess.DEVNULL, stderr=log, start_new_session=True)

    def lose(self, place):
        """A machine dies, and all that it had is gone, but for its certificate."""
        os.killpg(self.shells[place].pid, signal.SIGKILL)
        self.shells[place].wait()
        shutil.rmtree(os.path.join(self.room, "abc"[place]))

    def etcd(self, place):
        """The process of etcd on a place."""
        told = subprocess.run(["pgrep", "-P", str(self.shells[place].pid), "-x", "etcd"], capture_output=True, text=True)
        return int(told.stdout)

    def told(self, place):
        """What the node of a place has written."""
        with contextlib.suppress(OSError), open(os.path.join(self.room, "abc"[place], "pazturrok-node.log"), encoding="utf-8") as log:
            return log.read()
        return ""

    def are_ready(self, places=range(3)):
        """Waits until the nodes of these places are."""
        until(lambda: all("INFO ready" in self.told(place) for place in places), "the nodes by the commands of the page are ready")

    def answer(self, place, *lines):
        """What commands of a client write on a place."""
        words = [*self.net.words(place), "bash", "-c", in_room("\n".join(lines), self.room)]
        environment = {**os.environ, "PYTHONDONTWRITEBYTECODE": "1"}
        told = subprocess.run(words, cwd=TOP, env=environment, capture_output=True, text=True, timeout=3 * LONG)
        return told.stdout or told.stderr

    def unwell(self):
        """What is wrong with the health of the machines, which is asked as the page says, if there is curl."""
        if not shutil.which("curl"):
            return []
        told = [self.answer(place, f"NAME={'abc'[place]}", *health_of_page()) for place in range(3)]
        return [] if all('"healthy": true' in one for one in told) else [f"the health of the machines is {told}"]

    def end(self):
        for shell in self.shells.values():
            os.killpg(shell.pid, signal.SIGKILL)
            shell.wait()
        self.net.end()


SCP = """#!/bin/sh
# puts files into the folder of a machine
for last; do :; done
while [ "$1" != "$last" ]; do
    mkdir -p "{room}/${{last%%:*}}" && cp "$1" "{room}/${{last%%:*}}/" || exit 1
    shift
done
"""


def kept_keys(folder, _program):
    """By the commands of the page each machine has its own certificate and that of who signs, and the key of who signs is on none."""
    with open(os.path.join(folder, "scp"), "w", encoding="ascii") as file:
        file.write(SCP.format(room=folder))
    os.chmod(os.path.join(folder, "scp"), 0o755)
    environment = {**os.environ, "HOME": folder, "PATH": f"{folder}:{os.environ['PATH']}"}
    text = "set -e\n" + "\n".join(blocks_of_page()[0]).replace("/etc/pazturrok ", f"{folder}/{NET}1 ").replace("/etc/pazturrok/ca", f"{folder}/{NET}1/ca")
    told = subprocess.run(["bash", "-c", text], cwd=TOP, env=environment, check=False, capture_output=True, text=True)
    faults = [] if told.returncode == 0 else [f"the commands for certificates: {told.stderr[-300:]}"]
    for place, name in enumerate("abc", 1):
        machine = os.path.join(folder, f"{NET}{place}")
        found = sorted(os.listdir(machine)) if os.path.isdir(machine) else []
        faults += [] if found == [f"{name}.pem", "ca.crt"] else [f"the machine {name} has {found}"]
    return faults


def documented(folder, program):
    """The commands of the page do what it says. Then the member of one machine is killed: its node goes on by the others."""
    if not apart.may() or not has_readtables(program):
        why = "the small program knows no lists" if apart.may() else "no namespaces of the network may be made here"
        print(f"cluster: {why}: the commands of cluster/README.md were not tried", flush=True)
        return []
    machines = Machines(folder, program)
    try:
        machines.are_ready()
        first, put, look = machines.clients
        told = [machines.answer(0, first, put), machines.answer(1, first, look)]
        faults = [] if told == ["(1 2)\n"] * 2 else [f"the commands of the page answer {told}: {[machines.told(place) for place in range(3)]}"]
        faults += machines.unwell()
        told = machines.answer(2, first, look.replace("$TLS", "--ca /etc/pazturrok/ca.crt"))
        faults += [] if "no node answered" in told or "certificate" in told else [f"who has no certificate is answered {told}"]
        os.kill(machines.etcd(1), signal.SIGKILL)
        until(lambda: machines.answer(1, first, look) == "(1 2)\n", "a node answers without its own member")
        return faults
    finally:
        machines.end()


def commands_of_replacing():
    """Those by which the page on several machines replaces the machine b."""
    with open(PAGE_OF_REPLACING, encoding="utf-8") as page:
        told = page.read().partition("## Replacing a machine\n")[2]
    return [line.strip() for line in re.findall(r"(?m)(?:^    .*\n)+", told)[0].splitlines()]


def replaced(folder, program):
    """A machine loses all that it has: by the commands of the page it comes again, and has what the others have."""
    if not apart.may() or not shutil.which("etcdctl"):
        print("cluster: there is no etcdctl here, or no namespaces: the commands by which a machine is replaced were not tried", flush=True)
        return []
    machines = Machines(folder, program)
    try:
        machines.are_ready()
        first, put, look = machines.clients
        machines.answer(0, first, put)
        machines.lose(1)
        keys, *others = commands_of_replacing()
        for line in others:
            until(lambda line=line: machines.answer(0, "set -e", keys, line + " && echo done").endswith("done\n"), f"this is done: {line}")
        machines.start(1, "etcd --initial-cluster-state existing ")
        machines.are_ready([1])
        told = machines.answer(1, first, look)
        return [] if told == "(1 2)\n" else [f"a machine that was replaced answers {told!r}: {machines.told(1)[-500:]}"]
    finally:
        machines.end()


def without_certificates(folder, program):
    """The commands of the page without TLS."""
    if not apart.may():
        return []
    machines = Machines(folder, program, has_tls=False)
    try:
        machines.are_ready()
        first, put, look = machines.clients
        told = [machines.answer(0, first, put), machines.answer(1, first, look)]
        return [] if told == ["(1 2)\n"] * 2 else [f"without certificates the nodes answer {told}"]
    finally:
        machines.end()


def own_member(folder, program):
    """The member that a node asks first stops, or is killed: the node goes on by the others. A node that is given one of three says so."""
    faults, cluster = [], begun(folder, program, members=3, nodes=1)
    try:
        member = cluster.members[0]
        for is_killed in (False, True):
            member.signal(signal.SIGKILL if is_killed else signal.SIGSTOP)
            began = time.monotonic()
            Client(cluster.places, patience=LONG).request(b"do killed-%d" % is_killed, ADD)
            took = time.monotonic() - began
            faults += [] if took < LONG / 2 else [f"without the member that it asks first a node takes {took:.0f} s"]
            member.signal(signal.SIGCONT)
        faults += [] if value(cluster, 0) == "7" else ["another value"]
        faults += [] if "of 3 members" not in cluster.nodes[0].told() else ["a node that is given all members asks for more"]
        member.child.wait()
        member.start()
        cluster.nodes[0].finish()
        words = cluster.nodes[0].words
        words[words.index("--etcd") + 1] = cluster.urls[1]
        cluster.nodes[0].start()
        faults += [] if value(cluster, 0) == "7" else ["another value"]
        return faults + ([] if "--etcd names 1 of 3 members" in cluster.nodes[0].told() else ["a node that knows one member says nothing"])
    finally:
        cluster.end()


MOST_SILENT = 3.0
"""Seconds without an answer, after the leader of etcd has stopped, in one case and the other; of several stops most have to be shorter, but where
etcd itself takes longer for most."""

MOST_BEYOND = 1.5
"""So many seconds longer than etcd itself, and twice as long as a form takes here, a node may take in most of them."""

LONGEST_BEYOND = 10.0
"""And in all of them, on a busy machine too: a watch of a member that has stopped, and which nobody left, would be left after 15."""


def stopped_leader(folder, program):
    """The leader of etcd is stopped: each node answers forms again after three seconds, also the one whose own member it is."""
    cluster, silent, own, usual = begun(folder, program, members=3, nodes=3), {"its own member": [], "another member": []}, [], []
    try:
        for _ in range(5):
            leader = leader_of(cluster)
            clients = [Client([place], patience=LONG) for place in cluster.places]
            for client in clients * 2:
                began = time.monotonic()
                client.request(b"do", ADD)
                usual.append(time.monotonic() - began)
            cluster.members[leader].signal(signal.SIGSTOP)
            began = time.monotonic()
            with concurrent.futures.ThreadPoolExecutor() as pool:
                elected = pool.submit(takes_a_put, [url for place, url in enumerate(cluster.urls) if place != leader])
                ends = list(pool.map(lambda client: (client.request(b"do", ADD), time.monotonic())[1], clients))
            own.append(elected.result() - began)
            for place, end in enumerate(ends):
                silent["its own member" if place == leader else "another member"].append((end - began, end - began - own[-1]))
            cluster.members[leader].signal(signal.SIGCONT)
            time.sleep(3)
        print(f"cluster: the leader of etcd is stopped: etcd takes no put for {listed(own)} s, a form takes {middle(usual):.1f} s, "
              f"load {os.getloadavg()[0]:.0f}", flush=True)
        beyond = MOST_BEYOND + 2 * middle(usual)
        return [fault for case, times in silent.items() for fault in faults_of_silence(case, times, middle(own), beyond)]
    finally:
        cluster.end()


def faults_of_silence(case, times, own, most):
    """What is wrong with the times for which nodes were silent in a case, each beside how much longer that was than etcd was. Etcd's middle is `own`, and
    nodes may be `most` seconds longer in most of them."""
    silent, beyond = ([one[place] for one in times] for place in (0, 1))
    print(f"cluster: .. {case} of a node: no answer for {listed(silent)} s", flush=True)
    is_long = middle(silent) > max(MOST_SILENT, own + most) or middle(beyond) > most or max(beyond) > LONGEST_BEYOND
    return [f"{case} stops: no answer for {listed(silent)} s, {listed(beyond)} s longer than etcd"] if is_long else []


def listed(times):
    return " ".join(f"{one:.1f}" for one in sorted(times))


def middle(times):
    return sorted(times)[len(times) // 2]


def takes_a_put(urls):
    """When a put has succeeded at one of these members: one is begun each tenth of a second at each."""
    ended, began = threading.Event(), time.monotonic()

    def put(url):
        with contextlib.suppress(OSError, ValueError), urllib.request.urlopen(url + "/v3/kv/put", b'{"key": "YQ==", "value": "YQ=="}', LONG) as told:
            json.load(told)
            ended.set()

    while not ended.is_set():
        if time.monotonic() - began > LONG:
            raise Late("etcd takes no put")
        for url in urls:
            threading.Thread(target=put, args=(url,), daemon=True).start()
        ended.wait(0.1)
    return time.monotonic()


def leader_of(cluster):
    """The place of the member that leads."""
    deadline = time.monotonic() + LONG
    while time.monotonic() < deadline:
        for place, url in enumerate(cluster.urls):
            with contextlib.suppress(OSError), urllib.request.urlopen(url + "/v3/maintenance/status", b"{}", 5) as answer:
                told = json.load(answer)
                if told.get("leader") == told["header"]["member_id"]:
                    return place
        time.sleep(0.2)
    raise Late("no member leads")


LONG_ONES = ("own member", "stopped leader", "documented without certificates", "replaced")
PARTS = {
    "kept keys": kept_keys, "documented": documented, "replaced": replaced, "documented without certificates": without_certificates, "own member": own_member,
    "stopped leader": stopped_leader,
}  # fmt: skip
