"""Members of etcd and nodes on this machine, and what happens to them."""
import base64
import contextlib
import json
import os
import signal
import socket
import subprocess
import sys
import time
import urllib.error
import urllib.request

from waits import LONG, Late

HERE = os.path.dirname(os.path.abspath(__file__))
NODE = os.path.join(HERE, "..", "..", "cluster", "pazturrok-node")
QUICK_NODE = """
import sys
sys.path.insert(0, sys.argv.pop(1))
from pazturrok_node import main, room
room.LEAST = float(sys.argv.pop(1))
sys.exit(main.main())
"""
OWN = f"127.{64 + (os.getpid() >> 16 & 63)}.{os.getpid() >> 8 & 255}.{os.getpid() & 255}"
"""An address of this machine that no other process listens at: so a port stays free while nobody listens there."""
GIVEN = set()
"""The ports of it that were given to somebody."""


def free_ports(count):
    """Ports of this process's own address, each of which is given once."""
    ports = []
    while len(ports) < count:
        with socket.socket() as one:
            one.bind((OWN, 0))
            port = one.getsockname()[1]
        if port not in GIVEN:
            GIVEN.add(port)
            ports.append(port)
    return ports


def has_readtables(program):
    """Whether a program reads under readtables: the small one that stands in for it does not."""
    return os.path.basename(program) != "fake"


class Process:
    """A program that can be killed, stopped for a while, and started again."""

    def __init__(self, words, log, environment=None):
        self.words, self.log, self.environment, self.child = words, log, environment, None

    def start(self):
        with open(self.log, "ab") as log:
            self.child = subprocess.Popen(self.words, stdin=subprocess.DEVNULL, stdout=log, stderr=log, env=self.environment)

    def signal(self, number):
        if self.child and self.child.poll() is None:
            self.child.send_signal(number)

    def kill(self):
        self.signal(signal.SIGKILL)
        self.child.wait()

    def finish(self):
        """Asks it to end, and gives its status."""
        self.signal(signal.SIGCONT)
        self.signal(signal.SIGTERM)
        return self.child.wait(LONG)

    def told(self):
        """What it has written; nothing where it was never started."""
        with contextlib.suppress(FileNotFoundError), open(self.log, errors="replace", encoding="utf-8") as log:
            return log.read()
        return ""


class Cluster:
    """Members m0, m1, .. and nodes n0, n1, ..; `apart` are namespaces, one for each place, `secrets` are certificates for all ways between."""

    def __init__(self, folder, program, members=3, nodes=3, keep=600, options=(), apart=None, secrets=None, quota=None, least=5.0, programs=()):
        self.folder, self.program, self.apart, self.secrets, self.blows = folder, program, apart, secrets, 0
        self.quota, self.least, self.programs = quota, least, programs
        options = [*options, *(["--quota", str(quota)] if quota else [])]
        self.context = secrets.context() if secrets else None
        ports = [2379] * members + [2380] * members + [7411] * nodes if apart else free_ports(2 * members + nodes)
        scheme = "https" if secrets else "http"
        self.urls = [f"{scheme}://{self.host(place)}:{ports[place]}" for place in range(members)]
        peers = [f"{scheme}://{self.host(place)}:{ports[members + place]}" for place in range(members)]
        whole = ",".join(f"m{place}={peer}" for place, peer in enumerate(peers))
        self.members = [self.member(place, peers[place], whole) for place in range(members)]
        self.places = [(self.host(place), ports[2 * members + place]) for place in range(nodes)]
        self.nodes = [self.node(place, keep, options) for place in range(nodes)]
        for one in [*self.members, *self.nodes]:
            one.start()

    def host(self, place):
        return self.apart.host(place) if self.apart else OWN

    def within(self, place):
        return self.apart.words(place) if self.apart else []

    def member(self, place, peer, whole):
        words = [*self.within(place), "etcd", "--name", f"m{place}", "--data-dir", self.data(place), "--log-level", "error"]
        words += ["--listen-client-urls", self.urls[place], "--advertise-client-urls", self.urls[place]]
        words += ["--listen-peer-urls", peer, "--initial-advertise-peer-urls", peer, "--initial-cluster", whole]
        words += ["--heartbeat-interval", "100", "--election-timeout", "1000", *(self.secrets.words_of_member() if self.secrets else [])]
        words += ["--quota-backend-bytes", str(self.quota)] if self.quota else []
        return Process(words, os.path.join(self.folder, f"etcd-{place}.log"), {**os.environ, "ETCD_UNSUPPORTED_ARCH": "arm64"})

    def node(self, place, keep=600, options=()):
        host, port = self.places[place]
        options = ["--name", f"n{place}", *options, "--keep", str(keep), "--listen", f"{host}:{port}", *(["--open"] if self.apart else [])]
        options += ["--cert", self.secrets.both, "--client-ca", self.secrets.ca] if self.secrets else []
        return Process([*self.within(place), *self.words(place, self.store(place), *options)], os.path.join(self.folder, f"node-{place}.log"))

    def words(self, place, *further):
        """The words of a command of pazturrok-node at a place."""
        return [*self.plain_words(place, *further), *(self.secrets.words_of_node() if self.secrets else [])]

    def plain_words(self, place, *further):
        """The same without its certificates."""
        urls = ",".join(self.urls[place:] + self.urls[:place])
        program = self.programs[place] if place < len(self.programs) else self.program
        return [sys.executable, *self.script(), *further, "--etcd", urls, "--program", program]

    def script(self):
        """The node's own; where it has a quota one in which forms stay so many seconds where there is little room."""
        return ["-c", QUICK_NODE, os.path.dirname(NODE), str(self.least)] if self.quota else [NODE]

    def order(self, *words):
        """Carries out an order; gives its status and what it told."""
        told = subprocess.run(self.words(0, *words), capture_output=True, text=True, timeout=LONG)
        return told.returncode, told.stdout + told.stderr

    def data(self, place):
        return os.path.join(self.folder, f"etcd-{place}")

    def store(self, place):
        return os.path.join(self.folder, f"store-{place}")

    def store_process(self, place):
        """The process of a node's store, if there is one."""
        told = subprocess.run(["pgrep", "-P", str(self.nodes[place].child.pid)], capture_output=True, text=True)
        return int(told.stdout.split()[0]) if told.stdout.split() else None

    def call(self, path, body):
        """What the first member answers. It is waited for where it was started just now."""
        deadline = time.monotonic() + LONG
        while True:
            try:
                with urllib.request.urlopen(self.urls[0] + path, json.dumps(body).encode(), LONG) as answer:
                    return json.load(answer)
            except urllib.error.URLError as error:
                if not isinstance(error.reason, ConnectionRefusedError) or time.monotonic() > deadline:
                    raise
                time.sleep(0.1)

    def keys(self, prefix):
        """What the first member has under the keys that begin so."""
        text = f"pazturrok/store/{prefix}".encode()
        ends = text[:-1] + bytes([text[-1] + 1])
        found = self.call("/v3/kv/range", {"key": base64.b64encode(text).decode(), "range_end": base64.b64encode(ends).decode()}).get("kvs", [])
        return {base64.b64decode(one["key"])[len(text) :].decode(): base64.b64decode(one.get("value", "")) for one in found}

    def version(self):
        """That of the log."""
        found = self.call("/v3/kv/range", {"key": base64.b64encode(b"pazturrok/store/log").decode()})
        return json.loads(base64.b64decode(found["kvs"][0]["value"]))["version"]

    def end(self):
        for one in [*self.nodes, *self.members]:
            one.signal(signal.SIGCONT)
        for node in self.nodes:
            node.signal(signal.SIGTERM)
        for node in self.nodes:
            try:
                node.child.wait(LONG)
            except subprocess.TimeoutExpired:
                print(f"cluster: {node.log}: it does not end", *node.told().split("\n")[-15:], sep="\n", flush=True)
                node.kill()
        for member in self.members:
            member.kill()

    @contextlib.contextmanager
    def ended_if_late(self):
        """Ends the cluster where what is done first comes to no end, before a part has it."""
        try:
            yield
        except BaseException:
            self.end()
            raise

    def run(self, place, command, *options, text=""):
        """What a command tells of a store that no node serves. The program of a node that was killed holds its store for a moment more."""
        words = [self.program, command, self.store(place), *options]
        until = time.monotonic() + LONG
        while True:
            told = subprocess.run(words, input=text, capture_output=True, text=True, timeout=LONG)
            if "locked by another process" not in told.stderr or time.monotonic() > until:
                break
            time.sleep(0.1)
        assert told.returncode == 0, told.stderr
        return told.stdout

    def dump(self, place):
        return self.run(place, "dump")


class Alone(Cluster):
    """A node without etcd, at a socket or at a place of this machine."""

    def __init__(self, folder, program, keep=600, options=(), place=None):
        self.folder, self.program, self.apart, self.secrets, self.blows, self.context = folder, program, None, None, 0, None
        self.urls, self.members, self.places = [], [], [place or os.path.join(folder, "socket")]
        self.nodes = [self.node(0, keep, options)]
        self.nodes[0].start()

    def node(self, place, keep=600, options=()):
        where = self.places[place]
        listen = f"unix:{where}" if isinstance(where, str) else f"{where[0]}:{where[1]}"
        words = [sys.executable, NODE, self.store(0), "--alone", "--listen", listen, "--keep", str(keep), "--program", self.program, *options]
        return Process(words, os.path.join(self.folder, "node.log"))


def connected(place, seconds):
    """A connection to a node at HOST, PORT, or at the path of a socket."""
    if not isinstance(place, str):
        return socket.create_connection(place, seconds)
    way = socket.socket(socket.AF_UNIX)
    way.settimeout(seconds)
    way.connect(place)
    return way


class Client:
    """A client of one node after the other: it sends a request again, under its name, until it is answered."""

    def __init__(self, places, at=0, patience=10.0, context=None):
        self.places, self.at, self.stream, self.patience, self.context = places, at, None, patience, context

    def request(self, head, text, limit=2 * LONG):
        """The number and the text of the answer; the number is None of a question. (A form without a name is another one when it is sent
        again.)"""
        deadline = time.monotonic() + limit
        while time.monotonic() < deadline:
            try:
                return self.once(head, text)
            except (OSError, ValueError):
                self.stream = None
                self.at = (self.at + 1) % len(self.places)
                time.sleep(0.02)
        raise Late(f"no answer in {limit:.0f} s to {head!r} {text[:80]!r}")

    def once(self, head, text):
        if self.stream is None:
            way = connected(self.places[self.at], self.patience)
            way = self.context.wrap_socket(way, server_hostname=self.places[self.at][0]) if self.context else way
            self.stream = way.makefile("rwb")
        self.stream.write(b"%s %d\n%s\n" % (head, len(text), text))
        self.stream.flush()
        *_, kind, size = self.stream.readline().split()
        answer = self.stream.read(int(size) + 1)
        if len(answer) <= int(size):
            raise ValueError("the connection was lost")
        return (None if kind == b"ask" else int(kind)), answer[:-1].decode("latin-1")


def trouble(cluster, chance, stopped, pause):
    """Kills, stops and cuts off members, nodes and stores at random, one after the other."""
    while not stopped.wait(chance.random() * pause):
        kind = chance.random()
        node = chance.choice(cluster.nodes)
        if kind < 0.3:
            process = cluster.store_process(cluster.nodes.index(node))
            # (it may have ended by now)
            with contextlib.suppress(ProcessLookupError):
                if process:
                    os.kill(process, signal.SIGKILL)
        elif kind < 0.45:
            node.kill()
            stopped.wait(chance.random() * pause)
            node.start()
        elif kind < 0.65 and cluster.apart:
            place = chance.randrange(len(cluster.nodes))
            cluster.apart.cut(place)
            stopped.wait(chance.random() * 5 * pause)
            cluster.apart.join(place)
        else:
            one = node if kind < 0.75 else chance.choice(cluster.members)
            if kind < 0.87:
                one.signal(signal.SIGSTOP)
                stopped.wait(chance.random() * 2 * pause)
                one.signal(signal.SIGCONT)
            else:
                one.kill()
                stopped.wait(chance.random() * 2 * pause)
                one.start()
        cluster.blows += 1
