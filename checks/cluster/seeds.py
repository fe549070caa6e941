"""A node that is new, or was left behind, takes the store of another one, by itself or as it is told; the way back to a
backup; versions of what stands in etcd. Each part gives what is wrong."""
import base64
import contextlib
import json
import os
import re
import shutil
import socket
import subprocess
import threading

from cluster import HERE, OWN, Alone, Client, Cluster, free_ports, has_readtables
from refusals import ADD, begun, refused, trim_away, value
from waits import LONG, Worker, until

OPERATORS = os.path.join(HERE, "..", "..", "lisp", "operators.lisp")


def tree(folder):
    """The halves of a store, byte for byte."""
    halves = {}
    for half in ("half-a", "half-b"):
        with contextlib.suppress(FileNotFoundError), open(os.path.join(folder, half), "rb") as file:
            halves[half] = file.read()
    return halves


def new_node(cluster, *options):
    """One more node, whose folder is not there."""
    cluster.places.append((cluster.host(0), free_ports(1)[0]))
    cluster.nodes.append(cluster.node(len(cluster.nodes), 0, options))
    return len(cluster.nodes) - 1


def taken(folder, program):
    """A node that was away while entries were deleted, and one that is new, take the store of the first one and go on,
    while clients add. What was there before is kept. Where no other node runs, the node ends and says so."""
    cluster = begun(folder, program, nodes=2, keep=0)
    try:
        cluster.nodes[1].finish()
        old = tree(cluster.store(1))
        trim_away(cluster)
        cluster.nodes[0].finish()
        faults = refused(cluster, 1, "behind what is left of the log")
        is_told = "no other one runs" in cluster.nodes[1].told()
        faults += [] if is_told else ["a node does not say why it takes no store"]
        cluster.nodes[0].start()
        value(cluster, 0)
        over = threading.Event()
        adds = Worker(keep_adding, cluster, over)
        adds.start()
        cluster.nodes[1].start()
        cluster.nodes[new_node(cluster)].start()
        faults += [f"{place}: no answer" for place in (1, 2) if not value(cluster, place).isdigit()]
        over.set()
        adds.join()
        seen = [value(cluster, place) for place in range(3)]
        faults += [] if len(set(seen)) == 1 else [f"the counters are {seen}"]
        is_kept = tree(os.path.join(cluster.store(1), "pazturrok-before")) == old
        faults += [] if is_kept else ["what was there before is not kept"]
        until(lambda: names_of_nodes(cluster) == ["n0", "n1", "n2"], "`pazturrok-node nodes` tells of three nodes")
        # (who gives a copy removes it after the last byte, which the other one has by then)
        until(lambda: not left_over(cluster), "nothing is left of what was given")
        return faults
    finally:
        cluster.end()


def keep_adding(cluster, over):
    client, count = Client(cluster.places[:1]), 0
    while not over.is_set():
        count += 1
        client.request(b"do more-%d" % count, ADD)


def names_of_nodes(cluster):
    """The nodes of which `nodes` tells, if it ends well."""
    told = subprocess.run(cluster.words(0, "nodes"), capture_output=True, text=True, timeout=LONG)
    return told.returncode == 0 and [line.split()[0] for line in told.stdout.splitlines()]


def left_over(cluster):
    """The folders that should be gone."""
    names = [f"pazturrok-{name}" for name in ("given", "given.partial", "taken", "whole", "empty")]
    paths = [os.path.join(cluster.store(place), name) for place in range(len(cluster.nodes)) for name in names]
    return [f"{path} is left" for path in paths if os.path.exists(path)]


def as_told(folder, program):
    """A store that is none of the log is refused, and takes another one by one command; which changes nothing while the
    node runs, and where nobody gives what it wants."""
    cluster = begun(folder, program, nodes=2)
    try:
        faults = [] if order(cluster, "seed", cluster.store(1))[0] == 2 else ["a store is taken while its node runs"]
        cluster.nodes[1].finish()
        cluster.run(1, "run", text="(SETF (GET 'COUNTER 'KY) 100)\n")
        faults += refused(cluster, 1, "by another way")
        before = tree(cluster.store(1))
        for place, why in givers(cluster, folder):
            status, told = order(cluster, "seed", cluster.store(1), "--from", place)
            faults += [] if status == 2 and why in told else [f"from {place}: {status} {told}, and not {why!r}"]
        faults += [] if tree(cluster.store(1)) == before else ["a store has changed, though none was taken"]
        status, told = order(cluster, "seed", cluster.store(1))
        faults += [] if status == 0 and "is here, at" in told else [f"seed: {status} {told}"]
        is_kept = tree(os.path.join(cluster.store(1), "pazturrok-before")) == before
        faults += [] if is_kept else ["what was there before is not kept"]
        cluster.nodes[1].start()
        faults += [] if value(cluster, 1) == "5" else ["a node does not go on with what it took"]
        until(lambda: not left_over(cluster), "nothing is left of what was given")
        return faults
    finally:
        cluster.end()


def order(cluster, *words):
    told = subprocess.run([*cluster.words(1, *words), "--name", "n1"], capture_output=True, text=True, timeout=2 * LONG)
    return told.returncode, told.stdout + told.stderr


def givers(cluster, folder):
    """Places that give no store, or a wrong one, and what is said of each."""
    token = cluster.keys("log")[""].decode()
    yield f"{OWN}:{free_ports(1)[0]}", "Connect call failed"
    yield os.path.join(folder, "nobody"), "No such file"
    halves = {"half-a": [4, "0" * 64], "half-b": [0, "0" * 64]}
    line = {"copy": 1, "node": "n7", "log": token, "halves": halves}
    for told, why in (
        ({**line, "log": "{}"}, "of another log"), ({**line, "node": "n1"}, "it is n1 itself"),
        ({**line, "copy": 2}, "of version 2"), ({**line, "halves": {}}, "half-a"), (line, "is not what it sent"),
        ({**line, "halves": {**halves, "half-a": [9999, "0"]}}, "within its copy"),
    ):
        yield stand_in(json.dumps(told).encode() + b"\nABCD"), why
    yield stand_in(b"no JSON\nABCD"), "Expecting value"
    yield stand_in(None), "it answers ! 60 DEVICE"


def stand_in(copy):
    """Where something listens that gives this for a copy, or refuses."""
    listener = socket.create_server(("127.0.0.1", 0))

    def serve():
        with contextlib.suppress(OSError), listener, listener.accept()[0] as one:
            one.recv(100)
            answer = b"ask 11\n! 60 DEVICE\n" if copy is None else b"seed 99\n" + copy
            one.sendall(b"ask 12\n(:VERSION 1)\n" + answer)
            one.shutdown(socket.SHUT_WR)
            while one.recv(100):
                pass

    threading.Thread(target=serve, daemon=True).start()
    return f"127.0.0.1:{listener.getsockname()[1]}"


def way_back(folder, program):
    """All go back to a backup: the log is begun again with it, while no node runs. The other stores are refused, and take
    it."""
    cluster = begun(folder, program, nodes=2)
    try:
        kept = os.path.join(folder, "yesterday")
        subprocess.run([program, "backup", cluster.store(0), kept], check=True, capture_output=True)
        for number in range(3):
            Client(cluster.places).request(b"do later-%d" % number, ADD)
        cluster.nodes[0].finish()
        os.rename(cluster.store(0), os.path.join(folder, "today"))
        shutil.copytree(kept, cluster.store(0))
        words = ("begin", cluster.store(0))
        faults = [] if cluster.order(*words, "--again")[0] == 4 else ["a log is begun again while a node runs"]
        faults += [] if value(cluster, 1) == "8" else ["the node that runs does not go on"]
        cluster.nodes[1].finish()
        without_names(cluster)
        faults += [] if cluster.order(*words)[0] == 2 else ["a log is begun again though nobody asked for it"]
        status, told = cluster.order(*words, "--again")
        faults += [] if status == 0 else [f"begin --again: {status} {told}"]
        cluster.nodes[0].start()
        faults += [] if value(cluster, 0) == "5" else [f"after the way back the counter is {value(cluster, 0)}"]
        faults += refused(cluster, 1, "of another log")
        until(lambda: "n1" not in cluster.keys("names/"), "a node that was refused has no name")
        status, told = order(cluster, "seed", cluster.store(1))
        cluster.nodes[1].start()
        Client(cluster.places[1:]).request(b"do add-0", ADD)
        cluster.nodes[new_node(cluster)].start()
        seen = [value(cluster, place) for place in (0, 1, 2)]
        is_well = seen == ["6", "6", "6"] and status == 0
        return faults + ([] if is_well else [f"after the way back the counters are {seen}: {told}"])
    finally:
        cluster.end()


def without_names(cluster):
    """Waits until no node has a name. One that ends lets its name go if etcd is told so within two seconds, and else has it for 15 more."""
    until(lambda: not cluster.keys("names/"), "nodes that were ended have no names")


def versions(folder, program):
    """A log of a later version is refused, and nothing is carried out; one that was begun before there were versions goes
    on. A report of a node that this one does not understand holds up nothing but the deleting of entries. What stands
    beside the store and is no note is refused."""
    cluster = begun(folder, program, nodes=1)
    node, key = cluster.nodes[0], base64.b64encode(b"pazturrok/store/log").decode()
    try:
        node.finish()
        faults, told = [], json.loads(cluster.keys("log")[""])
        put(cluster, key, {**told, "version": 3})
        faults += refused(cluster, 0, "is of version 3, and this node knows versions 1 and 2")
        put(cluster, key, [told["epoch"], told["first"], told["world"]])
        put(cluster, base64.b64encode(b"pazturrok/store/nodes/n9").decode(), "no report")
        node.start()
        faults += [] if value(cluster, 0) == "5" else ["a log without a version does not go on"]
        Client(cluster.places).request(b"do later", ADD)
        node.finish()
        no_note = "is not what stands there"
        for text, why in (("{", no_note), ("[]", no_note), ('{"version": 2}', "of another version")):
            with open(os.path.join(cluster.store(0), "replica"), "w", encoding="ascii") as file:
                file.write(text)
            faults += refused(cluster, 0, why)
        os.unlink(os.path.join(cluster.store(0), "replica"))
        node.start()
        faults += [] if value(cluster, 0) == "6" else ["a node does not go on without its notes"]
        # whatever was written over the key of the log, a new store has all entries
        cluster.nodes[new_node(cluster)].start()
        return faults + ([] if value(cluster, 1) == "6" else [f"a new store comes to {value(cluster, 1)}"])
    finally:
        cluster.end()


def put(cluster, key, told):
    value_of = base64.b64encode(json.dumps(told).encode()).decode()
    cluster.call("/v3/kv/put", {"key": key, "value": value_of})


def from_one(folder, program):
    """A store that a node without etcd has served comes to several machines, with what was answered; and the operators by a client, after that."""
    os.mkdir(os.path.join(folder, "one"))
    one = Alone(os.path.join(folder, "one"), program)
    client = Client(one.places)
    client.request(b"do first", b"(SETF (GET 'COUNTER 'KY) 0)")
    for number in range(5):
        client.request(b"do add-%d" % number, ADD)
    one.nodes[0].finish()
    cluster = Cluster(folder, program, members=1, nodes=0)
    try:
        first = new_node(cluster)
        shutil.copytree(one.store(0), cluster.store(first), ignore=shutil.ignore_patterns("journal"))
        faults = refused(cluster, first, "etcd has no log of this name")
        status, told = cluster.order("begin", cluster.store(first))
        faults += [] if status == 0 else [f"begin: {status} {told}"]
        for place in (first, new_node(cluster), new_node(cluster)):
            cluster.nodes[place].start()
        seen = [value(cluster, place) for place in range(3)]
        faults += [] if seen == ["5", "5", "5"] else [f"the counters are {seen}"]
        return faults + (told_operators(cluster) if has_readtables(program) else [])
    finally:
        cluster.end()


def told_operators(cluster):
    """The forms of lisp/operators.lisp, sent to one node, are known to all."""
    with open(OPERATORS, encoding="ascii") as file:
        forms = re.split(r"\n(?=\()", re.sub(r"(?m)^;.*\n", "", file.read()).strip())
    answers = [Client(cluster.places[1:]).request(b"do", form.encode())[1] for form in forms]
    seen = [Client([place]).request(b"read", b"(+ (GET 'COUNTER 'KY) 2)")[1] for place in cluster.places]
    return [] if answers == ['"PAZTURROK"', "T", "T"] and seen == ["7"] * 3 else [f"the operators: {answers}, {seen}"]


LONG_ONES = ("taken as told", "versions", "from one")
PARTS = {"taken": taken, "taken as told": as_told, "way back": way_back, "versions": versions, "from one": from_one}
