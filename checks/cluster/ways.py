"""The names of nodes, and the ways between clients, nodes and members by TLS. Each part gives what is wrong."""
import os
import shutil
import ssl
import subprocess
import sys
import time

from cluster import NODE, Client, Process, free_ports
from refusals import ADD, begun, value
from secrets import Secrets
from waits import LONG, until

sys.path.append(os.path.join(os.path.dirname(os.path.abspath(__file__)), "..", "..", "clients", "python", "src"))

# ---- names


def names(folder, program):
    """A second node under a name is refused, over an empty folder and over a copy, and the first goes on. A node that was killed has its name
    at once when it comes again, and who comes after one that was ended has it at once; after one that was killed another one waits."""
    cluster = begun(folder, program, nodes=1)
    try:
        cluster.places += [(cluster.host(0), port) for port in free_ports(2)]
        shutil.copytree(cluster.store(0), cluster.store(2), ignore=shutil.ignore_patterns("replica"))
        others = [cluster.node(place, options=("--name", "n0")) for place in (1, 2)]
        for other in others:
            other.start()
        faults = [fault for other in others for fault in refused_name(other)]
        faults += [] if value(cluster, 0) == "5" else ["the first one does not go on"]
        took = [came_again(cluster, cluster.nodes[0].kill, 0), came_again(cluster, cluster.nodes[0].finish, 2)]
        took.append(came_again(cluster, cluster.nodes[0].kill, 0))
        if max(took[:2]) > 10 or not 3 < took[2] < 25 or "had it until now" not in cluster.nodes[0].told():
            faults.append(f"nodes wait for a name in another way than they should: {took}")
        return faults
    finally:
        cluster.end()


def refused_name(node):
    try:
        status = node.child.wait(LONG)
    except subprocess.TimeoutExpired:
        node.kill()
        return ["a node goes on under a name that another has"]
    told = node.told()
    return [] if status == 4 and "another node of this log goes by the name n0" in told else [f"status {status}: {told[-300:]}"]


def came_again(cluster, end, place):
    """Ends the node, and starts one of its name over the store of a place; after how many seconds that answers."""
    end()
    cluster.nodes = [cluster.node(place, options=("--name", "n0"))]
    began = time.monotonic()
    cluster.nodes[0].start()
    return time.monotonic() - began if value(cluster, place) == "5" else LONG


# ---- TLS


def secure(folder, program):
    """Members, nodes and clients know one another by certificates. Who has none, or one that another signed, has no answer; a node says so."""
    cluster = begun(folder, program, members=3, nodes=2, secrets=Secrets(folder))
    try:
        faults = [] if python_client(cluster) == [6, 6] else ["the client for Python has another answer"]
        faults += [f"{told} is heard" for told in heard_strangers(cluster)]
        faults += seeded(cluster, folder) + over(cluster, Secrets(folder, "over", signer=cluster.secrets, days=0))
        other = Secrets(folder, "other")
        for words in (["--etcd-ca", other.ca, "--etcd-cert", other.both], ["--etcd-ca", cluster.secrets.ca]):
            faults += deaf_node(cluster, folder, words)
        return faults + ([] if value(cluster, 0) == value(cluster, 1) == "6" else ["another value"])
    finally:
        cluster.end()


def seeded(cluster, folder):
    """A new node takes the store of another one with its certificate, and gets nothing without one, or with one that another signed."""
    other, own, faults = Secrets(folder, "strange"), cluster.secrets, []
    for words, wanted in (([], 2), (["--cert", other.both, "--client-ca", own.ca], 2), (["--cert", own.both, "--client-ca", own.ca], 0)):
        store = cluster.store(6)
        told = subprocess.run(cluster.words(0, "seed", store, "--name", "n6", *words), capture_output=True, text=True, timeout=2 * LONG)
        if told.returncode != wanted or os.path.exists(os.path.join(store, "half-a")) != (wanted == 0):
            faults.append(f"seed with {words}: {told.returncode} {told.stderr[-300:]}")
    return faults


def over(cluster, secrets):
    """A client whose certificate is over is not heard. A node with such a one says so as it starts; and one with a file that is none names it."""
    time.sleep(2)
    faults, context = [], ssl.create_default_context(cafile=secrets.ca)
    context.load_cert_chain(secrets.both)
    try:
        Client(cluster.places[:1], patience=5.0, context=context).once(b"do", ADD)
        faults.append("a client whose certificate is over is heard")
    except (OSError, ValueError):
        pass
    for path, status, why in ((secrets.both, 2, "ends within 30 days, or has ended"), (__file__, 3, f"{__file__}: it is no certificate with its key")):
        words = cluster.words(0, "seed", cluster.store(5), "--name", "n5", "--cert", path, "--client-ca", secrets.ca)
        told = subprocess.run(words, capture_output=True, text=True, timeout=2 * LONG)
        faults += [] if told.returncode == status and why in told.stderr else [f"with {path}: {told.returncode} {told.stderr[-300:]}"]
    return faults


def python_client(cluster):
    from pazturrok import NodeStore

    with NodeStore([f"{host}:{port}" for host, port in cluster.places], context=cluster.context) as store:
        return [store.do(ADD.decode()), store.read("(GET 'COUNTER 'KY)")]


def heard_strangers(cluster):
    """Those who are answered and should not be."""
    nameless = ssl.create_default_context(cafile=cluster.secrets.ca)
    stranger = ssl.create_default_context()
    for told, context in (("a client without TLS", None), ("one without a certificate", nameless), ("one that does not trust the node", stranger)):
        try:
            Client(cluster.places[:1], patience=3.0, context=context).once(b"do", ADD)
            yield told
        except (OSError, ValueError):
            continue


def deaf_node(cluster, folder, words):
    """What is wrong with a node that should find no member to talk to, and say so."""
    further = [cluster.store(7), "--listen", os.path.join(folder, "deaf"), *words]
    node = Process(cluster.plain_words(0, *further), os.path.join(folder, "deaf.log"))
    node.start()
    try:
        until(lambda: "no member of etcd answers" in node.told() or node.child.poll() is not None, "a node that no member of etcd hears says so")
        if node.child.poll() is not None:
            return [f"a node that no member of etcd hears ends: {node.told()[-300:]}"]
        return [] if not os.path.exists(cluster.store(7)) else ["a node that no member of etcd hears has opened its store"]
    finally:
        node.finish()
        os.remove(node.log)


# ---- words

WRONG_WORDS = [
    ["--etcd", "10.0.0.1:2379"], ["--etcd", "member"], ["--etcd", "http://127.0.0.1:2379,"], ["--etcd", "unix:///run/etcd"],
    ["--etcd-ca", "ca", "--etcd", "http://127.0.0.1:2379"], ["--etcd-cert", "both"], ["--client-ca", "ca"], ["--name", "a/b"], ["--log", ""],
    ["--listen", "7411"], ["--listen", "localhost:http"], ["--listen", "0.0.0.0:7411"], ["begin"], ["skip", "-1"], [],
    ["--monitor", "9100"], ["--monitor", "0.0.0.0:9100"], ["--most-clients", "0"], ["--advertise", "node-a"], ["--alone", "--advertise", "a:1"],
    ["seed"], ["nodes", "more"], ["begin", "--again"], ["--again"], ["--from", "10.0.0.1:7411"],
]  # fmt: skip


def wrong_words(folder, _program):
    """Words that are refused, before anything is asked or opened."""
    faults = []
    for words in WRONG_WORDS:
        store = [] if not words or words[0] in ("begin", "skip", "seed", "nodes") else [os.path.join(folder, "store")]
        told = subprocess.run([sys.executable, NODE, *store, *words], capture_output=True, text=True, timeout=LONG)
        if told.returncode != 2 or "error: " not in told.stderr or os.path.exists(os.path.join(folder, "store")):
            faults.append(f"{words}: status {told.returncode}, {told.stderr[-200:]}")
    return faults


PARTS = {"wrong words": wrong_words, "names": names, "secure": secure}
