"""Stores that are no replicas of the log, an entry that no store can carry out, and clients that are none. Each part gives what is wrong."""
import json
import os
import shutil
import socket
import subprocess
import time

from cluster import Client, Cluster
from waits import LONG, Worker, until

ADD = b"(INCF (GET 'COUNTER 'KY))"
LOOK = b"(GET 'COUNTER 'KY)"


def begun(folder, program, members=1, **options):
    """A cluster whose counter has gone up to 5, on all of its nodes."""
    cluster = Cluster(folder, program, members, **options)
    with cluster.ended_if_late():
        client = Client(cluster.places, context=cluster.context)
        client.request(b"do first", b"(SETF (GET 'COUNTER 'KY) 0)")
        for number in range(5):
            client.request(b"do add-%d" % number, ADD)
        for place in cluster.places:
            Client([place], context=cluster.context).request(b"read", LOOK)
    return cluster


def refused(cluster, place, words):
    """What is wrong with a node that should be refused with these words, and change nothing."""
    before = cluster.dump(place)
    node = cluster.nodes[place]
    earlier = len(node.told())
    node.start()
    try:
        status = node.child.wait(LONG)
    except subprocess.TimeoutExpired:
        node.kill()
        return [f"a node goes on, and should say: {words}"]
    told = node.told()[earlier:]
    found = [] if status == 4 and words in told else [f"status {status} and no {words!r} in {told[-300:]!r}"]
    return found + ([] if cluster.dump(place) == before else [f"a store has changed, though {words}"])


def copy_store(cluster, source, target):
    """Seeds a node as the page says: nothing but both halves."""
    shutil.rmtree(cluster.store(target), ignore_errors=True)
    os.makedirs(cluster.store(target))
    for half in ("half-a", "half-b"):
        shutil.copy(os.path.join(cluster.store(source), half), os.path.join(cluster.store(target), half))


def value(cluster, place):
    return Client([cluster.places[place]], context=cluster.context).request(b"read", LOOK)[1]


# ---- stores that are none of the log


def other_way(folder, program):
    """Forms by `run` came in between: after an end, after a kill, and with a snapshot after them."""
    faults, cluster = [], begun(folder, program, nodes=1)
    node = cluster.nodes[0]
    try:
        for end, snapshot, words in ((node.finish, False, "by another way"), (node.finish, True, "have changed"), (node.kill, False, "by another way")):
            end()
            kept = {half: open(os.path.join(cluster.store(0), half), "rb").read() for half in ("half-a", "half-b")}
            cluster.run(0, "run", text="(SETF (GET 'COUNTER 'KY) 100)\n")
            if snapshot:
                cluster.run(0, "snapshot")
            faults += refused(cluster, 0, words)
            for half, data in kept.items():
                with open(os.path.join(cluster.store(0), half), "wb") as file:
                    file.write(data)
            node.start()
            if value(cluster, 0) != "5":
                faults.append("the store does not go on after its files were put back")
        return faults
    finally:
        cluster.end()


def other_world(folder, program):
    """A store that had forms before, where the log begins with an empty one."""
    cluster = begun(folder, program, nodes=1)
    try:
        cluster.places.append(cluster.places[0])
        cluster.nodes[0].finish()
        cluster.nodes.append(cluster.node(1))
        cluster.run(1, "run", text="(SETF (GET 'COUNTER 'KY) 100)\n")
        cluster.nodes[1].start()
        status = cluster.nodes[1].child.wait(LONG)
        told = cluster.nodes[1].told()
        return [] if status == 4 and "another world" in told else [f"status {status}: {told[-300:]}"]
    finally:
        cluster.end()


def lose_etcd(cluster):
    for node in cluster.nodes:
        node.finish()
    cluster.members[0].kill()
    shutil.rmtree(cluster.data(0))
    cluster.members[0].start()


def other_log(folder, program):
    """A store of another log, and one whose log is not there; then a log is begun anew with the store that has come farthest."""
    cluster = begun(folder, program, nodes=2)
    try:
        lose_etcd(cluster)
        faults = refused(cluster, 0, "etcd has no log of this name")
        for wanted in (0, 2):
            status, told = cluster.order("begin", cluster.store(0))
            faults += [] if status == wanted else [f"begin: {status} {told}"]
        copy_store(cluster, 0, 1)
        for node in cluster.nodes:
            node.start()
        Client(cluster.places).request(b"do add-0", ADD)
        if [value(cluster, 0), value(cluster, 1)] != ["6", "6"]:
            faults.append("the nodes do not go on in a log that was begun anew")
        lose_etcd(cluster)
        # another log of this name: a new store begins it
        shutil.move(cluster.store(1), cluster.store(1) + "-old")
        cluster.nodes[1].start()
        Client(cluster.places[1:]).request(b"do first", b"(SETF (GET 'COUNTER 'KY) 0)")
        return faults + refused(cluster, 0, "of another log")
    finally:
        cluster.end()


def ahead(folder, program):
    """etcd is put back to an older state: a store is ahead of it; and then the log has other entries than the store carried out."""
    cluster = begun(folder, program, nodes=2)
    try:
        member, (one, two) = cluster.members[0], cluster.nodes
        two.finish()
        member.kill()
        shutil.copytree(cluster.data(0), cluster.data(0) + "-old")
        member.start()
        for number in range(20):
            Client(cluster.places[:1]).request(b"do later-%d" % number, ADD)
        one.finish()
        member.kill()
        shutil.rmtree(cluster.data(0))
        shutil.move(cluster.data(0) + "-old", cluster.data(0))
        member.start()
        faults = refused(cluster, 0, "the log ends before that")
        two.start()
        for number in range(60):
            Client(cluster.places[1:]).request(b"do other-%d" % number, b"(PUSH 1 (GET 'LIST 'KY))")
        return faults + refused(cluster, 0, "another entry")
    finally:
        cluster.end()


def behind(folder, program):
    """A node that was away while entries were trimmed says so, and goes on with the files of another one that was stopped."""
    cluster = begun(folder, program, nodes=2, keep=0)
    try:
        one, away = cluster.nodes
        away.finish()
        trim_away(cluster)
        one.finish()
        faults = refused(cluster, 1, "behind what is left of the log")
        copy_store(cluster, 0, 1)
        one.start()
        away.start()
        wanted, given = value(cluster, 0), value(cluster, 1)
        return faults + ([] if given == wanted else [f"a seeded node has {given}, and not {wanted}"])
    finally:
        cluster.end()


def trim_away(cluster):
    """Adds until entries are deleted which a store wants that is new, or was away: from then on it is behind."""
    before = {"~", "~beat", *cluster.keys("log/")}
    Client(cluster.places[:1]).request(b"do", ADD)
    wanted = set(cluster.keys("log/")) - before
    trimmed(cluster, 0, 40, ADD)
    until(lambda: wanted.isdisjoint(cluster.keys("log/")), "entries are gone from etcd", 2 * LONG)


def trimmed(cluster, place, after, form=b"(PUSH 1 (GET 'LIST 'KY))"):
    """Adds until it is said that entries up to a revision after this one are deleted. (The deletes themselves come after that.)"""
    client = Client(cluster.places[place : place + 1])

    def is_told():
        client.request(b"do", form)
        return any(int(name) > after for name in cluster.keys("trims/"))

    until(is_told, "old entries are deleted", 2 * LONG)


def idle(folder, program):
    """Forms that write nothing are trimmed no farther than the store's own position, which stays behind them."""
    cluster = begun(folder, program, nodes=1, keep=0)
    try:
        for number in range(40):
            Client(cluster.places).request(b"do look-%d" % number, LOOK)
        time.sleep(8)
        cluster.nodes[0].kill()
        cluster.nodes[0].start()
        return [] if value(cluster, 0) == "5" else ["another value"]
    finally:
        cluster.end()


# ---- an entry that no store can carry out


LARGE = b'#999999("0123456789abcdef")'
"""A form for which a store with little memory has none."""


def small_program(folder, program):
    """The program with little memory."""
    small = os.path.join(folder, "small")
    with open(small, "w", encoding="ascii") as file:
        file.write(f'#!/bin/sh\nulimit -v 200000\nFAKE_MEMORY=refused exec {program} "$@"\n')
    os.chmod(small, 0o755)
    return small


def skipped(folder, program):
    """All stores end at one entry, until it is skipped."""
    cluster = begun(folder, small_program(folder, program), nodes=2)
    answers = []
    try:
        large = Worker(ask_long, cluster.places, b"do large", LARGE, answers)
        after = Worker(ask_long, cluster.places[1:], b"do after", ADD, answers)
        large.start()
        until(lambda: "large" in cluster.keys("log/"), "a form comes into the log")
        after.start()
        number = stuck_at(cluster)
        faults = [] if cluster.order("skip", str(number + 1))[0] == 2 else ["another entry is skipped"]
        status, told = cluster.order("skip", str(number))
        if status:
            return [*faults, f"skip {number}: {told}"]
        large.join()
        after.join()
        if sorted(text for _, text in answers) != ["! 53 SKIPPED", "6"]:
            faults.append(f"answers after a skip: {answers}")
        if [value(cluster, 0), value(cluster, 1)] != ["6", "6"]:
            faults.append("the stores do not go on after a skip")
        faults += [] if all(f"entry {number} is skipped" in node.told() for node in cluster.nodes) else ["a skip is not told"]
        return faults + skipped_elsewhere(cluster, number)
    finally:
        cluster.end()


def ask_long(places, head, text, answers):
    """Has the answers take one more, however long that takes."""
    answers.append(Client(places, patience=LONG).request(head, text, 4 * LONG))


def stuck_at(cluster):
    """The number of the entry at which all stores end, by what the nodes report."""
    seen = set()

    def are_stuck():
        seen.clear()
        seen.update(json.loads(report)["stuck"] for report in cluster.keys("nodes/").values())
        return len(seen) == 1 and 0 not in seen

    until(are_stuck, "all nodes report the entry at which their stores end", 2 * LONG)
    return seen.pop()


def skipped_elsewhere(cluster, number):
    """A store that has not skipped the entry, by what its node wrote down, is refused; and one that has goes on."""
    node, path = cluster.nodes[1], os.path.join(cluster.store(1), "replica")
    node.finish()
    node.start()
    if value(cluster, 1) != "6":
        return ["a store that skipped an entry does not go on"]
    node.finish()
    with open(path, encoding="ascii") as file:
        noted = file.read()
    with open(path, "w", encoding="ascii") as file:
        file.write(noted.replace(str(number), "1"))
    return refused(cluster, 1, "may have carried it out")


# ---- clients

NO_FRAMES = [b"do 30\n(INCF", b"do x", b"nonsense\n", b"do 99999999\n", b"do 5\n(LIST 1)\n", b"\0" * 5000, b"do " + b"a" * 101 + b" 1\n1\n", b""]


def strangers(folder, program):
    """Half a frame, what is no frame, a client that never reads, 1,000 clients at once: the others go on."""
    cluster = begun(folder, program, nodes=1)
    host = cluster.places[0]
    try:
        held = []
        for text in NO_FRAMES:
            one = socket.create_connection(host)
            one.sendall(text)
            held.append(one)
        held.append(never_reads(host))
        faults = [] if value(cluster, 0) == "5" else ["strangers have changed something"]
        told = Client(cluster.places).request(b"do add-0", LOOK)
        faults += [] if told == (0, "! 55 OTHER-TEXT") else [f"a name that is there with another text is answered {told}"]
        many = [socket.create_connection(host, LONG) for _ in range(1000)]
        for number, one in enumerate(many):
            one.sendall(b"do many-%d %d\n%s\n" % (number, len(ADD), ADD))
        answers = sorted(map(one_answer, many))
        if answers != list(range(6, 1006)):
            faults.append(f"1,000 clients have other answers: {answers[:5]} .. {answers[-5:]}")
        return faults
    finally:
        cluster.end()


def never_reads(host):
    """A client that asks as fast as it may, for some seconds, and reads no answer."""
    silent = socket.create_connection(host)
    silent.setblocking(False)
    text, sent, deadline = b"ask 18\n(GET 'COUNTER 'KY)\n" * 200_000, 0, time.monotonic() + 5
    while time.monotonic() < deadline and sent < len(text):
        try:
            sent += silent.send(text[sent : sent + 65536])
        except BlockingIOError:
            time.sleep(0.05)
    return silent


def one_answer(connection):
    stream = connection.makefile("rb")
    _, size = stream.readline().split()
    return int(stream.read(int(size) + 1))


PARTS = {
    "other way": other_way, "other world": other_world, "other log": other_log, "ahead": ahead, "behind": behind, "idle": idle,
    "skipped": skipped, "strangers": strangers,
}  # fmt: skip
