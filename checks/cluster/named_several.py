"""Messages of clients with a name, through nodes over etcd: any node has the answer that another one gave. Each part gives what is wrong."""
import os
import random
import signal
import subprocess
import sys
import threading
import time

import linear
import named as named_alone
from cluster import Client, has_readtables, trouble
from gone import Repeater, by_relays, key_of
from late import ended
from little_room import put
from named import OLDER, PYTHON, be_killed
from refusals import ADD, begun, copy_store, value
from waits import LONG, Worker, all_ended, until

OTHER_VERSION, LOST, OTHER_TEXT, NO_ROOM = "! 58 OTHER-VERSION", "! 50 OLD-NUMBER", "! 55 OTHER-TEXT", "! 54 NO-ROOM"
GREET = b"version 2"
CLIENTS_IN_C = os.path.join(os.path.dirname(os.path.abspath(__file__)), "..", "..", "clients", "c")
IN_C = r"""
#include "pazturrok_link.h"
#include <inttypes.h>
#include <stdio.h>
#include <stdlib.h>
#include <string.h>
int main(int count, char **words) {
    pazturrok_link *link = NULL;
    pazturrok_fault fault;
    const char *answer, *form = "(INCF (GET 'COUNTER 'KY))";
    if (count != 4 || pazturrok_link_connect(words[1], words[2], 120, &link, &fault) != 0) return 3;
    uint64_t number = pazturrok_link_last(link);
    printf("%" PRIu64 "\n", number);
    for (int left = atoi(words[3]); left > 0; left--) {
        if (pazturrok_link_do(link, ++number, form, strlen(form), &answer, NULL) != 0) return 4;
        printf("%s\n", answer);
        (void)fflush(stdout);
    }
    if (pazturrok_link_read(link, "(GET 'COUNTER 'KY)", 18, &answer, NULL) != 0) return 5;
    printf("%s\n", answer);
    pazturrok_link_close(link);
    return 0;
}
"""
BY_PYTHON = """
import sys
from pazturrok import NodeStore
with NodeStore(sys.argv[2].split(","), client_name=sys.argv[1]) as store:
    print(store.position, store.do("(INCF (GET 'COUNTER 'KY))"), store.position)
"""


def named(cluster, place, name, number, text, patience=10.0):
    """The answer of one node to a message of a client."""
    told, answer = Client(cluster.places[place : place + 1], patience=patience).request(b"by %d" % number, name + b" " + text)
    return answer if told == number else f"{told} {answer}"


def answered(folder, program):
    """Answers, refusals and numbers, of one node and of the next; after kills of both; of a store that is taken from the other node; and a client that
    goes and comes again."""
    cluster = begun(folder, program, nodes=2)
    try:
        faults = [] if cluster.version() == 1 else ["a log that has no such message is of a newer version"]
        cases = [(0, 1, b"(SETF (GET 'FLAG 'KY) 'T)", "T"), (1, 1, b"(SETF (GET 'FLAG 'KY) 'T)", "T"), (1, 1, b"(LIST 1)", OTHER_TEXT),
                 (1, 5, ADD, "6"), (0, 5, ADD, "6"), (0, 4, ADD, LOST), (0, 1 << 63, b"", "! 1 END-OF-FILE")]
        for place, number, text, wanted in cases:
            told = named(cluster, place, b"till-3", number, text)
            faults += [] if told == wanted else [f"{number} {text!r} is answered {told!r} by n{place}, and wanted is {wanted!r}"]
        faults += [] if cluster.version() == 2 else ["a log that has such a message is of no newer version"]
        for kill in (cluster.nodes[0].kill, cluster.nodes[1].kill):
            faults += goes(cluster)
            kill()
            for node in cluster.nodes:
                if node.child.poll() is not None:
                    node.start()
            told = named(cluster, 1, b"till-3", 1 << 63, b"")
            faults += [] if told == "! 1 END-OF-FILE" else [f"after a kill a client is answered {told}"]
        return faults + seeded(cluster)
    finally:
        cluster.end()


def goes(cluster):
    """A client that goes and comes again: its messages are new ones, once, whatever the stores are fed again."""
    before, told = int(value(cluster, 0)), []
    for place, text in ((0, ADD), (1, None), (1, ADD), (0, ADD)):
        told.append(named(cluster, place, b"goes", 1, text) if text else Client(cluster.places[place:]).request(b"by 1", b"goes")[1])
    wanted = [str(before + 1), "NIL", str(before + 2), str(before + 2)]
    Client(cluster.places).request(b"by 1", b"goes")
    for place in (0, 1):
        process = cluster.store_process(place)
        if process:
            os.kill(process, signal.SIGKILL)
    faults = [] if told == wanted else [f"a client that goes is answered {told}, and wanted is {wanted}"]
    seen = [value(cluster, place) for place in (0, 1)]
    return faults + ([] if seen == [wanted[-1]] * 2 else [f"the counters are {seen}, and wanted is {wanted[-1]}"])


def seeded(cluster):
    """The store of another node has the table; the client for Python goes on with it, by either node."""
    named(cluster, 0, b"till-4", 1, ADD)
    last = named(cluster, 0, b"till-4", 2, ADD)
    for node in cluster.nodes:
        node.finish()
    copy_store(cluster, 0, 1)
    for node in cluster.nodes:
        node.start()
    told = named(cluster, 1, b"till-4", 2, ADD)
    faults = [] if told == last else [f"a store that was copied answers {told}, and wanted is {last}"]
    nodes = ",".join(f"{host}:{port}" for host, port in reversed(cluster.places))
    found = subprocess.run([sys.executable, "-c", BY_PYTHON, "till-4", nodes], env={**os.environ, "PYTHONPATH": PYTHON}, capture_output=True, text=True, timeout=LONG)
    wanted = f"2 {int(last) + 1} 3\n"
    return faults + ([] if found.stdout == wanted else [f"the client for Python has {found.stdout} {found.stderr[-300:]}, and wanted is {wanted}"])


def in_c(folder, program):
    """The link for C goes on with the next node where one is killed, and asks all that was answered for its last number."""
    source, out = os.path.join(folder, "client.c"), os.path.join(folder, "client")
    with open(source, "w", encoding="ascii") as file:
        file.write(IN_C)
    subprocess.run(["cc", "-I", CLIENTS_IN_C, "-o", out, source, os.path.join(CLIENTS_IN_C, "link.c")], check=True)
    cluster = begun(folder, program, nodes=2)
    try:
        places = ",".join(f"{host}:{port}" for host, port in cluster.places)
        faults = []
        for turn in (0, 1):
            child = subprocess.Popen([out, places, "in-c", "40"], stdout=subprocess.PIPE, text=True)
            told = [int(child.stdout.readline()) for _ in range(11)]
            cluster.nodes[turn].kill()
            told += [int(line) for line in child.communicate(timeout=LONG)[0].split()]
            wanted = [40 * turn, *range(40 * turn + 6, 40 * turn + 46), 40 * turn + 45]
            faults += [] if told == wanted and child.returncode == 0 else [f"the link for C has {child.returncode} {told}"]
            cluster.nodes[turn].start()
            value(cluster, turn)
        return faults
    finally:
        cluster.end()


def unknown(folder, program):
    """While a node runs that knows no names, or whose program takes none, no node takes such messages. A node whose program takes none is refused by
    a log that has some."""
    older = os.path.join(folder, "older")
    with open(older, "w", encoding="ascii") as file:
        file.write(f"#!{sys.executable}\n{OLDER.format(program=program)}")
    os.chmod(older, 0o755)
    cluster = begun(folder, program, nodes=2, programs=[program, older])
    try:
        def greeting():
            return Client(cluster.places[:1]).request(GREET, b"")[1]

        until(lambda: greeting() == OTHER_VERSION, "no node takes messages of clients with a name")
        told = named(cluster, 0, b"till-3", 1, ADD, patience=LONG) if greeting() != OTHER_VERSION else None
        faults = [] if told is None and cluster.version() == 1 else [f"beside a program that takes no names: {told}"]
        cluster.nodes[1].finish()
        until(lambda: greeting() != OTHER_VERSION, "the node takes messages of clients with a name")
        faults += [] if named(cluster, 0, b"till-3", 1, ADD) == "6" else ["a message is answered otherwise"]
        cluster.nodes[1].start()
        faults += ended(cluster.nodes[1], "takes none")
        words = cluster.nodes[1].words
        words[words.index("--program") + 1] = program
        cluster.nodes[1].start()
        return faults + ([] if named(cluster, 1, b"till-3", 1, ADD) == value(cluster, 1) == "6" else ["with another program the node does not go on"])
    finally:
        cluster.end()


def late(folder, program):
    """All that the nodes ask of etcd comes twice, the second time up to eight seconds later, while entries are deleted and stores are killed: each
    message is carried out once, and answered; who asks again has the same answer."""
    cluster, chance, ends = begun(folder, program, nodes=2, keep=1), random.Random(5), time.monotonic() + 20
    relays = by_relays(cluster)
    repeaters = [Repeater(relay, 8, place) for place, relay in enumerate(relays)]
    calls, done = [], [0, 0, 0]

    def work(place):
        client, again = Client(cluster.places[place % 2 :], patience=3.0), Client(cluster.places)
        while time.monotonic() < ends:
            done[place] += 1
            begin = time.monotonic()
            head, text = b"by %d" % done[place], b"c-%d %s" % (place, ADD)
            told = client.request(head, text)
            calls.append(linear.Call(begin, time.monotonic(), "add", int(told[1])))
            if chance.random() < 0.2:
                assert again.request(head, text) == told, f"{head!r} is answered {told} and otherwise"

    workers = [Worker(work, place) for place in range(3)]
    try:
        for worker in workers:
            worker.start()
        while time.monotonic() < ends:
            time.sleep(chance.random() * 2)
            process = cluster.store_process(chance.randrange(2))
            if process:
                os.kill(process, signal.SIGKILL)
        all_ended(workers)
        seen = {value(cluster, place) for place in (0, 1)}
        faults = [] if seen == {str(5 + sum(done))} else [f"{sum(done)} were added to 5, and the counters are {seen}"]
        fault = linear.order_of(sorted(calls, key=lambda call: call.begin))
        if min(repeater.count for repeater in repeaters) < 10:
            faults.append(f"too little came twice: {[repeater.count for repeater in repeaters]}")
        return faults + ([fault] if fault else [])
    finally:
        cluster.end()
        for relay in relays:
            relay.close()


def kills(folder, program):
    """Clients are killed between sending and reading, and nodes, stores and members besides: each answer is had by the next process of the name, by any
    node, word for word."""
    cluster, chance, over, calls, killed = begun(folder, program, members=3, nodes=3), random.Random(7), threading.Event(), [], [0]
    names = [f"k-{place}" for place in range(4)]
    for name in names:
        Client(cluster.places).request(b"do begin-" + name.encode(), b"(SETF (GET '%s 'KY) 0)" % name.upper().encode())
    workers = [Worker(be_killed, cluster, name, random.Random(name), over, calls, killed) for name in names]
    blows = Worker(trouble, cluster, chance, over, 3.0)
    try:
        for worker in [*workers, blows]:
            worker.start()
        deadline = time.monotonic() + max(LONG, 2 * named_alone.KILLS)
        while killed[0] < named_alone.KILLS and time.monotonic() < deadline and all(worker.is_alive() for worker in workers):
            time.sleep(1)
        over.set()
        blows.join()
        linear.all_called(workers, calls)
        seen = [int(value(cluster, place)) - 5 for place in range(3)]
        print(f"cluster: {killed[0]} kills of clients with a name over etcd, {cluster.blows} blows besides, {len(calls):,} answers", flush=True)
        faults = [] if seen == [len(calls)] * 3 else [f"{len(calls)} answers, and the counters have gone up by {seen}"]
        fault = linear.order_of(sorted(calls, key=lambda call: call.begin))
        return faults + ([fault] if fault else [])
    finally:
        over.set()
        cluster.end()


QUOTA, COUNT = 48 << 20, 1100
BIG = b"(SETF (GET 'BIG 'KY) \"" + 50_000 * b"x" + b'")'


def full(folder, program):
    """Messages of a client with a name come to more than the quota of etcd: they are deleted as soon as all stores have them, and none is refused.
    Where something else fills etcd, one that was carried out before is answered, and another one is refused."""
    cluster = begun(folder, program, nodes=2, quota=QUOTA, least=1e5)
    try:
        client, _ = Client(cluster.places), [value(cluster, place) for place in (0, 1)]
        # a form would stay, and what came after it
        for name in cluster.keys("log/"):
            if not name.startswith(("!", ":", "~")):
                cluster.call("/v3/kv/deleterange", {"key": key_of(name.encode()).decode()})
        for number in range(1, COUNT + 1):
            told = client.request(b"by %d" % number, b"big " + BIG)
            if told[1].startswith("! "):
                return [f"message {number} is answered {told}, and something is used of {QUOTA}: {cluster.keys('trims/')}"]
            time.sleep(0.03)
        fill(cluster)
        until(lambda: client.request(b"do full", ADD)[1] == NO_ROOM, "forms are refused")
        told = [named(cluster, place, b"small", number, text) for place, number, text in ((0, 1, ADD), (1, 2, ADD))]
        again = client.request(b"by %d" % COUNT, b"big " + BIG)[1]
        faults = [] if told == [NO_ROOM, NO_ROOM] else [f"beside a full etcd new messages are answered {told}"]
        return faults + ([] if again == '"' + 50_000 * "x" + '"' else [f"beside a full etcd the last message is answered {again[:60]}"])
    finally:
        cluster.end()


def fill(cluster):
    """Has something else fill etcd to its quota."""
    for count in range(100):
        try:
            put(cluster, b"other/%d" % count, 500_000)
        except OSError:
            return


def left_out(part):
    """A part that is none where the store is that of the small program, which knows no names."""
    return lambda folder, program: part(folder, program) if has_readtables(program) else []


LONG_ONES = ("named late", "named kills", "named full")
PARTS = {"named": left_out(answered), "named in C": left_out(in_c), "named unknown": left_out(unknown), "named late": left_out(late), "named kills": left_out(kills), "named full": left_out(full)}
