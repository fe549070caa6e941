"""Questions by which a store ends, for which it has no memory: they are answered, and no entry is blamed for them. Each part gives what is
wrong."""
import json
import os
import socket
import sys
import threading
import time

from cluster import Client
from refusals import ADD, LARGE, LOOK, begun, small_program, stuck_at, value
from waits import LONG, Worker, all_ended, until

sys.path.append(os.path.join(os.path.dirname(os.path.abspath(__file__)), "..", "..", "clients", "python", "src"))

REFUSED = "! 90 NO-MEMORY"
PATIENCE = 4 * LONG
"""A store may take long to end by a question without memory, and ends four times here."""
SLOWLY = 3
"""As many seconds a slow store takes to end."""


def answer(cluster, place, head, text):
    """What one node answers in one try, or what became of it."""
    try:
        return Client(cluster.places[place : place + 1], patience=PATIENCE).once(head, text)[1]
    except (OSError, ValueError) as error:
        return repr(error)


def ends(cluster, place):
    """How often the store of a node has ended."""
    return cluster.nodes[place].told().count("the store ended")


def reports(cluster):
    """The entries that the nodes blame."""
    return [json.loads(report)["stuck"] for report in cluster.keys("nodes/").values()]


def without_memory(folder, program):
    """A question for which no store has memory is refused after two of them, by one node, and others are answered meanwhile."""
    cluster = begun(folder, small_program(folder, program), nodes=3)
    try:
        told = answer(cluster, 0, b"ask", LARGE)
        faults = [] if told == REFUSED and ends(cluster, 0) == 2 else [f"a question without memory: {told}, {ends(cluster, 0)} ends"]
        for kind in (b"ask", b"read"):
            other = Worker(answer, cluster, 0, kind, LARGE)
            other.start()
            told = [answer(cluster, 0, kind, LOOK) for _ in range(5)]
            other.join()
            faults += [] if told == ["5"] * 5 else [f"others are answered {told}"]
        told = by_node_store(cluster)
        faults += [] if told == 90 else [f"NodeStore gives {told}"]
        counts = [ends(cluster, place) for place in range(3)]
        # where stores are slow, the client sends the question to other nodes, six times at most
        return faults + ([] if 8 <= sum(counts) <= 18 else [f"the stores ended {counts} times"])
    finally:
        cluster.end()


def by_node_store(cluster):
    """The number with which the client for Python refuses the question."""
    from pazturrok import NodeStore, RefusedError, StoreError

    try:
        places = [f"{host}:{port}" for host, port in reversed(cluster.places)]
        # on a busy machine a store may take longer than a client waits for by itself before it asks another node
        with NodeStore(places, patience=LONG / 4, time_limit=3 * LONG) as store:
            return store.ask(LARGE.decode())
    except RefusedError as error:
        return error.number
    except StoreError as error:
        return error


def innocent(folder, program):
    """Clients ask what no store has memory for, and go. The entry that comes next is carried out, and no node blames it."""
    cluster = begun(folder, small_program(folder, program), nodes=2)
    try:
        for host in cluster.places:
            with socket.create_connection(host) as one:
                one.sendall(b"ask %d\n%s\n" % (len(LARGE), LARGE) * 2)
        told, seen, long_enough = [], set(), time.monotonic() + 8
        blamed = Worker(lambda: told.append(answer(cluster, 0, b"do pay", ADD)))
        until(lambda: reports(cluster), "the nodes report")
        blamed.start()
        while time.monotonic() < long_enough or blamed.is_alive():
            seen.update(reports(cluster))
            time.sleep(0.5)
        blamed.join()
        faults = [] if seen == {0} else [f"the nodes blame {seen} for a question"]
        return faults + ([] if told == ["6"] and value(cluster, 1) == "6" else [f"the next entry is answered {told}"])
    finally:
        cluster.end()


def asked_anew(folder, program):
    """A client gives up sooner than a slow store ends, and asks anew: it is refused, and no question is left by which the store ends."""
    cluster = begun(folder, slow_to_end(folder, small_program(folder, program)), nodes=1)
    try:
        told = Client(cluster.places, patience=SLOWLY / 3).request(b"ask", LARGE, LONG)[1]
        faults = [] if told == REFUSED else [f"who asks anew is answered {told}"]
        count = ends(cluster, 0)
        return faults + ([] if value(cluster, 0) == "5" and ends(cluster, 0) == count else ["a question is left"])
    finally:
        cluster.end()


def slow_to_end(folder, program):
    """The program, which takes some seconds to end where it has a cause."""
    slow = os.path.join(folder, "slow")
    with open(slow, "w", encoding="ascii") as file:
        file.write(f'#!/bin/sh\n{program} "$@"\nstatus=$?\n[ $status = 0 ] || sleep {SLOWLY}\nexit $status\n')
    os.chmod(slow, 0o755)
    return slow


def guilty(folder, program):
    """An entry for which no store has memory is blamed, and can be skipped, also while clients ask without an end; and those are answered."""
    cluster = begun(folder, small_program(folder, program), nodes=2)
    over, seen, answers = threading.Event(), set(), []

    def ask(place):
        client = Client(cluster.places[place:] + cluster.places[:place], patience=PATIENCE)
        while not over.is_set():
            seen.add(client.request(b"ask", LOOK)[1])

    workers = [Worker(ask, number % 2) for number in range(4)]
    large = Worker(lambda: answers.append(Client(cluster.places, patience=LONG).request(b"do large", LARGE, 4 * LONG)[1]))
    try:
        for worker in [*workers, large]:
            worker.start()
        number = stuck_at(cluster)
        status, told = cluster.order("skip", str(number))
        large.join()
        over.set()
        all_ended(workers)
        faults = [] if status == 0 and answers == ["! 53 SKIPPED"] else [f"skip {number}: {status} {told} {answers}"]
        return faults + ([] if seen == {"5"} else [f"those who asked were answered {seen}"])
    finally:
        over.set()
        cluster.end()


def exchange(place, *requests, patience=PATIENCE):
    """The heads and texts of the answers to requests on one connection to a node."""
    with socket.create_connection(place, patience) as one, one.makefile("rwb") as stream:
        for head, text in requests:
            stream.write(b"%s %d\n%s\n" % (head, len(text), text))
        stream.flush()
        heads_and_texts = []
        for _ in requests:
            head = stream.readline().split()
            heads_and_texts.append((head, stream.read(int(head[-1]) + 1)[:-1]))
        return heads_and_texts


def positions(folder, program):
    """A question with a number is answered by a store that has come so far, and tells how far that is; without one as ever."""
    cluster, faults = begun(folder, program, nodes=2), []
    try:
        for turn in range(20):
            number, told = Client(cluster.places[turn % 2 :]).request(b"do", ADD)
            ((kind, position, _), answer_), (plain, _) = exchange(cluster.places[1 - turn % 2], (b"ask %d" % number, LOOK), (b"ask", LOOK))
            if kind != b"ask" or int(position) < number or answer_.decode() != told or len(plain) != 2:
                faults.append(f"after {number} {told}: {kind} {position} {answer_} {plain}")
        [((_, position, _), far)] = exchange(cluster.places[0], (b"ask %d" % (number + 1000), LOOK))
        return faults + ([] if far == b"! 59 NO-SUCH-ENTRY" and int(position) >= number else [f"a number that no entry has is answered {far}"])
    finally:
        cluster.end()


PARTS = {"positions": positions, "without memory": without_memory, "innocent": innocent, "asked anew": asked_anew, "guilty": guilty}
