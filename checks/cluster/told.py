"""What a node says before it ends a connection, and where it waits for nothing: bytes that are no request, texts that are
too long, versions, names that are none, numbers that no entry has, more clients than may be. Each part gives what is
wrong."""
import json
import os
import signal
import socket
import sys
import time

from cluster import Alone, Client, Cluster, connected
from refusals import ADD, LOOK
from waits import LONG, until
from watched import figures, until_health

sys.path.append(os.path.join(os.path.dirname(os.path.abspath(__file__)), "..", "..", "clients", "python", "src"))

GREETING = '(:VERSION 2 :NODE "'
NO_FRAME, TOO_LONG, OTHER_VERSION = "! 56 NO-FRAME", "! 57 TEXT-TOO-LONG", "! 58 OTHER-VERSION"
NO_SUCH_ENTRY, NO_ROOM = "! 59 NO-SUCH-ENTRY", "! 54 NO-ROOM"
ONE = b"do %d\n%s\n" % (len(ADD), ADD)
FOREIGN = [
    (b"nonsense\n", NO_FRAME), (b"do 5\n(LIST 1)\n", NO_FRAME), (b"\0" * 5000, NO_FRAME),
    (b"GET / HTTP/1.1\r\nHost: node\r\n\r\n", NO_FRAME), (b"do a/b 1\n1\n", NO_FRAME),
    (b"do " + b"a" * 101 + b" 1\n1\n", NO_FRAME), (b"do \xc3\xa4 1\n1\n", NO_FRAME), (b"ask -1 1\n1\n", NO_FRAME),
    (b"do 1048577\n" + b"x" * 1_048_577 + b"\n", TOO_LONG), (b"do 99999999999\n", TOO_LONG),
    (b"version 3 0\n\n", OTHER_VERSION), (b"version 0 0\n\n", OTHER_VERSION), (b"version x 0\n\n", NO_FRAME),
    (b"\x16\x03\x01\x02\x00\x01\x00\x01\xfc\x03\x03\n", NO_FRAME),
]  # fmt: skip
"""What is no request of this version, and what is answered to it."""


def all_answers(place, data):
    """The numbers and the texts of all that is answered to these bytes, until the node ends the connection."""
    with connected(place, LONG) as one:
        one.sendall(data)
        return answers_of(one)


def answers_of(one):
    answers = []
    with one.makefile("rb") as stream:
        while head := stream.readline():
            *words, size = head.split()
            answers.append((b" ".join(words).decode(), stream.read(int(size) + 1)[:-1].decode()))
    return answers


def said(folder, program):
    """Each is told why, after the answers to what was asked before; nothing of what comes after it is carried out."""
    node = Alone(folder, program, options=("--name", "one"))
    try:
        Client(node.places).request(b"do first", b"(SETF (GET 'COUNTER 'KY) 0)")
        faults = []
        for count, (data, refusal) in enumerate(FOREIGN, 1):
            told = all_answers(node.places[0], ONE + data + ONE)
            if len(told) != 2 or told[0][1] != str(count) or told[1] != ("0", refusal):
                faults.append(f"{data[:30]!r} is answered {told}")
        told = all_answers(node.places[0], b"version 1 0\n\n" + ONE + b"version 4 0\n\n")
        greeting = told[0][1]
        if [kind for kind, _ in told] != ["ask", told[1][0], "0"] or not greeting.startswith(GREETING):
            faults.append(f"a client of this version is answered {told}")
        if ':NAME "one")' not in greeting:
            faults.append(f"a client of this version is answered {told}")
        counter = Client(node.places).request(b"read", LOOK)[1]
        return faults + ([] if counter == str(len(FOREIGN) + 1) else [f"the counter is {counter}"])
    finally:
        node.end()


def far_numbers(folder, program):
    """A question that waits for an entry which the log does not have is answered at once, by each kind of node."""
    faults = []
    for kind in (Alone, Cluster):
        room = os.path.join(folder, kind.__name__)
        os.mkdir(room)
        cluster = kind(room, program) if kind is Alone else kind(room, program, members=1, nodes=1)
        try:
            number, _ = Client(cluster.places).request(b"do first", b"(SETF (GET 'COUNTER 'KY) 0)")
            for far in (number + 1, number + 1000, number + 2**40, 10**19 - 1):
                began = time.monotonic()
                told = all_answers(cluster.places[0], b"ask %d %d\n%s\nno frame\n" % (far, len(LOOK), LOOK))
                took = time.monotonic() - began
                if told[0][1] != NO_SUCH_ENTRY or took > LONG / 2:
                    faults.append(f"{kind.__name__}: {far} after {number} is answered {told} in {took:.1f} s")
            known = b"ask %d %d\n%s\nno frame\n" % (number, len(LOOK), LOOK)
            told = all_answers(cluster.places[0], known)
            faults += [] if told[0][1] == "0" else [f"{kind.__name__}: the number {number} is answered {told}"]
        finally:
            cluster.end()
    return faults


def too_many(folder, program):
    """A client for whom there is no place is told so, where all others wait for answers; and the client for Python goes to
    the next node."""
    from pazturrok import NodeStore

    rooms = [os.path.join(folder, name) for name in ("full", "other")]
    for room in rooms:
        os.mkdir(room)
    path = os.path.join(folder, "monitor")
    full, other = Alone(rooms[0], program, options=("--most-clients", "2", "--monitor", path)), Alone(rooms[1], program)
    try:
        for node in (full, other):
            Client(node.places).request(b"do first", b"(SETF (GET 'COUNTER 'KY) 0)")
        store = full.store_process(0)
        os.kill(store, signal.SIGSTOP)
        held = [connected(full.places[0], LONG) for _ in range(2)]
        for one in held:
            one.sendall(b"ask %d\n%s\n" % (len(LOOK), LOOK))
        until(lambda: figures(path)['pazturrok_node_requests_total{kind="ask"}'] == 2, "two questions come to the node")
        told = answers_of(connected(full.places[0], LONG))
        faults = [] if told == [("0", NO_ROOM)] else [f"one client too many is answered {told}"]
        with NodeStore([f"unix:{full.places[0]}", f"unix:{other.places[0]}"], time_limit=LONG) as one:
            faults += [] if one.do(ADD.decode()) == 1 else ["the client for Python finds no node"]
        return faults
    finally:
        os.kill(store, signal.SIGCONT)
        full.end()
        other.end()


def no_room(folder, program):
    """A node without etcd whose disk has no room says that it is not well, and why."""
    path = os.path.join(folder, "monitor")
    node = Alone(folder, program, options=("--monitor", path))
    try:
        faults = [] if until_health(path, 200)[0] == 200 else ["a node that is well says otherwise"]
        node.nodes[0].finish()
        script = f"import sys; sys.path.insert(0, {os.path.dirname(node.nodes[0].words[1])!r}); sys.argv.pop(0)\n"
        script += "from pazturrok_node import journal, main\njournal.LEAST_FREE = 1 << 62\nsys.exit(main.main())"
        node.nodes[0].words = [sys.executable, "-c", script, *node.nodes[0].words[1:]]
        node.nodes[0].start()
        status, told = until_health(path, 503)
        faults += [] if status == 503 and "MiB left" in json.dumps(told) else [f"without room: {status} {told}"]
        told = Client(node.places).request(b"do", ADD)
        return faults + ([] if told == (0, NO_ROOM) else [f"a form without room is answered {told}"])
    finally:
        node.end()


def names_of_clients(_folder, _program):
    """The client for Python sends no name that is none: it would be a request of another kind."""
    from pazturrok import NodeStore, UnsendableError

    faults = []
    with socket.create_server(("127.0.0.1", 0)) as listener:
        store = NodeStore([f"127.0.0.1:{listener.getsockname()[1]}"], time_limit=1)
        for name in ("", "a b", "a/b", "x" * 101, "x 5\n(LIST 1)\ndo y", "ä"):
            try:
                store.do("(LIST 1)", name=name)
                faults.append(f"the name {name!r} is sent")
            except UnsendableError:
                continue
            except Exception as error:  # pylint: disable=broad-exception-caught
                faults.append(f"the name {name!r}: {error!r}")
    return faults


PARTS = {
    "said": said, "far numbers": far_numbers, "too many": too_many, "no room": no_room,
    "names of clients": names_of_clients,
}  # fmt: skip
