"""A node without etcd: many clients of a store of one machine. Each part gives what is wrong."""
import contextlib
import os
import random
import signal
import subprocess
import sys
import threading
import time

import linear
from cluster import NODE, OWN, Alone, Client, connected, free_ports, has_readtables
from refusals import ADD, LARGE, LOOK, NO_FRAMES, small_program
from waits import LONG, Late, Worker, until
from watched import figures

PYTHON = os.path.join(os.path.dirname(os.path.abspath(__file__)), "..", "..", "clients", "python", "src")
PROCESSES, FORMS = 30, 20
WORK = """
import sys
from pazturrok import NodeStore
with NodeStore([sys.argv[1]]) as store:
    print(*[store.do("(INCF (GET 'COUNTER 'KY))", name=f"own-{sys.argv[2]}-{number}") for number in range(int(sys.argv[3]))])
"""
KILLS = 40
"""How many of a node and its store are killed by `kills`."""

KILLED_AT = {
    "before a record is written": ("journal", "write_whole", "before"),
    "before it is synced": ("journal", "sync", "before"),
    "before the store has it": ("child", "Child.send", "before"),
    "after the store was sent it": ("child", "Child.send", "after"),
    "before its answer is taken": ("node", "Node._hear", "before"),
    "before its answer is sent": ("clients", "Client.send", "before"),
    "after its answer was sent": ("clients", "Client.send", "after"),
}
KILLED_NODE = """
import importlib, os, sys
sys.path.insert(0, sys.argv.pop(1))
module, name, moment, count = sys.argv.pop(1), sys.argv.pop(1), sys.argv.pop(1), int(sys.argv.pop(1))
from pazturrok_node import main
owner, way = importlib.import_module("pazturrok_node." + module), name.split(".")
for word in way[:-1]:
    owner = getattr(owner, word)
whole, come = getattr(owner, way[-1]), 0
def call(*words):
    global come
    come += 1
    if come == count and moment == "before":
        os.kill(os.getpid(), 9)
    told = whole(*words)
    if come == count:
        os.kill(os.getpid(), 9)
    return told
setattr(owner, way[-1], call)
sys.exit(main.main())
"""
LOST, NO_MEMORY = "! 50 OLD-NUMBER", "! 90 NO-MEMORY"
CLOSES = b"(SET-MACRO-CHARACTER #\\: :CLOSE)"
"""After this form no name with a package can be read."""


def begun(folder, program, **options):
    node = Alone(folder, program, **options)
    with node.ended_if_late():
        Client(node.places).request(b"do first", b"(SETF (GET 'COUNTER 'KY) 0)")
    return node


def value(node):
    return Client(node.places).request(b"read", LOOK)[1]


def blows(folder, program):
    """The node and its store are killed and stopped at random: what clients saw is what one counter may have answered."""
    return judged(begun(folder, program, options=("--snapshot-every", "200")))


def blows_by_port(folder, program):
    """The same at a port of this machine, with names that are kept for two seconds."""
    return judged(begun(folder, program, keep=30, place=(OWN, free_ports(1)[0])))


def judged(node, seconds=12):
    ended, calls, chance = threading.Event(), [], random.Random(1)
    workers = [Worker(work, node, place, ended, calls) for place in range(8)]
    try:
        for worker in workers:
            worker.start()
        ends = time.monotonic() + seconds
        while time.monotonic() < ends:
            time.sleep(chance.random())
            blow(node, chance)
        ended.set()
        linear.all_called(workers, calls)
        fault = linear.fault_of(calls, int(value(node)))
        return [fault] if fault else []
    finally:
        ended.set()
        node.end()


def work(node, place, ended, calls):
    client, chance, count = Client(node.places, patience=3.0), random.Random(place), 0
    while not ended.is_set():
        begin = time.monotonic()
        if chance.random() < 0.7:
            count += 1
            _, text = client.request(b"do add-%d-%d" % (place, count), ADD)
            calls.append(linear.Call(begin, time.monotonic(), "add", None if text == LOST else int(text)))
        elif (text := client.request(b"read", LOOK)[1]) != NO_MEMORY:
            calls.append(linear.Call(begin, time.monotonic(), "read", int(text)))


def blow(node, chance):
    kind, one = chance.random(), node.nodes[0]
    if kind < 0.4:
        killed_stores(node, chance, 1)
    elif kind < 0.7:
        one.kill()
        one.start()
    else:
        one.signal(signal.SIGSTOP)
        time.sleep(chance.random())
        one.signal(signal.SIGCONT)


def kills(folder, program):
    """The node is killed at each place between a request and its answer, and its store at random: what clients saw is what one counter may
    have answered."""
    node, chance, ended, calls = begun(folder, program, options=("--snapshot-every", "200")), random.Random(2), threading.Event(), []
    workers = [Worker(work, node, place, ended, calls) for place in range(4)]
    counts = dict.fromkeys(("the store at random", *KILLED_AT), 0)
    try:
        for worker in workers:
            worker.start()
        while sum(counts.values()) < KILLS:
            place = min(KILLED_AT, key=counts.get)
            if counts["the store at random"] < KILLS * 3 // 4:
                counts["the store at random"] += killed_stores(node, chance, 6)
            counts[place] += killed_node(node, place, chance.randrange(1, 40))
        ended.set()
        linear.all_called(workers, calls)
        fault = linear.fault_of(calls, int(value(node)))
        print(f"cluster: {len(calls):,} requests while {', '.join(f'{place} {count}' for place, count in counts.items())} were killed", flush=True)
        return [fault] if fault else []
    finally:
        ended.set()
        node.end()


def killed_stores(node, chance, count):
    """Kills the store of a node so often, each time at another moment after it was started."""
    killed, deadline = 0, time.monotonic() + LONG
    while killed < count and time.monotonic() < deadline:
        time.sleep(chance.random() * 0.2)
        process = node.store_process(0)
        with contextlib.suppress(ProcessLookupError):
            if process:
                os.kill(process, signal.SIGKILL)
                killed += 1
    return killed


def killed_node(node, place, count):
    """The node is started anew, and kills itself at a place, the so many-th time that it comes there; then it is started as ever."""
    one = node.nodes[0]
    plain = one.words
    one.kill()
    one.words = [sys.executable, "-c", KILLED_NODE, os.path.dirname(NODE), *KILLED_AT[place], str(count), *plain[2:]]
    one.start()
    try:
        status = one.child.wait(LONG)
    except subprocess.TimeoutExpired:
        status = None
        one.kill()
    one.words = plain
    one.start()
    return status == -signal.SIGKILL


def thirty(folder, program):
    """Thirty processes at once: none is refused. Then each asks for its answers again, and has them word for word."""
    node = begun(folder, program)
    try:
        faults = [] if sorted(answers_of_all(node)) == list(range(1, PROCESSES * FORMS + 1)) else ["thirty processes have other answers"]
        once = [answers_of(node, place, FORMS) for place in range(3)]
        faults += [] if once == [answers_of(node, place, FORMS) for place in range(3)] else ["who asks again has other answers"]
        return faults + ([] if value(node) == str(PROCESSES * FORMS) else ["who asks again changes something"])
    finally:
        node.end()


def process_of(node, place, count):
    words = [sys.executable, "-c", WORK, node.places[0], str(place), str(count)]
    return subprocess.Popen(words, stdout=subprocess.PIPE, text=True, env={**os.environ, "PYTHONPATH": PYTHON})


def answers_of(node, place, count):
    return [int(word) for word in process_of(node, place, count).communicate(timeout=2 * LONG)[0].split()]


def answers_of_all(node):
    processes = [process_of(node, place, FORMS) for place in range(PROCESSES)]
    return [int(word) for one in processes for word in one.communicate(timeout=2 * LONG)[0].split()]


def small(folder, program):
    """A form for which the store has no memory is answered with 90, once and for all; the next ones go on."""
    node = begun(folder, small_program(folder, program))
    try:
        client = Client(node.places)
        faults = [] if client.request(b"do large", LARGE)[1] == NO_MEMORY else ["a form for which there is no memory is not 90"]
        faults += [] if client.request(b"do after", ADD)[1] == "1" else ["the form after it is not carried out"]
        faults += [] if client.request(b"ask", LARGE)[1] == NO_MEMORY else ["a question for which there is no memory is not 90"]
        node.nodes[0].kill()
        node.nodes[0].start()
        faults += [] if client.request(b"do later", ADD)[1] == "2" else ["a node that is started again does not go on"]
        again = client.request(b"do large", LARGE)[1]
        return faults + ([] if again in (NO_MEMORY, LOST) else [f"the form that was passed is answered {again[:40]}"])
    finally:
        node.end()


def segments(node):
    folder = os.path.join(node.store(0), "journal")
    return sorted(os.path.join(folder, name) for name in os.listdir(folder) if name != "lock")


def torn(folder, program):
    """What a crash leaves half written at the end of the journal goes; damage before it is refused; a record that was written stays."""
    node = begun(folder, program)
    one, client = node.nodes[0], Client(node.places)
    try:
        client.request(b"do add", ADD)
        one.kill()
        faults = []
        for rest in (b"do 3 torn 25 0123", b"do 3 torn 25 01234567\n(INCF (GET 'COUNTER 'KY))\n", b"\0" * 5000):
            with open(segments(node)[-1], "ab") as file:
                file.write(rest)
            one.start()
            faults += [] if value(node) == "1" else [f"after {rest[:20]!r} the counter is {value(node)}"]
            one.kill()
        one.start()
        number, text = client.request(b"do more", ADD)
        faults += [] if (number, text) == (3, "2") else [f"the next form is answered {number} {text}"]
        faults += [] if client.request(b"do add", ADD)[1] in ("1", LOST) and value(node) == "2" else ["a name was forgotten"]
        told = client.request(b"do add", LOOK)
        faults += [] if told == (0, "! 55 OTHER-TEXT") else [f"a name that is there with another text is answered {told}"]
        return faults
    finally:
        node.end()


def put_back(folder, program):
    """Halves of an older state beside the journal: what came since is carried out again; without the journal the store is what was put back."""
    node = begun(folder, program)
    one, client = node.nodes[0], Client(node.places)
    try:
        client.request(b"do add", ADD)
        subprocess.run([program, "backup", node.store(0), os.path.join(folder, "kept")], check=True, capture_output=True)
        for number in range(5):
            client.request(b"do later-%d" % number, ADD)
        one.finish()
        os.rename(node.store(0), os.path.join(folder, "old"))
        os.rename(os.path.join(folder, "kept"), node.store(0))
        one.start()
        faults = [] if value(node) == "1" else [f"a store that was put back has {value(node)}"]
        one.finish()
        os.rename(os.path.join(folder, "old", "journal"), os.path.join(folder, "journal"))
        for path in segments(node):
            os.unlink(path)
        node.run(0, "run", "--messages", text="do 50 25\n(INCF (GET 'COUNTER 'KY))\n")
        for path in os.listdir(os.path.join(folder, "journal")):
            os.replace(os.path.join(folder, "journal", path), os.path.join(node.store(0), "journal", path))
        one.start()
        status = one.child.wait(LONG)
        return faults + ([] if status == 4 and "by another way" in one.told() else [f"messages by another way: {status} {one.told()[-300:]}"])
    finally:
        node.end()


def old(folder, program):
    """Names go after their time, and so do segments, also where the store reads no name with a package; nothing is lost by that."""
    node = begun(folder, program, keep=1)
    one, client = node.nodes[0], Client(node.places)
    forms = [(ADD, "the journal"), (CLOSES, "the journal of a store that reads no colon")]
    try:
        faults = []
        for form, kept in forms if has_readtables(program) else forms[:1]:
            client.request(b"do", form)
            first, deadline = segments(node)[0], time.monotonic() + LONG
            while os.path.exists(first):
                client.request(b"do", ADD)
                time.sleep(0.2)
                if time.monotonic() > deadline:
                    raise Late(f"{kept} only grows")
        before = value(node)
        one.kill()
        one.start()
        faults += [] if value(node) == before else [f"the counter was {before}, and is {value(node)} after a kill"]
        again = client.request(b"do first", ADD)[1]
        return faults + ([] if int(again) == int(before) + 1 else [f"a name that is free again is answered {again}"])
    finally:
        node.end()


def lasting(folder, program):
    """What the store would still have after a crash follows what it has answered, long before a name is old; and while nothing comes nothing is written."""
    path = os.path.join(folder, "monitor")
    node = begun(folder, program, keep=60, options=("--monitor", path))
    try:
        Client(node.places).request(b"do", ADD)
        until(lambda: told_places(path)[0] > 1 == len(set(told_places(path))), "the figures have what lasts", 45)
        before = told_places(path)
        time.sleep(7)
        return [] if told_places(path) == before else [f"a node that is asked nothing goes from {before} to {told_places(path)}"]
    finally:
        node.end()


def told_places(path):
    """The last number that the store has answered, and the one that it would still have after a crash."""
    told = figures(path)
    return [told["pazturrok_node_revision"], told["pazturrok_node_lasting_revision"]]


def refused_words(folder, program):
    """A second node of one folder, a place where something is, words that do not go together: each a sentence, and the first node goes on."""
    node = begun(folder, program)
    plain = os.path.join(folder, "plain")
    with open(plain, "w", encoding="ascii") as file:
        file.write("not a socket\n")
    other, own = os.path.join(folder, "other"), node.store(0)
    cases = (
        (3, "another node serves this folder", own, "--alone", "--listen", f"unix:{plain}-2"),
        (3, "there is no store in this folder", other, "--alone", "--existing"),
        (3, "it is no socket", other, "--alone", "--listen", f"unix:{plain}"),
        (3, "somebody listens there", other, "--alone", "--listen", f"unix:{node.places[0]}"),
        (2, "--etcd is for a node over etcd", other, "--alone", "--etcd", "http://127.0.0.1:1"),
        (2, "is for a node that serves", "skip", "5", "--alone"),
        (2, "beyond this machine", other, "--alone", "--listen", "0.0.0.0:7411"),
        (2, "longer than the path of a socket", other, "--alone", "--listen", "unix:/" + "x" * 200),
    )
    try:
        faults = []
        for status, words, *order in cases:
            told = subprocess.run([sys.executable, NODE, *order, "--program", program], capture_output=True, text=True, timeout=LONG)
            is_told = words in told.stderr and "RuntimeWarning" not in told.stderr
            faults += [] if told.returncode == status and is_told else [f"{order}: {told.returncode} {told.stderr[-200:]}"]
        with open(plain, encoding="ascii") as file:
            faults += [] if file.read() == "not a socket\n" else ["a file was taken away"]
        return faults + ([] if value(node) == "0" else ["the first node does not go on"])
    finally:
        node.end()


def strangers(folder, program):
    """What is no frame, half a frame, clients that go: the others go on."""
    node = begun(folder, program)
    try:
        held = [connected(node.places[0], LONG) for _ in NO_FRAMES]
        for one, text in zip(held, NO_FRAMES):
            one.sendall(text)
        gone = [connected(node.places[0], LONG) for _ in range(100)]
        for number, one in enumerate(gone):
            one.sendall(b"do gone-%d %d\n%s\n" % (number, len(ADD), ADD))
            one.close()
        until(lambda: int(value(node)) >= 100, "what 100 clients have sent, who went, is carried out")
        faults = [] if value(node) == "100" else [f"100 clients sent and went, and the counter is {value(node)}"]
        answers = [int(Client(node.places).request(b"do gone-%d" % number, ADD)[1]) for number in range(100)]
        return faults + ([] if sorted(answers) == list(range(1, 101)) else ["who went and comes again does not have the answer"])
    finally:
        node.end()


def interrupted(folder, program):
    """A signal to all processes of a terminal, as by Ctrl-C, is for the node alone: it ends its store, and tells of no fault."""
    node = begun(folder, program)
    one = node.nodes[0]
    try:
        one.finish()
        one.words = ["setsid", *one.words]
        one.start()
        Client(node.places).request(b"do add", ADD)
        faults = ["the store is of the terminal of its node"] if os.getpgid(node.store_process(0)) == one.child.pid else []
        os.killpg(one.child.pid, signal.SIGINT)
        status, text = one.child.wait(LONG), one.told()
        faults += [] if status == 0 and "ERROR" not in text else [f"Ctrl-C: status {status}, {text[-300:]}"]
        one.start()
        return faults + ([] if value(node) == "1" else ["what was answered before Ctrl-C is gone"])
    finally:
        node.end()


LONG_ONES = ("alone by port", "alone kills")
PARTS = {
    "alone": blows, "alone kills": kills, "alone by port": blows_by_port, "alone thirty": thirty, "alone small": small, "alone torn": torn,
    "alone put back": put_back, "alone old": old, "alone lasting": lasting, "alone words": refused_words, "alone strangers": strangers,
    "alone interrupted": interrupted,
}  # fmt: skip
