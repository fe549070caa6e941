"""Messages of clients with a name, through a node without etcd: the store has their answers. Each part gives what is wrong."""
import os
import random
import signal
import subprocess
import sys
import threading
import time

import alone
import linear
from alone import FORMS, LOST, NO_MEMORY, PROCESSES, PYTHON, begun, blow, value
from cluster import Client, has_readtables
from refusals import ADD, LARGE, LOOK, small_program
from waits import LONG, Worker

ADDS = "(LIST (INCF (GET 'COUNTER 'KY)) (INCF (GET '{} 'KY)) \"a\nb\")"
"""A form of a client: its second value is the number of the message, if each is carried out once."""

WORK = """
import sys
import time
from pazturrok import NodeStore
place, name, number, count, form = sys.argv[1:]
number, last = int(number), int(number) + int(count)
with NodeStore(place.split(","), client_name=name, patience=3.0) as store:
    while number < last:
        print(number, *store.do(form.replace("{}", name.upper()), number=number)[:2], int(time.monotonic() * 1e6), flush=True)
        number += 1
"""
OLDER = """
import os, subprocess, sys
child = subprocess.Popen(["{program}", *sys.argv[1:]], stdin=subprocess.PIPE)
while data := os.read(0, 65536):
    if data.startswith(b"by ") or b"\\nby " in data:
        child.stdin.close()
        child.wait()
        sys.exit(1)
    child.stdin.write(data)
    child.stdin.flush()
child.stdin.close()
sys.exit(child.wait())
"""
"""A program that takes a message of a client for no frame."""

KILLS = 40
"""How many clients are killed by `kills`."""


def client_of(node, name, number, count):
    """A process that has messages from a number on carried out."""
    places = ",".join(place if isinstance(place, str) else f"{place[0]}:{place[1]}" for place in node.places)
    words = [sys.executable, "-c", WORK, places, name, str(number), str(count), ADDS]
    return subprocess.Popen(words, stdout=subprocess.PIPE, env={**os.environ, "PYTHONPATH": PYTHON})


def named(node, name, number, text, patience=10.0):
    """The answer to a message of a client."""
    told, answer = Client(node.places, patience=patience).request(b"by %d" % number, name + b" " + text)
    return answer if told == number else f"{told} {answer}"


def restarted(node):
    """Kills the node, and its store with it, and starts both again."""
    process = node.store_process(0)
    node.nodes[0].kill()
    if process:
        try:
            os.kill(process, signal.SIGKILL)
        except ProcessLookupError:
            pass
    node.nodes[0].start()


def answered(folder, program):
    """Answers, refusals and numbers, also after a kill; and forms that wrote nothing are not carried out again in another world."""
    node = begun(folder, program)
    choose = b"(IF (GET 'FLAG 'KY) (INCF (GET 'COUNTER 'KY)) 'LATER)"
    try:
        client = Client(node.places)
        faults = [] if client.request(b"do choose", choose)[1] == "LATER" else ["the flag was set before"]
        cases = [(1, b"(SETF (GET 'FLAG 'KY) 'T)", "T"), (1, b"(SETF (GET 'FLAG 'KY) 'T)", "T"), (1, b"(LIST 1)", "! 55 OTHER-TEXT"),
                 (5, ADD, "1"), (5, ADD, "1"), (4, ADD, "! 50 OLD-NUMBER"), (1 << 63, b"", "! 1 END-OF-FILE")]
        for kill in (False, True, True):
            if kill:
                restarted(node)
                cases = [(1 << 63, b"", "! 1 END-OF-FILE"), ((1 << 63) - 1, ADD, "! 50 OLD-NUMBER")]
            for number, text, wanted in cases:
                told = named(node, b"till-3", number, text)
                faults += [] if told == wanted else [f"{number} {text!r} is answered {told!r}, and wanted is {wanted!r}"]
            faults += [] if value(node) == "1" else [f"the counter is {value(node)}"]
        faults += gone(node)
        return faults + none_at_all(node)
    finally:
        node.end()


def gone(node):
    """A client that goes and comes again: its messages are new ones, once, whatever is fed again."""
    faults = []
    for text, wanted in ((ADD, "2"), (None, "NIL"), (ADD, "3")):
        told = named(node, b"goes", 1, text) if text else Client(node.places).request(b"by 1", b"goes")[1]
        faults += [] if told == wanted else [f"a client that goes is answered {told}"]
    restarted(node)
    faults += [] if named(node, b"goes", 1, ADD) == "3" else ["a client that came again has no answer"]
    return faults + ([] if value(node) == "3" else [f"a client has gone, and the counter is {value(node)}"])


def none_at_all(node):
    """Names that are none: they are told so, and the connection goes on."""
    client, faults = Client(node.places), []
    for text in (b"", b" (LIST 1)", b"a/b (LIST 1)", b"x" * 101, b"(LIST 1)"):
        told = client.request(b"by 3", text)
        faults += [] if told == (3, "! 56 NO-FRAME") else [f"{text[:20]!r} is answered {told}"]
    return faults + ([] if client.request(b"read", LOOK)[1] == value(node) else ["the connection does not go on"])


def small(folder, program):
    """A message for which the store has no memory is answered with 90, each time it is sent; the next one of its client goes on, and others do."""
    node = begun(folder, small_program(folder, program))
    try:
        faults = []
        for again in range(2):
            # a client that sends again, as it does not wait for so long, has the store end no more often
            told = named(node, b"till-3", 1, LARGE, patience=0.2)
            faults += [] if told == NO_MEMORY else [f"a message for which there is no memory is answered {told[:40]}"]
            tries = node.nodes[0].told().count("is not tried again")
            faults += [] if tries <= 1 + again else [f"{tries} entries of {1 + again} messages have the store end"]
            restarted(node)
            told = named(node, b"till-4", 1, ADD), named(node, b"till-3", 2 + again, ADD)
            faults += [] if told == ("1", str(2 + again)) else [f"the messages after it are answered {told}"]
            told = named(node, b"till-3", 1, LARGE)
            faults += [] if told == LOST else [f"the message that was passed is answered {told[:40]}"]
            Client(node.places).request(b"by %d" % (2 + again), b"till-3")
        return faults
    finally:
        node.end()


def unknown(folder, program):
    """A program that knows no clients with a name: a message of one is answered so, and the others go on."""
    path = os.path.join(folder, "older")
    with open(path, "w", encoding="ascii") as file:
        file.write(f"#!{sys.executable}\n{OLDER.format(program=program)}")
    os.chmod(path, 0o755)
    node = begun(folder, path)
    try:
        told = named(node, b"till-3", 1, ADD), Client(node.places).request(b"do after", ADD)[1], named(node, b"till-3", 1, ADD), value(node)
        return [] if told == ("! 56 NO-FRAME", "1", "! 56 NO-FRAME", "1") else [f"an older program is answered {told}"]
    finally:
        node.end()


def thirty(folder, program):
    """Thirty processes at once, each a client with a name: none is refused. Each asks again for its last answer, after a kill too."""
    node = begun(folder, program)
    try:
        for number in range(PROCESSES):
            Client(node.places).request(b"do begin-%d" % number, b"(SETF (GET 'C-%d 'KY) 0)" % number)
        told = lines_of([client_of(node, f"c-{number}", 1, FORMS) for number in range(PROCESSES)])
        added = sorted(line[1] for lines in told for line in lines)
        faults = [] if added == list(range(1, PROCESSES * FORMS + 1)) else ["thirty processes have other answers"]
        faults += [] if all([line[2] for line in lines] == list(range(1, FORMS + 1)) for lines in told) else ["a message was carried out twice"]
        restarted(node)
        again = lines_of([client_of(node, f"c-{number}", FORMS, 1) for number in range(PROCESSES)])
        faults += [] if [lines[-1:] for lines in told] == again else ["who asks again has other answers"]
        return faults + ([] if value(node) == str(PROCESSES * FORMS) else ["who asks again changes something"])
    finally:
        node.end()


def lines_of(processes):
    return [[[int(word) for word in line.split()[:3]] for line in one.communicate(timeout=2 * LONG)[0].splitlines()] for one in processes]


def kills(folder, program):
    """Clients are killed between sending and reading, their node at each place between a request and its answer, and its store at random.
    Each answer is had by the next process of the name, word for word, and what all saw is what one counter may have answered."""
    node, chance, ended, calls = begun(folder, program, options=("--snapshot-every", "200")), random.Random(3), threading.Event(), []
    killed = [0]
    names = [f"k-{place}" for place in range(3)]
    for name in names:
        Client(node.places).request(b"do begin-" + name.encode(), b"(SETF (GET '%s 'KY) 0)" % name.upper().encode())
    workers = [Worker(alone.work, node, place, ended, calls) for place in range(2)]
    workers += [Worker(work, node, b"w-%d" % place, ended, calls) for place in range(3)]
    workers += [Worker(be_killed, node, name, random.Random(name), ended, calls, killed) for name in names]
    try:
        for worker in workers:
            worker.start()
        deadline = time.monotonic() + max(LONG, 2 * KILLS)
        while killed[0] < KILLS and time.monotonic() < deadline and all(worker.is_alive() for worker in workers):
            time.sleep(chance.random() * 2)
            if chance.random() < 0.5:
                blow(node, chance)
            else:
                alone.killed_node(node, chance.choice(list(alone.KILLED_AT)), chance.randrange(1, 40))
        ended.set()
        linear.all_called(workers, calls)
        fault = linear.fault_of(calls, int(value(node)))
        print(f"cluster: {killed[0]} kills of clients with a name, {len(calls):,} answers", flush=True)
        return [fault] if fault else []
    finally:
        ended.set()
        node.end()


def work(node, name, ended, calls):
    """A client with a name that is not killed, and sends again by its number. No answer of it is lost."""
    client, number = Client(node.places, patience=3.0), 0
    while not ended.is_set():
        number, begin = number + 1, time.monotonic()
        told, text = client.request(b"by %d" % number, name + b" " + ADD)
        assert told == number and text != LOST, f"message {number} of {name!r} is answered {told} {text}"
        calls.append(linear.Call(begin, time.monotonic(), "add", int(text)))


def be_killed(node, name, chance, ended, calls, killed):
    """Clients of one name, each of which is killed but the last one."""
    # a message begins once the one before it is answered: whoever was killed may have sent it
    number, begin = 0, time.monotonic()
    while True:
        is_last = ended.is_set()
        process = client_of(node, name, number + 1, 1 if is_last else 1000)
        killer = threading.Timer(LONG, process.kill)
        killer.start()
        for line in process.stdout:
            told, counter, own, when = map(int, line.split())
            assert told == own == number + 1, f"message {number + 1} of {name} is answered {line!r}"
            calls.append(linear.Call(begin, time.monotonic(), "add", counter))
            # (the client says when that was: its line may be read late)
            begin, number = when / 1e6, told
            if not is_last and chance.random() < 0.5:
                time.sleep(chance.random() * 0.02)
                process.kill()
        killer.cancel()
        status = process.wait()
        assert is_last or status == -signal.SIGKILL, f"a client ended with status {status}"
        if is_last:
            return
        killed[0] += 1


def left_out(part):
    """A part that is none where the store is that of the small program, which knows no names."""
    return lambda folder, program: part(folder, program) if has_readtables(program) else []


LONG_ONES = ("alone named kills",)
PARTS = {"alone named": left_out(answered), "alone named unknown": left_out(unknown), "alone named small": left_out(small), "alone named thirty": left_out(thirty), "alone named kills": left_out(kills)}
