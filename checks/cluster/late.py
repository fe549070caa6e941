"""What comes late, or again: etcd is put back while nodes run, a request waits longer than entries are kept, a name is used anew, an entry is
skipped while a node is away, clients go and leave what they asked for. Each part gives what is wrong."""
import asyncio
import os
import shutil
import signal
import socket
import subprocess
import sys
import time
import types

from cluster import Client
from refusals import ADD, begun, stuck_at, trimmed, value
from waits import LONG, Late, until

sys.path.append(os.path.join(os.path.dirname(os.path.abspath(__file__)), "..", "..", "cluster"))


def add(cluster, place, name):
    """Adds to the counter under a name; gives the number and the answer."""
    return Client(cluster.places[place : place + 1]).request(b"do " + name, ADD)


def ended(node, words):
    """What is wrong with a node that should end by itself, with these words."""
    try:
        status = node.child.wait(LONG)
    except subprocess.TimeoutExpired:
        return [f"a node goes on, and should say: {words}"]
    return [] if status == 4 and words in node.told() else [f"status {status}: {node.told()[-300:]}"]


# ---- etcd


def put_back(folder, program):
    """etcd is put back to an older state, and emptied, while a node runs: it ends, and answers nothing of what came then."""
    faults = []
    for is_old in (True, False):
        room = os.path.join(folder, "old" if is_old else "empty")
        os.mkdir(room)
        faults += put_back_to(begun(room, program, nodes=1), is_old)
    return faults


def put_back_to(cluster, is_old):
    member, node, old = cluster.members[0], cluster.nodes[0], cluster.data(0) + "-old"
    try:
        member.kill()
        shutil.copytree(cluster.data(0), old)
        member.start()
        for number in range(20):
            add(cluster, 0, b"later-%d" % number)
        member.kill()
        shutil.rmtree(cluster.data(0))
        if is_old:
            shutil.move(old, cluster.data(0))
        member.start()
        try:
            told = Client(cluster.places, patience=LONG).once(b"do new", ADD)
            return [f"an entry of another log was answered: {told}"]
        except (OSError, ValueError):
            return ended(node, "was put back")
    finally:
        cluster.end()


# ---- names


def revision(number):
    """That of the entry with this number."""
    return number % (1 << 48) // 128


def gone(cluster, place, name, number):
    """Adds until the entry of this name and number is old, and waits until it is gone from etcd."""
    trimmed(cluster, place, revision(number))
    until(lambda: name not in cluster.keys("log/"), f"the entry {name} is gone from etcd")


def anew(folder, program):
    """A name that is used again after its entry was deleted is another entry, with an answer of its own."""
    cluster = begun(folder, program, nodes=1, keep=0)
    try:
        number, told = Client(cluster.places).request(b"do again", ADD)
        gone(cluster, 0, "again", number)
        later, answer = Client(cluster.places).request(b"do again", ADD)
        return [] if (told, answer) == ("6", "7") and later > number else [f"answers to one name: {number} {told}, {later} {answer}"]
    finally:
        cluster.end()


def waited(folder, program):
    """A request waits at a node that etcd does not hear, and is sent again to another one. When its entry is deleted, the first is heard again."""
    cluster = begun(folder, program, members=3, nodes=2, keep=5)
    try:
        cluster.nodes[0].finish()
        words = cluster.nodes[0].words
        words[words.index("--etcd") + 1] = cluster.urls[0]
        cluster.nodes[0].start()
        faults = [] if value(cluster, 0) == "5" else ["another value"]
        cluster.members[0].signal(signal.SIGSTOP)
        waiting = socket.create_connection(cluster.places[0])
        waiting.sendall(b"do once %d\n%s\n" % (len(ADD), ADD))
        time.sleep(1)
        number, told = Client(cluster.places[1:]).request(b"do once", ADD)
        faults += [] if told == "6" else [f"the answer is {told}"]
        time.sleep(18)
        cluster.urls.reverse()
        gone(cluster, 1, "once", number)
        cluster.members[0].signal(signal.SIGCONT)
        time.sleep(6)
        given = value(cluster, 1)
        return faults + ([] if given == "6" else [f"one request was carried out again: {given}"])
    finally:
        cluster.end()


def twice(folder, program):
    """A name twice at once, on one connection, is one entry, and both have its answer."""
    cluster = begun(folder, program, nodes=1)
    try:
        one = socket.create_connection(cluster.places[0], LONG)
        one.sendall(b"do same %d\n%s\n" % (len(ADD), ADD) * 3)
        stream = one.makefile("rb")
        told = {(stream.readline(), stream.readline()) for _ in range(3)}
        return [] if len(told) == 1 and value(cluster, 0) == "6" else [f"answers to one name: {told}"]
    except TimeoutError as late:
        raise Late("a name that comes twice at once has no answer") from late
    finally:
        cluster.end()


# ---- nodes that have to catch up

MANY = 450


def caught_up(folder, program):
    """A node that was away takes what etcd has where it does not tell the past any more, and more than one page of it."""
    cluster = begun(folder, program, nodes=2)
    try:
        cluster.nodes[1].finish()
        push_many(cluster)
        cluster.call("/v3/kv/compaction", {"revision": cluster.call("/v3/kv/range", {"key": "AA=="})["header"]["revision"]})
        cluster.nodes[1].start()
        return same_lists(cluster)
    finally:
        cluster.end()


MISSED, MOST_MIB = 100, 250
"""So many forms of a megabyte a node has missed, and so many MiB it takes at most for them."""

MISSED_MUCH = 320
"""And so many where it takes a store."""


def missed(folder, program):
    """A node that was away has missed 100 MB: it takes them a piece at a time, and never has all of them in memory."""
    cluster = begun(folder, program, nodes=2)
    try:
        cluster.nodes[1].finish()
        send_large(cluster, MISSED)
        add(cluster, 0, b"last")
        cluster.nodes[1].start()
        began, seen = time.monotonic(), value(cluster, 1)
        took, most = time.monotonic() - began, most_memory(cluster.nodes[1].child.pid)
        print(f"cluster: {MISSED} forms of a megabyte that a node had missed took it {took:.0f} s and {most} MiB", flush=True)
        faults = [] if seen == "6" else [f"a node that missed much has {seen}"]
        return faults + ([] if most <= MOST_MIB else [f"a node that missed {MISSED} megabytes took {most} MiB for them"])
    finally:
        cluster.end()


def missed_much(folder, program):
    """A node that was away has missed 320 MB, and etcd has none of it any more: the node takes the store of the other one by itself and goes on, and
    neither of them has all of that in memory."""
    cluster = begun(folder, program, nodes=2, keep=0)
    try:
        cluster.nodes[1].finish()
        trimmed(cluster, 0, revision(send_large(cluster, MISSED_MUCH)))
        cluster.nodes[1].start()
        began = time.monotonic()
        add(cluster, 1, b"last")
        seen, took = [value(cluster, place) for place in (0, 1)], time.monotonic() - began
        most = [most_memory(node.child.pid) for node in cluster.nodes]
        print(f"cluster: {MISSED_MUCH} forms of a megabyte that a node had missed, and etcd has no more, took it {took:.0f} s and {most} MiB", flush=True)
        faults = [] if seen[0] == seen[1] else [f"a node that missed much has {seen[1]}, and the other one {seen[0]}"]
        faults += [] if "is taken, at" in cluster.nodes[1].told() else ["a node that missed what etcd has no more took no store"]
        return faults + ([] if max(most) <= MOST_MIB else [f"nodes took {most} MiB for a store that one gave the other"])
    finally:
        cluster.end()


def send_large(cluster, count):
    """Sends so many forms of a megabyte by the first node; gives the number of the last one."""
    client, text, last = Client(cluster.places[:1], patience=LONG), b"(SETF (GET 'BIG 'KY) \"%s\")" % (1_040_000 * b"x"), 0
    for number in range(count):
        last, _ = client.request(b"do big-%d" % number, text)
    return last


def most_memory(process):
    """How many MiB it had at most."""
    with open(f"/proc/{process}/status", encoding="ascii") as file:
        return next(int(line.split()[1]) >> 10 for line in file if line.startswith("VmHWM:"))


def lagging(folder, program):
    """A node that lives, and whose store has stopped, is waited for: nothing is deleted that it has not carried out."""
    cluster = begun(folder, program, nodes=2, keep=0)
    try:
        store = cluster.store_process(1)
        os.kill(store, signal.SIGSTOP)
        push_many(cluster)
        for _ in range(4):
            time.sleep(3)
            push_many(cluster)
        os.kill(store, signal.SIGKILL)
        return same_lists(cluster)
    finally:
        cluster.end()


def push_many(cluster):
    """So many forms on one connection, so that a transaction has many of them."""
    texts = [b"(PUSH %d (GET 'LIST 'KY))" % number for number in range(MANY)]
    with socket.create_connection(cluster.places[0], LONG) as one:
        one.sendall(b"".join(b"do %d\n%s\n" % (len(text), text) for text in texts))
        one.shutdown(socket.SHUT_WR)
        while one.recv(1 << 16):
            pass


def same_lists(cluster):
    try:
        lists = [Client([place]).request(b"read", b"(GET 'LIST 'KY)")[1] for place in cluster.places]
    except Late as late:
        raise Late(f"a node does not come back: {cluster.nodes[1].told()[-300:]}") from late
    return [] if lists[0] == lists[1] and lists[0].startswith(f"({MANY - 1} {MANY - 2} ") else ["the lists differ"]


def newer(folder, program):
    """A newer program, which tells more of a store, goes on with it."""
    one = os.path.join(folder, "program")
    cluster = begun(folder, one_program(one, program, ""), nodes=1)
    try:
        cluster.nodes[0].finish()
        one_program(one, program, '[ "$1" = info ] && echo "a-new-figure 7"')
        cluster.nodes[0].start()
        status = cluster.nodes[0].child.wait(3)
        return [f"status {status}: {cluster.nodes[0].told()[-300:]}"]
    except subprocess.TimeoutExpired:
        return [] if value(cluster, 0) == "5" else ["another value"]
    finally:
        cluster.end()


def one_program(path, program, more):
    with open(path + ".new", "w", encoding="ascii") as file:
        file.write(f'#!/bin/sh\n{more}\nexec {program} "$@"\n')
    os.chmod(path + ".new", 0o755)
    os.replace(path + ".new", path)
    return path


# ---- an entry that is skipped


def skipped_away(folder, program):
    """An entry that one node has carried out is skipped while that one is away: it ends when it is back."""
    small = os.path.join(folder, "small")
    with open(small, "w", encoding="ascii") as file:
        file.write(f'#!/bin/sh\ncase "$2" in *store-0) ;; *) ulimit -v 200000; export FAKE_MEMORY=refused;; esac\nexec {program} "$@"\n')
    os.chmod(small, 0o755)
    cluster = begun(folder, small, nodes=2)
    try:
        Client(cluster.places).request(b"do large", b'#999999("0123456789abcdef")')
        cluster.nodes[0].signal(signal.SIGSTOP)
        time.sleep(17)
        number = stuck_at(cluster)
        status, told = cluster.order("skip", str(number))
        if status:
            return [f"skip {number}: {told}"]
        cluster.nodes[0].signal(signal.SIGCONT)
        return ended(cluster.nodes[0], "may have carried it out")
    finally:
        cluster.end()


# ---- clients that go


def leavers(_folder, _program):
    """Clients that ask much, read nothing and go leave no task behind."""
    from pazturrok_node.clients import Clients

    from pazturrok_node.node import Told

    class Slow:
        position, is_hearing, asked = 1, False, 0

        def ask(self, text, take):
            self.asked += 1
            asyncio.get_running_loop().call_soon(take, Told(1, text * 10_000))

    async def left():
        slow = Slow()
        server = await asyncio.get_running_loop().create_server(Clients(slow, None, types.SimpleNamespace(name="n0")).serve, "127.0.0.1", 0)
        for _ in range(5):
            _, writer = await asyncio.open_connection(*server.sockets[0].getsockname())
            before = slow.asked
            writer.write(b"ask 5\n(FOO)\n" * 3000)
            while slow.asked == before:
                await asyncio.sleep(0.01)
            # (as many are asked now as ever will be: nobody reads their answers)
            await asyncio.sleep(0.2)
            writer.transport.abort()
        ends = time.monotonic() + LONG
        while len(asyncio.all_tasks()) > 1 and time.monotonic() < ends:
            await asyncio.sleep(0.01)
        server.close()
        return len(asyncio.all_tasks()) - 1, slow.asked

    count, asked = asyncio.run(left())
    faults = [] if 5 < asked < 15_000 else [f"{asked} questions were asked for clients that read nothing"]
    return faults + ([f"{count} tasks go on after their clients"] if count else [])


LONG_ONES = ("waited", "lagging", "missed", "missed much", "skipped away")
PARTS = {
    "put back": put_back, "anew": anew, "waited": waited, "twice": twice, "caught up": caught_up, "missed": missed, "missed much": missed_much,
    "lagging": lagging, "newer": newer, "skipped away": skipped_away, "leavers": leavers,
}  # fmt: skip
