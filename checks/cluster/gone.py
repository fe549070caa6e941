"""Entries that go from etcd: a delete of the nodes that comes late, entries that an operator deletes, all requests to etcd twice. Each part
gives what is wrong."""
import base64
import random
import threading
import time

import late
from cluster import Client
from late import add, push_many, revision
from refusals import ADD, begun, copy_store, refused, value
from relay import Kept, Relay
from waits import LONG, Late, Worker, all_ended


def key_of(name):
    """The key of an entry, as it stands in requests to etcd."""
    return base64.b64encode(b"pazturrok/store/log/" + name)


def by_relays(cluster):
    """Starts the nodes again, so that each speaks to the first member through a relay of its own."""
    host, _, port = cluster.urls[0].removeprefix("http://").rpartition(":")
    relays = [Relay((host, int(port))) for _ in cluster.nodes]
    for node, relay in zip(cluster.nodes, relays):
        node.finish()
        node.words[node.words.index("--etcd") + 1] = relay.url
        node.start()
    return relays


def late_delete(folder, program):
    """A delete of an entry comes a second time, when its name is that of a newer entry: that one stays."""
    cluster = begun(folder, program, nodes=1, keep=3)
    relays = by_relays(cluster)
    try:
        for turn in range(10):
            name = b"again-%d" % turn
            number, _ = add(cluster, 0, name)
            kept = relays[0].keep(b"request_delete_range", key_of(name))
            late.gone(cluster, 0, name.decode(), number)
            if not kept.came.wait(LONG):
                raise Late("no delete went through the relay")
            later, answer = add(cluster, 0, name)
            kept.send_again()
            once_more = add(cluster, 0, name)
            if once_more == (later, answer):
                return [] if number < later else [f"entries with one name: {number}, {later}"]
            # on a busy machine the nodes themselves may have deleted the newer one by now
            if not any(int(trim) >= revision(later) for trim in cluster.keys("trims/")):
                return [f"a late delete took a newer entry: {later} {answer}, then {once_more}"]
        raise Late("newer entries are old before they are looked at")
    finally:
        cluster.end()
        relays[0].close()


def gone(folder, program):
    """Entries are deleted by hand, and the history is compacted, while a node is away: it says so when it is back, and takes the store of a node
    that has carried them out, or ends where no other one runs. Seeded it goes on."""
    cluster = begun(folder, program, nodes=2)
    try:
        faults = []
        for many in (add_one, push_many):
            cluster.nodes[1].finish()
            before = cluster.keys("log/")
            many(cluster)
            name = max(set(cluster.keys("log/")).difference(before, ["~", "~beat"]))
            # what the other node has seen last is there still
            add_one(cluster)
            cluster.call("/v3/kv/deleterange", {"key": key_of(name.encode()).decode()})
            compact(cluster)
            if many is add_one:
                cluster.nodes[1].start()
            else:
                cluster.nodes[0].finish()
                faults += refused(cluster, 1, "is gone from etcd")
                copy_store(cluster, 0, 1)
                for node in cluster.nodes:
                    node.start()
            faults += [] if value(cluster, 0) == value(cluster, 1) else ["the counters differ"]
            faults += [] if "is gone from etcd" in cluster.nodes[1].told() else ["a node does not say that an entry is gone"]
        return faults
    finally:
        cluster.end()


def add_one(cluster):
    Client(cluster.places[:1]).request(b"do", ADD)


def compact(cluster):
    cluster.call("/v3/kv/compaction", {"revision": cluster.call("/v3/kv/range", {"key": "AA=="})["header"]["revision"]})


class Repeater:
    """Sends each request but watches a second time, some seconds later."""

    def __init__(self, relay, longest, seed):
        self.relay, self.longest, self.chance, self.count = relay, longest, random.Random(seed), 0
        relay.every = self.take

    def take(self, request):
        if b"/v3/watch" in request[:40]:
            return
        kept = Kept(self.relay.target, (), False)
        kept.text = request
        timer = threading.Timer(self.chance.random() * self.longest, self.send, [kept])
        timer.daemon = True
        timer.start()

    def send(self, kept):
        try:
            kept.send_again()
            self.count += 1
        except OSError:
            pass


def repeated(folder, program):
    """All that the nodes ask of etcd comes twice, the second time up to eight seconds later, while entries are deleted: each form is carried
    out once."""
    cluster = begun(folder, program, nodes=2, keep=1)
    relays = by_relays(cluster)
    repeaters = [Repeater(relay, 8, place) for place, relay in enumerate(relays)]
    try:
        done, ends = [0, 0], time.monotonic() + 14

        def work(place):
            client = Client(cluster.places[place:] + cluster.places[:place])
            while time.monotonic() < ends:
                client.request(b"do once-%d-%d" % (place, done[place]), ADD)
                done[place] += 1
                time.sleep(0.02)

        workers = [Worker(work, place) for place in (0, 1)]
        for worker in workers:
            worker.start()
        all_ended(workers)
        seen = {value(cluster, place) for place in (0, 1)}
        trims = [int(name) for name in cluster.keys("trims/")]
        faults = [] if seen == {str(5 + sum(done))} else [f"{sum(done)} were added to 5, and the counters are {seen}"]
        if min(repeater.count for repeater in repeaters) < 10 or max(trims, default=0) < 20:
            faults.append(f"too little came twice: {[repeater.count for repeater in repeaters]}, entries are deleted up to {trims}")
        return faults
    finally:
        cluster.end()
        for relay in relays:
            relay.close()


LONG_ONES = ("repeated",)
PARTS = {"late delete": late_delete, "gone": gone, "repeated": repeated}
