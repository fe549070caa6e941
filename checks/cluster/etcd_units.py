"""The members of etcd by themselves: which one is asked and watched, where one hangs, or where there is a new leader."""
import asyncio
import contextlib
import itertools
import os
import re
import sys
import unittest
from unittest import mock

from waits import LONG, settled

sys.path.insert(0, os.path.join(os.path.dirname(os.path.abspath(__file__)), "..", "..", "cluster"))

from pazturrok_node import etcd as etcds  # noqa: E402
from pazturrok_node.etcd import BY_A_MEMBER, STATUS, Etcd, EtcdError  # noqa: E402


class EtcdTest(unittest.IsolatedAsyncioTestCase):
    """Members that stand in for those of etcd: one that hangs, and one that answers, and tells a watch one thing."""

    term = b""
    """What a member tells of its leader."""

    async def member(self, answers):
        async def serve(reader, writer):
            with contextlib.suppress(asyncio.IncompleteReadError, ConnectionError):
                while head := await reader.readuntil(b"\r\n\r\n"):
                    await reader.readexactly(int(re.search(rb"Content-Length: ([0-9]+)", head)[1]))
                    if answers:
                        text = b'{"result": {"header": {"revision": "7"}}}\n' if b"/watch" in head else b'{"header": {"revision": "7"%s}}' % self.term
                        writer.write(b"HTTP/1.1 200 OK\r\nContent-Length: %d\r\n\r\n%s" % (len(text), text) if b"/watch" not in head else
                                     b"HTTP/1.1 200 OK\r\nTransfer-Encoding: chunked\r\n\r\n%x\r\n%s\r\n" % (len(text), text))

        server = await asyncio.start_server(serve, "127.0.0.1", 0)
        self.addAsyncCleanup(server.wait_closed)
        self.addCleanup(server.close)
        return f"http://127.0.0.1:{server.sockets[0].getsockname()[1]}"

    async def test_member_that_hangs(self):
        """It is left, and where it was watched the watch goes to the one that answers, before it was silent for as long as a watch may be."""
        one = Etcd([await self.member(False), await self.member(True)])
        told = asyncio.ensure_future(one.watch({}, 1, 2 * LONG).__anext__())
        with mock.patch.object(etcds, "QUICK", 0.2), mock.patch.object(etcds, "TIMEOUT", 2 * LONG):
            found = await asyncio.wait_for(one.call("/v3/kv/range", {}, one.quick), LONG)
        self.assertEqual(found, {"header": {"revision": "7"}})
        with self.assertRaises(StopAsyncIteration):
            await asyncio.wait_for(told, LONG)
        self.assertEqual(await asyncio.wait_for(one.watch({}, 1, 2 * LONG).__anext__(), LONG), {"header": {"revision": "7"}})

    async def test_watched_member_that_no_call_goes_to(self):
        """It hangs with the one that is asked: the watch goes to the one that answers, though no call has found out.
        Where the watch tells something it stays."""
        for is_heard in (True, False):
            one = Etcd([await self.member(False), await self.member(True), await self.member(is_heard)])
            one._watched, one._watch = 2, mock.Mock()
            one._heed_silence(0, "it hangs")
            watch, cut = one.watch({}, 1, 2 * LONG), one._watch.cut
            if is_heard:
                await asyncio.wait_for(watch.__anext__(), LONG)
            one._heed_answer(1)
            self.assertEqual((one._watched, cut.called), (2, False) if is_heard else (1, True))
            await watch.aclose()

    async def test_next_member(self):
        """Where a watch ends the next member is watched, but none that was silent while there is another one."""
        one = Etcd([f"http://127.0.0.1:{port}" for port in (1, 2, 3)])
        for silent, watched in ((set(), [1, 2, 0]), ({1}, [2, 0, 2]), ({1, 2}, [0, 0])):
            one._watched, one._silent, found = 0, silent, []
            for _ in watched:
                self.assertEqual([result async for result in one.watch({}, 1, LONG)], [])
                found.append(one._watched)
            self.assertEqual(found, watched)

    async def test_member_that_seeks(self):
        """One that says nothing while it seeks what a node has missed is waited for longer from watch to watch, until it tells."""
        told, count = b'{"result": {"events": [{}]}}\n', 0

        async def serve(reader, writer):
            nonlocal count
            count += 1
            await reader.readuntil(b"\r\n\r\n")
            created = b'{"result": {"created": true}}\n'
            writer.write(b"HTTP/1.1 200 OK\r\nTransfer-Encoding: chunked\r\n\r\n%x\r\n%s\r\n" % (len(created), created))
            await asyncio.sleep(0.7)
            writer.write(b"%x\r\n%s\r\n" % (len(told), told))

        server = await asyncio.start_server(serve, "127.0.0.1", 0)
        self.addCleanup(server.close)
        one, found = Etcd([f"http://127.0.0.1:{server.sockets[0].getsockname()[1]}"]), []
        while count < 10 and {"events": [{}]} not in found:
            found = [result async for result in one.watch({}, 1, 0.2)]
        self.assertIn({"events": [{}]}, found)
        self.assertEqual(one._doublings, 0)

    async def test_tries(self):
        """A call that has no answer in time is made at the next member too, and the first answer is taken: also that of the earlier try. Of those under way
        only some are kept."""
        one, let, asked = Etcd(["http://a", "http://b"]), {}, []

        async def ask(connection, path, _body):
            if path == STATUS:
                return {}
            asked.append(connection._parts.netloc)
            let[len(asked)] = asyncio.get_running_loop().create_future()
            return await let[len(asked)]

        with mock.patch.object(one, "_ask", ask):
            call = asyncio.ensure_future(one.call("/v3/kv/range", {}, 0.01))
            while len(asked) < 6:
                await asyncio.sleep(0.01)
            self.assertEqual((asked[:6], let[1].cancelled(), let[2].cancelled()), (["a", "b"] * 3, True, True))
            let[4].set_result({"header": {"revision": "7"}})
            self.assertEqual(await asyncio.wait_for(call, LONG), {"header": {"revision": "7"}})
            await settled()
            self.assertTrue(all(future.done() for future in let.values()))

    async def test_new_leader(self):
        """What a member has taken for a leader that has stopped is lost: as soon as one tells of another leader the call is made there, though the one
        that was asked is silent for long. One that seeks a leader is no sign of one."""
        one, asked, told = Etcd(["http://a", "http://b", "http://c"]), [], {"raftTerm": "3"}

        async def ask(connection, path, _body):
            member = connection._parts.netloc
            if path == STATUS:
                return told if member == "c" else {"leader": "1", "raftTerm": "2"}
            asked.append(member)
            if member == "a":
                await asyncio.get_running_loop().create_future()
            return {"header": {"revision": "7", "raft_term": told["raftTerm"]}}

        one._elections.end(0, {"header": {"raft_term": "2"}})
        one._watched, one._watch = 0, mock.Mock()
        with mock.patch.object(one, "_ask", ask), mock.patch.object(etcds, "QUICKEST", 0.01), mock.patch.object(etcds, "PAUSE", 0.01):
            call = asyncio.ensure_future(one.call("/v3/kv/txn", {}, 2 * LONG))
            await asyncio.sleep(0.1)
            self.assertEqual((asked, call.done()), (["a"], False))
            told["leader"] = "1"
            await asyncio.wait_for(call, LONG)
        # nothing is looked at any more, and the watch of who was silent is left
        self.assertEqual((asked, one._elections._looks, one._watched), (["a", "c"], [], 2))

    async def test_new_leader_in_time(self):
        """A call is answered by a member that has a new leader, before any was silent: the watch of another one is left, which may be the old one."""
        one = Etcd([await self.member(True), await self.member(False)])
        one._watched = 1
        for term, watched in ((2, 1), (2, 1), (3, 0)):
            self.term = b', "raft_term": "%d"' % term
            await asyncio.wait_for(one.call("/v3/kv/range", {}), LONG)
            self.assertEqual(one._watched, watched)

    async def test_without_leader(self):
        """A member that says that it could not do a call is no sign of a leader, and none that tells its members; one that does a call that wants it is."""
        one, told = Etcd(["http://a"]), []
        unable = {"error": "etcdserver: no leader", "code": 14}
        in_stream = {"error": {"grpc_code": 14, "message": "etcdserver: no leader"}}
        done = {"header": {"revision": "7"}}

        async def ask(_connection, path, _body):
            if path == STATUS:
                return {}
            told.append(one.without_leader_seconds > 0)
            return answers.pop(0)

        with mock.patch.object(one, "_ask", ask), mock.patch.object(etcds, "PAUSE", 0):
            answers = [unable, unable, done]
            await one.call("/v3/kv/range", {})
            self.assertEqual((told, one.without_leader_seconds), ([False, True, True], 0))
            answers = [in_stream, done]
            with self.assertRaises(EtcdError):
                await one.call("/v3/lease/keepalive", {})
            await one.call(BY_A_MEMBER, {})
            self.assertGreater(one.without_leader_seconds, 0)
            answers = [done]
            await one.call("/v3/lease/grant", {})
            self.assertEqual(one.without_leader_seconds, 0)

    async def test_quick(self):
        """Where calls are answered soon, a member is left soon; and never sooner than in half a second."""
        one = Etcd([await self.member(True)])
        self.assertEqual(one.quick, 1.5)
        clock = mock.Mock(monotonic=itertools.count(0, 0.001).__next__)
        for _ in range(100):
            with mock.patch.object(etcds, "time", clock):
                await one.call("/v3/kv/range", {})
        self.assertLess(one.quick, 1.5)
        self.assertGreaterEqual(one.quick, 0.5)
        one._took = 100.0
        self.assertEqual(one.quick, 1.5)
