"""The parts of a node by themselves: frames, answers, how requests come into a log, the program of a store; journal_units.py has the journal,
etcd_units.py the members of etcd, named_units.py the messages of clients with a name, and seed_units.py what comes from other nodes and
versions."""
import asyncio
import contextlib
import errno
import io
import logging
import os
import re
import socket
import sys
import tempfile
import unittest
from unittest import mock

import etcd_units
import journal_units
import named_units
import seed_units
from waits import LONG, settled

sys.path.insert(0, os.path.join(os.path.dirname(os.path.abspath(__file__)), "..", "..", "cluster"))

from pazturrok_node import child as childs  # noqa: E402
from pazturrok_node.answers import Answers  # noqa: E402
from pazturrok_node.appender import Appender  # noqa: E402
from pazturrok_node.child import Child  # noqa: E402
from pazturrok_node.faults import DeviceError, Fault  # noqa: E402
from pazturrok_node.frames import ANSWER, LIMIT, LOST, NO_ROOM, REQUEST, Frames, NoFrameError, request_of  # noqa: E402
from pazturrok_node.log import BusyError, FullError, Refused  # noqa: E402
from pazturrok_node.main import free_socket  # noqa: E402
from pazturrok_node.words import ORDERS, parser_of_words  # noqa: E402

SENT = b"do own.name-1 5\n(A B)\nask 3\n(C)\nread 0\n\nask 17 1\nD\ndo 3\na\nb\n"


class PageTest(unittest.TestCase):
    def test_each_word(self):
        """The page has each word of the command line."""
        with open(os.path.join(os.path.dirname(os.path.abspath(__file__)), "..", "..", "cluster", "README.md"), encoding="utf-8") as page:
            table = page.read().partition("## The words of a node\n")[2].partition("\n## ")[0]
        told = [word for line in table.splitlines() if line.startswith("| `") for word in re.findall(r"--[a-z-]+", line.split(" | ")[0])]
        known = {word for action in parser_of_words()._actions for word in action.option_strings if word.startswith("--")}
        self.assertEqual({*told, "--from", "--again"}, known)
        for order in ORDERS[1:]:
            self.assertIn(f"| `{order}", table)


class FramesTest(unittest.TestCase):
    def requests(self, pieces):
        frames = Frames(REQUEST, LIMIT)
        return [request_of(*found) for piece in pieces for found in frames.split(piece)]

    def test_pieces(self):
        whole = self.requests([SENT])
        self.assertEqual([one.kind for one in whole], ["do", "ask", "read", "ask", "do"])
        self.assertEqual([one.text for one in whole], [b"(A B)", b"(C)", b"", b"D", b"a\nb"])
        self.assertEqual([(one.name, one.number) for one in whole[:4]], [(b"own.name-1", None), (None, None), (None, None), (None, 17)])
        for size in (1, 2, 7, 30):
            self.assertEqual(self.requests([SENT[place : place + size] for place in range(0, len(SENT), size)]), whole)

    def test_what_is_no_frame(self):
        for text in (b"do x\n", b"do 5\n(A B)(", b"do 01\n", b"do 1048577\n", b"\0" * 200, b"do " + b"a" * 101 + b" 1\n", b"ask -1\n", b"do  1\n"):
            with self.assertRaises(NoFrameError, msg=text):
                self.requests([text])
        self.assertEqual(self.requests([b"do " + b"a" * 100]), [])

    def test_messages_of_clients(self):
        sent = b"by 18446744073709551615 5\na (X)\nby 0 3\nb.c\nby 7 4\n (Y)\nby 8 2\nb \nby 9 1\n(\n"
        wanted = [(b"a", (1 << 64) - 1, b" (X)"), (b"b.c", 0, b""), (None, 7, b" (Y)"), (b"b", 8, b" "), (None, 9, b"(")]
        self.assertEqual([one[1:] for one in self.requests([sent])], wanted)
        for text in (b"by 18446744073709551616 3\na b\n", b"by 01 3\na b\n", b"by 3\na b\n", b"by -1 3\na b\n"):
            with self.assertRaises(NoFrameError, msg=text):
                self.requests([text])
        self.assertEqual(self.requests([b"by 7 102\n" + b"x" * 101 + b" \n"])[0].name, None)

    def test_large(self):
        text = b"x" * LIMIT
        sent = b"do %d\n%s\n" % (LIMIT, text)
        self.assertEqual(self.requests([sent[place : place + 60_000] for place in range(0, len(sent), 60_000)])[0].text, text)
        heads = [head.groups()[:2] for head, _ in Frames(ANSWER).split(b"7 1\nA\nask 1\nB\nby 8 1\nC\n")]
        self.assertEqual(heads, [(None, b"7"), (None, None), (b"by ", b"8")])


class AnswersTest(unittest.TestCase):
    def test_once(self):
        answers, taken = Answers(), []
        answers.answer_to(2, taken.append)
        answers.settled = 2
        answers.resolve(2, b"two")
        answers.answer_to(2, taken.append)
        answers.answer_to(1, taken.append)
        self.assertEqual(taken, [b"two", b"two", LOST])


class Slow:
    """A log whose transactions end when they are let."""

    most_entries, most_bytes, lanes = 3, 1000, 2

    def __init__(self):
        self.under_way, self.entries, self.error, self.is_quick, self.batches = [], [], None, False, []

    def append_at_once(self, entries):
        if self.error:
            error, self.error = self.error, None
            raise error
        self.entries += entries
        self.batches.append(len(entries))
        return list(range(len(self.entries) - len(entries) + 1, len(self.entries) + 1))

    async def append(self, entries, _floor):
        if self.error:
            error, self.error = self.error, None
            raise error
        let = asyncio.get_running_loop().create_future()
        self.under_way.append(let)
        await let
        self.entries += entries
        return list(range(len(self.entries) - len(entries) + 1, len(self.entries) + 1))


class AppenderTest(unittest.IsolatedAsyncioTestCase):
    async def asyncSetUp(self):
        self.log, admitted = Slow(), asyncio.Event()
        admitted.set()
        self.appender = Appender(mock.Mock(log=self.log, is_admitted=admitted, position=0))
        self.task = asyncio.ensure_future(self.appender.run())
        self.taken = {}

    async def asyncTearDown(self):
        self.task.cancel()

    async def send(self, *names):
        for name in names:
            self.appender.append(name[0], name.encode(), b"", lambda placed, name=name: self.taken.__setitem__(name, placed))
        await settled()

    async def let(self, place):
        self.log.under_way.pop(place).set_result(None)
        await settled()

    async def test_order_of_each_sender(self):
        await self.send("a1")
        await self.send("a2", "b1", "a3")
        self.assertEqual(len(self.log.under_way), 2)
        await self.let(1)
        await self.send("b2", "c1")
        await self.let(1)
        await self.let(0)
        while self.log.under_way:
            await self.let(0)
        names = [name.decode() for name, _ in self.log.entries]
        self.assertEqual(sorted(names), ["a1", "a2", "a3", "b1", "b2", "c1"])
        for sender in "abc":
            own = [name for name in names if name[0] == sender]
            self.assertEqual(own, sorted(own))
        self.assertEqual(self.taken, {name: place for place, name in enumerate(names, 1)})

    async def test_refusals(self):
        self.log.error = FullError("full", {b"b1": 7})
        await self.send("a1")
        self.assertEqual(self.taken, {"a1": Refused(NO_ROOM)})
        self.log.error = BusyError("busy")
        with mock.patch("pazturrok_node.appender.PAUSE", 0.01):
            await self.send("a2")
            while not self.log.under_way:
                await asyncio.sleep(0.01)
        await self.let(0)
        self.assertEqual(self.taken["a2"], 1)

    async def test_at_once(self):
        """A log that is quick has what comes in one turn of the loop at once, and nothing before what is under way."""
        self.log.is_quick = True
        await self.send("a1", "a2", "b1", "b2", "c1")
        self.assertEqual((self.log.batches, self.log.under_way), ([3, 2], []))
        self.log.error = FullError("full", {b"b3": 7})
        await self.send("a3", "b3")
        self.assertEqual((self.taken["a3"], self.taken["b3"]), (Refused(NO_ROOM), 7))
        self.log.is_quick = False
        await self.send("a4")
        self.log.is_quick = True
        await self.send("b4", "a5")
        self.assertEqual(len(self.log.entries), 5, "a form goes before one of its own client that is under way")
        while self.log.under_way:
            await self.let(0)
        self.assertEqual([name for name, _ in self.log.entries[5:]], [b"a4", b"b4", b"a5"])

    async def test_device(self):
        """A device that fails ends the node, and nothing is put after that."""
        self.log.is_quick, self.log.error = True, OSError(errno.EIO, "Input/output error")
        await self.send("a1")
        await self.send("b1")
        self.assertEqual((self.log.batches, self.taken), ([], {}))
        with self.assertRaises(OSError):
            await asyncio.wait_for(self.task, LONG)


CAUSES = (b"cannot sync /s/half-a: Input/output error (os error 5)", b"cannot write /s/half-b: No space left on device (os error 28)",
          b"/s: locked by another process", b"/s: there is no store in this folder")
SPEAKS = "import os, sys; os.write(1, {!r}); os.write(2, {!r}); sys.stdin.read()"
LONG_ANSWER = "import os, sys; os.write(1, b'at 1\\n'); os.read(0, 1); assert os.write(1, b'x' * 1_000_000) == 1_000_000"


class ChildTest(unittest.IsolatedAsyncioTestCase):
    """Programs that stand in for that of a store."""

    async def started(self, told, complained=b""):
        return await Child.start([sys.executable, "-c", SPEAKS.format(told, complained)])

    def setUp(self):
        quiet = mock.patch.object(childs.sys, "stderr", io.StringIO())
        quiet.start()
        self.addCleanup(quiet.stop)

    async def test_what_it_answers(self):
        heard = []
        one = await self.started(b"at 17\n5 1\nA\n", b"! 64 LOG-FULL\n")
        one.hear(heard.append)
        while b"".join(heard) != b"5 1\nA\n":
            await asyncio.sleep(0.01)
        self.assertEqual((one.position, one.is_over.done(), await one.end(), one.fault), (17, False, 0, Fault(b"! 64 LOG-FULL")))
        self.assertTrue(one.is_over.done())

    async def test_long_answer(self):
        """It is in the pipe whole, whenever it is read: the program does not wait for who reads it."""
        heard = []
        one = await Child.start([sys.executable, "-c", LONG_ANSWER])
        one.hear(heard.append)
        asyncio.get_running_loop().remove_reader(one._answers)
        one.send(b"\n")
        # with a pipe of 65,536 bytes it would not end
        with contextlib.suppress(asyncio.TimeoutError):
            await asyncio.wait_for(one.process.wait(), LONG / 12)
        status = one.process.returncode
        one._read()
        await one.end()
        self.assertEqual((status, [len(data) for data in heard]), (0, [1_000_000]))

    async def test_what_is_no_position(self):
        for told in (b"at x\n", b"at 017\n", b"\n", b"17\n"):
            self.assertEqual(await self.started(told), Fault(), told)
        self.assertEqual(await Child.start([sys.executable, "-c", "print('at', end=' ')"]), Fault())
        with self.assertRaises(OSError):
            await Child.start(["/nowhere/program"])

    async def test_why_it_ended(self):
        broken, room, locked, missing = [await self.started(b"none\n", b"! 60 DEVICE\n%s\n" % cause) for cause in CAUSES]
        self.assertEqual(str(broken), "60 DEVICE: cannot sync /s/half-a: Input/output error (os error 5)")
        for was_open in (False, True):
            with self.assertRaises(DeviceError):
                broken.look(was_open)
            room.look(was_open)
            locked.look(was_open)
            with self.assertRaises(FileNotFoundError):
                missing.look(was_open)
        denied = Fault().heard(b"! 60 DEVICE\n").heard(b"cannot open /s/half-a: Permission denied (os error 13)\n").heard(b"more\n")
        denied.look(was_open=False)
        with self.assertRaises(DeviceError):
            denied.look(was_open=True)
        Fault(b"! 64 LOG-FULL", "(os error 5)").look(was_open=True)

    async def test_what_is_no_answer(self):
        """It is left, and read all the same until it ends: a program that writes much is not kept from that."""
        frames = Frames(ANSWER)
        one = await self.started(b"at 1\nno answer\n" + b"x" * 100_000)
        one.hear(lambda data: list(frames.split(data)))
        await asyncio.wait_for(one.is_over, LONG)
        self.assertEqual(await one.end(), 0)


class SocketTest(unittest.TestCase):
    def test_free(self):
        with tempfile.TemporaryDirectory() as room:
            path = os.path.join(room, "one")
            free_socket(path)
            with socket.socket(socket.AF_UNIX) as one:
                one.bind(path)
                one.listen()
                self.assertRaises(OSError, free_socket, path)
            free_socket(path)
            self.assertFalse(os.path.exists(path))
            os.mkdir(path)
            self.assertRaises(OSError, free_socket, path)


def units(_folder, _program):
    load = unittest.defaultTestLoader.loadTestsFromModule
    tests = unittest.TestSuite(map(load, (sys.modules[__name__], etcd_units, journal_units, named_units, seed_units)))
    logging.disable(logging.CRITICAL)
    try:
        with open(os.devnull, "w", encoding="ascii") as nowhere:
            result = unittest.TextTestRunner(stream=nowhere).run(tests)
    finally:
        logging.disable(logging.NOTSET)
    return [f"{test}: {told}" for test, told in [*result.failures, *result.errors]]


PARTS = {"units": units}
