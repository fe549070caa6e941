"""Messages of clients with a name, by the parts of a node that hand them on."""
import asyncio
import os
import sys
import unittest
from unittest import mock

from waits import settled

sys.path.insert(0, os.path.join(os.path.dirname(os.path.abspath(__file__)), "..", "..", "cluster"))

from pazturrok_node.answers import Answers  # noqa: E402
from pazturrok_node.appender import Appender  # noqa: E402
from pazturrok_node.clients import Clients  # noqa: E402
from pazturrok_node.etcd_log import EtcdLog  # noqa: E402
from pazturrok_node.frames import LOST, NO_ROOM, OTHER_TEXT  # noqa: E402
from pazturrok_node.log import Entry, Refused  # noqa: E402
from pazturrok_node.node import Node, Told  # noqa: E402


class NamedTest(unittest.IsolatedAsyncioTestCase):
    """Messages of clients with a name, by themselves."""

    def begun(self, takes_named):
        """A client of a node whose log takes such messages, or does not; what it is answered, and what it has appended."""
        node, appender, told = mock.Mock(), mock.Mock(), []
        node.log.takes_named, node.is_hearing, node.answers = takes_named, False, Answers()
        transport = mock.Mock(spec=asyncio.Transport)
        transport.write.side_effect = told.append
        transport.get_write_buffer_size.return_value = 0
        transport.get_extra_info.return_value = None
        one = Clients(node, appender, mock.Mock()).serve()
        one.connection_made(transport)
        return one, node, appender, told

    async def test_a_log_that_takes_none(self):
        for sent, refusal in ((b"version 2 0\n\n", b"! 58 OTHER-VERSION"), (b"by 1 3\na b\n", b"! 56 NO-FRAME")):
            one, _, appender, told = self.begun(False)
            one.data_received(b"version 1 0\n\n" + sent)
            await settled()
            self.assertIn(b"(:VERSION 1 ", b"".join(told))
            self.assertTrue(b"".join(told).endswith(b"0 %d\n%s\n" % (len(refusal), refusal)), told)
            appender.append.assert_not_called()

    async def test_one_whose_answer_was_lost_is_asked_for_again(self):
        """Where the store ended and nobody read its answer, the store is sent the same message, and has it."""
        one, node, appender, told = self.begun(True)
        one.data_received(b"version 2 0\n\nby 7 5\na (X)\n")
        for number in (3, 4):
            sender, name, text, take = appender.append.call_args.args
            self.assertEqual((sender, name, text), (one, b"a:7", b" (X)"))
            take(number)
            if number == 3:
                node.answers.settle(3)
        self.assertEqual(appender.append.call_count, 2)
        node.answers.resolve(4, bytes(bytearray(LOST)))
        await settled()
        self.assertTrue(b"".join(told).endswith(b"by 7 15\n! 50 OLD-NUMBER\n"), "what the store says itself is its answer")
        self.assertEqual(appender.append.call_count, 2)

    async def test_where_there_is_no_room_the_store_is_asked(self):
        """One that was carried out before has its answer, and any other one is refused."""
        entry = b'(7 "(LIST \\"a\\" #\\\\x)" "(\\"a\\" #\\\\x)")'
        cases = [(7, b'(LIST "a" #\\x)', b'("a" #\\x)'), (7, b"(LIST 1)", OTHER_TEXT), (6, b"(LIST 1)", LOST), (8, b"(LIST 1)", NO_ROOM)]
        for number, text, wanted in cases:
            self.assertEqual(await self.told_without_room(number, text, entry), b"by %d %d\n%s\n" % (number, len(wanted), wanted))
        for other in (b"NIL", b"! 11 NO-PACKAGE", b"(X)"):
            self.assertIn(NO_ROOM, await self.told_without_room(7, b"(LIST 1)", other))

    async def told_without_room(self, number, text, entry):
        """What a message is answered for which there is no room, where the store tells this of its client."""
        one, node, appender, told = self.begun(True)
        node.reach_last = mock.AsyncMock()
        node.ask.side_effect = lambda question, take: take(Told(1, entry))
        one.data_received(b"by %d %d\na %s\n" % (number, len(text) + 2, text))
        appender.append.call_args.args[3](Refused(NO_ROOM))
        await settled()
        self.assertIn(b"%CLIENTS::|a|", node.ask.call_args.args[0])
        return b"".join(told)

    async def test_one_that_is_sent_again_waits_for_the_same_answer(self):
        one, node, appender, told = self.begun(True)
        one.data_received(b"by 7 5\na (X)\n")
        appender.append.call_args.args[3](3)
        one.data_received(b"by 7 5\na (X)\n")
        self.assertEqual(appender.append.call_count, 1)
        one.data_received(b"by 7 5\na (Y)\n")
        self.assertEqual(appender.append.call_count, 2)
        appender.append.call_args.args[3](4)
        node.answers.resolve(3, b"X")
        node.answers.resolve(4, b"! 55 OTHER-TEXT")
        await settled()
        self.assertEqual(b"".join(told), b"by 7 1\nX\nby 7 1\nX\nby 7 15\n! 55 OTHER-TEXT\n")
        one.data_received(b"by 7 5\na (X)\n")
        self.assertEqual(appender.append.call_count, 3)


class FedTest(unittest.TestCase):
    """What a store is fed of such messages."""

    def fed(self, log, skipped=()):
        node, child = Node(log, mock.Mock(), []), mock.Mock()
        node._skipped = dict.fromkeys(skipped, b"! 53 SKIPPED")
        entries = [Entry(9, b"own", b"(X)"), Entry(10, b"a:7:0f", b" (Y)"), Entry(11, b"a:8:1e", b"")]
        node._send_entries(child, entries)
        return node, child.send.call_args.args[0]

    def test_number_after_it(self):
        """A store of several has the number of the entry after it, and writes that with what comes next; one of a single node has not."""
        log = EtcdLog(mock.Mock(), "store")
        node, sent = self.fed(log)
        self.assertEqual(sent, b"do 9 3\n(X)\nby 7 5\na (Y)\ndo 10 0\n\nby 8 1\na\ndo 11 0\n\n")
        node._hear(b"9 1\nX\nby 7 1\nY\n")
        self.assertEqual((node.position, node.count_of_entries, node.under_way), (10, 2, 3))
        node._settle(11)
        taken = []
        for number in (10, 11):
            node.answers.answer_to(number, taken.append)
        self.assertEqual((taken, taken[1] is LOST), ([b"Y", LOST], True))
        _, sent = self.fed(mock.Mock(is_shared=False))
        self.assertEqual(sent, b"do 9 3\n(X)\nby 7 5\na (Y)\nby 8 1\na\n")

    def test_one_that_is_skipped(self):
        _, sent = self.fed(EtcdLog(mock.Mock(), "store"), skipped=(10,))
        self.assertEqual(sent, b"do 9 3\n(X)\ndo 10 3\nNIL\nby 8 1\na\ndo 11 0\n\n")


class Trimmed:
    """A log that takes nothing while what it has deleted is after the floor."""

    most_entries, most_bytes, lanes, is_quick = 3, 1000, 1, False

    def __init__(self, upto):
        self.upto, self.floors = upto, []

    def place(self, number):
        return number

    async def trimmed(self):
        return self.upto

    async def append(self, entries, floor):
        self.floors.append(floor)
        return None if floor <= self.upto else list(range(1, len(entries) + 1))


class FloorTest(unittest.IsolatedAsyncioTestCase):
    async def test_put_again(self):
        """A form whose name may be gone is left, and a message of a client with a name is put again; where the store is behind, that is left too."""
        for position, wanted in ((20, {b"own": None, b"a:7": 1}), (10, {b"own": None, b"a:7": None})):
            log, admitted, taken = Trimmed(15), asyncio.Event(), {}
            admitted.set()
            node = mock.Mock(log=log, is_admitted=admitted, position=10)
            appender = Appender(node)
            task = asyncio.ensure_future(appender.run())
            await settled()
            for name in wanted:
                appender.append(name, name, b"", lambda placed, name=name, taken=taken: taken.__setitem__(name, placed))
            node.position = position
            await settled()
            self.assertEqual((taken, log.floors[0]), (wanted, 10))
            task.cancel()
