"""The journal of a node without etcd by itself: names, cuts, zeros, damage, what is old, and where there is no room."""
import asyncio
import errno
import os
import pathlib
import sys
import tempfile
import threading
import unittest
from unittest import mock

from waits import settled

FULL = OSError(errno.ENOSPC, "No space left on device")

sys.path.insert(0, os.path.join(os.path.dirname(os.path.abspath(__file__)), "..", "..", "cluster"))

from pazturrok_node import journal as journals  # noqa: E402
from pazturrok_node.alone import AloneKeeper  # noqa: E402
from pazturrok_node.faults import DeviceError  # noqa: E402
from pazturrok_node.frames import OTHER_TEXT  # noqa: E402
from pazturrok_node.journal import Journal  # noqa: E402
from pazturrok_node.log import MARK, BehindError, FullError, Reached, Refused, RefusedStoreError  # noqa: E402
from pazturrok_node.segments import records, written  # noqa: E402


class JournalTest(unittest.IsolatedAsyncioTestCase):
    def setUp(self):
        room = tempfile.TemporaryDirectory()
        self.addCleanup(room.cleanup)
        self.room = room.name

    def begun(self, position=0, keep=600.0):
        one = Journal(self.room, keep)
        self.addCleanup(one.close)
        try:
            one.open(position)
        except BaseException:
            one.close()
            raise
        return one

    def segments(self):
        folder = os.path.join(self.room, "journal")
        return sorted(os.path.join(folder, name) for name in os.listdir(folder) if name != "lock")

    async def given(self, journal, number):
        """The entries after a number, as far as they go now."""
        found = []
        async for one in journal.watch(number):
            if isinstance(one, Reached):
                return found
            found += [(entry.number, entry.name, entry.text) for entry in one]

    async def test_names(self):
        one = self.begun(7)
        self.assertEqual(await one.append([(b"a", b"1"), (b"b", b"2")], 0), [8, 9])
        self.assertEqual(await one.append([(b"b", b"2"), (b"c", b"3"), (b"a", b"1")], 0), [9, 10, 8])
        one.close()
        with mock.patch.object(journals.os, "fsync", wraps=os.fsync) as synced:
            two = self.begun(9)
        self.assertTrue(synced.called, "what a killed node has written and not synced is not synced")
        self.assertEqual(await two.append([(b"c", b"3")], 0), [10])
        self.assertEqual(await self.given(two, 8), [(9, b"b", b"2"), (10, b"c", b"3")])

    async def test_another_text(self):
        """A name that is there with another text is refused, and the entry under it stays; as after the journal was read again."""
        one, other = self.begun(), Refused(OTHER_TEXT)
        await one.append([(b"a", b"(x)")], 0)
        self.assertEqual(await one.append([(b"a", b"(y)"), (b"b", b"(y)")], 0), [other, 2])
        with mock.patch.object(journals, "MOST_NAMES", 1), self.assertRaises(FullError) as raised:
            await one.append([(b"a", b"(y)"), (b"b", b"(y)"), (b"c", b"(z)")], 0)
        self.assertEqual(raised.exception.placed, {b"a": other, b"b": 2})
        one.close()
        two = self.begun()
        self.assertEqual(await two.append([(b"a", b""), (b"b", b"(x)"), (b"c", b"(z)")], 0), [other, other, 3])
        self.assertEqual(await two.append([(b"a", b"(x)"), (b"b", b"(y)")], 0), [1, 2])
        self.assertEqual(await self.given(two, 0), [(1, b"a", b"(x)"), (2, b"b", b"(y)"), (3, b"c", b"(z)")])

    async def test_synced_before_it_is_fed(self):
        one, calls = self.begun(), []
        with mock.patch.object(journals.os, "fdatasync", side_effect=lambda _: calls.append(len(one._queue))):
            one._took = 0.0
            await one.append([(b"a", b"1")], 0)
            await one.append([(b"b", b"1"), (b"c", b"2")], 0)
        self.assertEqual((calls, len(one._queue)), ([0, 1], 2))

    async def test_at_once(self):
        """In one turn of the loop, too, entries are synced before they are handed on; who waits for them has them in their order, whichever way they go."""
        one, calls, given, takes = self.begun(), [], [], [True, True, False, True]

        def take(entries):
            calls.append("take")
            given.extend(entry.number for entry in entries if takes[0])
            return takes.pop(0)

        async def follow():
            async for found in one.watch(0, take):
                given.extend([] if isinstance(found, Reached) else [entry.number for entry in found])

        following = asyncio.ensure_future(follow())
        await settled()
        with mock.patch.object(journals.os, "fdatasync", side_effect=lambda _: calls.append("sync")):
            one._took = 0.0
            self.assertTrue(one.is_quick)
            self.assertEqual(one.append_at_once([(b"a", b"1")]), [1])
            self.assertEqual(one.append_at_once([(b"b", b"2"), (b"a", b"1"), (b"a", b"x")]), [2, 1, Refused(OTHER_TEXT)])
            self.assertEqual(one.append_at_once([(b"b", b"2")]), [2])
            self.assertEqual(one.append_at_once([(b"c", b"3"), (b"d", b"4")]), [3, 4])
            self.assertEqual(one.append_at_once([(b"e", b"5")]), [5], "what comes while others wait waits behind them")
            await settled()
            self.assertEqual(await one.append([(b"f", b"6")], 0), [6])
        self.assertEqual((calls, given), (["sync", "take"] * 3 + ["sync"] + ["sync", "take"], [1, 2, 3, 4, 5, 6]))
        following.cancel()
        one._took = 1.0
        self.assertFalse(one.is_quick)

    async def test_zeros(self):
        """Records take the places of zeros that were written ahead; the last segment alone has some, and none once it is closed."""
        one, ahead = self.begun(), bytes(journals.AHEAD)
        await one.append([(b"a", b"1")], 0)
        whole = b"pazturrok journal 1\n" + written(b"do", 1, b"a", b"1")
        self.assertEqual(pathlib.Path(self.segments()[0]).read_bytes(), whole + ahead)
        length = len(whole + ahead)
        await one.append([(b"b", b"x" * 100)], 0)
        whole += written(b"do", 2, b"b", b"x" * 100)
        self.assertEqual(pathlib.Path(self.segments()[0]).read_bytes(), whole.ljust(length, b"\0"))
        one.close()
        self.assertEqual(pathlib.Path(self.segments()[0]).read_bytes(), whole)
        # a node that was killed leaves zeros, and a crash may leave a part of a record among them
        with open(self.segments()[0], "ab") as file:
            file.write(b"\0" * 10 + written(b"do", 3, b"c", b"torn")[10:] + ahead)
        two = self.begun()
        with mock.patch.object(journals, "SEGMENT", 0):
            self.assertEqual(await two.append([(b"c", b"3")], 0), [3])
        self.assertEqual(pathlib.Path(self.segments()[0]).read_bytes(), whole)
        two.close()
        three = self.begun()
        self.assertEqual(await self.given(three, 1), [(2, b"b", b"x" * 100), (3, b"c", b"3")])

    async def test_messages_of_clients(self):
        """A mark stands before one by which a client goes, and after that, and after one that was refused, unless another entry does. They are no
        names, so each is an entry of its own."""
        one, x = self.begun(), b" (X)"
        self.assertEqual(await one.append([(b"t:1", x), (b"u:1", x)], 0), [1, 2])
        self.assertEqual(await one.append([(b"t:1", x)], 0), [3])
        self.assertEqual(await one.append([(b"t:1", b""), (b"u:2", x), (b"a", b"1"), (b"u:3", b""), (b"b", b"2"), (b"u:4", x)], 0), [5, 7, 8, 9, 10, 11])
        one.want_mark()
        self.assertEqual(await one.append([(b"u:5", x)], 0), [13])
        self.assertEqual(await one.append([(b"a", b"1"), (b"t:2", b"")], 0), [8, 15])
        one.close()
        two = self.begun()
        self.assertEqual(await two.append([(b"t:1", x)], 0), [17])
        texts = dict((number, text) for number, _, text in await self.given(two, 0))
        self.assertEqual([number for number, text in texts.items() if text == MARK], [4, 6, 12, 14, 16])

    async def test_a_journal_with_messages_of_clients(self):
        """An older node refuses it by its first line; one without any is as it was, also where the line did not come as far as the record."""
        one = self.begun()
        await one.append([(b"a", b"1")], 0)
        self.assertTrue(pathlib.Path(self.segments()[0]).read_bytes().startswith(b"pazturrok journal 1\n"))
        one.append_at_once([(b"t:1", b" (X)")])
        one.close()
        path = pathlib.Path(self.segments()[0])
        self.assertTrue(path.read_bytes().startswith(b"pazturrok journal 2\n"))
        path.write_bytes(path.read_bytes().replace(b"journal 2", b"journal 1", 1))
        two = self.begun()
        self.assertTrue(path.read_bytes().startswith(b"pazturrok journal 2\n"))
        self.assertEqual(await self.given(two, 1), [(2, b"t:1", b" (X)")])
        with mock.patch.object(journals, "SEGMENT", 0):
            self.assertEqual(await two.append([(b"b", b"2")], 0), [3])
        self.assertTrue(pathlib.Path(self.segments()[1]).read_bytes().startswith(b"pazturrok journal 1\n"))

    async def test_no_room_for_zeros(self):
        """Records that have room are entries, also where zeros after them have none."""
        one = self.begun()

        def write(file, data, at):
            if data.startswith(b"\0"):
                raise FULL
            return os.pwritev(file, [data], at)

        with mock.patch.object(journals.os, "pwrite", side_effect=write):
            self.assertEqual(await one.append([(b"a", b"1"), (b"b", b"2")], 0), [1, 2])
            self.assertEqual(await one.append([(b"c", b"3")], 0), [3])
        one.close()
        self.assertEqual(await self.given(self.begun(), 1), [(2, b"b", b"2"), (3, b"c", b"3")])

    async def test_each_cut(self):
        """At whatever byte a crash ends the last write, what was whole before it stays."""
        whole = written(b"do", 1, b"a", b"first\n") + written(b"skip", 1, b"-", b"! 90 NO-MEMORY")
        last = written(b"do", 2, b"b", b"second")
        for cut in range(len(last)):
            data = b"pazturrok journal 1\n" + whole + last[:cut]
            self.assertEqual([one.number for one in records(data)], [1, 1])
            for place in range(0, len(last), 3):
                if place < cut:
                    spoilt = bytearray(data)
                    spoilt[len(data) - cut + place] ^= 1
                    self.assertEqual(len(list(records(bytes(spoilt)))), 2)
        with open(os.path.join(self.room, "cut"), "wb"):
            one = self.begun()
        path = self.segments()[0]
        one.close()
        text = b"pazturrok journal 1\n" + whole + last
        for cut in (*range(20), len(whole) + 20, len(whole) + 30):
            for left in (text[:cut], text[: cut // 2] + b"\0" * (cut - cut // 2) if cut <= 20 else text[:cut]):
                with open(path, "wb") as file:
                    file.write(left)
                two = self.begun()
                number = 2 if cut > len(whole) else 1
                self.assertEqual(await two.append([(b"c", b"3")], 0), [number])
                two.close()
                three = self.begun()
                self.assertEqual((await self.given(three, 0))[-1], (number, b"c", b"3"))
                three.close()

    async def test_another_file(self):
        """What does not begin as a journal is not cut, whatever its place."""
        self.begun().close()
        with open(self.segments()[-1], "wb") as file:
            file.write(b"another file, with a text\n")
        with self.assertRaises(RefusedStoreError):
            self.begun()

    async def test_damage(self):
        one = self.begun()
        await one.append([(b"a", b"1")], 0)
        with mock.patch.object(journals, "SEGMENT", 0):
            await one.append([(b"b", b"2")], 0)
        one.close()
        first, second = self.segments()
        with open(first, "r+b") as file:
            file.seek(25)
            file.write(b"!")
        with self.assertRaises(RefusedStoreError):
            self.begun()
        os.unlink(first)
        with self.assertRaises(BehindError):
            self.begun()
        self.begun(1).close()
        with self.assertRaises(RefusedStoreError):
            self.begun(3)
        os.unlink(second)
        self.begun(3)

    async def test_damage_of_what_the_store_has(self):
        """At the end of the last segment, too, nothing is cut that the store was fed, and damage is told as such."""
        one = self.begun()
        for number in (1, 2, 3):
            await one.append([(b"%d" % number, b"x")], 0)
        one.close()
        path = pathlib.Path(self.segments()[0])
        spoilt = path.read_bytes().replace(b"do 2 ", b"do 9 ")
        for left in (spoilt, spoilt + b"\0" * 100):
            path.write_bytes(left)
            for position in (2, 3):
                with self.assertRaisesRegex(RefusedStoreError, "is no record of this journal"):
                    self.begun(position)
                self.assertEqual(path.read_bytes(), left)
        self.assertEqual(await self.given(self.begun(1), 0), [(1, b"1", b"x")])

    async def test_damage_while_it_runs(self):
        """What is read again for a store that was started again has to be what was read before: no entry is passed over."""
        one = self.begun()
        for number in (1, 2, 3):
            await one.append([(b"%d" % number, b"x")], 0)
        with mock.patch.object(journals, "SEGMENT", 0):
            await one.append([(b"4", b"x")], 0)
        whole = pathlib.Path(self.segments()[0]).read_bytes()
        for spoilt in (whole.replace(b"do 2 ", b"do 9 "), whole[:-1], b""):
            pathlib.Path(self.segments()[0]).write_bytes(spoilt)
            with self.assertRaises(RefusedStoreError):
                await self.given(one, 0)
            self.assertEqual(await self.given(one, 3), [(4, b"4", b"x")])
        pathlib.Path(self.segments()[0]).write_bytes(whole)
        self.assertEqual([number for number, _, _ in await self.given(one, 1)], [2, 3, 4])

    async def test_old(self):
        one = self.begun(keep=0.0)
        for number in range(4):
            await one.append([(b"%d" % number, b"x")], 0)
        self.assertEqual(len(self.segments()), 4)
        await one.trim(2)
        self.assertEqual((await one.trimmed(), one.names, len(self.segments())), (2, 2, 2))
        self.assertEqual(await one.append([(b"0", b"again"), (b"3", b"x")], 0), [5, 4])
        await one.trim(1000)
        self.assertEqual(one.names, 1)
        with self.assertRaises(BehindError):
            one.open(1)

    async def test_full(self):
        one = self.begun()
        with mock.patch.object(journals, "MOST_NAMES", 1):
            await one.append([(b"a", b"1"), (b"b", b"2")], 0)
            with self.assertRaises(FullError) as raised:
                await one.append([(b"c", b"3"), (b"a", b"1")], 0)
            self.assertEqual(raised.exception.placed, {b"a": 1})
            self.assertEqual(await one.append([(b"b", b"2")], 0), [2])
        with mock.patch.object(journals.os, "pwrite", side_effect=FULL), self.assertRaises(FullError):
            await one.append([(b"c", b"3")], 0)
        one._looked = -1.0
        with mock.patch.object(journals.os, "statvfs", return_value=mock.Mock(f_bavail=1, f_frsize=1)), self.assertRaises(FullError):
            await one.append([(b"c", b"3")], 0)
        one._looked = -1.0
        self.assertEqual(await one.append([(b"c", b"3")], 0), [3])
        self.assertEqual(await self.given(one, 0), [(1, b"a", b"1"), (2, b"b", b"2"), (3, b"c", b"3")])

    async def test_no_room_for_a_segment(self):
        """That no file can be made, or its first line not be written, is no room; the journal goes on when there is some."""
        one = self.begun()
        await one.append([(b"a", b"1")], 0)
        for call in ("open", "pwrite"):
            with mock.patch.object(journals, "SEGMENT", 0), mock.patch.object(journals.os, call, side_effect=FULL):
                with self.assertRaises(FullError):
                    await one.append([(b"b", b"2")], 0)
            self.assertEqual(len(self.segments()), 1)
        with mock.patch.object(journals, "SEGMENT", 0):
            self.assertEqual(await one.append([(b"b", b"2")], 0), [2])
        self.assertEqual(len(self.segments()), 2)
        one.close()
        self.assertEqual(await self.given(self.begun(), 0), [(1, b"a", b"1"), (2, b"b", b"2")])

    async def test_trouble_until_there_is_room(self):
        """Why nothing is taken is told until there is room, also where nobody sends anything more."""
        one = self.begun()
        await one.append([(b"a", b"1")], 0)
        for call, size in (("open", 0), ("pwrite", journals.SEGMENT)):
            with mock.patch.object(journals, "SEGMENT", size), mock.patch.object(journals.os, call, side_effect=FULL):
                with self.assertRaises(FullError):
                    await one.append([(b"b", b"2")], 0)
                await one.look_again()
                self.assertIn("No space left on device", str(one.trouble))
            await one.look_again()
            self.assertIsNone(one.trouble)
        self.assertEqual(await one.append([(b"b", b"2")], 0), [2])
        one.close()
        self.assertEqual(await self.given(self.begun(), 0), [(1, b"a", b"1"), (2, b"b", b"2")])

    async def test_a_sync_that_failed(self):
        """That is a fault of the device, and not want of room, whatever error it tells."""
        one = self.begun()
        for error in (FULL, OSError(errno.EIO, "Input/output error")):
            with mock.patch.object(journals.os, "fdatasync", side_effect=error), self.assertRaises(DeviceError):
                await one.append([(b"a", b"1")], 0)
            with mock.patch.object(journals.os, "fdatasync", side_effect=error), self.assertRaises(DeviceError):
                one.append_at_once([(b"a", b"1")])

    async def test_no_room_for_a_skip(self):
        """The store ends there again, and then it is tried again."""
        one = self.begun()
        await one.append([(b"a", b"1")], 0)
        keeper = AloneKeeper(one)
        with mock.patch.object(journals.os, "pwrite", side_effect=FULL):
            await keeper.ended_at(1, b"! 90 NO-MEMORY")
        self.assertEqual(await one.skipped(), {})
        await keeper.ended_at(1, b"! 90 NO-MEMORY")
        self.assertEqual(await one.skipped(), {1: b"! 90 NO-MEMORY"})

    async def test_cancelled(self):
        """Whoever waits for an entry may go: what is written is an entry, and no other one has its number."""
        one, synced, goes_on = self.begun(), asyncio.Event(), threading.Event()
        loop = asyncio.get_running_loop()

        def sync(_):
            loop.call_soon_threadsafe(synced.set)
            goes_on.wait(10)

        one._took = 1.0
        with mock.patch.object(journals.os, "fdatasync", side_effect=sync):
            for number, call in ((1, one.append([(b"a", b"1")], 0)), (2, one.append([(b"b", b"2")], 0)), (3, one.skip(1, b"! 90 NO-MEMORY"))):
                task = asyncio.ensure_future(call)
                await synced.wait()
                task.cancel()
                self.assertEqual(await asyncio.gather(task, return_exceptions=True), [mock.ANY], number)
                self.assertTrue(task.cancelled())
                synced.clear()
                goes_on.set()
                async with one._writing:
                    goes_on.clear()
        written_so_far = pathlib.Path(self.segments()[0]).read_bytes().rstrip(b"\0")
        self.assertEqual((await one.skipped(), one.size), ({1: b"! 90 NO-MEMORY"}, len(written_so_far)))
        self.assertEqual(await one.append([(b"c", b"3"), (b"a", b"1"), (b"b", b"2")], 0), [3, 1, 2])
        one.close()
        two = self.begun()
        self.assertEqual(await self.given(two, 0), [(1, b"a", b"1"), (2, b"b", b"2"), (3, b"c", b"3")])
        self.assertEqual(await two.skipped(), {1: b"! 90 NO-MEMORY"})

    async def test_name_of_a_younger_entry(self):
        """A segment that came back by a crash has a name that is another entry's since: that one keeps it."""
        one = self.begun(keep=0.0)
        for number in (1, 2, 3):
            await one.append([(b"%d" % number, b"x")], 0)
        kept = {path: pathlib.Path(path).read_bytes().rstrip(b"\0") for path in self.segments()}
        calls = []
        with mock.patch.object(journals, "sync_folder", side_effect=lambda path: calls.append((path, len(self.segments())))):
            await one.trim(2)
        self.assertEqual(calls, [(os.path.join(self.room, "journal"), 1)], "what was taken away is not taken away for good")
        self.assertEqual(await one.append([(b"1", b"y"), (b"2", b"y")], 0), [4, 5])
        one.close()
        for path, data in kept.items():
            pathlib.Path(path).write_bytes(data)
        two = self.begun(5, keep=0.0)
        self.assertEqual(await two.append([(b"4", b"x")], 0), [6])
        await two.trim(3)
        self.assertEqual(await two.append([(b"1", b"y"), (b"2", b"y"), (b"3", b"x")], 0), [4, 5, 7])
        await two.trim(1000)
        self.assertEqual(two.names, 1)

    async def test_lock(self):
        self.begun()
        with self.assertRaises(OSError):
            Journal(self.room, 600.0)
