"""What comes from another node, or from another version, by itself: a store that is put in place, reports, what a log
says of itself."""
import contextlib
import fcntl
import os
import sys
import tempfile
import unittest
from unittest import mock

sys.path.insert(0, os.path.join(os.path.dirname(os.path.abspath(__file__)), "..", "..", "cluster"))

from pazturrok_node import seed  # noqa: E402
from pazturrok_node.answers import Answers  # noqa: E402
from pazturrok_node.etcd_log import Identity, identity_of, written  # noqa: E402
from pazturrok_node.frames import LIMIT, LOST, NO_FRAME, REQUEST, TEXT_TOO_LONG, Frames, NoFrameError  # noqa: E402
from pazturrok_node.journal import Journal  # noqa: E402
from pazturrok_node.log import RefusedStoreError  # noqa: E402
from pazturrok_node.reports import report_of  # noqa: E402


class Crash(Exception):
    """The power has failed."""


def written_tree(folder, texts):
    for name, text in texts.items():
        path = os.path.join(folder, name)
        os.makedirs(os.path.dirname(path), exist_ok=True)
        with open(path, "w", encoding="ascii") as file:
            file.write(text)


def tree(folder):
    found = {}
    for place, _, names in os.walk(folder):
        for name in names:
            with open(os.path.join(place, name), encoding="ascii") as file:
                found[os.path.relpath(os.path.join(place, name), folder)] = file.read()
    return found


class PlaceTest(unittest.TestCase):
    OLD = {"half-a": "old a", "half-b": "old b", "replica": "old notes"}
    NEW = {"pazturrok-whole/half-a": "new a", "pazturrok-whole/half-b": "new b"}
    BEFORE = {f"pazturrok-before/{name}": text for name, text in OLD.items()}
    WANTED = {"half-a": "new a", "half-b": "new b", **BEFORE}

    def setUp(self):
        room = tempfile.TemporaryDirectory()
        self.addCleanup(room.cleanup)
        self.folder = room.name

    def test_whole(self):
        self.assertFalse(seed.put_in_place(self.folder))
        written_tree(self.folder, {**self.OLD, **self.NEW})
        self.assertTrue(seed.put_in_place(self.folder))
        self.assertEqual(tree(self.folder), self.WANTED)
        self.assertFalse(seed.put_in_place(self.folder))

    def test_into_a_new_folder(self):
        written_tree(self.folder, {**self.NEW, "pazturrok-taken/half-a": "not whole", "taken/mine": "of somebody"})
        self.assertTrue(seed.put_in_place(self.folder))
        self.assertEqual(tree(self.folder), {"half-a": "new a", "half-b": "new b", "taken/mine": "of somebody"})

    def test_stopped_at_each_call(self):
        """Wherever it is stopped, the next one goes on, and a store is whole then."""
        for stop in range(20):
            with tempfile.TemporaryDirectory() as folder:
                written_tree(folder, {**self.OLD, **self.NEW})
                calls = {"count": 0}

                def crash(whole, calls=calls, stop=stop):
                    def call(*words):
                        calls["count"] += 1
                        if calls["count"] > stop:
                            raise Crash
                        return whole(*words)

                    return call

                with contextlib.ExitStack() as patches:
                    for owner, name in ((seed.os, "replace"), (seed.os, "rmdir"), (seed, "sync_folder")):
                        patches.enter_context(mock.patch.object(owner, name, crash(getattr(owner, name))))
                    try:
                        seed.put_in_place(folder)
                        is_whole = True
                    except Crash:
                        is_whole = False
                seed.put_in_place(folder)
                self.assertEqual(tree(folder), self.WANTED, f"stopped after {stop} calls")
        self.assertTrue(is_whole)

    def test_a_store_that_is_in_use(self):
        written_tree(self.folder, self.OLD)
        with open(os.path.join(self.folder, "half-a"), "rb") as file:
            fcntl.flock(file, fcntl.LOCK_EX)
            with self.assertRaises(seed.NoSeedError), seed.locked(self.folder):
                self.fail("a store that is in use is taken")
        with seed.locked(self.folder):
            pass
        self.assertEqual(tree(self.folder), self.OLD)


class GiverTest(unittest.IsolatedAsyncioTestCase):
    """A program that stands in for that of a store makes a copy, or none."""

    async def copy(self, script):
        with tempfile.TemporaryDirectory() as folder, mock.patch.object(seed, "logger") as logger:
            program = os.path.join(folder, "program")
            written_tree(folder, {"program": "#!/bin/sh\n" + script})
            os.chmod(program, 0o700)
            node = mock.Mock(log=mock.Mock(token="one log"))
            giver = seed.Giver("n0", program, folder, node)
            async with giver.copy() as copy:
                async with giver.copy() as other:
                    self.assertEqual(other, seed.NO_ROOM)
                found = copy if isinstance(copy, bytes) else b"".join([piece async for piece in copy.pieces()])
            self.assertFalse(os.path.exists(os.path.join(folder, "pazturrok-given")))
            self.assertTrue(logger.method_calls, "nothing is told of it")
            return found

    async def test_whole(self):
        head, line, rest = (await self.copy('mkdir "$3"; printf ab > "$3/half-a"; printf c > "$3/half-b"')).split(b"\n")
        self.assertEqual((head, rest), (b"seed %d" % (len(line) + 4), b"abc"))
        self.assertIn(b'"log": "one log"', line)

    async def test_none(self):
        for script in ("exit 3", 'mkdir "$3"; printf ab > "$3/half-a"', "exec /nowhere/program"):
            self.assertEqual(await self.copy(script), seed.NO_DEVICE, script)


class ToldTest(unittest.TestCase):
    def test_answers_that_nobody_has(self):
        """A store that another node gave has entries that this one never sent: who waits for those is told so."""
        answers, taken = Answers(), []
        for number in (3, 5, 9):
            answers.answer_to(number, lambda text, number=number: taken.append((number, text)))
        answers.settle(5)
        self.assertEqual(taken, [(3, LOST), (5, LOST)])
        answers.resolve(9, b"nine")
        answers.settle(4)
        self.assertEqual((taken[2:], answers.settled), ([(9, b"nine")], 5))

    def test_reports(self):
        told = {"answered": 7, "lasting": 5, "stuck": 0, "at": "a:1", "version": "0.1.0", "named": True, "open": True}
        nothing = {"answered": 0, "lasting": 0, "stuck": 0, "at": "", "version": "", "named": False, "open": True}
        self.assertEqual(report_of(b'{"answered": 7, "lasting": 5, "at": "a:1", "version": "0.1.0", "named": true, "new": [1]}'), told)
        for text in (b"", b"\xff", b"[]", b'"x"', b'{"answered": "7", "lasting": null}'):
            self.assertEqual(report_of(text), nothing, text)
        self.assertFalse(report_of(b'{"open": false}')["open"])

    def test_what_a_log_says_of_itself(self):
        one = Identity(3, 17, "ab")
        texts = [written(one), b'[3, 17, "ab"]', written(one, 2)]
        self.assertEqual([identity_of(text) for text in texts], [(1, one), (1, one), (2, one)])
        older = b'{"version": 0, "epoch": 3, "first": 17, "world": "ab"}'
        for text in (b'{"version": 2}', b'{"version": 3, "epoch": 3, "first": 17, "world": "ab"}', older, b'{"epoch": 3}', b'"x"', b"7", b"no JSON", b"[1]"):
            with self.assertRaises(RefusedStoreError, msg=text):
                identity_of(text)

    def test_refusals_of_frames(self):
        no_frames = ((text, NO_FRAME) for text in (b"do x\n", b"version 1\n", b"seed 5 0\n\n"))
        for text, refusal in ((b"do 1048577\n", TEXT_TOO_LONG), *no_frames):
            with self.assertRaises(NoFrameError) as raised:
                list(Frames(REQUEST, LIMIT).split(text))
            self.assertEqual(raised.exception.refusal, refusal, text)

    def test_a_journal_of_another_version(self):
        with tempfile.TemporaryDirectory() as folder:
            written_tree(folder, {"journal/00000000000000000001": "pazturrok journal 3\nwhat is new\n"})
            journal = Journal(folder, 600)
            with self.assertRaises(RefusedStoreError) as raised:
                journal.open(0)
            journal.close()
            self.assertIn("is of version 3, and this node knows versions 1 and 2", str(raised.exception))
            self.assertEqual(tree(folder)["journal/00000000000000000001"], "pazturrok journal 3\nwhat is new\n")
