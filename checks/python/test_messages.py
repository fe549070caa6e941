"""Messages, over a program that serves them from a dict: `checks/messages/fake`."""

from __future__ import annotations

import contextlib
import os
import random
import signal
import threading
import time
import unittest
from typing import Any

from pazturrok import ClosedStoreError, LostAnswerError, MessageStore, RefusedError, StoppedError, UnsendableError
from pazturrok.messages import FrameSplitter
from support import LONG, StoreTest

FAKE = os.path.join(os.path.dirname(os.path.abspath(__file__)), "..", "messages", "fake")


class Messages(StoreTest):
    def feeding(self, name: str = "store", **options: Any) -> MessageStore:
        store = MessageStore(os.path.join(self.folder, name), FAKE, time_limit=LONG, **options)
        self.addCleanup(store.close)
        return store

    def test_messages_and_questions(self) -> None:
        with self.feeding() as store:
            self.assertEqual(0, store.position)
            self.assertEqual(0, store.do("(SETF (GET 'NT 'KY) 0)"))
            self.assertEqual([1, 2, "a\nb"], store.do_all(["(INCF (GET 'NT 'KY))"] * 2 + ["(SETF (GET 'TEXT 'KY) \"a\nb\")"]))
            self.assertEqual(2, store.ask("(GET 'NT 'KY)"))
            self.assertEqual([], store.ask("(GET 'NEW 'KY)"))
            self.assertEqual(4, store.position)
            self.assertEqual(0, store.close())
        with self.assertRaises(ClosedStoreError):
            store.do("(INCF (GET 'NT 'KY))")
        with self.feeding() as store:
            self.assertEqual((4, 2), (store.position, store.ask("(GET 'NT 'KY)")))

    def test_refusals_end_nothing(self) -> None:
        store = self.feeding()
        numbers = {")": 4, "(NOTHING)": 31, "1 2": 26, "": 1, "(INCF (GET 'TEXT 'KY))": 33}
        outcomes = store.do_all([*numbers, "(SETF (GET 'NT 'KY) 5)"])
        self.assertEqual([*numbers.values(), 5], [getattr(outcome, "number", outcome) for outcome in outcomes])
        with self.assertRaises(RefusedError) as raised:
            store.ask("(INCF (GET 'NT 'KY))")
        self.assertEqual(51, raised.exception.number)
        self.assertEqual(6, store.do("(INCF (GET 'NT 'KY))"))
        for text in ("ä", "x" * 1_048_577):
            with self.assertRaises(UnsendableError):
                store.do(text)

    def test_another_package(self) -> None:
        store = self.feeding()
        outcomes = store.do_all(["(IN-PACKAGE \"KEYWORD\")", "(GET 'NT 'KY)", "(COMMON-LISP:IN-PACKAGE \"COMMON-LISP-USER\")", "(GET 'NT 'KY)"])
        self.assertEqual(["KEYWORD", 31, "COMMON-LISP-USER", []], [getattr(outcome, "number", outcome) for outcome in outcomes])

    def test_each_once_whatever_becomes_of_the_program(self) -> None:
        chance, store = random.Random(1), self.feeding()
        store.do("(SETF (GET 'NT 'KY) 0)")
        done = threading.Event()

        def kill() -> None:
            # (on a busy machine the program may take long to come so far)
            pause = 0.3
            while not done.wait(chance.random() * pause):
                pause *= 1.02
                pid = store.pid
                if pid:
                    # (it may have been killed before, and have ended since)
                    with contextlib.suppress(ProcessLookupError):
                        os.kill(pid, signal.SIGKILL)

        killer = threading.Thread(target=kill)
        killer.start()
        try:
            before, lost = 0, 0
            for count in [300] * 20:
                outcomes = store.do_all(["(INCF (GET 'NT 'KY))"] * count)
                for place, outcome in enumerate(outcomes, before + 1):
                    self.assertTrue(outcome == place or isinstance(outcome, LostAnswerError), (place, outcome))
                    lost += outcome != place
                before += count
                time.sleep(0.05)
        finally:
            done.set()
            killer.join()
        self.assertEqual(before, store.ask("(GET 'NT 'KY)"))
        self.assertLess(lost, before)

    def test_a_program_that_ends_by_itself_is_not_started_again(self) -> None:
        store = self.feeding()
        with self.assertRaises(StoppedError) as raised:
            MessageStore(os.path.join(self.folder, "none"), "/bin/false")
        self.assertEqual(1, raised.exception.status)
        self.assertEqual(0, store.position)


class Frames(unittest.TestCase):
    def test_answers_in_pieces(self) -> None:
        whole = b"at 7\n8 2\n12\n9 0\n\nask 4\n\"a\nb\n10 1\n5\n"
        for size in range(1, len(whole) + 1):
            splitter, found = FrameSplitter(), []
            for place in range(0, len(whole), size):
                found += splitter.feed(whole[place : place + size])
            self.assertEqual(["8 2\n12", "9 0\n", "ask 4\n\"a\nb", "10 1\n5"], found)
            self.assertEqual((7, True), (splitter.position, splitter.is_empty))
