"""Signal handlers and finalizers that use a store within a call of their thread: it is refused, and the call goes on."""

from __future__ import annotations

import gc
import os
import sys
from collections.abc import Callable
from typing import Any
from unittest import mock

from interrupts import interrupting, is_enough
from pazturrok import MessageStore, NestedCallError, NodeStore, Store, Symbol
from pazturrok.store import State
from support import LONG, PROGRAM, StoreTest

sys.path.insert(0, os.path.join(os.path.dirname(os.path.abspath(__file__)), "..", "cluster"))

from fake_nodes import ADD, FakeNodes  # noqa: E402


class Interrupts(StoreTest):
    def count_in_turn(self, outer: Callable[[], Any], inner: Callable[[], Any]) -> int:
        """Both increment one counter. Gives how often it was done; each value has to be that of its own call."""
        last = 0
        found: list[int] = []
        with interrupting(lambda: found.append(inner())) as counts:
            while not is_enough(counts):
                value = outer()
                self.assertGreater(value, last)
                self.assertNotIn(value, found)
                last = value
                found.append(value)
        self.assertEqual(list(range(1, len(found) + 1)), sorted(found))
        return len(found)

    def test_a_store_over_a_program(self) -> None:
        store = self.store(time_limit=LONG)
        with interrupting(lambda: store.execute("(LIST 2222)")) as counts:
            while not is_enough(counts):
                self.assertEqual([1111], store.execute("(LIST 1111)"))
        self.assertLessEqual(set(counts), {"[2222]", "refused"})
        store.execute("(SETF (GET 'N 'N) 0)")
        count = self.count_in_turn(*[lambda: store.execute("(INCF (GET 'N 'N))")] * 2)
        self.assertEqual((count, State.GOOD), (store.execute("(GET 'N 'N)"), store.state))

    def test_messages(self) -> None:
        with MessageStore(os.path.join(self.folder, "store"), PROGRAM, time_limit=LONG) as store:
            store.do("(SETF (GET 'N 'N) 0)")
            count = self.count_in_turn(*[lambda: store.do("(INCF (GET 'N 'N))")] * 2)
            self.assertEqual((count, count + 1), (store.ask("(GET 'N 'N)"), store.position))

    def test_nodes(self) -> None:
        nodes = FakeNodes()
        self.addCleanup(nodes.close)
        with NodeStore(nodes.names) as store:
            count = self.count_in_turn(*[lambda: store.do(ADD)] * 2)
            self.assertEqual(count, store.read("(GET 'COUNTER 'KY)"))

    def within(self, store: Store, outer: Callable[[], Any], inner: Callable[[], Any]) -> Any:
        """What a call gives within which another one is refused."""
        refused = []
        read = os.read

        def interrupted(descriptor: int, size: int) -> bytes:
            with self.assertRaises(NestedCallError) as raised:
                inner()
            refused.append(raised)
            return read(descriptor, size)

        with mock.patch("os.read", interrupted):
            value = outer()
        self.assertTrue(refused)
        return value

    def test_each_call_is_refused_within_another(self) -> None:
        store = self.store()
        for inner in (
            lambda: store.execute("1"),
            lambda: store.execute_all(["1", "2"]),
            lambda: next(store.iterate(["1"])),
            store.close,
            store.reopen,
        ):
            self.assertEqual([3, Symbol("A")], self.within(store, lambda: store.execute("(LIST 3 'A)"), inner))
        self.assertEqual(0, store.close())

    def test_a_finalizer(self) -> None:
        store, refused = self.store(), []

        class Held:
            def __init__(self) -> None:
                self.itself = self

            def __del__(self) -> None:
                try:
                    store.execute("(LIST 2222)")
                except NestedCallError as error:
                    refused.append(error)

        read = os.read

        def collecting(descriptor: int, size: int) -> bytes:
            Held()
            gc.collect()
            return read(descriptor, size)

        with mock.patch("os.read", collecting):
            self.assertEqual([1111], store.execute("(LIST 1111)"))
        self.assertTrue(refused)
        self.assertEqual(1, store.execute("1"))

    def test_forms_that_ask_the_store_as_they_come(self) -> None:
        store = self.store()
        forms = (f"(SETF (GET 'N 'N) {store.execute(str(number))})" for number in range(3))
        self.assertEqual([0, 1, 2], store.execute_all(forms))

    def test_what_a_handler_raises_lets_go_of_the_store(self) -> None:
        store = self.store()
        with mock.patch("os.read", side_effect=KeyboardInterrupt), self.assertRaises(KeyboardInterrupt):
            store.execute("1")
        store.reopen()
        self.assertEqual(1, store.execute("1"))
