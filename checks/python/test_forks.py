"""A store that was opened before a fork, in both children: each carries its own calls out, or says that it has no store."""

from __future__ import annotations

import multiprocessing
import os
import sys
import time
import unittest
from collections.abc import Callable
from typing import Any

from lib.places import CHECKS
from pazturrok import BrokenStoreError, MessageStore, NodeStore, StoppedError
from support import LONG, PROGRAM, StoreTest

sys.path.insert(0, os.path.join(CHECKS, "cluster"))

from fake_nodes import ADD, FakeNodes  # noqa: E402

FORK = multiprocessing.get_context("fork")
CALLS = 100
"""So many each worker makes."""


def in_children(count: int, work: Callable[[], Any]) -> list[Any]:
    """What the work gives in so many children, which begin it together. EOFError where one of them fails."""
    start, pipes = FORK.Event(), [FORK.Pipe(duplex=False) for _ in range(count)]

    def tell(pipe: Any) -> None:
        start.wait()
        pipe.send(work())

    children = [FORK.Process(target=tell, args=(pipe,)) for _, pipe in pipes]
    for child in children:
        child.start()
    start.set()
    for _, end in pipes:
        end.close()
    try:
        return [pipe.recv() if pipe.poll(LONG) else None for pipe, _ in pipes]
    finally:
        for child in children:
            child.kill()
            child.join()


class ForkedNodes(StoreTest):
    def both_add(self, store: NodeStore, nodes: FakeNodes) -> None:
        before = nodes.value
        values = in_children(2, lambda: [store.do(ADD) for _ in range(CALLS)])
        values.append([store.do(ADD) for _ in range(CALLS)])
        self.assertEqual(list(range(before + 1, before + 3 * CALLS + 1)), sorted(value for some in values for value in some))

    def test_no_form_of_a_child_is_left_out(self) -> None:
        nodes = FakeNodes()
        self.addCleanup(nodes.close)
        with NodeStore(nodes.names) as store:
            self.both_add(store, nodes)  # it has no connection yet
            self.both_add(store, nodes)  # the children get that of the parent

    def test_a_fork_that_python_is_not_told_of(self) -> None:
        nodes = FakeNodes()
        self.addCleanup(nodes.close)
        with NodeStore(nodes.names) as store:
            self.assertEqual(1, store.do(ADD))
            prefix = store._prefix
            store._process = 0  # as one that was made in another process
            self.assertEqual(2, store.do(ADD))
            self.assertNotEqual(prefix, store._prefix)

    def test_two_workers_take_from_one_list(self) -> None:
        jobs = list(range(1, 2 * CALLS + 1))
        with self.node() as place, NodeStore([place], time_limit=LONG) as store, NodeStore([place], time_limit=LONG) as own:
            own.put("QUEUE", "JOBS", list(jobs))
            taken = in_children(2, lambda: [store.take("QUEUE", "JOBS", 0) for _ in range(CALLS)])
            self.assertEqual(jobs, sorted(job for some in taken for job in some))
            self.assertEqual(0, own.take("QUEUE", "JOBS", 0))


class ForkedPrograms(StoreTest):
    """Of a program over pipes a child would read the answers of its parent."""

    def test_a_child_has_no_store(self) -> None:
        store = self.store()
        self.assertEqual(7, store.put("A", "B", 7))

        def refused() -> bool:
            with self.assertRaises(BrokenStoreError):
                store.put("A", "B", 8)
            store.close()
            return store.pid is None

        self.assertEqual([True, True], in_children(2, refused))
        self.assertEqual(7, store.get("A", "B"))

    def test_a_child_has_no_store_of_messages(self) -> None:
        with MessageStore(os.path.join(self.folder, "store"), PROGRAM) as store:
            self.assertEqual(7, store.put("A", "B", 7))

            def refused() -> str:
                with self.assertRaises(StoppedError) as raised:
                    store.put("A", "B", 8)
                return raised.exception.fault

            for fault in in_children(2, refused):
                self.assertIn("locked by another process", fault)
            self.assertEqual(7, store.get("A", "B"))

    def test_a_child_that_lives_on_keeps_no_program(self) -> None:
        store, end = self.store(), FORK.Event()
        child = FORK.Process(target=end.wait)
        child.start()
        begun = time.monotonic()
        self.assertEqual(0, store.close())
        self.assertLess(time.monotonic() - begun, LONG / 2)
        end.set()
        child.join()


if __name__ == "__main__":
    unittest.main()
