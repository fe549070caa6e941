"""The programs of clients/python/examples: an address book, rules, and a queue, each by several clients of a node at once."""

from __future__ import annotations

import importlib.util
import multiprocessing
import os
import random
import signal
import subprocess
import sys
import time
import unittest
from types import ModuleType
from typing import Any

from lib.places import CLIENT, TOP
from pazturrok import NIL, NodeStore, Symbol
from support import LONG, StoreTest

FOLDER = os.path.join(TOP, "clients", "python", "examples")
FORK = multiprocessing.get_context("fork")


def example(name: str) -> ModuleType:
    spec = importlib.util.spec_from_file_location(name, os.path.join(FOLDER, f"{name}.py"))
    assert spec and spec.loader
    module = importlib.util.module_from_spec(spec)
    spec.loader.exec_module(module)
    return module


BOOK, RULES, QUEUE = map(example, ("address_book", "rules", "job_queue"))


def said(name: str, *words: str) -> str:
    """What the program writes, run by a shell."""
    command = [sys.executable, "-B", os.path.join(FOLDER, f"{name}.py"), *words]
    environment = {**os.environ, "PYTHONPATH": CLIENT}
    return subprocess.run(command, env=environment, check=True, capture_output=True, text=True, timeout=LONG).stdout


def at_once(function: Any, *words: tuple[Any, ...]) -> None:
    """Calls a function with each of these words, in a process for each."""
    processes = [FORK.Process(target=function, args=its) for its in words]
    for process in processes:
        process.start()
    for process in processes:
        process.join(LONG)
    assert all(process.exitcode == 0 for process in processes)


def move_about(node: str, seed: int) -> None:
    """Persons are added, move and are dropped, at random."""
    chance = random.Random(seed)
    with NodeStore([node]) as store:
        for _ in range(40):
            name, town = chance.choice(["Anna", "Zoë", "Beat"]), chance.choice(["Bern", "Zürich"])
            store.do_all([chance.choice([BOOK.add(name), BOOK.move(name, town), BOOK.move(name, town), BOOK.drop(name)])])


def run_rules(node: str) -> None:
    with NodeStore([node]) as store:
        RULES.run(store)


def do_slowly(store: NodeStore, task: Any) -> None:
    time.sleep(0.05)
    store.do([Symbol("PUSH"), task, [Symbol("GET"), [Symbol("QUOTE"), Symbol("DONE")], [Symbol("QUOTE"), Symbol("JOBS")]]])


class Examples(StoreTest):
    def test_address_book(self) -> None:
        with self.node() as node:
            told = [said("address_book", node, *words) for words in (
                ("add", "Anna Meier"), ("add", "Anna Meier"), ("move", "Anna Meier", "Bern"), ("move", "Nobody", "Bern"),
                ("call", "Anna Meier", "031 311 11 11"), ("in", "Bern"), ("drop", "Anna Meier"), ("in", "Bern"), ("in", "Rom"))]
            self.assertEqual("True\nFalse\nTrue\nFalse\nTrue\nAnna Meier\nTrue\n\n\n", "".join(told))
            at_once(move_about, *((node, seed) for seed in range(4)))
            with NodeStore([node]) as store:
                persons = store.plist("PERSONS")
                towns = {name: BOOK.inhabitants(store, name) for name in ("Bern", "Zürich")}
                for person, name in persons:
                    lives = store.do(f"(IF (GET {BOOK.known(name)} 'TOWN) (SYMBOL-NAME (GET {BOOK.known(name)} 'TOWN)) NIL)")
                    self.assertEqual([town for town, names in towns.items() if name in names], [lives] if lives else [], person)
                self.assertLessEqual({name for names in towns.values() for name in names}, {name for _, name in persons})

    def test_rules(self) -> None:
        with self.node() as node:
            said("rules", node, "rule", "VOTER", "((STATUS EQL ADULT) (TOWN EQL BERN))", "(VOTES YES)")
            said("rules", node, "rule", "ADULT", "((AGE >= 18))", "(STATUS ADULT)")
            with NodeStore([node]) as store:
                for number in range(30):
                    store.put(f"P-{number}", "AGE", number if number != 29 else "unknown")
                    store.put(f"P-{number}", "TOWN", Symbol("BERN" if number % 2 else "CHUR"))
            at_once(run_rules, (node,), (node,), (node,))
            self.assertEqual("0\n", said("rules", node, "run"))
            with NodeStore([node]) as store:
                self.assertEqual([n for n in range(30) if 18 <= n < 29], [n for n in range(30) if store.get(f"P-{n}", "STATUS") != NIL])
                self.assertEqual([19, 21, 23, 25, 27], [n for n in range(30) if store.get(f"P-{n}", "VOTES") != NIL])

    def test_queue(self) -> None:
        with self.node() as node:
            self.assertEqual("1\n", said("job_queue", node, "put", "send the letter"))
            self.assertEqual("send the letter\n", said("job_queue", node, "work", "3"))
            with NodeStore([node]) as store:
                for number in range(60):
                    QUEUE.put(store, number)
            workers = [FORK.Process(target=QUEUE.work, args=(node, do_slowly, 2)) for number in range(3)]
            for worker in workers:
                worker.start()
            time.sleep(0.7)
            os.kill(workers[0].pid or 0, signal.SIGKILL)
            for worker in workers:
                worker.join(LONG)
            self.assertEqual([-signal.SIGKILL, 0, 0], [worker.exitcode for worker in workers])
            with NodeStore([node]) as store:
                done = store.get("DONE", "JOBS")
                self.assertEqual(set(range(60)), set(done))
                self.assertLessEqual(len(done), 61)
                self.assertEqual(NIL, store.read(QUEUE.JOBS))

    def test_late_forms_of_the_queue(self) -> None:
        """Nobody gets a job that another worker has, and a worker whose lease is over finishes nothing."""
        with self.node() as node, NodeStore([node]) as store:
            QUEUE.put(store, "a")
            job = store.read(QUEUE.JOBS)[0].name
            self.assertEqual("a", store.do(QUEUE.take(job, 1000, 1060)))
            self.assertEqual(NIL, store.do(QUEUE.take(job, 1060, 1120)))
            self.assertEqual("a", store.do(QUEUE.take(job, 1061, 1121)))
            self.assertEqual(NIL, store.do(QUEUE.finish(job, 1060)))
            self.assertEqual(Symbol("T"), store.do(QUEUE.finish(job, 1121)))
            self.assertEqual(NIL, store.do(QUEUE.finish(job, 1121)))
            self.assertEqual(NIL, store.do(QUEUE.take(job, 2000, 2060)))


if __name__ == "__main__":
    unittest.main()
