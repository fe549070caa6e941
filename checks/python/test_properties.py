"""Properties by calls, over a pipe, by messages, and by a node of this machine, which other processes use at the same time."""

from __future__ import annotations

import os
import re
import subprocess
import sys
import time
from fractions import Fraction
from typing import Union

from pazturrok import MessageStore, NodeStore, RefusedError, Store, StoreError, Symbol, keyword, quote
from pazturrok.functions import NAMES
from support import LONG, OPERATORS, PROGRAM, StoreTest

NODE = os.path.join(os.path.dirname(os.path.abspath(__file__)), "..", "..", "cluster", "pazturrok-node")
WORK = """
import contextlib, sys
from pazturrok import LostAnswerError, NodeStore
with NodeStore([sys.argv[1]]) as store:
    for number in range(50):
        with contextlib.suppress(LostAnswerError):
            store.put(sys.argv[2], "NUMBER", number)
        with contextlib.suppress(LostAnswerError):
            store.do("(INCF (GET 'ALL 'NUMBER))")
"""


class Calls(StoreTest):
    def has_calls(self, store: Union[Store, MessageStore, NodeStore]) -> None:
        pear = Symbol("pear, of a strange name")
        self.assertEqual([], store.get("APPLE", "PRICE"))
        self.assertEqual(5, store.get("APPLE", "PRICE", 5))
        self.assertEqual([], store.plist("APPLE"))
        self.assertEqual(7, store.put("APPLE", "PRICE", 7))
        self.assertEqual((1, "two"), store.put("APPLE", keyword("OTHER"), (1, "two")))
        self.assertEqual([pear, [1]], store.put(pear, Symbol("PRICE"), [pear, [1]]))
        self.assertEqual((7, [pear, [1]]), (store.get("APPLE", "PRICE", 5), store.get(pear, "PRICE")))
        self.assertEqual([(Symbol("PRICE"), 7), (keyword("OTHER"), (1, "two"))], store.plist("APPLE"))
        with self.assertRaises(StoreError):
            store.put("APPLE", Symbol("X", "NO-PACKAGE"), 1)
        for call in (lambda: store.compare_and_set("APPLE", "PRICE", 7, 8), lambda: store.take("APPLE", "PRICE")):
            way = "send the forms of" if isinstance(store, NodeStore) else "open it once by `pazturrok run DIR --operators`"
            with self.assertRaisesRegex(StoreError, f"the store has no package 'PAZTURROK': {way}"):
                call()
        if not isinstance(store, Store):
            with self.assertRaises(RefusedError) as refused:
                store.compare_and_set("APPLE", "PRICE", 7, Symbol("X", "NO-PACKAGE"))
            self.assertEqual((11, None), (refused.exception.number, refused.exception.hint))
        for _ in range(2):
            store.operators()
        self.assertEqual(7, (store.execute if isinstance(store, Store) else store.do)("(IF (< 1 2) (CAR '(7)) 8)"))
        self.assertTrue(store.compare_and_set("APPLE", "PRICE", 7, 8))
        self.assertFalse(store.compare_and_set("APPLE", "PRICE", 7, 9))
        self.assertTrue(store.compare_and_set("APPLE", "WEIGHT", [], [1, "two"]))
        self.assertTrue(store.compare_and_set("APPLE", "WEIGHT", [1, "two"], 8))
        self.assertEqual((8, 8), (store.get("APPLE", "PRICE"), store.get("APPLE", "WEIGHT")))
        store.put("QUEUE", "JOBS", ["first", [], Symbol("THIRD")])
        self.assertEqual(["first", [], Symbol("THIRD")], [store.take("QUEUE", "JOBS", 0) for _ in range(3)])
        self.assertEqual((0, []), (store.take("QUEUE", "JOBS", 0), store.take("QUEUE", "JOBS")))
        self.assertEqual([], store.take("NONE", "JOBS"))
        with self.assertRaises(StoreError):
            store.take("APPLE", "PRICE")
        town = "Z\xfcrich, \U0001f600 &#xFC; &#x41; &#x26;"
        self.assertEqual(town, store.put("TOWN", "NAME", town))
        self.assertEqual([town], store.put("TOWN", "NAMES", [town]))
        self.assertEqual((town, [town]), (store.get("TOWN", "NAME"), store.get("TOWN", "NAMES")))
        self.assertEqual((8, []), (store.get("APPLE", "PRICE"), store.get("QUEUE", "JOBS", 1)))

    def has_calls_anywhere(self, store: Union[MessageStore, NodeStore], other: Union[MessageStore, NodeStore]) -> None:
        """Somebody makes another package current, which uses no other, and another read base: the calls mean the same symbols and numbers."""
        for form in ('(MAKE-PACKAGE "SHOP")', "(SETF *READ-BASE* 16.)", '(IN-PACKAGE "SHOP")'):
            other.do(form)
        plum = [10, Fraction(1, 12), Symbol("PLUM")]
        self.assertEqual(plum, store.put("PLUM", "PRICE", plum))
        self.assertEqual((plum, 11), (store.get("PLUM", "PRICE"), store.get("PLUM", "SOLD", 11)))
        self.assertEqual([(Symbol("PRICE"), plum)], store.plist("PLUM"))
        self.assertEqual((True, False), (store.compare_and_set("PLUM", "PRICE", plum, [20]), store.compare_and_set("PLUM", "PRICE", plum, 9)))
        self.assertEqual((20, []), (store.take("PLUM", "PRICE"), store.take("PLUM", "PRICE")))
        self.assertEqual(21, store.do([Symbol("SETF"), [Symbol("GET"), quote(Symbol("PLUM")), quote(Symbol("SOLD"))], 21]))
        for form in ('(COMMON-LISP:IN-PACKAGE "COMMON-LISP-USER")', "(SETF *READ-BASE* 10.)"):
            other.do(form)
        self.assertEqual([Symbol("PRICE"), [], Symbol("SOLD"), 21], other.do("(SYMBOL-PLIST 'PLUM)"))

    def test_pipe(self) -> None:
        self.has_calls(self.store())

    def test_functions_of_a_store_with_such_a_name(self) -> None:
        store = self.store()
        store.put("CAR", "PRICE", 1)
        with self.assertRaises(RefusedError) as refused:
            store.operators()
        self.assertEqual((37, True), (refused.exception.number, "as PAZTURROK::CAR" in str(refused.exception)))
        self.assertEqual([7, 1], [store.execute("(PAZTURROK::CAR '(7))"), store.get("CAR", "PRICE")])

    def test_functions_are_those_of_the_file(self) -> None:
        with open(OPERATORS, encoding="ascii") as file:
            self.assertEqual(re.findall(r"PAZTURROK::([^ )\n]+)", file.read()), list(NAMES))

    def test_messages(self) -> None:
        with MessageStore(os.path.join(self.folder, "messages"), PROGRAM, time_limit=LONG) as store:
            self.has_calls(store)
            self.has_calls_anywhere(store, store)

    def test_node(self) -> None:
        place = f"unix:{self.folder}/socket"
        words = [NODE, os.path.join(self.folder, "nodes"), "--alone", "--listen", place, "--program", PROGRAM]
        node = subprocess.Popen([sys.executable, *words], stderr=subprocess.DEVNULL)
        self.addCleanup(node.wait)
        self.addCleanup(node.terminate)
        with NodeStore([place], time_limit=LONG) as store:
            self.has_calls(store)
            with NodeStore([place], time_limit=LONG) as other:
                self.has_calls_anywhere(store, other)
            for _ in range(2):
                self.assertEqual("one", store.put("NAMED", "LIST", ["one", "two"], name="put-1")[0])
                self.assertEqual("one", store.take("NAMED", "LIST", name="take-1"))
                self.assertIs(True, store.compare_and_set("NAMED", "LIST", ["two"], [], name="set-1"))
            self.assertEqual([], store.get("NAMED", "LIST"))
            store.put("ALL", "NUMBER", 0)
            way = {**os.environ, "PYTHONPATH": os.pathsep.join(sys.path)}
            order = [sys.executable, "-c", WORK, place]
            workers = [subprocess.Popen([*order, f"OF-{count}"], env=way) for count in range(5)]
            time.sleep(0.1)
            node.kill()
            node.wait()
            node = subprocess.Popen([sys.executable, *words], stderr=subprocess.DEVNULL)
            self.addCleanup(node.wait)
            self.addCleanup(node.terminate)
            self.assertEqual([0] * 5, [worker.wait() for worker in workers])
            self.assertEqual(250, store.get("ALL", "NUMBER"))
            self.assertEqual([49] * 5, [store.get(f"OF-{count}", "NUMBER") for count in range(5)])
