"""Messages of a client with a name, over the real program: its answers are kept, and come again word for word."""

from __future__ import annotations

import contextlib
import os
import random
import signal
import subprocess
import sys
import threading
import unittest
from collections.abc import Iterator
from typing import Any

from lib.places import CHECKS
from pazturrok import BrokenStoreError, LostAnswerError, MessageStore, NodeStore, RefusedError, StoppedError, UnsendableError
from pazturrok.named import GREATEST_NUMBER, question_of_entry
from support import LONG, PROGRAM, StoreTest

sys.path.insert(0, os.path.join(CHECKS, "cluster"))

from fake_nodes import FakeNodes  # noqa: E402

MOST_CLIENTS = 16_384
ADD = "(LIST (INCF (GET 'NT 'KY)) \"a \\\"text\\\" \\\\\n\" 'B)"
PLUS = "(INCF (GET 'NT 'KY))"


def children() -> list[int]:
    """The processes that this one has started, and that have not ended."""
    found: list[int] = []
    for task in os.listdir("/proc/self/task"):
        with contextlib.suppress(OSError), open(f"/proc/self/task/{task}/children", encoding="ascii") as file:
            found += map(int, file.read().split())
    return found


class Named(StoreTest):
    def named(self, name: str | None = "till-3", **options: Any) -> MessageStore:
        store = MessageStore(os.path.join(self.folder, "store"), PROGRAM, client_name=name, time_limit=LONG, **options)
        self.addCleanup(store.close)
        return store

    def refused(self, number: int, store: MessageStore, form: str, own: int | None = None) -> None:
        """The form is refused with this number."""
        with self.assertRaises(RefusedError) as raised:
            store.do(form, number=own)
        self.assertEqual(number, raised.exception.number)

    def begun(self) -> None:
        """Makes a store with a counter that is 0, and no client yet."""
        with self.named(None) as store:
            store.do("(SETF (GET 'NT 'KY) 0)")

    def test_an_answer_comes_again(self) -> None:
        self.begun()
        with self.named() as store:
            self.assertEqual(0, store.position)
            first = store.do(ADD)
            assert isinstance(first, list)
            self.assertEqual([1, 'a "text" \\\n'], first[:2])
            self.assertEqual((1, first), (store.position, store.do(ADD, number=1)))
            self.assertEqual([2, 3], store.do_all([PLUS, PLUS]))
        for _ in range(2):  # another process, as after a kill
            with self.named() as store:
                self.assertEqual((3, 3), (store.position, store.do(PLUS, number=3)))
        with self.named("till-4") as store:
            self.assertEqual((0, 4, 4), (store.position, store.do(PLUS), store.ask("(GET 'NT 'KY)")))

    def test_numbers(self) -> None:
        self.begun()
        store = self.named()
        self.assertEqual(1, store.do(PLUS, number=17))
        self.refused(55, store, ADD, 17)
        self.refused(50, store, PLUS, 16)
        self.assertEqual([1, 2, 18], [store.do(PLUS, number=17), store.do(PLUS), store.position])
        self.assertEqual(3, store.do(PLUS, number=GREATEST_NUMBER))
        self.refused(50, store, PLUS, 19)
        for outside in (GREATEST_NUMBER + 1, -1, None):
            with self.assertRaises(UnsendableError):
                store.do(PLUS, number=outside)
        self.assertEqual(3, store.do(PLUS, number=GREATEST_NUMBER))
        store.close()
        with self.named(None) as other, self.assertRaises(ValueError):
            other.do(PLUS, number=20)

    def test_a_refusal_is_kept_too(self) -> None:
        store = self.named()
        self.refused(33, store, PLUS, 5)
        store.do("(SETF (GET 'NT 'KY) 7)")
        self.refused(50, store, PLUS, 5)
        self.refused(33, store, "(INCF (GET 'OTHER 'KY))", 9)
        self.refused(1, store, "")
        store.close()
        with self.named("other") as other:
            other.do("(SETF (GET 'OTHER 'KY) 7)")
        self.refused(1, self.named(), "", 10)

    def test_names_that_are_none(self) -> None:
        for name in ("", "a b", "a|b", "x" * 101, "\u00e4"):
            with self.assertRaises(UnsendableError):
                self.named(name)
        with self.named("A.b_c-" + "9" * 94) as store:
            store.do("(LIST 1)")
            with self.assertRaises(UnsendableError):
                store.do('(LIST "' + "x" * 1_048_470 + '")')
            self.assertEqual([1], store.do("(LIST 1)"))

    def test_an_answer_that_is_too_long_to_be_kept(self) -> None:
        self.begun()
        store = self.named()
        text = "x" * 70_000
        self.assertEqual([1, text], store.do(f"(LIST (INCF (GET 'NT 'KY)) \"{text}\")"))
        with self.assertRaises(LostAnswerError) as raised:
            store.do(f"(LIST (INCF (GET 'NT 'KY)) \"{text}\")", number=1)
        self.assertEqual((1, 1), (raised.exception.number, store.ask("(GET 'NT 'KY)")))

    def test_a_client_that_goes(self) -> None:
        self.begun()
        store = self.named()
        self.assertEqual([1, 2], store.do_all([PLUS, PLUS]))
        store.unregister()
        self.assertEqual([], store.ask(question_of_entry("till-3")))
        self.assertEqual(3, store.do(PLUS))
        store.unregister()
        store.close()
        store = self.named()
        self.assertEqual((0, 4, 1), (store.position, store.do(PLUS), store.position))
        store.close()
        with self.named(None) as other, self.assertRaises(ValueError):
            other.unregister()

    def test_an_entry_that_a_form_has_overwritten(self) -> None:
        store = self.named()
        store.do("(LIST 1)")
        store.close()
        with self.named(None) as other:
            other.do("(SETF (GET '%CLIENTS::|till-3| '%CLIENTS::%MESSAGE) 'GONE)")
        with self.assertRaises(RefusedError) as raised:
            self.named()
        self.assertEqual((48, "NO-ENTRY"), (raised.exception.number, raised.exception.name))

    def test_another_package(self) -> None:
        with self.named() as store:
            self.assertEqual("KEYWORD", store.do("(IN-PACKAGE \"KEYWORD\")"))
        store = self.named()
        self.assertEqual(("KEYWORD", 1), (store.do("(IN-PACKAGE \"KEYWORD\")", number=1), store.position))
        self.assertEqual([3], store.do("(COMMON-LISP:LIST 3)"))
        store.close()
        with self.named("new") as new:
            self.assertEqual(0, new.position)

    def test_a_table_that_is_full(self) -> None:
        with self.named("last") as store:
            store.do("(LIST 1)")
        texts = [b"c-%d 1" % number for number in range(MOST_CLIENTS - 1)]
        frames = b"".join(b"by 1 %d\n%s\n" % (len(text), text) for text in texts)
        words = [PROGRAM, "run", os.path.join(self.folder, "store"), "--messages"]
        answers = subprocess.run(words, input=frames, capture_output=True, check=True).stdout
        self.assertEqual(b"at 0\n" + b"by 1 1\n1\n" * len(texts), answers)
        with self.named("new") as store:
            self.refused(54, store, "(LIST 1)")
        with self.named("last") as store:
            self.assertEqual([[1], [2]], [store.do("(LIST 1)", number=1), store.do("(LIST 2)")])
            store.unregister()
        with self.named("new") as store:
            self.assertEqual([1], store.do("(LIST 1)"))

    @contextlib.contextmanager
    def killing(self, chance: random.Random) -> Iterator[list[int]]:
        """Kills the program of this process again and again, and counts how often."""
        done, kills = threading.Event(), [0]

        def kill() -> None:
            pause = 0.2  # (on a busy machine the program may take long to come so far)
            while not done.wait(chance.random() * pause):
                pause *= 1.05
                for pid in children():
                    with contextlib.suppress(ProcessLookupError):
                        os.kill(pid, signal.SIGKILL)
                        kills[0] += 1

        killer = threading.Thread(target=kill)
        killer.start()
        try:
            yield kills
        finally:
            done.set()
            killer.join()

    def test_each_answer_whatever_becomes_of_the_program(self) -> None:
        self.begun()
        store = self.named()
        number = 0
        with self.killing(random.Random(1)) as kills:
            while kills[0] < 20:
                number += 1
                self.assertEqual([number, "a"], self.answer(store, "(LIST (INCF (GET 'NT 'KY)) \"a\")", number))
        self.assertEqual((number, number), (store.ask("(GET 'NT 'KY)"), store.position))

    def answer(self, store: MessageStore, form: str, number: int) -> object:
        """The value of a form, which is sent again under its number where the program was killed too often."""
        while True:
            with contextlib.suppress(StoppedError):
                return store.do(form, number=number)

    def test_a_fault_of_the_program_is_told(self) -> None:
        with self.assertRaises(StoppedError):
            MessageStore(os.path.join(self.folder, "none"), "/bin/false", client_name="till-3")


class NamedAtNode(StoreTest):
    """The same through the node of one machine."""

    def test_answers_and_refusals(self) -> None:
        with self.node() as place, NodeStore([place], client_name="till-3") as store, NodeStore([place]) as other:
            other.do("(SETF (GET 'NT 'KY) 0)")
            self.assertEqual((0, 1, 1), (store.position, store.do(PLUS), store.do(PLUS, number=1)))
            self.assertEqual([2, 3], store.do_all([PLUS, PLUS]))
            numbers = [getattr(self.outcome(store, *pair), "number", None) for pair in (("(LIST 1)", 3), (PLUS, 2), ("(FROB)", 9), ("(FROB)", 9))]
            self.assertEqual([55, 50, 31, 31], numbers)
            with NodeStore([place], client_name="till-3") as again:
                self.assertEqual((9, 4, 10), (again.position, again.do(PLUS), again.position))
                self.assertEqual(5, again.put("NT", "KY", 5))
            # a process that does not know what another one of its name has sent
            self.assertEqual(55, getattr(self.outcome(store, "(LIST 2)", 11), "number", None))
            with NodeStore([place], client_name="till-3") as last:
                self.assertEqual(11, last.position)
                last.unregister()
            self.assertEqual([], other.read(question_of_entry("till-3")))
            for wrong in (lambda: store.do(PLUS, name="a"), lambda: other.do(PLUS, number=5), other.unregister, lambda: other.position):
                with self.assertRaises(ValueError):
                    wrong()
            for name in ("", "a b"):
                with self.assertRaises(UnsendableError):
                    NodeStore([place], client_name=name)
            self.assertEqual(5, other.read("(GET 'NT 'KY)"))

    def outcome(self, store: NodeStore, form: str, number: int) -> object:
        try:
            return store.do(form, number=number)
        except RefusedError as error:
            return error

    def test_a_child_of_a_fork_leaves_the_name_to_its_parent(self) -> None:
        with self.node() as place, NodeStore([place], client_name="till-3") as store:
            store.do("(SETF (GET 'NT 'KY) 0)")
            child = os.fork()
            if not child:
                try:
                    store.do(PLUS)
                except BrokenStoreError:
                    os._exit(7 if store.read("(GET 'NT 'KY)") == 0 else 8)
                os._exit(9)
            self.assertEqual(7, os.waitstatus_to_exitcode(os.waitpid(child, 0)[1]))
            self.assertEqual(1, store.do(PLUS))

    def test_a_node_that_knows_no_names(self) -> None:
        nodes = FakeNodes()
        self.addCleanup(nodes.close)
        nodes.greetings[0] = ("0", "! 58 OTHER-VERSION")
        with NodeStore(nodes.names[:1], client_name="till-3") as store, self.assertRaises(RefusedError) as raised:
            store.do(PLUS)
        self.assertEqual(58, raised.exception.number)


if __name__ == "__main__":
    unittest.main()
