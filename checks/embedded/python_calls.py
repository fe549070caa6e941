"""The client for Python with the store in its own process. PAZTURROK_LIBRARY names the library, PAZTURROK_FOLDER a
folder for the stores. The last line is `N passed, M failed`."""

from __future__ import annotations

import itertools
import multiprocessing
import os
import subprocess
import sys
import tempfile
import threading
import unittest
from collections.abc import Callable
from fractions import Fraction
from typing import Any
from unittest import mock

from interrupts import interrupting, is_enough
from pazturrok import (
    BrokenStoreError,
    Character,
    ClosedStoreError,
    DottedList,
    EmbeddedMessageStore,
    EmbeddedStore,
    FaultError,
    NestedCallError,
    NoLibraryError,
    RefusedError,
    Symbol,
    UnsendableError,
    keyword,
    printed,
    quote,
)
from pazturrok.library import Library

VALUES: list[Any] = [
    0, -7, Fraction(22, 7), 2**126, Character("a"), Character("\n"), "", "two\nlines \"quoted\" \\ |bars|", [],
    [1, [2, "x"]],
    DottedList((1,), 2), (), (1, (2,), "x"), Symbol("APPLE"), Symbol("a b"), keyword("KEY"), Symbol("FREE", None),
    "a\0b",
]  # fmt: skip


class Embedded(unittest.TestCase):
    def setUp(self) -> None:
        room = tempfile.TemporaryDirectory(dir=os.environ.get("PAZTURROK_FOLDER"))
        self.addCleanup(room.cleanup)
        self.folder = room.name

    def store(self, name: str = "store", **options: Any) -> EmbeddedStore:
        store = EmbeddedStore(os.path.join(self.folder, name), **options)
        self.addCleanup(store.close)
        return store

    def test_values_come_back(self) -> None:
        store = self.store()
        for value in VALUES:
            place = [Symbol("GET"), quote(Symbol("A")), quote(Symbol("B"))]
            self.assertEqual(store.execute([Symbol("SETF"), place, quote(value)]), value)
            self.assertEqual(store.execute(place), value)
            self.assertEqual(store.answer("(GET 'A 'B)"), printed(value))

    def test_ten_thousand_forms(self) -> None:
        store = self.store()
        for number in range(1, 5001):
            self.assertEqual(store.execute(f"(SETF (GET 'N 'N) {number})"), number)
            self.assertEqual(store.answer("(GET 'N 'N)"), str(number))
        self.assertEqual(store.figures().records, 5000)
        store.reopen()
        self.assertEqual(store.execute("(GET 'N 'N)"), 5000)

    def test_many_at_once_and_an_iterator(self) -> None:
        store = self.store()
        forms = [f"(SETF (GET 'N 'N) {number})" for number in range(5000)]
        self.assertEqual(store.execute_all(forms), list(range(5000)))
        store.execute("(SETF (GET 'N 'N) 0)")
        without_end = ("(INCF (GET 'N 'N))" for _ in itertools.count())
        self.assertEqual(list(itertools.islice(store.iterate(without_end, at_once=10), 25)), list(range(1, 26)))
        outcomes = store.execute_all(["1", "(FROB)", "3"], raise_on_refusal=False)
        self.assertEqual([outcomes[0], outcomes[2]], [1, 3])
        self.assertIsInstance(outcomes[1], RefusedError)
        long = printed("x" * 100000)
        self.assertEqual([len(str(value)) for value in store.execute_all([long] * 20)], [100000] * 20)
        self.assertEqual(store.execute_all([]), [])

    def test_refusals(self) -> None:
        store = self.store()
        with self.assertRaises(RefusedError) as refused:
            store.execute("(FROB)")
        self.assertEqual((refused.exception.number, refused.exception.name), (31, "UNKNOWN-OPERATOR"))
        for text in ("(LIST 1", "1 2", "", '"M\u00fcller"'):
            with self.assertRaises(UnsendableError):
                store.execute(text)
        for text, number in (("(LIST 1", 1), ("1 2", 26), (")", 4), ("1.5", 7)):
            with self.assertRaises(RefusedError) as refused:
                store.answer(text)
            self.assertEqual(refused.exception.number, number)
        with self.assertRaises(UnsendableError):
            store.answer("\u00fc")
        with self.assertRaises(RefusedError):
            store.execute("1.5")
        self.assertEqual(store.execute("1"), 1)

    def test_an_error_has_its_form(self) -> None:
        store = self.store()
        outcomes = store.execute_all(["1", "(FROB)", "2.0", "3"], raise_on_refusal=False)
        self.assertEqual([("(FROB)", 1), ("2.0", 2)], [(it.form, it.index) for it in outcomes if isinstance(it, RefusedError)])
        for call in (store.execute, store.answer):
            with self.assertRaises(RefusedError) as raised:
                call("(FROB)")
            self.assertEqual(("(FROB)", None, "31 UNKNOWN-OPERATOR: (FROB)"), (raised.exception.form, raised.exception.index, str(raised.exception)))
        with EmbeddedMessageStore(os.path.join(self.folder, "messages")) as messages:
            outcomes = messages.do_all(["1", "(FROB)", "2"])
            self.assertEqual([("(FROB)", 1)], [(it.form, it.index) for it in outcomes if isinstance(it, RefusedError)])
            with self.assertRaises(RefusedError) as raised:
                messages.ask("(FROB)")
            self.assertEqual("(FROB)", raised.exception.form)

    def test_packages(self) -> None:
        store = self.store()
        store.execute_all(['(MAKE-PACKAGE "P")', "(SETF (GET 'P::A 'B) 7)", '(IN-PACKAGE "P")'])
        self.assertEqual(store.execute("'P::A"), Symbol("A", "P"))
        self.assertEqual(store.execute("'A"), Symbol("A"))
        store.answer('(IN-PACKAGE "COMMON-LISP-USER")')
        self.assertEqual(store.execute("'A"), Symbol("A"))

    def test_operators(self) -> None:
        store, other = self.store(), self.store("other")
        with self.assertRaises(RefusedError):
            store.execute("(EQL 1 1)")
        store.operators()
        records = store.figures().records
        store.operators()
        self.assertEqual((3, 3), (records, store.figures().records))
        self.assertEqual([Symbol("T"), 7], [store.execute("(EQL 1 1)"), store.execute("(CAR '(7))")])
        other.execute("(SETF (GET 'CAR 'PRICE) 1)")
        with self.assertRaises(RefusedError) as refused:
            other.operators()
        self.assertEqual(37, refused.exception.number)
        self.assertIn("as PAZTURROK::CAR", str(refused.exception))
        self.assertEqual([7, 1], [other.execute("(PAZTURROK::CAR '(7))"), other.get("CAR", "PRICE")])
        with EmbeddedMessageStore(os.path.join(self.folder, "messages")) as messages:
            messages.operators()
            messages.operators()
            self.assertEqual(7, messages.do("(CAR '(7))"))

    def test_snapshots(self) -> None:
        store = self.store()
        store.execute("(SETF (GET 'A 'B) 7)")
        store.snapshot()
        figures = store.figures()
        self.assertEqual((figures.generation, figures.records, figures.version), (2, 0, 2))
        store.reopen()
        self.assertEqual(store.execute("(GET 'A 'B)"), 7)

    def test_own_snapshots(self) -> None:
        form = "(PROGN (SETF (GET 'A 'B) \"" + "x" * 100_000 + '") 7)'
        for ratio, generation in ((10, 2), (0, 1)):
            store = self.store(f"forms {ratio}", snapshot_ratio=ratio)
            self.assertEqual([store.execute(form) for _ in range(11)], [7] * 11)
            self.assertEqual(store.figures().generation, generation)
            with EmbeddedMessageStore(os.path.join(self.folder, f"messages {ratio}"), snapshot_ratio=ratio) as messages:
                self.assertEqual([messages.do(form) for _ in range(11)], [7] * 11)
                self.assertEqual(messages.figures().generation, generation)
        for wrong in (-1, 1 << 64):
            with self.assertRaises(ValueError):
                self.store("wrong", snapshot_ratio=wrong)

    def test_what_cannot_be_opened(self) -> None:
        with self.assertRaises(FaultError) as fault:
            self.store("none", existing=True)
        self.assertEqual((fault.exception.number, fault.exception.name), (60, "DEVICE"))
        self.assertEqual(fault.exception.cause, "there is no store in this folder")
        self.assertEqual(fault.exception.folder, os.path.join(self.folder, "none"))
        self.assertIn(self.folder, str(fault.exception))
        store = self.store()
        with self.assertRaises(FaultError) as fault:
            self.store()
        self.assertEqual(fault.exception.cause, "locked by another process")
        store.close()
        with self.assertRaises(ClosedStoreError):
            store.execute("1")
        with self.assertRaises(ClosedStoreError):
            store.answer("1")
        store.reopen()
        self.assertEqual(store.execute("1"), 1)
        for library in ("/nowhere.so", "libc.so.6"):
            with self.assertRaises(NoLibraryError) as missing:
                self.store("other", library=library)
            self.assertEqual(missing.exception.path, library)
            self.assertIn(library, str(missing.exception))
        with self.assertRaises(ValueError):
            store.execute("1", time_limit=1)
        with self.assertRaises(ValueError):
            self.store("cut\0off")
        self.assertFalse(os.path.exists(os.path.join(self.folder, "cut")))

    def feed(self, **options: Any) -> EmbeddedMessageStore:
        feed = EmbeddedMessageStore(os.path.join(self.folder, "feed"), **options)
        self.addCleanup(feed.close)
        return feed

    def test_messages(self) -> None:
        with self.feed() as feed:
            self.assertEqual(feed.position, 0)
            self.assertEqual(feed.do("(SETF (GET 'N 'N) 1)"), 1)
            outcomes = feed.do_all(["(INCF (GET 'N 'N))", "(FROB)", "(LIST 1", [Symbol("LIST"), "a"], "'NEW"])
            self.assertEqual([outcomes[0], *outcomes[3:]], [2, ["a"], Symbol("NEW")])
            self.assertEqual([error.number for error in outcomes[1:3] if isinstance(error, RefusedError)], [31, 1])
            self.assertEqual(feed.position, 6)
            self.assertEqual(feed.do_all(["(INCF (GET 'N 'N))"] * 5000), list(range(3, 5003)))
            self.assertEqual(feed.ask("(GET 'N 'N)"), 5002)
            for form, number in (("(SETF (GET 'N 'N) 1)", 51), ("(FROB)", 31)):
                with self.assertRaises(RefusedError) as refused:
                    feed.ask(form)
                self.assertEqual(refused.exception.number, number)
            feed.snapshot()
            self.assertEqual(feed.figures().records, 0)
            feed.do_all(['(MAKE-PACKAGE "P")', '(IN-PACKAGE "P")'])
            self.assertEqual(feed.ask("'COMMON-LISP-USER::A"), Symbol("A"))
            position = feed.position
        with self.assertRaises(ClosedStoreError):
            feed.do("1")
        again = self.feed()
        self.assertEqual((again.position, again.ask("(COMMON-LISP:GET 'COMMON-LISP-USER::N 'COMMON-LISP-USER::N)")),
                         (position, 5002))
        with self.assertRaises(FaultError):
            self.feed()

    def test_messages_of_threads_and_what_is_no_position(self) -> None:
        feed = self.feed()
        feed.do("(SETF (GET 'N 'N) 0)")
        threads = [threading.Thread(target=lambda: [feed.do("(INCF (GET 'N 'N))") for _ in range(200)])
                   for _ in range(4)]
        for thread in threads:
            thread.start()
        for thread in threads:
            thread.join()
        self.assertEqual((feed.ask("(GET 'N 'N)"), feed.position), (800, 801))
        feed.close()
        with EmbeddedStore(os.path.join(self.folder, "feed")) as store:
            store.execute("(SETF (GET '|position| '|position|) \"x\")")
        with self.assertRaises(RefusedError) as refused:
            self.feed()
        self.assertEqual((refused.exception.number, refused.exception.name), (52, "NO-POSITION"))

    def test_a_store_that_is_let_go_is_closed(self) -> None:
        EmbeddedStore(os.path.join(self.folder, "store")).execute("(SETF (GET 'A 'B) 7)")
        self.assertEqual(self.store().execute("(GET 'A 'B)"), 7)

    def test_threads(self) -> None:
        store = self.store()
        store.execute("(SETF (GET 'N 'N) 0)")
        wrong: list[object] = []

        def work(own: str) -> None:
            for _ in range(300):
                store.execute("(INCF (GET 'N 'N))")
                if store.execute(printed(own)) != own:
                    wrong.append(own)

        threads = [threading.Thread(target=work, args=(letter * 100,)) for letter in "abcd"]
        for thread in threads:
            thread.start()
        for thread in threads:
            thread.join()
        self.assertEqual((wrong, store.execute("(GET 'N 'N)")), ([], 1200))

    def test_a_handler_within_a_call_is_refused(self) -> None:
        store, feed = self.store(), self.feed()
        with interrupting(lambda: store.execute("(LIST 2222)")) as counts:
            while not is_enough(counts):
                self.assertEqual(store.execute("(LIST 1111)"), [1111])
                self.assertEqual(store.answer("(LIST 3333)"), "(3333)")
                self.assertEqual(store.execute_all(["1", "2"]), [1, 2])
        self.assertLessEqual(set(counts), {"[2222]", "refused"})
        feed.do_all(["(SETF (GET 'N 'IN) 0)", "(SETF (GET 'N 'OUT) 0)"])
        out = 0
        with interrupting(lambda: feed.do("(PROGN (INCF (GET 'N 'IN)) T)")) as counts:
            while not is_enough(counts):
                out += 2
                self.assertEqual(feed.do_all(["(INCF (GET 'N 'OUT))"] * 2), [out - 1, out])
        inside = sum(counts.values()) - counts["refused"]
        self.assertEqual((feed.ask("(GET 'N 'OUT)"), feed.ask("(GET 'N 'IN)")), (out, inside))
        self.assertEqual(feed.position, 2 + out + inside)

    def within(self, outer: Callable[[], Any], inner: Callable[[], object]) -> Any:
        """What a call gives, where another one comes before its answer is copied, and is refused."""
        refused = []
        text = Library._text

        def interrupted(library: Library, answer: int | None, length: int) -> str:
            with self.assertRaises(NestedCallError) as raised:
                inner()
            refused.append(raised)
            return text(library, answer, length)

        with mock.patch.object(Library, "_text", interrupted):
            value = outer()
        self.assertTrue(refused)
        return value

    def test_each_call_within_another_is_refused(self) -> None:
        store, feed = self.store(), self.feed()
        for inner in (
            lambda: store.execute("1"), lambda: store.execute_all(["1", "2"]), lambda: store.answer("1"),
            store.snapshot, store.figures, store.operators,
            store.close, store.reopen,
        ):  # fmt: skip
            self.assertEqual(self.within(lambda: store.execute("(LIST 1111)"), inner), [1111])
        for inner in (lambda: feed.do("1"), lambda: feed.ask("1"), feed.snapshot, feed.figures, feed.close):
            self.assertEqual(self.within(lambda: feed.do("(LIST 1111)"), inner), [1111])
            self.assertEqual(self.within(lambda: feed.ask("(LIST 1111)"), inner), [1111])
        self.assertEqual(feed.position, 5)
        # what the handler does not take goes through the call, and neither store is broken by it
        with mock.patch.object(Library, "_text", lambda *_: store.execute("1")), self.assertRaises(NestedCallError):
            store.execute("(LIST 1111)")
        self.assertEqual(store.execute("(LIST 1111)"), [1111])

    def test_a_forked_child_has_no_store(self) -> None:
        store = self.store()
        store.execute("(SETF (GET 'A 'B) 7)")
        child = multiprocessing.get_context("fork").Process(target=use_in_child, args=(store,))
        child.start()
        child.join()
        self.assertEqual(child.exitcode, 0)
        self.assertEqual(store.execute("(GET 'A 'B)"), 7)

    def test_a_child_of_a_thread_beside_a_call_has_no_store(self) -> None:
        store, within, goes_on = self.store(), threading.Event(), threading.Event()
        text = Library._text

        def waiting(library: Library, answer: int | None, length: int) -> str:
            within.set()
            goes_on.wait(60)
            return text(library, answer, length)

        child = multiprocessing.get_context("fork").Process(target=use_in_child, args=(store,))
        with mock.patch.object(Library, "_text", waiting):
            other = threading.Thread(target=store.execute, args=("1",))
            other.start()
            within.wait(60)
            child.start()
            child.join(30)
            status = child.exitcode
            child.kill()
            goes_on.set()
            other.join()
        self.assertEqual(status, 0)
        self.assertEqual(store.execute("2"), 2)

    def test_pip_installs_it(self) -> None:
        source = os.path.join(os.path.dirname(os.path.abspath(__file__)), "..", "..", "clients", "python")
        target = os.path.join(self.folder, "installed")
        copy = os.path.join(self.folder, "copy")
        subprocess.run(["cp", "-r", source, copy], check=True)
        ran = subprocess.run(
            [sys.executable, "-m", "pip", "install", "--quiet", "--no-index", "--no-build-isolation", "--target",
             target, copy],
            capture_output=True, text=True,
        )  # fmt: skip
        if ran.returncode:
            self.skipTest("pip cannot build here: " + ran.stderr.strip()[-200:])
        code = "import pazturrok; print(pazturrok.EmbeddedStore('store').execute('(LIST 1)'))"
        got = subprocess.run(
            [sys.executable, "-c", code], cwd=self.folder, env={**os.environ, "PYTHONPATH": target},
            capture_output=True, text=True
        )
        self.assertEqual(got.stdout, "[1]\n", got.stderr)


def use_in_child(store: EmbeddedStore) -> None:
    try:
        store.execute("(SETF (GET 'A 'B) 8)")
    except BrokenStoreError:
        os._exit(0)
    os._exit(1)


if __name__ == "__main__":
    suite = unittest.defaultTestLoader.loadTestsFromModule(sys.modules[__name__])
    result = unittest.TextTestRunner(verbosity=0).run(suite)
    bad = len(result.failures) + len(result.errors)
    print(f"{result.testsRun - bad} passed, {bad} failed")
    sys.exit(1 if bad else 0)
