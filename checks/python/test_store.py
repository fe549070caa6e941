"""Over the real program, and over one that answers what it is told to."""

from __future__ import annotations

import os
import random
import signal
import threading
import time
from fractions import Fraction
from unittest import mock

import pazturrok.program
from pazturrok import (
    NIL,
    BrokenStoreError,
    ClosedStoreError,
    MalformedAnswerError,
    MessageStore,
    NoProgramError,
    RefusedError,
    StoppedError,
    Store,
    Symbol,
    T,
    TimeLimitError,
    UnsendableError,
    keyword,
    printed,
    quote,
)
from pazturrok.store import State
from support import LONG, PROGRAM, StoreTest
from test_texts import random_value


class Forms(StoreTest):
    def test_the_first_session(self) -> None:
        with self.store() as store:
            self.assertEqual(7, store.execute("(SETF (GET 'APPLE 'PRICE) 7)"))
            self.assertEqual(8, store.execute("(INCF (GET 'APPLE 'PRICE))"))
            self.assertEqual([Symbol("PRICE"), 8], store.execute("(symbol-plist 'apple)"))
            self.assertEqual(0, store.close())
        with self.store() as store:
            self.assertEqual(
                8, store.execute([Symbol("GET"), quote(Symbol("APPLE")), quote(Symbol("PRICE"))])
            )

    def test_4000_random_values_come_back(self) -> None:
        chance = random.Random(1)
        store = self.store()
        for package in ("FIRST", "Second (2)"):
            store.execute(f"(MAKE-PACKAGE {printed(package)})")
        for _ in range(40):
            values = [random_value(chance, 4) for _ in range(100)]
            self.assertEqual(values, store.execute_all([quote(value) for value in values]))
        for value in (random_value(chance, 4) for _ in range(200)):
            self.assertEqual(value, store.execute(f"(SETF (GET 'A 'B) '{printed(value)})"))
            self.assertEqual(value, store.execute("(GET 'A 'B)"))

    def test_many_forms_at_once(self) -> None:
        store = self.store(time_limit=LONG)
        self.assertEqual(
            list(range(5000)), store.execute_all(f"(SETF (GET 'A 'B) {number})" for number in range(5000))
        )
        self.assertEqual(2, store.round_trips)
        long = "x" * 100000
        store.execute([Symbol("SETF"), [Symbol("GET"), quote(Symbol("A")), quote(Symbol("C"))], long])
        self.assertEqual([long] * 100, store.execute_all(["(GET 'A 'C)"] * 100))
        self.assertEqual([long] * 100, store.execute_all([printed(long)] * 100))
        self.assertEqual([], store.execute_all([]))

    def test_refusals(self) -> None:
        store = self.store()
        with self.assertRaises(RefusedError) as raised:
            store.execute("(FROB)")
        self.assertEqual(
            (31, "UNKNOWN-OPERATOR", None),
            (raised.exception.number, raised.exception.name, raised.exception.place),
        )
        with self.assertRaises(RefusedError):
            store.execute_all(["(SETF (GET 'A 'B) 1)", "(FROB)", "(INCF (GET 'A 'B))"])
        outcomes = store.execute_all(["1", "(FROB)", "(GET 'A 'B)"], raise_on_refusal=False)
        self.assertEqual(
            [1, 31, 2],
            [outcome.number if isinstance(outcome, RefusedError) else outcome for outcome in outcomes],
        )

    def test_each_refusal_has_its_reason(self) -> None:
        store = self.store()
        with mock.patch.object(pazturrok.program, "ERRORS_KEPT", 1000):
            for forms in (["(FROB)"] * 150, ["7", "(FROB)"], ["(FROB)"] * 20, ["(LIST 1\n (FROB))", "(FROB)"]):
                outcomes = store.execute_all(forms, raise_on_refusal=False)
                reasons = [outcome.reason for outcome in outcomes if isinstance(outcome, RefusedError)]
                self.assertEqual({"no operator FROB"}, {(reason or "none").split(",")[0] for reason in reasons})
                self.assertEqual(len([form for form in forms if "FROB" in form]), len(reasons))

    def test_what_no_session_reads_is_not_sent(self) -> None:
        store = self.store()
        for form in (
            '"M\xfcller"',
            "(LIST 1",
            "1 2",
            "'",
            "",
            [Symbol("LIST"), 1.5],
            [Symbol("X", "NOWHERE")],
            "(" + " " * (1 << 20) + ")",
        ):
            with self.subTest(str(form)[:20]), self.assertRaises(UnsendableError):
                store.execute(form)  # type: ignore[arg-type]
            self.assertEqual(1, store.execute("1"))
        store.execute('(MAKE-PACKAGE "NOWHERE")')
        self.assertEqual(Symbol("X", "NOWHERE"), store.execute(quote(Symbol("X", "NOWHERE"))))

    def test_what_cannot_be_read_opens_the_store_again(self) -> None:
        store = self.store()
        store.execute("(SETF (GET 'A 'B) 7)")
        with self.assertRaises(RefusedError) as raised:
            store.execute("10.5")
        self.assertEqual(7, raised.exception.number)
        self.assertIn("column 5", str(raised.exception.place))
        self.assertEqual("10.5", raised.exception.reason)
        self.assertIs(State.ENDED, store.state)
        self.assertEqual(7, store.execute("(GET 'A 'B)"))
        outcomes = store.execute_all(["1", "2.0", "3", "'NO::X", "5"], raise_on_refusal=False)
        self.assertEqual(
            [1, 7, 3, 11, 5],
            [outcome.number if isinstance(outcome, RefusedError) else outcome for outcome in outcomes],
        )
        strict = self.store("strict", options=["--strict"])
        outcomes = strict.execute_all(["1", "(FROB)", "3"], raise_on_refusal=False)
        self.assertEqual(
            [1, 31, 3],
            [outcome.number if isinstance(outcome, RefusedError) else outcome for outcome in outcomes],
        )

    def test_readtables_and_packages_do_not_matter(self) -> None:
        store = self.store()
        store.execute_all(
            [
                "(set-syntax-from-char #\\( #\\;)",
                "(setf (readtable-case :user) :invert)",
                "(setf *read-base* 16)",
            ]
        )
        self.assertEqual([10, Symbol("a"), Symbol("A")], store.execute("(list 10 '|a| 'a)"))
        store.execute_all(['(make-package "P")', '(in-package "P")'])
        values = store.execute("(list nil t 'list 'apple :apple 'p::nil 'p::list 'p::apple)")
        wanted = [
            NIL,
            Symbol("T"),
            Symbol("LIST"),
            Symbol("APPLE"),
            keyword("APPLE"),
            Symbol("NIL", "P"),
            Symbol("LIST", "P"),
            Symbol("APPLE", "P"),
        ]
        self.assertEqual(wanted, values)
        self.assertEqual(wanted, store.execute(quote(values)))
        self.assertEqual(NIL, store.execute("(symbol-plist 'nobody)"))
        apple = Symbol("APPLE")
        self.assertEqual(
            [apple, "COMMON-LISP-USER", apple],
            store.execute_all(["'apple", '(in-package "COMMON-LISP-USER")', "'apple"]),
        )
        store.execute_all(['(make-package "Q")', '(in-package "Q")'])
        self.assertEqual([NIL], store.execute("(list nil)"))
        store.execute('(use-package "COMMON-LISP" "Q")')
        self.assertEqual([NIL], store.execute("(list nil)"))

    def test_threads_share_a_store(self) -> None:
        store = self.store()
        failures = []

        def work(number: int) -> None:
            for count in range(50):
                text = f"{number} {count}"
                if store.execute(printed(text)) != text:
                    failures.append(text)

        threads = [threading.Thread(target=work, args=(number,)) for number in range(8)]
        for thread in threads:
            thread.start()
        for thread in threads:
            thread.join()
        self.assertEqual([], failures)


    def test_what_true_none_and_false_are(self) -> None:
        store = self.store()
        back = store.execute([Symbol("LIST"), True, T, False, None, NIL, Fraction(4, 2)])
        self.assertEqual([T, T, NIL, NIL, NIL, 2], back)
        self.assertEqual([T, NIL, NIL], store.execute("(LIST 'T 'NIL ())"))


class Faults(StoreTest):
    def test_an_interrupt_at_each_byte_breaks_the_store(self) -> None:
        form = "(LIST 1 \"two\nlines\" '|a b| #\\( '(3 . 4))"
        with self.store() as store:
            value = store.execute(form)
        read = os.read
        for count in range(1, 40):
            left = count

            def one_byte(descriptor: int, size: int) -> bytes:
                nonlocal left
                data = read(descriptor, 1)
                left -= len(data)
                if left < 0:
                    raise KeyboardInterrupt
                return data

            with self.store() as store:
                with mock.patch("os.read", one_byte):
                    try:
                        self.assertEqual(value, store.execute(form))
                        break
                    except KeyboardInterrupt:
                        pass
                for _ in range(2):
                    with self.assertRaises(BrokenStoreError):
                        store.execute("8")
                store.reopen()
                self.assertEqual(value, store.execute(form))
        else:
            self.fail("the answer has an end")
        self.assertGreater(count, 30)

    def test_hostile_answers(self) -> None:
        nonsense = [
            "'A",
            '#.(error "evaluated")',
            "1.5",
            "#<X>",
            "A:B:C",
            "(1 . 2 3)",
            "1/0",
            '"\xfc"',
            "`(A ,B)",
            "a",
            "",
        ]
        with self.answering(*(answer + "\n" for text in nonsense for answer in (text, "7"))) as store:
            for text in nonsense:
                with self.subTest(text), self.assertRaises(MalformedAnswerError):
                    store.execute("1")
                self.assertEqual(7, store.execute("1"))
        for text in (")", "(1))", "1 2", "(1\n2)", "! 31", "! NO NUMBER", "! ", "1\n2", "1\n2\n3"):
            with self.subTest(text), self.answering(text + "\n", "7\n") as store:
                with self.assertRaises(MalformedAnswerError):
                    store.execute("1")
                    store.execute("1")
                with self.assertRaises(BrokenStoreError):
                    store.execute("1")

    def test_answers_that_are_cut(self) -> None:
        for text in ("", "(1", '"abc', "|a", "#\\", "12", "! 31 UNKNOWN"):
            with self.subTest(text), self.answering(
                text, fault="! 60 DEVICE\nthe cause\nand more\n"
            ) as store:
                with self.assertRaises(StoppedError) as raised:
                    store.execute_all(["1", "2"])
                self.assertEqual(
                    (3, "! 60 DEVICE\nthe cause\nand more"), (raised.exception.status, raised.exception.fault)
                )
                with self.assertRaises(BrokenStoreError):
                    store.execute("1")

    def test_a_program_that_hangs_is_ended(self) -> None:
        for text in ("", "(1", '"abc', "12"):
            with self.subTest(text), self.answering(text, time_limit=0.2) as store:
                begin = time.monotonic()
                with self.assertRaises(TimeLimitError):
                    store.execute("1")
                self.assertLess(time.monotonic() - begin, LONG / 2)
                with self.assertRaises(BrokenStoreError):
                    store.execute("1")
        store = self.store()
        store.execute("(SETF (GET 'A 'B) 1)")
        for form in ("2", printed("x" * 500000)):
            os.kill(store.pid or 0, signal.SIGSTOP)
            with self.assertRaises(TimeLimitError):
                store.execute(form, time_limit=0.2)
            store.reopen()
        self.assertEqual(1, store.execute("(GET 'A 'B)"))

    def test_a_store_closes_at_once(self) -> None:
        store = self.store()
        store.execute(
            [Symbol("SETF"), [Symbol("GET"), quote(Symbol("A")), quote(Symbol("C"))], "x" * 1000000]
        )
        with mock.patch.object(store._program, "_read", side_effect=KeyboardInterrupt), self.assertRaises(
            KeyboardInterrupt
        ):
            store.execute("(GET 'A 'C)")
        begin = time.monotonic()
        store.close()
        self.assertLess(time.monotonic() - begin, LONG / 2)
        with self.assertRaises(ClosedStoreError):
            store.execute("1")
        store.reopen()
        os.kill(store.pid or 0, signal.SIGSTOP)
        begin = time.monotonic()
        with mock.patch("pazturrok.program.END_LIMIT", 0.2):
            store.close()
        self.assertLess(time.monotonic() - begin, LONG / 2)

    def test_a_kill_loses_nothing_that_was_answered(self) -> None:
        store = self.store()
        store.execute("(SETF (GET 'A 'B) 50)")
        os.kill(store.pid or 0, signal.SIGKILL)
        with self.assertRaises(StoppedError) as raised:
            store.execute("1")
        self.assertEqual(-signal.SIGKILL, raised.exception.status)
        with self.assertRaises(BrokenStoreError):
            store.execute("1")
        store.reopen()
        self.assertEqual(50, store.execute("(GET 'A 'B)"))

    def test_one_client_at_a_time(self) -> None:
        store = self.store()
        with self.assertRaises(StoppedError) as raised:
            self.store()
        self.assertEqual(
            (3, f"! 60 DEVICE\n{self.folder}/store: locked by another process"), (raised.exception.status, raised.exception.fault)
        )
        self.assertEqual(1, store.execute("1"))

    def test_a_program_that_cannot_be_started(self) -> None:
        missing = PROGRAM + "-that-is-not-there"
        plain = os.path.join(self.folder, "plain")
        with open(plain, "w", encoding="ascii"):
            pass
        for kind in (Store, MessageStore):
            for path in (missing, plain, self.folder, os.path.join(plain, "under-a-file")):
                with self.subTest(path), self.assertRaises(NoProgramError) as raised:
                    kind(os.path.join(self.folder, "store"), path)
                self.assertEqual(path, raised.exception.path)
                self.assertIn(path, str(raised.exception))
        self.assertFalse(os.path.exists(os.path.join(self.folder, "store")))
        with self.store("moved") as store:
            store._words[0] = missing
            with self.assertRaises(NoProgramError):
                store.reopen()
            with self.assertRaises(BrokenStoreError):
                store.execute("1")
            store._words[0] = PROGRAM
            store.reopen()
            self.assertEqual(1, store.execute("1"))
