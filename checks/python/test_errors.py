"""Which form an error is of, and what stands behind it: by each kind of store that is a program, or nodes."""

from __future__ import annotations

import os
import signal
import sys
import tempfile
from unittest import mock

from pazturrok import LostAnswerError, MessageStore, NodeStore, NoNodeError, NoProgramError, RefusedError, StoppedError, Store, StoreError, Symbol, TimeLimitError, UnsendableError
from lib.places import CHECKS
from support import PROGRAM, StoreTest

sys.path.insert(0, os.path.join(CHECKS, "cluster"))

from fake_nodes import ADD, LOSE, FakeNodes  # noqa: E402

FAKE_OF_MESSAGES = os.path.join(CHECKS, "messages", "fake")


def which(error: BaseException) -> tuple[str | None, int | None]:
    assert isinstance(error, StoreError)
    return error.form, error.index


class WhichForm(StoreTest):
    def test_a_refused_form(self) -> None:
        store = self.store()
        with self.assertRaises(RefusedError) as raised:
            store.execute("(FROB A)")
        self.assertEqual((("(FROB A)", None), "31 UNKNOWN-OPERATOR (no operator FROB): (FROB A)"), (which(raised.exception), str(raised.exception)))
        with self.assertRaises(RefusedError) as raised:
            store.execute([Symbol("FROB"), 1])
        self.assertEqual(("(FROB 1)", None), which(raised.exception))
        with self.assertRaises(RefusedError) as raised:
            store.execute_all(["1", "(FROB\n  A)", "(FROB)"])
        self.assertEqual((("(FROB\n  A)", 1), "31 UNKNOWN-OPERATOR (no operator FROB): forms[1] is (FROB A)"), (which(raised.exception), str(raised.exception)))

    def test_a_long_form_is_cut_in_the_message_alone(self) -> None:
        store, form = self.store(), "(FROB " + "A " * 5000 + ")"
        with self.assertRaises(RefusedError) as raised:
            store.execute(form)
        self.assertEqual(form, raised.exception.form)
        self.assertTrue(str(raised.exception).endswith(" A .."))
        self.assertLess(len(str(raised.exception)), 160)

    def test_refused_forms_among_many(self) -> None:
        store = self.store()
        forms = ["(FROB)" if number % 7 == 3 else str(number) for number in range(100)] + ["2.0", "'NO::X", "5"]
        outcomes = store.execute_all(forms, raise_on_refusal=False)
        self.assertEqual([(forms[place], place) for place in [*range(3, 100, 7), 100, 101]], [which(it) for it in outcomes if isinstance(it, StoreError)])
        outcomes = list(store.iterate(iter(forms), at_once=9))
        self.assertEqual([*range(3, 100, 7), 100, 101], [it.index for it in outcomes if isinstance(it, StoreError)])
        self.assertIn("column 4", str(outcomes[100]))

    def test_a_form_that_cannot_be_sent(self) -> None:
        store = self.store()
        for send in (store.execute_all, lambda forms: list(store.iterate(forms))):
            with self.assertRaises(UnsendableError) as raised:
                send(["1", "2", "(LIST"])
            self.assertEqual(((None, 2), True), (which(raised.exception), str(raised.exception).startswith("forms[2]: '(LIST' cannot be sent")))
        with self.assertRaises(UnsendableError) as raised:
            store.execute("(LIST")
        self.assertEqual((None, None), which(raised.exception))

    def test_forms_without_an_answer(self) -> None:
        with self.answering("1\n", fault="! 60 DEVICE\nthe cause\n") as store, self.assertRaises(StoppedError) as raised:
            store.execute_all(["1", "(SETF (GET 'A 'B) 2)", "3"])
        self.assertEqual(([1], ("(SETF (GET 'A 'B) 2)", 1)), (raised.exception.outcomes, which(raised.exception)))
        self.assertEqual("the program has ended with status 3; not answered: forms[1] is (SETF (GET 'A 'B) 2)\n! 60 DEVICE\nthe cause", str(raised.exception))
        # on a busy machine the first answer may take longer than the first limit
        for limit in (0.2, 2.0, 20.0):
            with self.answering("1\n", time_limit=limit) as store, self.assertRaises(TimeLimitError) as late:
                store.execute_all(["1", "2"])
            if late.exception.outcomes:
                break
        self.assertEqual(([1], ("2", 1)), (late.exception.outcomes, which(late.exception)))
        with self.answering(fault="pazturrok: compiled, not proved: ./pazturrok build proves it\n! 60 DEVICE\n") as store, self.assertRaises(StoppedError) as raised:
            store.execute("(LIST 1)")
        self.assertEqual("! 60 DEVICE", raised.exception.fault)
        with self.answering(fault="") as store, self.assertRaises(StoppedError) as raised:
            store.execute("(LIST 1)")
        self.assertEqual(("(LIST 1)", None), which(raised.exception))

    def test_what_the_program_tells_of_a_refusal(self) -> None:
        told = {1: "line 2, column 1: 31: no operator FOO (help 31)\n", 3: "pazturrok: line 4, column 1: 33: ARGUMENT-KIND: (INCF \"one\") (help 33)\n",
                4: "after 70 bytes: 31: no operator FOO (help 31)\n100 refusals were told; of the next ones there is no line here\n"}
        with self.answering("! 31 UNKNOWN-OPERATOR\n", "7\n", "! 33 ARGUMENT-KIND\n", "! 31 UNKNOWN-OPERATOR\n", told=told, fault="! 60 DEVICE\n") as store:
            # the question of the opening is the first line
            outcomes = store.execute_all(["(FOO)", "7", '(LIST (INCF "one"))', "(FOO)"], raise_on_refusal=False)
            self.assertEqual("31 UNKNOWN-OPERATOR (no operator FOO): forms[0] is (FOO)", str(outcomes[0]))
            self.assertEqual(["no operator FOO", '(INCF "one")', None], [outcome.reason for outcome in outcomes if isinstance(outcome, RefusedError)])
            self.assertEqual('33 ARGUMENT-KIND ((INCF "one")): forms[2] is (LIST (INCF "one"))', str(outcomes[2]))
            with self.assertRaises(StoppedError) as raised:
                store.execute("8")
            self.assertEqual("! 60 DEVICE", raised.exception.fault)


class Messages(StoreTest):
    def feeding(self) -> MessageStore:
        store = MessageStore(os.path.join(self.folder, "store"), FAKE_OF_MESSAGES)
        self.addCleanup(store.close)
        return store

    def test_refused_messages_and_questions(self) -> None:
        store = self.feeding()
        for ask in (store.do, store.ask):
            with self.assertRaises(RefusedError) as raised:
                ask("(NOTHING)")
            self.assertEqual((("(NOTHING)", None), "31 UNKNOWN-OPERATOR: (NOTHING)"), (which(raised.exception), str(raised.exception)))
        outcomes = store.do_all(["(SETF (GET 'NT 'KY) 1)", "(NOTHING)", "(INCF (GET 'NT 'KY))", ")"])
        self.assertEqual([("(NOTHING)", 1), (")", 3)], [which(it) for it in outcomes if isinstance(it, StoreError)])
        with self.assertRaises(UnsendableError) as unsent:
            store.do_all(["1", "\u00e4"])
        self.assertEqual(1, unsent.exception.index)

    def test_a_lost_answer(self) -> None:
        store, forms = self.feeding(), ["(INCF (GET 'NT 'KY))"] * 3
        store.do("(SETF (GET 'NT 'KY) 0)")
        killed = StoppedError(-signal.SIGKILL, "")
        with mock.patch.object(store, "_exchange", side_effect=killed), mock.patch.object(store, "_open", return_value=store.position + 2):
            with self.assertRaises(StoppedError) as raised:
                store.do_all(forms)
        self.assertEqual(2, raised.exception.index)
        self.assertEqual([(LostAnswerError, 0), (LostAnswerError, 1)], [(type(it), it.index) for it in raised.exception.outcomes])

    def test_a_program_that_ends_within_messages(self) -> None:
        store = self.feeding()

        def exchange(frames: list[str], answers: list[str]) -> None:
            answers.append("1")
            raise StoppedError(3, "! 60 DEVICE")

        with mock.patch.object(store, "_exchange", exchange), self.assertRaises(StoppedError) as raised:
            store.do_all(["(LIST 1)", "(LIST 2)"])
        self.assertEqual(([1], ("(LIST 2)", 1)), (raised.exception.outcomes, which(raised.exception)))


class Nodes(StoreTest):
    def test_of_nodes(self) -> None:
        nodes = FakeNodes()
        self.addCleanup(nodes.close)
        with NodeStore(nodes.names) as store:
            outcomes = store.do_all([ADD, ")", "OLD", ADD])
            self.assertEqual([(RefusedError, ")", 1), (LostAnswerError, "OLD", 2)], [(type(it), *which(it)) for it in outcomes if isinstance(it, StoreError)])
            with self.assertRaises(RefusedError) as raised:
                store.do(")")
            self.assertEqual((")", None), which(raised.exception))
            for call in (store.ask, store.read):
                with self.assertRaises(NoNodeError) as lost:
                    call(LOSE)
                self.assertEqual((LOSE, None), which(lost.exception))
        for node in ("localhost", "localhost:", ":", "localhost:http"):
            with self.assertRaises(ValueError):
                NodeStore([node])


class OneFamily(StoreTest):
    """What is not there is a StoreError, with its path."""

    def test_a_store_that_cannot_be_opened(self) -> None:
        plain, empty = os.path.join(self.folder, "plain"), os.path.join(self.folder, "empty")
        os.mkdir(empty)
        with open(plain, "w", encoding="ascii"):
            pass
        for kind in (Store, MessageStore):
            for folder, options, reason in ((plain, [], "Not a directory"), (empty, ["--existing"], "no store"), (os.path.join(self.folder, "none"), ["--existing"], "no store")):
                with self.subTest(kind=kind, folder=folder), self.assertRaises(StoppedError) as raised:
                    kind(folder, PROGRAM, options=options)
                self.assertEqual(folder, raised.exception.folder)
                self.assertIn(f"as it opened {folder}\n! 60 DEVICE\n", str(raised.exception))
                self.assertIn(reason, str(raised.exception))
            with self.subTest(kind=kind), self.assertRaises(StoppedError) as raised:
                kind(empty, PROGRAM, existing=True, options=["--existing"])
            self.assertIn("no store", str(raised.exception))
            self.assertEqual([], os.listdir(empty))
            there = os.path.join(self.folder, kind.__name__)
            kind(there, PROGRAM).close()
            with kind(there, PROGRAM, existing=True) as store:
                self.assertEqual(7, store.put("A", "B", 7))

    def test_no_room_for_standard_error(self) -> None:
        with mock.patch.object(tempfile, "tempdir", os.path.join(self.folder, "none")), self.assertRaises(NoProgramError) as raised:
            self.store()
        self.assertIn("No such file", str(raised.exception))
