"""Texts alone: objects as text, where an answer ends, what it means. No program runs."""

from __future__ import annotations

import enum
import random
import unittest
from fractions import Fraction
from typing import Any

from pazturrok import (
    NIL,
    Character,
    DottedList,
    MalformedAnswerError,
    Symbol,
    T,
    UnsendableError,
    keyword,
    printed,
    quote,
)
from pazturrok.answers import AnswerSplitter, parse_answer, refusal_of
from pazturrok.references import with_references, without_references
from pazturrok.store import changes_naming
from pazturrok.texts import is_one_form


class Grade(int, enum.Enum):
    """Numbers whose str() is a name."""

    GOOD = 2


def symbol_of(prefix: str | None, name: str) -> Any:
    symbol = Symbol(name, prefix or "COMMON-LISP-USER")
    return [] if symbol == Symbol("NIL") else symbol


class References(unittest.TestCase):
    WRITTEN = {
        "Z\xfcrich": "Z&#xFC;rich",
        "\u20ac\U0001f600\U0010ffff\x80": "&#x20AC;&#x1F600;&#x10FFFF;&#x80;",
        "&#xFC;": "&#x26;#xFC;",
        "&#x26;": "&#x26;#x26;",
        "&#x26;#x26;": "&#x26;#x26;#x26;",
    }
    AS_THEY_ARE = (
        *("", "&", "&#x41;", "&#x0FC;", "&#xfc;", "&#xD800;", "&#xDFFF;"),
        *("&#x110000;", "&#xFC", "&#FC;", "&amp;", "\x7f"),
    )

    def test_texts(self) -> None:
        for text, written in self.WRITTEN.items():
            self.assertEqual((written, text), (with_references(text), without_references(written)))
        for text in self.AS_THEY_ARE:
            self.assertEqual((text, text), (with_references(text), without_references(text)))

    def test_any_text_comes_back(self) -> None:
        chance = random.Random(1)
        bits = [*"&#x26FA;\xe9\ud7ff\ue000", *self.AS_THEY_ARE, *self.WRITTEN, *self.WRITTEN.values()]
        for _ in range(20_000):
            text = "".join(chance.choice(bits) for _ in range(chance.randrange(8)))
            written = with_references(text)
            self.assertTrue(written.isascii())
            self.assertEqual(text, without_references(written))

    def test_where(self) -> None:
        text = "\xfc"
        self.assertEqual('("&#xFC;" #("&#xFC;") . "&#xFC;")', printed(DottedList((text, (text,)), text)))
        things: tuple[Any, ...] = ("\ud800", Symbol("\xfc"), Symbol("A", "\xfc"), Character("\xfc"))
        for thing in things:
            self.assertRaises(UnsendableError, printed, thing)
        with self.assertRaises(UnsendableError):
            printed("\xfc", unicode=False)
        self.assertEqual(text, parse_answer('"&#xFC;"', symbol_of, True))
        self.assertEqual("&#xFC;", parse_answer('"&#xFC;"', symbol_of))


class Splitting(unittest.TestCase):
    ANSWERS = (
        "7",
        "NIL",
        "!",
        "! 31 UNKNOWN-OPERATOR",
        "!X",
        "(A B)",
        "#(1 2)",
        '"two\nlines"',
        '("a\n! 31 X\nb" |c\nd|)',
        '"a \\" b"',
        "|a \\| (b|",
        "#\\(",
        "#\\)",
        '#\\"',
        "#\\|",
        '(#\\( #\\) #\\")',
        "#\\\\",
        "(! X)",
        "|! X|",
        "! 7 FLOAT-TOKEN",
        '"\\\\"',
        "8",
    )

    def test_answers_end_where_they_end_however_they_come(self) -> None:
        text = "".join(answer + "\n" for answer in self.ANSWERS).encode()
        for size in (1, 2, 3, 7, 64, len(text)):
            splitter = AnswerSplitter()
            answers = []
            for place in range(0, len(text), size):
                answers += splitter.feed(text[place : place + size])
            self.assertEqual(list(self.ANSWERS), answers)
            self.assertTrue(splitter.is_empty)

    def test_an_end_that_is_not_known_is_an_error(self) -> None:
        for text in (")", "(A))", "A B", "1 2", "(A\nB)", "!X Y", '"a" "b"', "(A) B"):
            with self.subTest(text), self.assertRaises(MalformedAnswerError):
                AnswerSplitter().feed(text.encode() + b"\n")


class Parsing(unittest.TestCase):
    def test_texts_are_objects(self) -> None:
        for text, value in (
            ("0", 0),
            ("-7", -7),
            ("22/7", Fraction(22, 7)),
            ("-1/2", Fraction(-1, 2)),
            (str(1 << 126), 1 << 126),
            ("#\\a", Character("a")),
            ("#\\Space", Character(" ")),
            ("#\\Newline", Character("\n")),
            ("#\\(", Character("(")),
            ('""', ""),
            ('"a\\\\b\\"c"', 'a\\b"c'),
            ("NIL", NIL),
            ("T", T),
            (":KEY", keyword("KEY")),
            ("COMMON-LISP:NIL", NIL),
            ("(1 . 2)", DottedList((1,), 2)),
            ("(1 2 . 3)", DottedList((1, 2), 3)),
            ('(1 (2) #(3 "x"))', [1, [2], (3, "x")]),
            ("#()", ()),
            ("(NIL T)", [[], T]),
            ("(QUOTE X)", quote(Symbol("X"))),
            ("#:FREE", Symbol("FREE", None)),
            ("(#\\( #\\) #\\a)", [Character("("), Character(")"), Character("a")]),
            ("|a b|", Symbol("a b")),
            ("||", Symbol("")),
            ("!", Symbol("!")),
            ("P::|x|", Symbol("x", "P")),
            ("|p q|:X", Symbol("X", "p q")),
            ("#\\\n", Character("\n")),
        ):
            with self.subTest(text):
                self.assertEqual(value, parse_answer(text, symbol_of))

    def test_other_texts_are_none(self) -> None:
        for text in (
            "",
            '#.(error "evaluated")',
            "#<FOO>",
            "1.5",
            "1/0",
            "1e5",
            "#C(1 2)",
            "#1=(A)",
            "#'CAR",
            "(1 .)",
            "(. 1)",
            "(1 . 2 3)",
            "#(1 . 2)",
            "`(A)",
            "'A",
            "a",
            "#\\Foo",
            "A:B:C",
            "::A",
            "A:",
            ":",
            "#",
            "#:",
            '"open',
            "|open",
            "(1",
            "(1  2)",
            "( 1)",
            "(1 )",
            "--1",
            "-",
            "1+",
            "A.B",
            "\\A",
            "A|b|",
            '"\xfc"',
            "(" * 10000 + "1" + ")" * 10000,
        ):
            with self.subTest(text[:20]), self.assertRaises(MalformedAnswerError):
                parse_answer(text, symbol_of)

    def test_refusals_are_told_from_values(self) -> None:
        self.assertEqual((31, "UNKNOWN-OPERATOR"), refusal_of("! 31 UNKNOWN-OPERATOR"))
        for text in ("!", "!X", "31", '"! 31 X"'):
            self.assertIsNone(refusal_of(text))
        for text in ("! ", "! X", "! 31", "!  31 X", "! +31 X"):
            with self.assertRaises(MalformedAnswerError):
                refusal_of(text)


class Printing(unittest.TestCase):
    def test_objects_are_texts(self) -> None:
        rows: list[tuple[Any, str]] = [
            (0, "0"),
            (Fraction(-1, 2), "-1/2"),
            (Grade.GOOD, "2"),
            ([], "NIL"),
            (False, "NIL"),
            (None, "NIL"),
            (True, "T"),
            (T, "T"),
            (keyword("KEY"), ":KEY"),
            (Symbol("FREE", None), "#:FREE"),
            (Symbol("a b"), "|a b|"),
            ('a"b', '"a\\"b"'),
            (DottedList((1,), 2), "(1 . 2)"),
            ((1, "x"), '#(1 "x")'),
            (Character(" "), "#\\Space"),
            (Character("\x07"), "#\\\x07"),
            (quote(Symbol("X")), "(QUOTE X)"),
            (Symbol(""), "||"),
            (Symbol("X", "P"), "P::X"),
            (Symbol("LIST", "P"), "P::LIST"),
            ((), "#()"),
        ]
        for value, text in rows:
            with self.subTest(text):
                self.assertEqual(text, printed(value))

    def test_what_means_the_same_anywhere(self) -> None:
        rows: list[tuple[Any, str]] = [
            (Symbol("X"), "CL-USER::X"),
            (Symbol("x"), "CL-USER::|x|"),
            (Symbol("LIST"), "CL:LIST"),
            (True, "CL:T"),
            (None, "()"),
            (keyword("X"), ":X"),
            (Symbol("X", None), "#:X"),
            (Symbol("X", "P"), "P::X"),
            ([Symbol("GET"), quote(Symbol("X")), quote([1, []])], "(CL:GET 'CL-USER::X '(1. ()))"),
            (([10, -1, Fraction(1, 12), "10"],), '#((10. -1. #10R1/12 "10"))'),
            (DottedList((1,), 2), "(1. . 2.)"),
        ]
        for value, text in rows:
            with self.subTest(text):
                self.assertEqual(text, printed(value, anywhere=True))
        longest = "X" * (4096 - len("CL-USER::"))
        self.assertEqual(f"CL-USER::{longest}", printed(Symbol(longest), anywhere=True))
        with self.assertRaises(UnsendableError):
            printed(Symbol(longest + "X"), anywhere=True)

    def test_what_changes_names(self) -> None:
        for form in ('(IN-PACKAGE "P")', "(|IN-PACK|AGE P)", '#\\" (import \'X) "', '(LIST "a" (EXPORT "b"))', '"open (IMPORT', "#| open (IMPORT", '; " (IMPORT'):
            self.assertTrue(changes_naming(form), form)
        for form in ('(SETF (GET \'A \'B) "important")', '#\\" "IN-PACKAGE \\" EXPORT"', "(GET 'A 'B)", '#| " |# "import"'):
            self.assertFalse(changes_naming(form), form)

    def test_what_no_session_reads_is_refused(self) -> None:
        circle: list[Any] = [1]
        circle.append(circle)
        deep: list[Any] = [1]
        for _ in range(100):
            deep = [deep]
        for value in (
            1.5,
            complex(1, 2),
            "\ud800",
            Character("\u03bb"),
            Symbol("\xfc"),
            Symbol("X", "\xfc"),
            1 << 127,
            -(1 << 127) - 1,
            Fraction(1, 1 << 128),
            {},
            object(),
            b"x",
            [1, 2.0],
            circle,
            deep,
            "a" * (1 << 20),
            Symbol("A" * 4097),
            Symbol("CAR", "COMMON-LISP"),
            Symbol("A" * 4000, "P" * 100),
        ):
            with self.subTest(type(value).__name__), self.assertRaises(UnsendableError):
                printed(value)  # type: ignore[arg-type]

    def test_values_that_cannot_be_made(self) -> None:
        with self.assertRaises(ValueError):
            Character("ab")
        with self.assertRaises(ValueError):
            DottedList((), 1)
        with self.assertRaises(ValueError):
            DottedList((1,), [2])


class OneForm(unittest.TestCase):
    def test_one_form(self) -> None:
        for text in (
            "A",
            "1",
            "(A B)",
            "'A",
            "''(A)",
            "#'CAR",
            "#(1 2)",
            "#3(A)",
            '"a(b"',
            "|a(b|",
            "a\\(b",
            "#\\(",
            "#\\)",
            "#\\ ",
            "#:A",
            "#xFF",
            "#36rZ",
            " A ",
            "A ; note",
            "; note\nA",
            "#|(|# A",
            "A #|b|#",
            "#| #| |# |# A",
            "(A ; )\n)",
            "(A #|)|# B)",
            '(")" |)| #\\) \\))',
            "a#|b|",
            "(')",
            "#.(A)",
            "'#|b|#A",
            "(A . B)",
            "`(A ,B)",
        ):
            with self.subTest(text):
                self.assertTrue(is_one_form(text))

    def test_not_one_form(self) -> None:
        for text in (
            "",
            " ",
            "; A",
            "#|A|#",
            "(A",
            "(A))",
            ")",
            "A B",
            'A"b"',
            '"a',
            "|a",
            "a\\",
            "#\\",
            "#",
            "#(1",
            "'",
            "A '",
            "(A) #'",
            "#|A",
            "#|#||#A",
            "(A)(B)",
            '(A ")',
            "1 2",
            "'A 'B",
            "#12",
        ):
            with self.subTest(text):
                self.assertFalse(is_one_form(text))

    def test_a_printed_object_is_one_form(self) -> None:
        chance = random.Random(1)
        for _ in range(500):
            self.assertTrue(is_one_form(printed(random_value(chance, 4))))


def random_text(chance: random.Random, longest: int) -> str:
    return "".join(
        chance.choice("()\"|\\ ;#.:'!,") if chance.random() < 1 / 3 else chr(chance.randrange(128))
        for _ in range(chance.randrange(longest))
    )


def random_symbol(chance: random.Random) -> Any:
    name = chance.choice(
        [
            "A",
            "X1",
            "1X",
            "+",
            "-",
            ".",
            "..",
            "!",
            "a b",
            "",
            ":",
            "A:B",
            "1E5",
            "12",
            "1/2",
            "LIST",
            "T",
            random_text(chance, 12),
        ]
    )
    return symbol_of(
        *chance.choice([(None, name), ("KEYWORD", name), ("FIRST", name + "x"), ("Second (2)", name + "x")])
    )


def random_value(chance: random.Random, depth: int) -> Any:
    """A random object of a store."""
    kind = chance.randrange(9 if depth else 6)
    if kind == 0:
        return chance.choice(
            [
                0,
                -1,
                (1 << 127) - 1,
                -(1 << 127),
                chance.randrange(-(1 << 127), 1 << 127),
                chance.randrange(100),
            ]
        )
    if kind == 1:
        ratio = Fraction(chance.randrange(-(1 << 127), 1 << 127), chance.randrange(1, 1 << 127))
        return ratio if ratio.denominator > 1 else ratio.numerator
    if kind == 2:
        return Character(chr(chance.randrange(128)))
    if kind == 3:
        return random_text(chance, 40)
    if kind == 4:
        return random_symbol(chance)
    if kind == 5:
        return Symbol(random_text(chance, 8), None)
    items = [random_value(chance, depth - 1) for _ in range(chance.randrange(6))]
    if kind == 6:
        return items
    if kind == 7:
        return tuple(items)
    return DottedList((0, *items), Symbol("TAIL"))
