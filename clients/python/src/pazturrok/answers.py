"""Answers: first where the text of one ends, then the object that it is the text of."""

from __future__ import annotations

import re
from collections.abc import Callable
from fractions import Fraction
from typing import Optional

from .errors import MalformedAnswerError
from .printer import CHARACTER_NAMES, DEPTH_LIMIT
from .references import without_references
from .values import KEYWORD, Character, DottedList, Symbol, Value

IN_A_LIST = re.compile(rb'[()"|\\\n]')
OUTSIDE = re.compile(rb'[()"|\\\n ]')
MARKS = {b'"': re.compile(rb'["\\]'), b"|": re.compile(rb"[|\\]"), b"\n": re.compile(rb"\n")}


class AnswerSplitter:
    """Splits what the program writes into answers, as it comes.

    A newline ends an answer outside of lists, texts and bars; only in a refusal is there a space outside of
    them.
    """

    def __init__(self) -> None:
        self._bytes = bytearray()
        self._start = 0
        self._place = 0
        self._depth = 0
        self._mark = b""

    @property
    def is_empty(self) -> bool:
        """Whether no byte has come since the last answer."""
        return self._start == len(self._bytes)

    def feed(self, data: bytes) -> list[str]:
        """The answers that these bytes make whole."""
        del self._bytes[: self._start]
        self._bytes += data
        self._place -= self._start
        self._start = 0
        answers = []
        while (end := self._end()) is not None:
            answers.append(self._bytes[self._start : end - 1].decode("latin-1"))
            self._start = end
        return answers

    def _end(self) -> int | None:
        """The place after the newline that ends the first answer, or None where that has not come."""
        while True:
            seek = MARKS.get(self._mark) or (IN_A_LIST if self._depth else OUTSIDE)
            found = seek.search(self._bytes, self._place)
            if found is None:
                self._place = len(self._bytes)
                return None
            byte = found[0]
            if byte == b"\\":
                if found.end() == len(self._bytes):
                    self._place = found.start()
                    return None
                self._place = found.end() + 1
                continue
            self._place = found.end()
            if self._takes_last(byte):
                return self._place

    def _takes_last(self, byte: bytes) -> bool:
        """Takes a byte that has a meaning where it stands. Whether it ends the answer."""
        if self._mark:
            ends = self._mark == b"\n"
            self._mark = b""
            return ends
        if byte == b"(":
            self._depth += 1
        elif byte == b")":
            self._depth -= 1
            if self._depth < 0:
                raise self._malformed("a parenthesis too many")
        elif byte in MARKS and byte != b"\n":
            self._mark = byte
        elif byte == b" ":
            if self._bytes[self._start : self._place] != b"! ":
                raise self._malformed("a second object")
            self._mark = b"\n"
        elif self._depth:
            raise self._malformed("a line ends in a list")
        else:
            return True
        return False

    def _malformed(self, reason: str) -> MalformedAnswerError:
        return MalformedAnswerError(self._bytes[self._start : self._place].decode("latin-1"), reason)


REFUSAL = re.compile(r"! ([0-9]+) (.+)", re.DOTALL)


def refusal_of(text: str) -> tuple[int, str] | None:
    """The number and the name of a refusal, or None. Nothing else begins with "! "."""
    if not text.startswith("! "):
        return None
    found = REFUSAL.fullmatch(text)
    if found is None:
        raise MalformedAnswerError(text, "a refusal has a number and a name")
    return int(found[1]), found[2]


NAME = r"(?:[A-Z*!$<>=?%&_][A-Z0-9*!$<>=?%&_+/-]*|\|[^|\\]*(?:\\.[^|\\]*)*\|)"
TOKEN = re.compile(
    rf"""
      (?P<opens>\#?\()
    | (?P<closes>\))
    | (?P<dot>\.(?=\ ))
    | "(?P<text>[^"\\]*(?:\\.[^"\\]*)*)"
    | (?P<number>-?[0-9]+(?:/[0-9]+)?)(?=[ )]|\Z)
    | \#\\(?P<character>.[^ ()]*)
    | \#:(?P<uninterned>{NAME})
    | :(?P<keyword>{NAME})
    | (?:(?P<prefix>{NAME})::?)?(?P<symbol>{NAME})(?=[ )]|\Z)
    """,
    re.DOTALL | re.VERBOSE,
)
ESCAPE = re.compile(r"\\(.)", re.DOTALL)
CHARACTERS = {name: text for text, name in CHARACTER_NAMES.items()}

SymbolOf = Callable[[Optional[str], str], Value]


def plain(text: str) -> str:
    return ESCAPE.sub(r"\1", text)


def name_of(text: str) -> str:
    return plain(text[1:-1]) if text.startswith("|") else text


class _Parser:
    """Reads the object of a text. `symbol_of` gives that of a symbol, for its prefix, if any, and name."""

    def __init__(self, text: str, symbol_of: SymbolOf, unicode: bool) -> None:
        self.text = text
        self.symbol_of = symbol_of
        self.unicode = unicode
        self.place = 0

    def wrong(self) -> MalformedAnswerError:
        return MalformedAnswerError(self.text, f"at place {self.place}")

    def takes(self, text: str) -> bool:
        if self.text.startswith(text, self.place):
            self.place += len(text)
            return True
        return False

    def object(self, depth: int = 0) -> Value:
        found = TOKEN.match(self.text, self.place)
        if found is None or depth > 2 * DEPTH_LIMIT:
            raise self.wrong()
        kind = str(found.lastgroup)
        if kind in ("closes", "dot"):
            raise self.wrong()
        self.place = found.end()
        if kind == "opens":
            return self.items(depth + 1, found[0] == "#(")
        if kind == "text":
            text = plain(found["text"])
            return without_references(text) if self.unicode else text
        if kind == "number":
            return self.number(found["number"])
        if kind == "character":
            return self.character(found["character"])
        if kind == "uninterned":
            return Symbol(name_of(found["uninterned"]), None)
        if kind == "keyword":
            return Symbol(name_of(found["keyword"]), KEYWORD)
        prefix = found["prefix"]
        return self.symbol_of(name_of(prefix) if prefix else None, name_of(found["symbol"]))

    def number(self, text: str) -> Value:
        try:
            number = Fraction(text)
        except (ValueError, ZeroDivisionError):
            raise self.wrong() from None
        return number if number.denominator > 1 else number.numerator

    def character(self, text: str) -> Value:
        if len(text) > 1 and text not in CHARACTERS:
            raise self.wrong()
        return Character(CHARACTERS.get(text, text))

    def items(self, depth: int, is_vector: bool) -> Value:
        items: list[Value] = []
        while not self.takes(")"):
            if items and not self.takes(" "):
                raise self.wrong()
            if items and not is_vector and self.takes(". "):
                tail = self.object(depth)
                if not self.takes(")") or isinstance(tail, (list, DottedList)):
                    raise self.wrong()
                return DottedList(tuple(items), tail)
            items.append(self.object(depth))
        return tuple(items) if is_vector else items


def parse_answer(text: str, symbol_of: SymbolOf, unicode: bool = False) -> Value:
    """The object that this is the printed text of. With `unicode` references in texts are characters."""
    if not text.isascii():
        raise MalformedAnswerError(text, "a character is over 127")
    parser = _Parser(text, symbol_of, unicode)
    value = parser.object()
    if parser.place != len(text):
        raise parser.wrong()
    return value
