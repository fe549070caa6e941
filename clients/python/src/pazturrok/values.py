"""The objects of a store in Python.

    integer, ratio   int, Fraction
    text             str
    character        Character
    symbol           Symbol
    list             list; the empty list is NIL
    dotted list      DottedList
    vector           tuple
"""

from __future__ import annotations

from dataclasses import dataclass
from fractions import Fraction
from typing import Union

USER = "COMMON-LISP-USER"
LISP = "COMMON-LISP"
KEYWORD = "KEYWORD"
FUNCTIONS = "PAZTURROK"
"""The package of the functions that compare and compute, which a store has once it was opened with them."""

OPERATORS = frozenset(
    """
    T NIL FUNCTION IN-READTABLE *PACKAGE* *READTABLE* *READ-BASE* QUOTE PROGN IF LIST GET SETF REMPROP
    SYMBOL-PLIST INCF PUSH MAKE-PACKAGE IN-PACKAGE EXPORT IMPORT USE-PACKAGE INTERN COPY-READTABLE
    SET-SYNTAX-FROM-CHAR SET-MACRO-CHARACTER GET-MACRO-CHARACTER MAKE-DISPATCH-MACRO-CHARACTER
    SET-DISPATCH-MACRO-CHARACTER GET-DISPATCH-MACRO-CHARACTER READTABLE-CASE
    """.split()
)
"""The names of the store's package COMMON-LISP, all of whose symbols COMMON-LISP-USER finds."""


@dataclass(frozen=True)
class Symbol:
    """A symbol: its name, and the package in which it is named; or None, of one that is uninterned.

    Names are in the case that they are printed in: the symbol that a form calls apple is Symbol("APPLE").
    Uninterned symbols are equal where their names are.
    """

    name: str
    package: str | None = USER

    def __post_init__(self) -> None:
        if self.package == USER and self.name in OPERATORS:
            object.__setattr__(self, "package", LISP)


@dataclass(frozen=True)
class Character:
    """A character."""

    text: str

    def __post_init__(self) -> None:
        if len(self.text) != 1:
            raise ValueError(f"one character is wanted, not {self.text!r}")


@dataclass(frozen=True)
class DottedList:
    """A list that does not end in NIL: its objects, one at least, and its tail, which is no list."""

    items: tuple[Value, ...]
    tail: Value

    def __post_init__(self) -> None:
        if not self.items or isinstance(self.tail, (list, DottedList)):
            raise ValueError("a dotted list has objects, and a tail that is no list")


Value = Union[int, Fraction, str, Character, Symbol, "list[Value]", DottedList, "tuple[Value, ...]"]

T = Symbol("T")
NIL: list[Value] = []


def keyword(name: str) -> Symbol:
    """The keyword of this name."""
    return Symbol(name, KEYWORD)


def quote(value: Value) -> list[Value]:
    """The form whose value is this object."""
    return [Symbol("QUOTE"), value]
