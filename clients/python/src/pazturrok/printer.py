"""Objects as text that every session reads: under the standard readtable, and in COMMON-LISP-USER or, where it says so, in every package."""

from __future__ import annotations

import re
from collections.abc import Iterator
from fractions import Fraction
from typing import NamedTuple

from .errors import UnsendableError
from .references import with_references
from .values import KEYWORD, LISP, OPERATORS, USER, Character, DottedList, Symbol, Value

FORM_LIMIT = 1 << 20
"""How many bytes a form may have (23)."""
TOKEN_LIMIT = 4096
"""How many characters a token may have (24), and a symbol's name."""
DEPTH_LIMIT = 100
"""How many lists and vectors may be open at once (22)."""

CHARACTER_NAMES = {
    " ": "Space",
    "\n": "Newline",
    "\t": "Tab",
    "\f": "Page",
    "\r": "Return",
    "\b": "Backspace",
    "\x7f": "Rubout",
}
SHORT_NAMES = {USER: "CL-USER::", LISP: "CL:"}
"""How a symbol is named in every package. No form gives these nicknames to another one."""
QUOTE, TRUE = Symbol("QUOTE"), Symbol("T")
PLAIN_NAME = re.compile(r"[A-Z*!$<>=?%&_][A-Z0-9*!$<>=?%&_+/-]*")
ESCAPED_IN_BARS = re.compile(r"[|\\\x00-\x07\x0b\x0e-\x1f]")


def check_characters(text: str, thing: object) -> None:
    if not text.isascii():
        raise UnsendableError(thing, "a character is over 127")


def name_text(name: str) -> str:
    if PLAIN_NAME.fullmatch(name):
        return name
    return "|" + ESCAPED_IN_BARS.sub(r"\\\g<0>", name) + "|"


def string_text(text: str, unicode: bool = False) -> str:
    if unicode:
        text = with_references(text)
    check_characters(text, text)
    return '"' + text.replace("\\", "\\\\").replace('"', '\\"') + '"'


class Manner(NamedTuple):
    """How objects are written."""

    unicode: bool
    """Whether texts may have characters past ASCII, as references."""
    anywhere: bool = False
    """Whether the text means the same in every package and read base, or in COMMON-LISP-USER in base 10 alone."""


def symbol_text(symbol: Symbol, anywhere: bool = False) -> str:
    name, package = symbol.name, symbol.package
    check_characters(name, symbol)
    check_characters(package or "", symbol)
    home = SHORT_NAMES.get(package or "", "") if anywhere else ""
    prefix = home if package in (None, USER, LISP, KEYWORD) else f"{package}::"
    if len(prefix) + len(name) > TOKEN_LIMIT:
        raise UnsendableError(symbol, f"it has more than {TOKEN_LIMIT} characters")
    if package is None:
        return "#:" + name_text(name)
    if package == KEYWORD:
        return ":" + name_text(name)
    if package == LISP and name not in OPERATORS:
        raise UnsendableError(symbol, "COMMON-LISP has no symbol of this name")
    if package in (USER, LISP):
        return home + name_text(name)
    return name_text(package) + "::" + name_text(name)


def rational_text(number: int | Fraction, anywhere: bool = False) -> str:
    if not (-(1 << 127) <= number.numerator < 1 << 127 and number.denominator < 1 << 128):
        raise UnsendableError(number, "it has more than 128 bits")
    # str() of a member of an Enum is its name
    numerator, denominator = int(number.numerator), int(number.denominator)
    if denominator == 1:
        return f"{numerator}." if anywhere else str(numerator)
    return f"{'#10R' if anywhere else ''}{numerator}/{denominator}"


def character_text(character: Character) -> str:
    check_characters(character.text, character)
    return "#\\" + CHARACTER_NAMES.get(character.text, character.text)


def items_pieces(items: list[Value] | tuple[Value, ...], depth: int, manner: Manner) -> Iterator[str]:
    separator = ""
    for item in items:
        yield separator
        yield from pieces(item, depth, manner)
        separator = " "


def pieces(value: Value | bool | None, depth: int, manner: Manner) -> Iterator[str]:
    """The text of an object, piece by piece. True is T; False and None are NIL."""
    if isinstance(value, (list, tuple, DottedList)) and value != []:
        depth += 1
        if depth > DEPTH_LIMIT:
            raise UnsendableError("an object", f"it is deeper than {DEPTH_LIMIT}, or circular")
    if value is True:
        yield symbol_text(TRUE, manner.anywhere)
    elif value is False or value is None or value == []:
        yield "()" if manner.anywhere else "NIL"
    elif isinstance(value, (int, Fraction)):
        yield rational_text(value, manner.anywhere)
    elif isinstance(value, str):
        yield string_text(value, manner.unicode)
    elif isinstance(value, Character):
        yield character_text(value)
    elif isinstance(value, Symbol):
        yield symbol_text(value, manner.anywhere)
    elif manner.anywhere and isinstance(value, list) and len(value) == 2 and value[0] == QUOTE:
        yield "'"
        yield from pieces(value[1], depth, manner)
    elif isinstance(value, (list, tuple)):
        yield "#(" if isinstance(value, tuple) else "("
        yield from items_pieces(value, depth, manner)
        yield ")"
    elif isinstance(value, DottedList):
        yield "("
        yield from items_pieces(value.items, depth, manner)
        yield " . "
        yield from pieces(value.tail, depth, manner)
        yield ")"
    else:
        raise UnsendableError(value, f"a store has no objects of type {type(value).__name__}")


def printed(value: Value | bool | None, *, unicode: bool = True, anywhere: bool = False) -> str:
    """The text of an object, as a form has it.

    Characters past ASCII in texts are references; without `unicode` they are refused. It is for a session in
    COMMON-LISP-USER and base 10; with `anywhere` it means the same in every package and read base.
    """
    parts = []
    room = FORM_LIMIT
    for piece in pieces(value, 0, Manner(unicode, anywhere)):
        parts.append(piece)
        room -= len(piece)
        if room < 0:
            raise UnsendableError("an object", f"it is longer than {FORM_LIMIT} characters")
    return "".join(parts)


def packages_of(value: object) -> Iterator[str]:
    """The packages that the text of an object names."""
    if isinstance(value, Symbol):
        if value.package not in (None, USER, LISP, KEYWORD):
            yield str(value.package)
    elif isinstance(value, (list, tuple)):
        for item in value:
            yield from packages_of(item)
    elif isinstance(value, DottedList):
        yield from packages_of(value.items)
        yield from packages_of(value.tail)
