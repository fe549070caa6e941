"""Objects, and how they are printed."""

from __future__ import annotations

from fractions import Fraction
from typing import Callable, NamedTuple, Union


class Symbol(NamedTuple):
    """A symbol, by the name of its home, which is none of a symbol of no package, and its own."""

    home: str | None
    name: str


class Character(NamedTuple):
    """A character."""

    code: int


class Text(NamedTuple):
    """A text."""

    letters: str


class Pairs(NamedTuple):
    """A list with an item at least, and what ends it."""

    items: tuple[Object, ...]
    tail: Object


class Vector(NamedTuple):
    """A vector."""

    items: tuple[Object, ...]


Object = Union[int, Fraction, Symbol, Character, Text, Pairs, Vector]

NIL, TRUE = Symbol("COMMON-LISP", "NIL"), Symbol("COMMON-LISP", "T")


class Refused(Exception):
    """A form is refused, with this number."""

    def __init__(self, number: int) -> None:
        super().__init__(number)
        self.number = number


class Beyond(Exception):
    """What the model does not know."""


def listed(items: list[Object], tail: Object = NIL) -> Object:
    """The list of these items, with this end."""
    if not items:
        return tail
    if isinstance(tail, Pairs):
        return Pairs((*items, *tail.items), tail.tail)
    return Pairs(tuple(items), tail)


def lisp(name: str) -> Symbol:
    """The symbol of COMMON-LISP with this name."""
    return Symbol("COMMON-LISP", name)


def keyword(name: str) -> Symbol:
    """The keyword with this name."""
    return Symbol("KEYWORD", name)


def depth(it: Object) -> int:
    """How many lists and vectors stand in one another."""
    if isinstance(it, Pairs):
        return 1 + max(map(depth, (*it.items, it.tail)))
    return 1 + max(map(depth, it.items), default=0) if isinstance(it, Vector) else 0


def symbols(it: Object) -> list[Symbol]:
    """The symbols of packages in an object, in its order."""
    if isinstance(it, Symbol):
        return [it] if it.home is not None else []
    parts = (*it.items, it.tail) if isinstance(it, Pairs) else it.items if isinstance(it, Vector) else ()
    return [one for part in parts for one in symbols(part)]


CAPITALS = set("ABCDEFGHIJKLMNOPQRSTUVWXYZ*!$<>=?%&_")
LATER = CAPITALS | set("0123456789+-/")
CONTROLS = {*map(chr, range(8)), chr(11), *map(chr, range(14, 32))}
NAMED = {32: "Space", 10: "Newline", 9: "Tab", 12: "Page", 13: "Return", 8: "Backspace", 127: "Rubout"}


def printed_name(name: str) -> str:
    """A name as it is written."""
    if name and name[0] in CAPITALS and LATER.issuperset(name):
        return name
    return "|" + "".join("\\" + c if c in "|\\" or c in CONTROLS else c for c in name) + "|"


def printed_text(letters: str) -> str:
    """A text as it is written."""
    return '"' + letters.replace("\\", "\\\\").replace('"', '\\"') + '"'


def printed(it: Object, prefix: Callable[[Symbol], str]) -> str:
    """The text of an object, where this is what comes before the name of a symbol."""
    if isinstance(it, Symbol):
        return ("#:" if it.home is None else prefix(it)) + printed_name(it.name)
    if isinstance(it, Character):
        return "#\\" + NAMED.get(it.code, chr(it.code))
    if isinstance(it, Text):
        return printed_text(it.letters)
    if isinstance(it, Vector):
        return "#(" + " ".join(printed(one, prefix) for one in it.items) + ")"
    if isinstance(it, Pairs):
        end = "" if it.tail == NIL else " . " + printed(it.tail, prefix)
        return "(" + " ".join(printed(one, prefix) for one in it.items) + end + ")"
    return str(it)
