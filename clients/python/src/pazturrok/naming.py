"""How a store prints symbols: which package is current, and which symbols of COMMON-LISP it finds."""

from __future__ import annotations

from collections.abc import Sequence

from .answers import parse_answer, refusal_of
from .errors import MalformedAnswerError, RefusedError
from .store import Outcome, changes_naming
from .values import LISP, OPERATORS, Symbol, Value

NAMING_QUESTION = (
    f"({LISP}:LIST {LISP}:*PACKAGE* {' '.join(f'{chr(39)}{LISP}:{name}' for name in sorted(OPERATORS))})"
)
"""What the current package is, and which symbols of COMMON-LISP are printed in it without a prefix."""


class Naming:
    """Values by what a store answered last of its names."""

    def __init__(self, unicode: bool) -> None:
        self._unicode = unicode
        self._current = ""
        self._bare: frozenset[str] = frozenset()

    def take(self, answer: str) -> None:
        """Takes the answer to NAMING_QUESTION."""
        named: Value = []
        if not refusal_of(answer):
            named = parse_answer(answer, lambda prefix, name: "" if prefix else name)
        self._current, *bare = map(str, named) if isinstance(named, list) and named else [""]
        self._bare = frozenset(bare) - {""}

    def symbol(self, prefix: str | None, name: str) -> Value:
        """The object for a symbol that an answer names so."""
        package = prefix or (LISP if name in self._bare else self._current)
        symbol = Symbol(name, package)
        return [] if symbol == Symbol("NIL", LISP) else symbol

    def outcome(self, answer: str) -> Outcome:
        """The value that an answer tells; or that the form was refused, or answered with nonsense."""
        try:
            refusal = refusal_of(answer)
            return RefusedError(*refusal) if refusal else parse_answer(answer, self.symbol, self._unicode)
        except MalformedAnswerError as error:
            return error


def until_naming(texts: Sequence[str]) -> Sequence[str]:
    """The first texts, up to one that may change how symbols are printed."""
    for place, text in enumerate(texts):
        if changes_naming(text):
            return texts[: place + 1]
    return texts
