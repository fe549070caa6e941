"""Messages of a client with a name: their frames, and the number of the last one that a store has."""

from __future__ import annotations

import re

from .errors import LostAnswerError, RefusedError, StoreError, UnsendableError
from .printer import FORM_LIMIT
from .store import Outcome

NAME = re.compile(r"[A-Za-z0-9._-]{1,100}")
"""What the name of a client is, and that of a message to nodes."""

NAME_RULE = "a name has 1 to 100 letters, digits, dots, hyphens and underscores"
GREATEST_NUMBER = (1 << 64) - 1

NO_PACKAGE, NO_ENTRY, NOT_KEPT = 11, 48, 49
"""Refusals: of a store that has no table of clients yet; of one whose entry a form has overwritten; of a message that was carried
out, and whose answer the store does not keep."""


def checked_name(name: str) -> str:
    """A name that a store takes."""
    if not NAME.fullmatch(name):
        raise UnsendableError(name, NAME_RULE)
    return name


def checked_number(number: int) -> int:
    """A number that a message may have."""
    if not 0 <= number <= GREATEST_NUMBER:
        raise UnsendableError(number, "a number is from 0 to 18,446,744,073,709,551,615")
    return number


def named_message(name: str, number: int, text: str | None) -> str:
    """A message of a client without the newline at its end. Without a text it takes the entry of the client away."""
    named = name if text is None else f"{name} {text}"
    if len(named) > FORM_LIMIT:
        raise UnsendableError(text, f"with the name of the client it is longer than {FORM_LIMIT} characters")
    return f"by {number} {len(named)}\n{named}"


def outcome_of_named(outcome: Outcome, number: int) -> Outcome:
    """The outcome of a message of a client, by its answer."""
    is_lost = isinstance(outcome, RefusedError) and outcome.number == NOT_KEPT
    return LostAnswerError(number) if is_lost else outcome


def question_of_entry(name: str) -> str:
    """A form whose value is the entry of a client."""
    return f"(COMMON-LISP:GET (COMMON-LISP:QUOTE %CLIENTS::|{name}|) (COMMON-LISP:QUOTE %CLIENTS::%MESSAGE))"


def number_of_entry(entry: Outcome) -> int:
    """The number of the last message of a client, by its entry; 0 where it has none. RefusedError where it is none."""
    if entry == [] or (isinstance(entry, RefusedError) and entry.number == NO_PACKAGE):
        return 0
    if isinstance(entry, StoreError):
        raise entry
    if isinstance(entry, list) and isinstance(entry[0], int):
        return entry[0]
    raise RefusedError(NO_ENTRY, "NO-ENTRY")
