"""Readtables: what each character does."""

from __future__ import annotations

from typing import NamedTuple

WHITESPACE, CONSTITUENT, TERMINATING, NON_TERMINATING, SINGLE_ESCAPE, MULTIPLE_ESCAPE, INVALID = range(7)


class Entry(NamedTuple):
    """The type of a character, the name of its function, and those behind it, if it is a dispatching one."""

    kind: int
    function: str | None = None
    behind: tuple[tuple[int, str], ...] = ()


class Readtable(NamedTuple):
    """The case of letters, and the entries of all characters."""

    case: str
    entries: tuple[Entry, ...]

    def at(self, code: int) -> Entry:
        """The entry of a byte."""
        return self.entries[code] if code < 128 else Entry(INVALID)

    def with_entry(self, code: int, entry: Entry) -> Readtable:
        """The same readtable with another entry."""
        return self._replace(entries=(*self.entries[:code], entry, *self.entries[code + 1 :]))

    def with_case(self, case: str) -> Readtable:
        """The same readtable with another case."""
        return self._replace(case=case)


BEHIND_SHARP = {
    "\\": "STD-CHAR", "'": "STD-FUNCTION", "(": "STD-VECTOR", ":": "STD-UNINTERNED", "|": "STD-BLOCK", "B": "STD-BINARY",
    "O": "STD-OCTAL", "X": "STD-HEX", "R": "STD-RADIX", **dict.fromkeys(".=#+-*ACPS", "STD-OUT"),
}
AT_CHARACTERS = {
    **{c: Entry(WHITESPACE) for c in "\t\n\x0c\r \x7f"},
    **{chr(code): Entry(INVALID) for code in (*range(8), 11, *range(14, 32))},
    '"': Entry(TERMINATING, "STD-STRING"), "'": Entry(TERMINATING, "STD-QUOTE"), "(": Entry(TERMINATING, "STD-LIST"),
    ")": Entry(TERMINATING, "STD-CLOSE"), ",": Entry(TERMINATING, "STD-OUT"), ";": Entry(TERMINATING, "STD-COMMENT"),
    "`": Entry(TERMINATING, "STD-OUT"), "\\": Entry(SINGLE_ESCAPE), "|": Entry(MULTIPLE_ESCAPE),
    "#": Entry(NON_TERMINATING, "STD-DISPATCH", tuple(sorted((ord(c), name) for c, name in BEHIND_SHARP.items()))),
}
STANDARD = Readtable("UPCASE", tuple(AT_CHARACTERS.get(chr(code), Entry(CONSTITUENT)) for code in range(128)))

# The functions that a form may name.
FUNCTIONS = {name for entry in STANDARD.entries for name in (entry.function, *dict(entry.behind).values()) if name}
FUNCTIONS = FUNCTIONS - {"STD-DISPATCH"} | {"SQUARE", "CLOSE", "NOTE", "SKIP", "UNIT", "SCALE"}
