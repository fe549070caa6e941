"""What a text begins with: the rules of reading, as docs/use/language.md has them."""

from __future__ import annotations

from typing import NamedTuple

from objects import Beyond, Character, Object, Refused, Symbol, Text, Vector, lisp, listed
from packages import Packages
from readtables import INVALID, NON_TERMINATING, SINGLE_ESCAPE, TERMINATING, WHITESPACE, Readtable
from tokens import PLAIN, Mark, characters, folded, number_in, parts_of, scanned

# So many calls may be open at once; and a vector with a length is known up to this one.
NESTING, LONGEST_VECTOR = 100, 1000
CHARACTERS = {"space": 32, "newline": 10, "tab": 9, "page": 12, "return": 13, "linefeed": 10, "backspace": 8, "rubout": 127}


class Item(NamedTuple):
    """An object, and whether a token ends it."""

    it: Object
    is_token: bool


class Form(NamedTuple):
    """An object, where its text begins and ends, and where the next form begins."""

    it: Object
    start: int
    end: int
    next: int


# What may come in place of an object: discarded text, a dot, the end of the text, the character that closes a list.
NOTHING, DOT, END, CLOSED = "nothing", "dot", "end", "closed"


class Reader:
    """Reads a text under a readtable, in a base, in a package."""

    def __init__(self, text: bytes, table: Readtable, base: int, packages: Packages, current: str) -> None:
        self.text, self.table, self.base, self.packages, self.current = text, table, base, packages, current
        self.at = 0

    def form(self, at: int) -> Form | None:
        """The form that comes next, if one comes."""
        while True:
            self.at = at
            found = self.attempt(NESTING)
            if found is NOTHING:
                at = self.at
            elif found is END:
                return None
            elif isinstance(found, Item):
                end = self.at
                self.pass_space(found.is_token)
                return Form(found.it, at, end, self.at)
            else:
                raise Refused(5)

    def pass_space(self, is_token: bool) -> None:
        """Passes the one whitespace character that ended a token."""
        if is_token and self.at < len(self.text) and self.table.at(self.text[self.at]).kind == WHITESPACE:
            self.at += 1

    def byte(self) -> int:
        """The next byte, which has to be a character."""
        if self.at == len(self.text):
            raise Refused(1)
        if self.text[self.at] > 127:
            raise Refused(2)
        self.at += 1
        return self.text[self.at - 1]

    def attempt(self, room: int) -> Item | str:
        """What comes next, where so many calls may be opened."""
        if self.at == len(self.text):
            return END
        code = self.text[self.at]
        entry = self.table.at(code)
        if entry.kind == INVALID:
            raise Refused(2)
        if entry.kind == WHITESPACE:
            self.at += 1
            return NOTHING
        if entry.kind in (TERMINATING, NON_TERMINATING):
            self.at += 1
            return self.dispatched(code, room) if entry.function == "STD-DISPATCH" else self.called(entry.function or "", code, None, room)
        marks, self.at = scanned(self.text, self.at, self.table)
        found = self.meaning(folded(marks, self.table.case))
        return DOT if found is None else Item(found, True)

    # ---- tokens

    def meaning(self, marks: list[Mark]) -> Object | None:
        """The object that a token is, or nothing of a dot."""
        if all(kind == PLAIN for kind, _ in marks):
            text = characters(marks)
            if not text.strip("."):
                if text != ".":
                    raise Refused(6)
                return None
            number = number_in(text, self.base)
            if number is not None:
                return number
        return self.named(parts_of(marks))

    def named(self, parts: list[list[Mark]]) -> Symbol:
        """The symbol of a token that is cut at its colons."""
        names = [characters(part) for part in parts]
        if len(parts) == 1:
            return self.packages.resolved(self.current, names[0])
        if len(parts) == 2 and parts[1] and not parts[0]:
            return Symbol("KEYWORD", names[1])
        is_internal = len(parts) == 3 and not parts[1]
        if not parts[0] or not parts[-1] or not (len(parts) == 2 or is_internal):
            raise Refused(10)
        package = self.packages.full(names[0])
        if package is None:
            raise Refused(11)
        if is_internal:
            return self.packages.resolved(package, names[-1])
        home = self.packages.external(package, names[-1])
        if home is None:
            raise Refused(12)
        return Symbol(home, names[-1])

    # ---- calls

    def dispatched(self, code: int, room: int) -> Item | str:
        """The call of a dispatching character."""
        number = None
        while self.at < len(self.text) and 48 <= self.text[self.at] <= 57:
            number = (number or 0) * 10 + self.text[self.at] - 48
            if number > 999999:
                raise Refused(15)
            self.at += 1
        behind = ord(chr(self.byte()).upper())
        function = dict(self.table.at(code).behind).get(behind)
        if function is None:
            raise Refused(14)
        return self.called(function, code, number, room)

    def called(self, function: str, code: int, number: int | None, room: int) -> Item | str:
        """What the function of a macro character gives."""
        if function == "STD-CLOSE":
            raise Refused(4)
        if function == "STD-OUT":
            raise Refused(25)
        if function == "STD-COMMENT":
            return self.line()
        if function == "STD-STRING":
            return Item(self.string(code), False)
        if function in ("STD-CHAR", "STD-UNINTERNED"):
            return Item(self.of_token(function), True)
        if function not in ("STD-LIST", "STD-QUOTE", "STD-FUNCTION", "STD-VECTOR"):
            raise Beyond(function)
        if room == 0:
            raise Refused(22)
        if function == "STD-LIST":
            return Item(self.list(room - 1), False)
        if function == "STD-VECTOR":
            return Item(self.vector(number, room - 1), False)
        inner = self.piece(None, room - 1)
        if not isinstance(inner, Item):
            raise Refused(5)
        return Item(listed([lisp(function[4:]), inner.it]), inner.is_token)

    def line(self) -> str:
        """A comment."""
        while self.at < len(self.text) and self.byte() != 10:
            pass
        return NOTHING

    def string(self, close: int) -> Object:
        """A text."""
        letters = ""
        while (code := self.byte()) != close:
            letters += chr(self.byte() if self.table.at(code).kind == SINGLE_ESCAPE else code)
        return Text(letters)

    def of_token(self, function: str) -> Object:
        """A character, or a symbol of no package."""
        marks, self.at = scanned(self.text, self.at, self.table, is_escaped=function == "STD-CHAR")
        if function == "STD-UNINTERNED":
            if not marks or (PLAIN, ":") in marks:
                raise Refused(19)
            return Symbol(None, characters(folded(marks, self.table.case)))
        name = characters(marks)
        code = ord(name) if len(name) == 1 else CHARACTERS.get(name.lower())
        if code is None:
            raise Refused(16)
        return Character(code)

    def piece(self, close: int | None, room: int) -> Item | str:
        """What comes next within a call: an object, a dot, or the character that closes it."""
        while True:
            if close is not None and self.at < len(self.text) and self.text[self.at] == close:
                self.at += 1
                return CLOSED
            found = self.attempt(room)
            if found is END:
                raise Refused(1)
            if found is not NOTHING:
                return found

    def items(self, room: int) -> tuple[list[Object], bool]:
        """The objects up to a parenthesis, or up to a dot; and whether it was a parenthesis."""
        items: list[Object] = []
        while isinstance(found := self.piece(41, room), Item):
            self.pass_space(found.is_token)
            items.append(found.it)
        return items, found is CLOSED

    def list(self, room: int) -> Object:
        """A list."""
        items, is_closed = self.items(room)
        if is_closed:
            return listed(items)
        tail = self.piece(41, room) if items else DOT
        if not isinstance(tail, Item):
            raise Refused(5)
        self.pass_space(tail.is_token)
        if self.piece(41, room) is not CLOSED:
            raise Refused(5)
        return listed(items, tail.it)

    def vector(self, number: int | None, room: int) -> Object:
        """A vector, of the length that was written, if one was."""
        items, is_closed = self.items(room)
        if not is_closed:
            raise Refused(5)
        if number is None:
            return Vector(tuple(items))
        if len(items) > number or number and not items:
            raise Refused(18)
        if number > LONGEST_VECTOR:
            raise Beyond("a long vector")
        return Vector(tuple([*items, *items[-1:] * (number - len(items))]))
