"""A store: what a session answers, the text of the world that it leaves, and the bytes of its first half."""

from __future__ import annotations

import re
from collections.abc import Iterable

from lib import halves
from lib.halves import Record
from objects import Object, Refused, Symbol, Text, listed, printed
from packages import KEYWORD, LISP, OF_KEYWORD, USER
from reader import Form, Reader
from readtables import STANDARD, Readtable
from world import World

# The numbers that these forms come to.
REFUSALS = {
    1: "END-OF-FILE", 2: "INVALID-CHARACTER", 3: "INVALID-TRAIT", 4: "STRAY-CLOSE", 5: "DOT-CONTEXT", 6: "DOTS-ONLY", 7: "FLOAT-TOKEN",
    8: "NUMBER-RANGE", 9: "ZERO-DENOMINATOR", 10: "PACKAGE-MARKERS", 11: "NO-PACKAGE", 12: "NOT-EXTERNAL", 13: "LOCKED-PACKAGE",
    14: "NO-DISPATCH", 15: "NUMERIC-ARGUMENT", 16: "CHARACTER-NAME", 18: "VECTOR-LENGTH", 19: "UNINTERNED-TOKEN", 22: "TOO-DEEP",
    24: "TOKEN-TOO-LONG", 25: "OUT-OF-PROFILE", 26: "TEXT-LEFT-OVER", 30: "NOT-A-FORM", 31: "UNKNOWN-OPERATOR", 32: "ARGUMENT-COUNT",
    33: "ARGUMENT-KIND", 34: "NO-SUCH-PACKAGE", 35: "PACKAGE-EXISTS", 36: "PACKAGE-IS-LOCKED", 37: "NAME-CONFLICT", 38: "NOT-ACCESSIBLE",
    39: "NO-READTABLE", 40: "STANDARD-READTABLE", 41: "NO-MACRO", 44: "INTEGER-RANGE", 45: "VALUE-TOO-DEEP", 46: "LIMIT",
    51: "QUESTION-WRITES",
}
POSITION = Symbol(USER, "position")
FRAME = re.compile(rb"(?:do ([0-9]+)|ask) ([0-9]+)\n")


def refusal(number: int) -> str:
    """The line of a refusal."""
    return f"! {number} {REFUSALS[number]}"


class Store:
    """The world now, the world of the snapshot, and the records after it."""

    def __init__(self) -> None:
        self.world = World()
        self.snapshot = self.text()
        self.records: list[Record] = []
        # whether no session was of messages, whose records are not known here
        self.has_records = True

    # ---- sessions

    def run(self, options: list[str], text: bytes) -> tuple[int, bytes]:
        """The status and the output of a session."""
        if "--messages" in options:
            return 0, self.messages(text)
        is_rescue, is_strict, is_quiet = ("--rescue" in options, "--strict" in options, "--quiet" in options)
        output, at = "", 0
        while True:
            try:
                form = self.read(text, at, is_rescue)
                if form is None:
                    return 0, output.encode("latin-1")
                answer = self.answered(form.it, Record(is_rescue, text[form.start : form.end]))
            except Refused as why:
                output += refusal(why.number) + "\n"
                if why.number < 26 or is_strict:
                    return 1, output.encode("latin-1")
            else:
                output += "" if is_quiet else answer + "\n"
            at = form.next if form else at

    def read(self, text: bytes, at: int, is_rescue: bool) -> Form | None:
        """The next form of a text."""
        world = self.world
        table, base, package = world.readtables[world.readtable], world.base, world.package
        if is_rescue:
            table, base, package = STANDARD, 10, USER
        return Reader(text, table, base, world.packages, package).form(at)

    def answered(self, form: Object, record: Record) -> str:
        """The answer to a form, which is logged if it writes."""
        value, world = self.world.carried_out(form)
        self.world = world
        if world.has_more or world.has_written:
            self.records.append(record)
        return printed(value, world.prefix)

    def messages(self, text: bytes) -> bytes:
        """The output of a session of messages, each of which is new. It begins with a symbol for the position."""
        output, self.has_records = b"at 0\n", False
        self.world.packages.add(POSITION)
        while text:
            head = FRAME.match(text)
            assert head
            form = text[head.end() : head.end() + int(head[2])]
            text = text[head.end() + int(head[2]) + 1 :]
            answer = self.told(form, head[1] is None).encode("latin-1")
            output += b"%s %d\n%s\n" % (head[1] or b"ask", len(answer), answer)
        return output

    def told(self, text: bytes, is_question: bool) -> str:
        """The answer to a message or to a question."""
        try:
            form = self.read(text, 0, False)
            if form is None:
                raise Refused(1)
            if form.next != len(text):
                raise Refused(26)
            value, world = self.world.carried_out(form.it)
        except Refused as why:
            return refusal(why.number)
        if is_question and world.has_written:
            return refusal(51)
        answer = printed(value, world.prefix)
        self.world = self.world if is_question else world
        return answer

    # ---- the text of the world, and the files

    def text(self) -> str:
        """The text of the world, as `dump` writes it."""
        rows = (self.packages_row(), self.properties_row(), self.settings_row())
        return "".join(printed(row, lambda it: self.world.prefix(it, USER)) + "\n" for row in rows)

    def packages_row(self) -> Object:
        """The packages."""
        rows = []
        for name, it in sorted(self.world.packages.named.items()):
            own = [one for one, home in it.homes.items() if home == name and not (name == KEYWORD and one in OF_KEYWORD)]
            imports = [listed([Text(one), Text(home)]) for one, home in sorted(it.homes.items()) if home != name]
            if name != LISP:
                rows.append(listed([Text(name), texts(it.uses), texts(own), texts(it.externals), listed(imports)]))
        return listed(list(rows))

    def properties_row(self) -> Object:
        """The property lists."""
        plists = sorted((symbol.home or "", symbol.name, symbol, plist) for symbol, plist in self.world.plists.items() if plist)
        rows = [listed([symbol, *(part for pair in plist.items() for part in pair)]) for _, _, symbol, plist in plists]
        return listed(list(rows))

    def settings_row(self) -> Object:
        """What is current, and the readtables."""
        world = self.world
        tables = [listed([Text(name), Text(table.case), entries(table)]) for name, table in sorted(world.readtables.items()) if name != "STANDARD"]
        return listed([Text(world.package), Text(world.readtable), world.base, listed(list(tables))])

    def half(self, version: int = 2, sizes: Iterable[int] = ()) -> bytes:
        """The bytes of the first half, which is in use as long as no snapshot is taken; in version 3 the records came in
        batches of these sizes, and then one by one."""
        snapshot = self.snapshot.encode("latin-1")
        if version < 3:
            return halves.gated(version, 1, snapshot, self.records)
        batches, left = [], self.records
        for size in sizes:
            batches.append(left[:size])
            left = left[size:]
        return halves.batched(1, snapshot, [*batches, *([record] for record in left)])


def texts(names: list[str] | set[str]) -> Object:
    """A list of texts, in the order of their bytes."""
    return listed([Text(name) for name in sorted(names)])


def entries(table: Readtable) -> Object:
    """The characters in which a readtable is not the standard one."""
    rows = []
    for code, entry in enumerate(table.entries):
        if entry != STANDARD.entries[code]:
            behind = listed([listed([sub, Text(name)]) for sub, name in entry.behind])
            rows.append(listed([code, entry.kind, Text(entry.function or ""), behind]))
    return listed(list(rows))
