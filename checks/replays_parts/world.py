"""A world, and what forms do to it: the rules of docs/use/operators.md."""

from __future__ import annotations

from typing import Callable

from objects import NIL, TRUE, Beyond, Character, Object, Pairs, Refused, Symbol, Text, depth, keyword, lisp, listed, printed_name, symbols
from packages import KEYWORD, LISP, USER, Packages, name_of
from readtables import FUNCTIONS, NON_TERMINATING, STANDARD, TERMINATING, Entry, Readtable

CASES = ("UPCASE", "DOWNCASE", "PRESERVE", "INVERT")
LEAST, MOST, DEEPEST, MOST_READTABLES = -(2**127), 2**127 - 1, 100, 64


class World:
    """The packages, the property lists, the readtables, and what is current."""

    def __init__(self) -> None:
        self.packages = Packages()
        self.plists: dict[Symbol, dict[Symbol, Object]] = {}
        self.readtables: dict[str, Readtable] = {"STANDARD": STANDARD, "USER": STANDARD}
        self.package, self.readtable, self.base = USER, "USER", 10
        # whether the form that led here made a symbol before it was evaluated, and whether its evaluation wrote
        self.has_more = self.has_written = False

    def copy(self) -> World:
        """The same world, in which nothing was written yet."""
        other = World.__new__(World)
        other.packages, other.plists, other.readtables = self.packages.copy(), dict(self.plists), dict(self.readtables)
        other.package, other.readtable, other.base = self.package, self.readtable, self.base
        other.has_more = other.has_written = False
        return other

    def prefix(self, it: Symbol, package: str | None = None) -> str:
        """What comes before the name of a symbol, as it is printed."""
        assert it.home is not None
        if self.packages.found(package or self.package, it.name) == it.home:
            return ""
        if it.home == KEYWORD:
            return ":"
        return printed_name(it.home) + (":" if self.packages.external(it.home, it.name) == it.home else "::")

    def carried_out(self, form: Object) -> tuple[Object, World]:
        """The value of a form, and the world after it. A new symbol is made before the form is evaluated."""
        world = self.copy()
        for it in symbols(form):
            world.has_more |= world.packages.add(it)
        return world.value(form), world

    # ---- evaluation

    def value(self, form: Object) -> Object:
        """The value of a form."""
        if isinstance(form, Symbol):
            return self.of_symbol(form)
        if not isinstance(form, Pairs):
            return form
        head, *arguments = form.items
        if form.tail != NIL or not isinstance(head, Symbol) or head.home is None:
            raise Refused(30)
        if head.home == "PAZTURROK":
            raise Beyond(head.name)
        if head.home != LISP or head.name not in OPERATORS:
            raise Refused(31)
        least, most, operator = OPERATORS[head.name]
        if not least <= len(arguments) <= most:
            raise Refused(32)
        return operator(self, arguments)

    def of_symbol(self, it: Symbol) -> Object:
        """The value of a symbol."""
        if it.home == KEYWORD or it in (NIL, TRUE):
            return it
        variables: dict[Symbol, Object] = {
            lisp("*PACKAGE*"): Text(self.package), lisp("*READTABLE*"): keyword(self.readtable), lisp("*READ-BASE*"): self.base
        }
        if it not in variables:
            raise Refused(30)
        return variables[it]

    def values(self, forms: list[Object]) -> list[Object]:
        """The values of forms."""
        return [self.value(form) for form in forms]

    def written(self, it: Object) -> Object:
        """The value of an operator that writes."""
        self.has_written = True
        return it

    # ---- properties

    def subforms(self, place: Object) -> list[Object]:
        """The subforms of a place that GET names."""
        if not isinstance(place, Pairs) or place.items[0] != lisp("GET"):
            raise Refused(33)
        if place.tail != NIL:
            raise Beyond("a place with a dot")
        if len(place.items) != 3:
            raise Refused(32)
        return list(place.items[1:])

    def put(self, symbol: Symbol, indicator: Symbol, it: Object) -> Object:
        """The value of a property, which is set."""
        self.plists[symbol] = {**self.plists.get(symbol, {}), indicator: it}
        return self.written(it)

    def get(self, arguments: list[Object]) -> Object:
        symbol, indicator, *default = self.values(arguments)
        plist = self.plists.get(interned(symbol), {})
        return plist.get(interned(indicator), *default or [NIL])

    def setf(self, arguments: list[Object]) -> Object:
        place, form = arguments
        if place == lisp("*READ-BASE*"):
            base = self.value(form)
            if not isinstance(base, int):
                raise Refused(33)
            if not 2 <= base <= 36:
                raise Refused(44)
            self.base = base
            return self.written(base)
        if isinstance(place, Pairs) and place.items[0] == lisp("READTABLE-CASE"):
            return self.set_case(place, form)
        symbol, indicator, it = self.values([*self.subforms(place), form])
        return self.put(interned(symbol), interned(indicator), it)

    def incf(self, arguments: list[Object]) -> Object:
        symbol, indicator, *amount = self.values([*self.subforms(arguments[0]), *arguments[1:]])
        owner, name, step = interned(symbol), interned(indicator), (amount or [1])[0]
        old = self.plists.get(owner, {}).get(name)
        if not isinstance(step, int) or not isinstance(old, int):
            raise Refused(33)
        if not LEAST <= old + step <= MOST:
            raise Refused(44)
        return self.put(owner, name, old + step)

    def push(self, arguments: list[Object]) -> Object:
        it, symbol, indicator = self.values([arguments[0], *self.subforms(arguments[1])])
        owner, name = interned(symbol), interned(indicator)
        return self.put(owner, name, shallow(listed([it], self.plists.get(owner, {}).get(name, NIL))))

    def remprop(self, arguments: list[Object]) -> Object:
        symbol, indicator = map(interned, self.values(arguments))
        if indicator not in self.plists.get(symbol, {}):
            return NIL
        self.plists[symbol] = {other: it for other, it in self.plists[symbol].items() if other != indicator}
        return self.written(TRUE)

    def symbol_plist(self, arguments: list[Object]) -> Object:
        plist = self.plists.get(interned(self.value(arguments[0])), {})
        return shallow(listed([part for pair in plist.items() for part in pair]))

    # ---- packages

    def make_package(self, arguments: list[Object]) -> Object:
        name = name_of(self.value(arguments[0]))
        self.packages.make(name)
        return self.written(Text(name))

    def in_package(self, arguments: list[Object]) -> Object:
        self.package = self.packages.designated(arguments[0])
        return self.written(Text(self.package))

    def changed(self, change: Callable[[Packages, list[Object], str], bool], arguments: list[Object]) -> Object:
        """T, of an operator that changes a package by an object or by a list of them."""
        it, *package = self.values(arguments)
        if isinstance(it, Pairs) and it.tail != NIL:
            raise Refused(33)
        parts = list(it.items) if isinstance(it, Pairs) else [] if it == NIL else [it]
        names = [name_of(part) for part in parts]
        if len(names) > 1:
            raise Beyond("several at once")
        where = self.packages.designated(package[0]) if package else self.package
        self.has_written |= change(self.packages, parts, where)
        return TRUE

    def use_package(self, arguments: list[Object]) -> Object:
        return self.changed(lambda them, parts, where: them.use([them.designated(it) for it in parts], where), arguments)

    def export(self, arguments: list[Object]) -> Object:
        return self.changed(lambda them, parts, where: them.export([interned(it) for it in parts], where), arguments)

    def bring(self, arguments: list[Object]) -> Object:
        return self.changed(lambda them, parts, where: them.bring([interned(it) for it in parts], where), arguments)

    def intern(self, arguments: list[Object]) -> Object:
        it, *package = self.values(arguments)
        if not isinstance(it, Text):
            raise Refused(33)
        where = self.packages.designated(package[0]) if package else self.package
        home = self.packages.found(where, it.letters)
        if home is None and where in (LISP, KEYWORD):
            raise Beyond("a symbol of a package that is locked")
        if len(it.letters) > 4096:
            raise Refused(46)
        symbol = Symbol(home or where, it.letters)
        self.has_written |= self.packages.add(symbol)
        return symbol

    # ---- readtables

    def table(self, name: str) -> Readtable:
        """The readtable of this name."""
        if name not in self.readtables:
            raise Refused(39)
        return self.readtables[name]

    def put_entry(self, name: str, code: int, entry: Entry) -> Object:
        """T, where a character of a readtable gets this entry."""
        table = self.table(name)
        if name == "STANDARD":
            raise Refused(40)
        self.readtables[name] = table.with_entry(code, entry)
        return self.written(TRUE)

    def set_case(self, place: Pairs, form: Object) -> Object:
        if place.tail != NIL:
            raise Beyond("a place with a dot")
        if len(place.items) != 2:
            raise Refused(32)
        name, case = map(word, self.values([place.items[1], form]))
        if case not in CASES:
            raise Refused(33)
        table = self.table(name)
        if name == "STANDARD":
            raise Refused(40)
        self.readtables[name] = table.with_case(case)
        return self.written(keyword(case))

    def copy_readtable(self, arguments: list[Object]) -> Object:
        source, name = self.values(arguments)
        copied, name = "STANDARD" if source == NIL else word(source), word(name)
        table = self.table(copied)
        if name == "STANDARD":
            raise Refused(40)
        if name not in self.readtables and len(self.readtables) == MOST_READTABLES:
            raise Refused(46)
        self.readtables[name] = table
        return self.written(keyword(name))

    def in_readtable(self, arguments: list[Object]) -> Object:
        name = word(self.value(arguments[0]))
        self.table(name)
        self.readtable = name
        return self.written(keyword(name))

    def set_syntax(self, arguments: list[Object]) -> Object:
        if len(arguments) > 2:
            raise Beyond("a readtable that is named")
        to, source = map(code_of, self.values(arguments))
        return self.put_entry(self.readtable, to, STANDARD.entries[source])

    def set_macro(self, arguments: list[Object]) -> Object:
        character, function, *others = self.values(arguments)
        code, name = code_of(character), word(function)
        table = word(others[1]) if len(others) == 2 else self.readtable
        kind = NON_TERMINATING if others and others[0] != NIL else TERMINATING
        self.table(table)
        if table != "STANDARD" and name not in FUNCTIONS:
            raise Refused(41)
        return self.put_entry(table, code, Entry(kind, name))


def interned(it: Object) -> Symbol:
    """The symbol of a package that it has to be."""
    if not isinstance(it, Symbol) or it.home is None:
        raise Refused(33)
    return it


def word(it: Object) -> str:
    """The name of the keyword that it has to be."""
    if not isinstance(it, Symbol) or it.home != KEYWORD:
        raise Refused(33)
    return it.name


def code_of(it: Object) -> int:
    """The character that it has to be."""
    if not isinstance(it, Character):
        raise Refused(33)
    return it.code


def shallow(it: Object) -> Object:
    """A value that is not too deep."""
    if depth(it) > DEEPEST:
        raise Refused(45)
    return it


def unknown(world: World, arguments: list[Object]) -> Object:
    """An operator that the model does not know."""
    raise Beyond("an operator")


def progn(world: World, arguments: list[Object]) -> Object:
    return (world.values(arguments) or [NIL])[-1]


def either(world: World, arguments: list[Object]) -> Object:
    test, then, *other = arguments
    chosen = [then] if world.value(test) != NIL else other
    return world.value(chosen[0]) if chosen else NIL


ANY = 10**9
Operator = Callable[[World, "list[Object]"], Object]
OPERATORS: dict[str, tuple[int, int, Operator]] = {
    "QUOTE": (1, 1, lambda world, arguments: arguments[0]),
    "PROGN": (0, ANY, progn),
    "IF": (2, 3, either),
    "LIST": (0, ANY, lambda world, arguments: shallow(listed(world.values(arguments)))),
    "GET": (2, 3, World.get), "SETF": (2, 2, World.setf), "INCF": (1, 2, World.incf), "PUSH": (2, 2, World.push),
    "REMPROP": (2, 2, World.remprop), "SYMBOL-PLIST": (1, 1, World.symbol_plist),
    "MAKE-PACKAGE": (1, 1, World.make_package), "IN-PACKAGE": (1, 1, World.in_package), "EXPORT": (1, 2, World.export),
    "IMPORT": (1, 2, World.bring), "USE-PACKAGE": (1, 2, World.use_package), "INTERN": (1, 2, World.intern),
    "COPY-READTABLE": (2, 2, World.copy_readtable), "IN-READTABLE": (1, 1, World.in_readtable),
    "SET-SYNTAX-FROM-CHAR": (2, 4, World.set_syntax), "SET-MACRO-CHARACTER": (2, 4, World.set_macro),
    "GET-MACRO-CHARACTER": (1, 2, unknown), "MAKE-DISPATCH-MACRO-CHARACTER": (1, 3, unknown),
    "SET-DISPATCH-MACRO-CHARACTER": (3, 4, unknown), "GET-DISPATCH-MACRO-CHARACTER": (2, 3, unknown),
    "READTABLE-CASE": (1, 1, unknown),
}
