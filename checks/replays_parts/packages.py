"""Packages: which symbols they have, and which one a name finds."""

from __future__ import annotations

from dataclasses import dataclass, field

from objects import Object, Refused, Symbol, Text

OF_LISP = """*PACKAGE* *READ-BASE* *READTABLE* COPY-READTABLE EXPORT FUNCTION GET GET-DISPATCH-MACRO-CHARACTER GET-MACRO-CHARACTER IF IMPORT
IN-PACKAGE IN-READTABLE INCF INTERN LIST MAKE-DISPATCH-MACRO-CHARACTER MAKE-PACKAGE NIL PROGN PUSH QUOTE READTABLE-CASE REMPROP
SET-DISPATCH-MACRO-CHARACTER SET-MACRO-CHARACTER SET-SYNTAX-FROM-CHAR SETF SYMBOL-PLIST T USE-PACKAGE""".split()
OF_KEYWORD = """DOWNCASE INVERT PRESERVE STANDARD STD-BINARY STD-BLOCK STD-CHAR STD-CLOSE STD-COMMENT STD-DISPATCH STD-FUNCTION STD-HEX
STD-LIST STD-OCTAL STD-OUT STD-QUOTE STD-RADIX STD-STRING STD-UNINTERNED STD-VECTOR UPCASE USER""".split()
LISP, USER, KEYWORD = "COMMON-LISP", "COMMON-LISP-USER", "KEYWORD"
NICKNAMES = {"CL": LISP, "CL-USER": USER}


@dataclass
class Package:
    """The homes of its symbols by their names, the names that are external, and the packages that it uses."""

    homes: dict[str, str] = field(default_factory=dict)
    externals: set[str] = field(default_factory=set)
    uses: set[str] = field(default_factory=set)

    def copy(self) -> Package:
        """The same package."""
        return Package(dict(self.homes), set(self.externals), set(self.uses))


class Packages:
    """The packages by their names."""

    def __init__(self) -> None:
        self.named: dict[str, Package] = {
            LISP: Package(dict.fromkeys(OF_LISP, LISP)),
            USER: Package(uses={LISP}),
            KEYWORD: Package(dict.fromkeys(OF_KEYWORD, KEYWORD)),
        }

    def copy(self) -> Packages:
        """The same packages. Each is copied before it is changed."""
        other = Packages.__new__(Packages)
        other.named = dict(self.named)
        return other

    def own(self, name: str) -> Package:
        """A package that may be changed."""
        self.named[name] = self.named[name].copy()
        return self.named[name]

    def full(self, name: str) -> str | None:
        """The name of the package that has this name or nickname."""
        name = NICKNAMES.get(name, name)
        return name if name in self.named else None

    def external(self, package: str, name: str) -> str | None:
        """The home of the symbol that is external in a package by this name."""
        it = self.named[package]
        return it.homes.get(name) if package in (LISP, KEYWORD) or name in it.externals else None

    def found(self, package: str, name: str) -> str | None:
        """The home of the symbol that a package finds by this name."""
        it = self.named[package]
        if name in it.homes:
            return it.homes[name]
        return next((home for used in it.uses if (home := self.external(used, name))), None)

    def resolved(self, package: str, name: str) -> Symbol:
        """The symbol that a name stands for in a package: found there, or new."""
        home = self.found(package, name)
        if home is None and package == LISP:
            raise Refused(13)
        return Symbol(home or package, name)

    def add(self, it: Symbol) -> bool:
        """Makes a symbol, if it is not there, and tells whether it was."""
        assert it.home is not None
        is_new = it.name not in self.named[it.home].homes
        if is_new:
            self.own(it.home).homes[it.name] = it.home
        return is_new

    # ---- what the operators do, each of which tells whether it changed anything

    def designated(self, it: Object) -> str:
        """The name of the package that a text or a symbol names."""
        full = self.full(name_of(it))
        if full is None:
            raise Refused(34)
        return full

    def make(self, name: str) -> None:
        """MAKE-PACKAGE."""
        if not name:
            raise Refused(33)
        if self.full(name):
            raise Refused(35)
        if len(name) > 256:
            raise Refused(46)
        self.named[name] = Package()

    def use(self, used: list[str], package: str) -> bool:
        """USE-PACKAGE."""
        if package in (LISP, KEYWORD) or KEYWORD in used:
            raise Refused(36)
        it = self.own(package)
        before = set(it.uses)
        for other in used:
            for name in self.named[other].homes:
                home = self.external(other, name)
                if home and self.found(package, name) not in (None, home):
                    raise Refused(37)
            it.uses |= {other} - {package}
        return it.uses != before

    def export(self, names: list[Symbol], package: str) -> bool:
        """EXPORT."""
        if package in (LISP, KEYWORD):
            raise Refused(36)
        it, is_changed = self.own(package), False
        if any(self.found(package, one.name) != one.home for one in names):
            raise Refused(38)
        for one in names:
            users = [user for user, other in self.named.items() if package in other.uses]
            if any(self.found(user, one.name) not in (None, one.home) for user in users):
                raise Refused(37)
            assert one.home is not None
            is_changed |= one.name not in it.externals
            it.homes.setdefault(one.name, one.home)
            it.externals.add(one.name)
        return is_changed

    def bring(self, names: list[Symbol], package: str) -> bool:
        """IMPORT."""
        if package in (LISP, KEYWORD):
            raise Refused(36)
        it, is_changed = self.own(package), False
        for one in names:
            if self.found(package, one.name) not in (None, one.home):
                raise Refused(37)
            assert one.home is not None
            is_changed |= one.name not in it.homes
            it.homes.setdefault(one.name, one.home)
        return is_changed


def name_of(it: Object) -> str:
    """The name that a text or a symbol stands for."""
    if isinstance(it, Text):
        return it.letters
    if isinstance(it, Symbol):
        return it.name
    raise Refused(33)
