"""Forms of all kinds, drawn at random, that make odd worlds."""
import random

PLAIN = ["A", "B", "X", "FOO", "GET", "NIL", "T", "LIST", "USER", "N-1"]
ODD = ["a", "1+", "12", "1/2", ".", "..", "A B", "A:B", ":", "|", "\\", "\"", "'", ";x", "#", "(", "",
       "\n", "\t", "\x1b", "\x00", "\x7f", "*VAR*", "<=", "%", "~", "`", ",", "--", "-1", "+", "A\\B", "A|B", "z" * 40,
       "Q" * 300]
PACKAGES = ["P", "Q", "R", "p", "P Q", "A|B", "X:Y", "-", "1", "Z" * 200, "USER"]
LOCKED = ["COMMON-LISP", "KEYWORD", "CL", "CL-USER"]
FUNCTIONS = ["STD-LIST", "STD-CLOSE", "STD-QUOTE", "STD-COMMENT", "STD-STRING", "STD-OUT", "STD-CHAR", "STD-FUNCTION",
             "STD-VECTOR",
             "STD-UNINTERNED", "STD-BLOCK", "STD-BINARY", "STD-OCTAL", "STD-HEX", "STD-RADIX", "SQUARE", "CLOSE",
             "NOTE", "SKIP", "UNIT", "SCALE"]
TABLES = ["R1", "R2", "lower", "A|B", "", "R" * 300]
CASES = ["UPCASE", "DOWNCASE", "PRESERVE", "INVERT"]


class Forms:
    """The forms of one world."""

    def __init__(self, seed):
        self.draw = random.Random(seed)
        self.names = self.draw.sample(PLAIN, 5) + self.draw.sample(ODD, 8)
        self.packages = self.draw.sample(PACKAGES, 4) + ["COMMON-LISP-USER"]
        self.tables = self.draw.sample(TABLES, 2) + ["USER"]

    def one_of(self, *kinds):
        return self.draw.choice(kinds)()

    def name(self):
        return self.draw.choice(self.names)

    def package(self):
        return self.draw.choice(self.packages if self.draw.random() < 0.9 else LOCKED)

    # ---- what stands in a form

    @staticmethod
    def text(name):
        return '"%s"' % name.replace("\\", "\\\\").replace('"', '\\"')

    @staticmethod
    def bars(name):
        return "|%s|" % "".join("\\" + c if c in "|\\" or (ord(c) < 32 and c not in "\t\n\f\r\b") else c for c in name)

    def keyword(self, name):
        return ":" + self.bars(name)

    def character(self):
        code = self.draw.randrange(128) if self.draw.random() < 0.3 else self.draw.randrange(33, 127)
        named = {8: "Backspace", 9: "Tab", 10: "Newline", 12: "Page", 13: "Return", 32: "Space", 127: "Rubout"}
        return "#\\" + named.get(code, chr(code))

    def symbol(self):
        """A form whose value is a symbol: one that is found, or a new one."""
        return "(INTERN %s %s)" % (self.text(self.name()), self.text(self.package()))

    def token(self):
        """A symbol in a package that is there, and takes new ones: what cannot be read ends the forms."""
        return "%s::%s" % (self.bars(self.draw.choice(self.packages)), self.bars(self.name()))

    def value(self, depth):
        """The text of an object."""
        atoms = [self.token, lambda: self.text(self.name()), lambda: "#:" + self.bars(self.name() or "X"),
                 self.character,
                 lambda: str(self.draw.choice([0, 1, -1, 7, 2 ** 127 - 1, -(2 ** 127), self.draw.randrange(10 ** 9)])),
                 lambda: "%d/%d" % (self.draw.randrange(-99, 99), self.draw.randrange(1, 99)),
                 lambda: self.keyword(self.name()),
                 lambda: "()", lambda: self.draw.choice(PLAIN)]
        if depth == 0 or self.draw.random() < 0.5:
            return self.draw.choice(atoms)()
        parts = [self.value(depth - 1) for _ in range(self.draw.randrange(1, 4))]
        kind = self.draw.random()
        if kind < 0.4:
            return "(%s)" % " ".join(parts)
        if kind < 0.6:
            return "(%s . %s)" % (" ".join(parts), self.value(depth - 1))
        if kind < 0.8:
            return "#(%s)" % " ".join(parts)
        return "'" + parts[0]

    def deep(self):
        """A value near the depth that a form may have, which is left out where it passes it."""
        depth = self.draw.choice([90, 96, 97, 98])
        return "(" * depth + "1" + ")" * depth

    # ---- forms

    def interns(self):
        return self.symbol()

    def imports(self):
        return "(IMPORT (LIST %s) %s)" % (self.symbol(), self.text(self.package()))

    def exports(self):
        return "(EXPORT (LIST %s) %s)" % (self.symbol(), self.text(self.package()))

    def uses(self):
        return "(USE-PACKAGE %s %s)" % (self.text(self.package()), self.text(self.package()))

    def sets(self):
        value = self.deep() if self.draw.random() < 0.02 else self.value(3)
        return "(SETF (GET %s %s) '%s)" % (self.symbol(), self.symbol(), value)

    def pushes(self):
        return "(PUSH '%s (GET %s %s))" % (self.value(2), self.symbol(), self.symbol())

    def counts(self):
        place = "(GET %s %s)" % (self.symbol(), self.symbol())
        return "(PROGN (SETF %s 5) (INCF %s %d))" % (place, place, self.draw.randrange(-9, 9))

    def removes(self):
        return "(REMPROP %s %s)" % (self.symbol(), self.symbol())

    def table(self):
        return self.keyword(self.draw.choice(self.tables))

    def copies(self):
        return "(COPY-READTABLE %s %s)" % (self.draw.choice(["NIL", ":STANDARD", self.table()]), self.table())

    def folds(self):
        return "(SETF (READTABLE-CASE %s) :%s)" % (self.table(), self.draw.choice(CASES))

    def likens(self):
        return "(SET-SYNTAX-FROM-CHAR %s %s %s %s)" % (self.character(), self.character(), self.table(),
                                                       self.draw.choice(["NIL", self.table()]))

    def macro(self):
        return "(SET-MACRO-CHARACTER %s :%s %s %s)" % (self.character(), self.draw.choice(FUNCTIONS),
                                                       self.draw.choice(["NIL", "T"]), self.table())

    def dispatches(self):
        return "(MAKE-DISPATCH-MACRO-CHARACTER %s %s %s)" % (self.character(), self.draw.choice(["NIL", "T"]),
                                                             self.table())

    def sub(self):
        at = self.draw.choice(["#\\#", "#\\@", "#\\!", self.character()])
        return "(SET-DISPATCH-MACRO-CHARACTER %s %s :%s %s)" % (at, self.character(), self.draw.choice(FUNCTIONS),
                                                                self.table())

    def current(self):
        """The last form, as a form after it may not be read."""
        return "(PROGN (IN-PACKAGE %s) (SETF *READ-BASE* %d) (IN-READTABLE %s))" % (
            self.text(self.package()), self.draw.choice([2, 8, 10, 16, 36]),
            self.draw.choice([":STANDARD", self.table()]))

    def all(self):
        """Forms of all kinds, of which some are refused; those that come first make it likelier that later ones are
        not."""
        several = self.draw.choice([5, 20, 60])
        forms = ["(MAKE-PACKAGE %s)" % self.text(p) for p in self.packages[:-1]]
        forms += ["(COPY-READTABLE NIL %s)" % self.keyword(n) for n in self.tables]
        kinds = [self.interns, self.imports, self.exports, self.exports, self.uses, self.sets, self.sets, self.sets,
                 self.pushes, self.counts,
                 self.removes, self.copies, self.folds, self.likens, self.macro, self.dispatches, self.sub, self.sub]
        forms += [self.draw.choice(kinds)() for _ in range(several)]
        rest = [self.current()] if self.draw.random() < 0.8 else []
        return "(IN-READTABLE :STANDARD)\n" + "\n".join(forms + rest) + "\n"
