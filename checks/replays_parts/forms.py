"""Random forms that are nearly `(SETF (GET 'S 'I) literal)` or `(GET 'S 'I)`, in sessions."""

from __future__ import annotations

import random

from lib.frames import message, question

KNOWN = ["A", "B", "X1", "S1", "S2", "S3", "K-1", "a", "Foo"]
NAMES = [*KNOWN, "NIL", "T", "GET", "SETF", "QUOTE", "CAR", "LIST", "1A", "A.B", "+", "-", "<=", "1+", "CL:GET", "*PACKAGE*", ":K",
         "|a b|", "|A|", "x\\y", "_a~^&$%!?@{}[]", "CUSTOMER-NUMBER-7", "P::A", "P::S1", "a#b", "a'b", "\x7fa", "a\x0cb", "^1", "+.",
         "-1/2x", *("N" * n for n in (14, 15, 16, 17)), *("m" * n for n in (31, 32, 33)), "M" * 200, "L" * 4096]
LITERALS = ["1", "0", "007", "12345678901234567", "123456789012345678", "999999999999999999", "18446744073709551615",
            "18446744073709551616", "12345678901234567890123", "-5", "-0", "1/3", "2/4", "+7", '"text"', '"a \\" b"', '""', "#\\a",
            "#\\Space", "'A", "'(1 2 (A B) \"x\")", "'()", "()", "NIL", "T", ":K", "A", "(GET 'A 'B)", "#(1 2)", "'#(A 1)", "''A", "1.",
            "'(1 . 2)", "(LIST 1 2)", "16r", "'|q|", "ff", "'ff", "FF", "#:G", "'#:G", "'(A B C)", "'(NEW-ONE)", "#'A", "'1", "'\"x\"",
            "';c\n1", ";c\n1", "'" + "(" * 97 + ")" * 97, "'" + "(" * 96 + ")" * 96, "''''A", "'S1", "'(S1 S2)", "'#3(A)",
            "-170141183460469231731687303715884105728", "170141183460469231731687303715884105727", "'(1" + " 2" * 70 + ")"]
# Those that stand in such a form as it is carried out from its text.
PLAIN_LITERALS = [it for it in LITERALS if it[:1] in ("'", '"', "-", "+") or it[:1].isdigit()]
# Texts that the standard readtable does not read: they end a session of forms.
FAULTY_NAMES = ["CL:CAR", "A:B", "A::B", "P:A", ".", "..", "a,b", "a`b", "a;b", 'a"b', "\xe9", "1e5", "L" * 4097]
FAULTY_LITERALS = ["170141183460469231731687303715884105728", "1/0", '"', "1.5", "1)", "'", "", "#.1", "'" + "(" * 98 + ")" * 98]
FAULTY_QUOTES = [":", "`", "'|"]
SETTINGS = ['(IN-PACKAGE "P")', "(IN-PACKAGE COMMON-LISP-USER)", "(COMMON-LISP:IN-PACKAGE COMMON-LISP-USER)", '(MAKE-PACKAGE "P")',
            '(COMMON-LISP:IN-PACKAGE "COMMON-LISP")', "(IN-PACKAGE KEYWORD)", "(CL:IN-PACKAGE CL-USER)",
            *(f"(SETF (READTABLE-CASE :USER) :{case})" for case in ("DOWNCASE", "PRESERVE", "INVERT", "UPCASE")),
            "(SETF *READ-BASE* 16)", "(SETF *READ-BASE* 10)", "(SETF *READ-BASE* A)", "(SETF *READ-BASE* 36)",
            "(SET-MACRO-CHARACTER #\\[ :STD-LIST)", "(SET-MACRO-CHARACTER #\\' :STD-COMMENT)", "(SET-MACRO-CHARACTER #\\G :STD-QUOTE)",
            "(SET-MACRO-CHARACTER #\\( :STD-QUOTE)", "(SET-MACRO-CHARACTER #\\' :STD-LIST)", "(SET-MACRO-CHARACTER #\\) :STD-QUOTE)",
            "(SET-SYNTAX-FROM-CHAR #\\Space #\\A)", "(SET-SYNTAX-FROM-CHAR #\\S #\\Space)", "(SET-SYNTAX-FROM-CHAR #\\1 #\\()",
            "(SET-SYNTAX-FROM-CHAR #\\) #\\Space)", "(SET-SYNTAX-FROM-CHAR #\\- #\\Space)", "(SET-SYNTAX-FROM-CHAR #\\A #\\\\)",
            "(SET-SYNTAX-FROM-CHAR #\\Space #\\')", "(SET-SYNTAX-FROM-CHAR #\\, #\\Space)", "(SET-SYNTAX-FROM-CHAR #\\) #\\A)",
            "(COPY-READTABLE :STANDARD :USER)", "(COPY-READTABLE :USER :OTHER)", "(IN-READTABLE :OTHER)", "(IN-READTABLE :USER)",
            "(IN-READTABLE :STANDARD)", "(USE-PACKAGE 'COMMON-LISP \"P\")", '(USE-PACKAGE "COMMON-LISP" "P")', "(EXPORT 'A)",
            "(IMPORT 'P::A)", '(INTERN "A" "P")', '(INTERN "GET" "P")', '(INTERN "SETF" "P")', "(FORGET-NAMES)",
            '(COMMON-LISP:SETF COMMON-LISP:*PACKAGE* "COMMON-LISP-USER")', '(SETF *PACKAGE* "P")']
# How a place and a form are written: as they are carried out from their text, and nearly so.
PLACES = ["(GET %s %s)"] * 12 + ["(get %s %s)", "(Get %s %s)", "(GET  %s %s)", "(GET %s  %s)", "(GET %s %s )", "(GET %s\n%s)", "(GET\t%s %s)",
                                 "(CL:GET %s %s)", "(GETS %s %s)", "( GET %s %s)", "(GET %s %s 1)", "(|GET| %s %s)", "(GET %s)"]
FAULTY_PLACES = ["(GET %s %s", "(GET,%s,%s)"]
FORMS = ["(SETF %s %s)"] * 12 + ["(setf %s %s)", "(SETF %s %s )", "(SETF  %s %s)", "(SETF %s  %s)", "(SETF %s\n%s)", "(SETQ %s %s)",
                                 "(PROGN (SETF %s %s))", "( SETF %s %s)", "(SETF\t%s\t%s)", "(CL:SETF %s %s)", "(SETF %s %s 2)",
                                 "(PROGN (SETF %s %s) (FROB))", "(SETF(GET 'A 'B)%s%s)", "(|SETF| %s %s)", "'(SETF %s %s)"]
QUOTES = ["'"] * 20 + ["", "''", "' ", "#'", "'P::"]
ENDS = ["\n", "\n", "\n", " ", "", "\n\n", ";c\n", "\r\n"]
OPTIONS = [[], [], [], ["--group"], ["--rescue"], ["--quiet"], ["--strict"]]
# Forms that most sessions begin with, so that their names are there.
FIRST = ['(MAKE-PACKAGE "P")', '(USE-PACKAGE "COMMON-LISP" "P")', f"'({' '.join(KNOWN)})", "(SETF (GET 'A 'B) '(S1 S2 S3 K-1 X1))"]
# What some begin with besides: more packages that are used than are looked at one after the other; records that are another form,
# so many that the next ones are seldom tried; a name that was forgotten, so that symbols are numbered anew.
USED = [form for n in range(1, 8) for form in (f'(MAKE-PACKAGE "Q{n}")', f"(EXPORT 'Q{n}::W{n} \"Q{n}\")", f'(USE-PACKAGE "Q{n}")')]
FORGOTTEN = ["'(GONE AWAY)", '(MAKE-PACKAGE "PAZTURROK")', '(INTERN "FORGET-NAMES" "PAZTURROK")', "(PAZTURROK::FORGET-NAMES)"]


class Session:
    """Random forms, and how they are handed to the program."""

    def __init__(self, seed: int) -> None:
        self.draw = random.Random(seed)
        self.of_messages = self.is_framed = False
        # more names that are there, of which there may be so many that a row of properties is long
        self.more = self.draw.choice([[], [], [], [f"W{n}" for n in range(1, 8)], [f"I{n}" for n in range(90)]])
        self.runs = [self.run(turn) for turn in range(self.draw.choice([1, 1, 2, 3]))]

    def is_faulty(self) -> bool:
        """Whether something comes that may not be read: seldom where the session ends there."""
        return self.draw.randrange(4 if self.is_framed else 60) == 0

    def name(self) -> str:
        """A name that is there, or another one."""
        if self.draw.randrange(3):
            return self.draw.choice([*KNOWN, *self.more])
        return self.draw.choice(FAULTY_NAMES if self.is_faulty() else NAMES)

    def capitals(self) -> str:
        """A name in capitals, which is there."""
        return self.draw.choice([*(name for name in KNOWN if name.isupper()), *self.more])

    def quoted(self) -> str:
        """A name behind a quote, or behind something else."""
        is_odd = self.draw.randrange(8) == 0 and self.is_faulty()
        return self.draw.choice(FAULTY_QUOTES if is_odd else QUOTES) + self.name()

    def place(self) -> str:
        """A place of SETF."""
        owner = "'A" if self.more and self.draw.randrange(2) else self.quoted()
        is_odd = self.draw.randrange(8) == 0 and self.is_faulty()
        place = self.draw.choice(FAULTY_PLACES if is_odd else PLACES)
        return place % ((owner, self.quoted()) if place.count("%s") == 2 else owner)

    def literal(self) -> str:
        """What it is set to."""
        if self.draw.randrange(4) == 0:
            return self.draw.choice(["", "'"]) + self.name()
        return self.draw.choice(FAULTY_LITERALS if self.draw.randrange(4) == 0 and self.is_faulty() else LITERALS)

    def mutated(self, text: str) -> str:
        """A text with a character more, less, or another one, or cut."""
        at = self.draw.randrange(len(text) + 1)
        other = self.draw.choice([" ", "'", "(", ")", '"', "|", "\\", ":", ";", "#", ".", "0", "a", "A", "\n", "\t", "\x00", "\x80"])
        return self.draw.choice([text[:at] + other + text[at:], text[:at] + text[at + 1 :], text[:at] + other + text[at + 1 :], text[:at]])

    def form(self) -> str:
        """A form: five in eight are carried out or answered from their text, if their names are there."""
        place, direct = f"(GET '{self.capitals()} '{self.capitals()})", self.draw.randrange(8)
        if direct < 5:
            made = f"(SETF {place} {self.draw.choice(PLAIN_LITERALS)})" if direct < 3 else self.draw.choice(["", "", "", " ", "\t"]) + place
            return self.mutated(made) if self.draw.randrange(8) == 0 and self.is_faulty() else made
        kind = self.draw.randrange(44)
        if kind < 3:
            return self.draw.choice(SETTINGS)
        if kind < 34:
            made = self.draw.choice(FORMS) % (self.place(), self.literal())
        elif kind < 36:
            made = f"(INCF {self.place()})"
        elif kind < 38:
            made = f"(PUSH {self.literal()} {self.place()})"
        elif kind < 40:
            made = f"(REMPROP '{self.name()} '{self.name()})"
        elif kind < 42:
            made = f"(SYMBOL-PLIST '{self.name()})"
        else:
            made = self.place()
        return self.mutated(made) if self.draw.randrange(3) == 0 and self.is_faulty() else made

    def first(self) -> list[str]:
        """The forms that a session begins with."""
        made = [*FIRST, *USED] if "W1" in self.more else [*FIRST, f"'({' '.join(self.more)})"] if self.more else [*FIRST]
        if self.draw.randrange(12) == 0:
            made += [f"(PROGN (SETF (GET 'S1 'A) {n}))" for n in range(self.draw.randrange(300))]
        return made + FORGOTTEN if self.draw.randrange(25) == 0 else made

    def run(self, turn: int) -> tuple[list[str], bytes]:
        """The options and the input of a run. One run of a session at most is of messages: the next one would begin with
        the position."""
        is_framed = self.is_framed = self.draw.randrange(5) == 0 and not self.of_messages
        made = [self.form() for _ in range(self.draw.randrange(1, 40))]
        if turn == 0 and self.draw.randrange(4):
            made = self.first() + made
        texts = [it.encode("latin-1") for it in made]
        if is_framed:
            self.of_messages = True
            ask = [self.draw.randrange(4) == 0 for _ in texts]
            return ["--messages"], b"".join(question(it) if asked else message(number, it) for number, (asked, it) in enumerate(zip(ask, texts), 1))
        return self.draw.choice(OPTIONS), b"".join(it + self.draw.choice(ENDS).encode() for it in texts)
