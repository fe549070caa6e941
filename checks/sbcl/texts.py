"""Random texts, and random changes of the readtable that they are read under."""

from __future__ import annotations

from random import Random
from typing import NamedTuple

NAMES = {" ": "Space", "\t": "Tab", "\n": "Newline"}
# Letters, digits and signs of tokens; and the characters with a macro function or an escape in the standard readtable.
PLAIN = "ABabXYxy019+-./:*!$%&=<>?_^~[]{}@"
MACRO = "\"'();#|\\"
# What changes are made to: no character that the changes themselves are written with.
CHANGED = "01!$%&=<>?_^~[]{}@,;|+.*"
PACKAGE = ['(MAKE-PACKAGE "P")', '(EXPORT (INTERN "X" "P") "P")', '(INTERN "Y" "P")']
PREFIXED = ["P:X", "P::X", "P::y", ":k", ":|a|", "P:Y", "KEYWORD:A", "CL:CAR", "cl:nil", "P:|x|", "::a", "P:",
            "a:b:c", "COMMON-LISP::FOO", "#:a", "#:|B|"]
CHARACTERS = ["a", "A", "Space", "NEWLINE", "newline", "Tab", "x1", "(", ";", "\\", "|a|", "Rubout", '"', " "]
CASES = [None, None, None, "DOWNCASE", "PRESERVE", "INVERT", "UPCASE"]
# The sub-characters of # whose functions are put elsewhere.
GIVEN = "'(:bBoxXr\\|"


class Trial(NamedTuple):
    """A text, the forms of the changes before it, and the case of the readtable if it is set."""

    forms: list[str]
    case: str | None
    text: str


def character(c: str) -> str:
    """A character as it is written."""
    return "#\\" + NAMES.get(c, c)


def some(random: Random, letters: str, least: int, most: int) -> str:
    """Some of these letters."""
    return "".join(random.choice(letters) for _ in range(random.randint(least, most)))


def change(random: Random) -> list[str]:
    """The forms of one change of the readtable."""
    to, kind = random.choice(CHANGED), random.random()
    if kind < 0.55:
        like = random.choice(chr(34) + "ab0+.:!" + MACRO + " ,-")
        return [f"(SET-SYNTAX-FROM-CHAR {character(to)} {character(like)})"]
    if kind < 0.75:
        macro, rest = random.choice("'();\""), random.choice(["", "", " T", " NIL"])
        return [f"(SET-MACRO-CHARACTER {character(to)} (GET-MACRO-CHARACTER {character(macro)}){rest})"]
    dispatch, sub, forms = "#", random.choice("!$ab*"), []
    if kind < 0.87:
        dispatch, sub = random.choice("!$%[]{}@~"), random.choice("abAB(|!")
        forms = [f"(MAKE-DISPATCH-MACRO-CHARACTER {character(dispatch)}{random.choice(['', ' T'])})"]
    given = f"(GET-DISPATCH-MACRO-CHARACTER #\\# {character(random.choice(GIVEN))})"
    return [*forms, f"(SET-DISPATCH-MACRO-CHARACTER {character(dispatch)} {character(sub)} {given})"]


def token(random: Random) -> str:
    """The text of a token, or of nearly one."""
    kind = random.random()
    if kind < 0.25:
        return some(random, PLAIN, 1, 5)
    if kind < 0.45:
        return some(random, "0123456789+-./", 1, 5)
    if kind < 0.6:
        return some(random, "aBcDaBc||\\:", 1, 7)
    if kind < 0.7:
        return random.choice(PREFIXED)
    if kind < 0.8:
        return "#" + random.choice("bBoOxX") + some(random, "01278aF/-+.", 1, 4)
    if kind < 0.85:
        return f"#{random.randint(0, 40)}{random.choice('rR')}" + some(random, "01278aFzZ/-", 1, 4)
    if kind < 0.92:
        return "#\\" + random.choice(CHARACTERS)
    return '"' + some(random, 'ab\\" |', 0, 5) + '"'


def thing(random: Random, depth: int) -> str:
    """The text of an object, or of nearly one."""
    kind = random.random()
    if depth == 0 or kind < 0.55:
        return token(random)
    parts = [thing(random, depth - 1) for _ in range(random.randint(0, 3))]
    if kind < 0.8:
        tail = random.choice(["", "", "", "", "", "", " . " + token(random), " . " + token(random), ".", " ."])
        return "(" + random.choice([" ", ""]).join(parts) + tail + ")"
    if kind < 0.87:
        return "'" + thing(random, depth - 1)
    if kind < 0.92:
        return "#" + random.choice(["", "", "2", "0"]) + "(" + " ".join(parts) + ")"
    if kind < 0.95:
        return "#|" + random.choice(["a", "|#", "#|b|#", " "]) + "|#" + thing(random, depth - 1)
    return some(random, PLAIN + MACRO + " ", 1, 8)


def altered(random: Random, text: str) -> str:
    """The text with a character or two put in or taken out."""
    marks = list(text)
    for _ in range(random.randint(1, 2)):
        at = random.randrange(len(marks) + 1)
        if random.random() < 0.5 or not marks:
            marks.insert(at, random.choice(PLAIN + MACRO + " \t"))
        else:
            marks.pop(min(at, len(marks) - 1))
    return "".join(marks)


def trial(random: Random) -> Trial:
    """A text after some changes."""
    forms = list(PACKAGE) if random.random() < 0.7 else []
    for _ in range(random.choice([0, 0, 1, 1, 2, 3])):
        forms += change(random)
    text = thing(random, 3)
    if random.random() < 0.3:
        text = altered(random, text)
    return Trial(forms, random.choice(CASES), "'" + text + random.choice(["", " ", "\n"]))
