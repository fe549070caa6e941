"""Why the program and SBCL differ, as docs/use/other-lisps.md has it."""

from __future__ import annotations

import re
from collections.abc import Callable

import texts


def calls_in_digits(forms: list[str], text: str) -> bool:
    """Whether digits of another base begin with a character that was given a function and does not end tokens."""
    made = r"(?m)^\((?:SET-MACRO|MAKE-DISPATCH-MACRO)-CHARACTER #\\(.).* T\)$|FROM-CHAR #\\(.) #\\#"
    given = re.findall(made, "\n".join(forms))
    return any(re.search("#[0-9]*[BOXR]" + re.escape(one or other), text, re.I) for one, other in given)


def is_made_again(forms: list[str]) -> bool:
    """Whether a dispatching macro character is made one again."""
    return bool(re.search(r"(MAKE-DISPATCH-MACRO-CHARACTER #\\.).*\1", " ".join(forms)))


# A name for each reason why the two differ on a text, and whether it is the one.
Holds = Callable[[list[str], str, str, str], object]
OF_TEXTS: list[tuple[str, Holds]] = [
    ("a character out of the profile", lambda forms, text, mine, theirs: mine.startswith("! 25 ")),
    ("two colons in front",
     lambda forms, text, mine, theirs: mine.startswith("! 10 ") and re.search(r"(^|[^:])::", text)),
    ("no such external symbol",
     lambda forms, text, mine, theirs: mine.startswith("! 12 ") and re.search("KEYWORD:|CL:", text, re.I)),
    ("a point after digits of another base",
     lambda forms, text, mine, theirs: mine.startswith("! 17 ") and "." in text),
    ("whitespace before digits of another base",
     lambda forms, text, mine, theirs: mine.startswith("! 17 ") and re.search(r"#[0-9]*[bBoOxXrR]\s", text)),
    ("a package marker after a sign and a point",
     lambda forms, text, mine, theirs: mine.startswith("! 11 ") and re.search(r"[-+][.]:", text)),
    ("an empty uninterned name", lambda forms, text, mine, theirs: mine.startswith("! 19 ") and "#:||" in theirs),
    ("an exponent with R", lambda forms, text, mine, theirs: re.search("[0-9][rR][-+]?[0-9]", text)),
    ("a number or a point as an uninterned name",
     lambda forms, text, mine, theirs: theirs == "REFUSED" and re.search(r"#:\|[0-9./+-]+\|", mine)),
    ("the case of a prefix",
     lambda forms, text, mine, theirs: theirs == "REFUSED" and re.search(r"P::\|[xy]", mine, re.I)),
    ("a dispatching character made one again", lambda forms, text, mine, theirs: is_made_again(forms)),
    ("a short name of a character", lambda forms, text, mine, theirs: mine.startswith("! 16 ")),
    ("a macro function where digits of another base begin",
     lambda forms, text, mine, theirs: calls_in_digits(forms, text)),
    ("a point with a macro function",
     lambda forms, text, mine, theirs: re.search(r"CHAR(ACTER)? #\\\. ", " ".join(forms))),
]


def of_text(trial: texts.Trial, mine: str, theirs: str) -> str | None:
    """The reason why the two differ on a text, if there is one."""
    return next((name for name, holds in OF_TEXTS if holds(trial.forms, trial.text, mine, theirs)), None)
