"""Tokens: where one ends, and the number or name that it is."""

from __future__ import annotations

import re
from fractions import Fraction

from objects import Object, Refused
from readtables import INVALID, MULTIPLE_ESCAPE, SINGLE_ESCAPE, TERMINATING, WHITESPACE, Readtable

LONGEST, LEAST, MOST = 4096, -(2**127), 2**127 - 1
PLAIN, QUOTED, BAR = range(3)
Mark = tuple[int, str]
"""How a character stands in a token, and the character."""

POINTED = re.compile(r"[0-9]*\.[0-9]+")
SCALED = re.compile(r"([0-9]+|[0-9]+\.[0-9]*|\.[0-9]+)[eEsSfFdDlL][-+]?[0-9]+")


def scanned(text: bytes, at: int, table: Readtable, is_escaped: bool = False) -> tuple[list[Mark], int]:
    """The marks of a token, and where it ends. If it says so, its first character is taken as an escaped one."""
    marks: list[Mark] = []
    count, is_inside, escaped = 0, False, is_escaped
    while at < len(text):
        code = text[at]
        kind = table.at(code).kind
        if escaped:
            if code > 127:
                raise Refused(2)
        elif kind == INVALID:
            raise Refused(2)
        elif not is_inside and kind in (WHITESPACE, TERMINATING):
            return marks, at
        elif kind == SINGLE_ESCAPE:
            at, escaped = at + 1, True
            continue
        elif kind == MULTIPLE_ESCAPE:
            marks.append((BAR, ""))
            at, is_inside = at + 1, not is_inside
            continue
        if count == LONGEST:
            raise Refused(24)
        is_quoted = escaped or is_inside
        if not is_quoted and (code <= 32 or code == 127):
            raise Refused(3)
        marks.append((QUOTED if is_quoted else PLAIN, chr(code)))
        at, count, escaped = at + 1, count + 1, False
    if escaped or is_inside:
        raise Refused(1)
    return marks, at


def characters(marks: list[Mark]) -> str:
    """The characters of a token."""
    return "".join(c for _, c in marks)


def folded(marks: list[Mark], case: str) -> list[Mark]:
    """The marks with the letters that are not escaped in the case of a readtable."""
    plain = "".join(c for kind, c in marks if kind == PLAIN)
    if case == "PRESERVE" or case == "INVERT" and re.search("[A-Z]", plain) and re.search("[a-z]", plain):
        return marks
    is_down = case == "DOWNCASE" or case == "INVERT" and bool(re.search("[A-Z]", plain))
    return [(kind, (c.lower() if is_down else c.upper()) if kind == PLAIN else c) for kind, c in marks]


def digits(text: str, base: int) -> int | None:
    """What digits of a base are worth, if all are such digits and there is one."""
    alphabet = "0123456789abcdefghijklmnopqrstuvwxyz"[:base]
    return int(text, base) if text and all(c in alphabet for c in text.lower()) else None


def in_range(size: int) -> int:
    """An integer of 128 bits."""
    if not LEAST <= size <= MOST:
        raise Refused(8)
    return size


def number_in(text: str, base: int) -> Object | None:
    """The number that a token without escapes is, if it is one."""
    sign, body = (-1 if text[:1] == "-" else 1), text[1:] if text[:1] in ("+", "-") else text
    whole = digits(body, base)
    if whole is not None:
        return in_range(sign * whole)
    above, slash, below = body.partition("/")
    numerator, denominator = digits(above, base), digits(below, base)
    if slash and numerator is not None and denominator is not None:
        if denominator == 0:
            raise Refused(9)
        if denominator >= 2**128:
            raise Refused(8)
        ratio = Fraction(in_range(sign * numerator), denominator)
        return ratio.numerator if ratio.denominator == 1 else ratio
    decimal = digits(body[:-1], 10) if body.endswith(".") else None
    if decimal is not None:
        return in_range(sign * decimal)
    if POINTED.fullmatch(body) or SCALED.fullmatch(body):
        raise Refused(7)
    return None


def parts_of(marks: list[Mark]) -> list[list[Mark]]:
    """The token cut at each colon that is not escaped."""
    parts: list[list[Mark]] = [[]]
    for mark in marks:
        if mark == (PLAIN, ":"):
            parts.append([])
        else:
            parts[-1].append(mark)
    return parts
