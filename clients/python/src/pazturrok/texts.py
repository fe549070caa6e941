"""Whether a text is just one whole form, as the standard readtable has it.

A form that is not whole has no answer, and a second form has an answer that nobody waits for.
"""

from __future__ import annotations

import re

WHITESPACE = "\t\n\f\r \x7f"
TOKEN = r"""(?:[^\t\n\f\r \x7f()'"`,;\\|]|\\.|\|[^|\\]*(?:\\.[^|\\]*)*\|)"""
PIECE = re.compile(
    rf"""
      (?P<blank>[{WHITESPACE}]+|;[^\n]*)
    | (?P<opens>\(|\#[0-9]*\()
    | (?P<closes>\))
    | (?P<block>\#[0-9]*\|)
    | (?P<object>"[^"\\]*(?:\\.[^"\\]*)*" | \#[0-9]*\\.{TOKEN}* | \#[0-9]*[:bBoOxXrR]{TOKEN}*)
    | (?P<begins>['`,]|\#[0-9]*[^0-9])
    | (?P<token>(?!\#){TOKEN}+)
    """,
    re.DOTALL | re.VERBOSE,
)
BLOCK_MARK = re.compile(r"\|\#|\#\|")


def block_end(text: str, place: int) -> int | None:
    """The place after the block comment that goes on here, or None where it is open at the end."""
    depth = 1
    for found in BLOCK_MARK.finditer(text, place):
        depth += 1 if found[0] == "#|" else -1
        if not depth:
            return found.end()
    return None


def without_texts(text: str) -> str:
    """The same without what stands between double quotes, as far as it can be read."""
    parts, place = [], 0
    while found := PIECE.match(text, place):
        end = block_end(text, found.end()) if found.lastgroup == "block" else found.end()
        if end is None:
            break
        if not found[0].startswith('"'):
            parts.append(text[place:end])
        place = end
    return "".join(parts) + text[place:]


def is_one_form(text: str) -> bool:
    """Whether this is one whole form, with nothing beside it but whitespace and comments."""
    place = depth = objects = 0
    has_begun = False
    while place < len(text):
        found = PIECE.match(text, place)
        if found is None:
            return False
        place = found.end()
        if found.lastgroup == "block":
            end = block_end(text, place)
            if end is None:
                return False
            place = end
        elif found.lastgroup == "opens":
            depth += 1
        elif found.lastgroup == "begins":
            has_begun = True
        elif found.lastgroup == "closes":
            depth -= 1
        if depth < 0:
            return False
        if not depth and found.lastgroup in ("object", "token", "closes"):
            objects += 1
            has_begun = False
    return not depth and objects == 1 and not has_begun
