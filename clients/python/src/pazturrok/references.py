"""Characters past ASCII in texts: a store has a reference in place of each, as `&#xFC;`, the number of the character in hexadecimal digits.

A text that has such a reference of its own is written with `&#x26;` in place of the ampersand, so what is read is what was written.
"""

from __future__ import annotations

import re

from .errors import UnsendableError

NUMBER = "26|[89A-F][0-9A-F]|[1-9A-F][0-9A-F]{2}|(?!D[89A-F])[1-9A-F][0-9A-F]{3}|[1-9A-F][0-9A-F]{4}|10[0-9A-F]{4}"
"""Those of an ampersand and of all characters past ASCII, each in one way. Surrogates are no characters."""

REFERENCE = re.compile(f"&#x({NUMBER});")
WRITTEN = re.compile(f"[^\\x00-\\x7f]|&(?=#x(?:{NUMBER});)")


def with_references(text: str) -> str:
    """A text as a store has it."""
    if text.isascii() and "&#x" not in text:
        return text
    if any("\ud800" <= character <= "\udfff" for character in text):
        raise UnsendableError(text, "it has a half of a surrogate pair")
    return WRITTEN.sub(lambda found: f"&#x{ord(found[0]):X};", text)


def without_references(text: str) -> str:
    """The text that a store has so."""
    return REFERENCE.sub(lambda found: chr(int(found[1], 16)), text) if "&#x" in text else text
