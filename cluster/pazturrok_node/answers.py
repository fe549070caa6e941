"""The answers of a store, for those who wait for them, and for those who ask again."""

from __future__ import annotations

import collections
from collections.abc import Callable

from .frames import LOST

RECENT = 100_000
"""How many answers are kept for those who ask again."""

RECENT_BYTES = 1 << 26
"""And how many bytes of them."""


class Answers:
    """By the number of an entry: its name may be that of another one, once its own is deleted."""

    def __init__(self) -> None:
        self.settled = 0
        """Every entry up to this number has had its answer."""
        self._recent: collections.OrderedDict[int, bytes] = collections.OrderedDict()
        self._size = 0
        self._waiting: dict[int, list[Callable[[bytes], None]]] = {}

    def answer_to(self, number: int, take: Callable[[bytes], None]) -> None:
        """Has the answer taken of an entry that is in the log: at once, where it is known, or else when it comes."""
        if number in self._recent:
            take(self._recent[number])
        elif number <= self.settled:
            take(LOST)
        else:
            self._waiting.setdefault(number, []).append(take)

    def settle(self, number: int) -> None:
        """Entries up to this number were carried out. Those who wait for one whose answer nobody has here are told so."""
        self.settled = max(self.settled, number)
        for one in [one for one in self._waiting if one <= number]:
            for take in self._waiting.pop(one):
                take(LOST)

    def resolve(self, number: int, text: bytes) -> None:
        """An entry has this answer: it goes to those who wait for it, and is kept for those who will."""
        self._size += len(text) - len(self._recent.pop(number, b""))
        self._recent[number] = text
        while len(self._recent) > RECENT or self._size > RECENT_BYTES:
            self._size -= len(self._recent.popitem(last=False)[1])
        for take in self._waiting.pop(number, ()):
            take(text)
