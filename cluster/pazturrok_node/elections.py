"""Whether the members of etcd have a new leader: each of them tells that by itself, before it has done anything that wants one."""

from __future__ import annotations

import asyncio
from collections.abc import AsyncIterator, Callable, Iterable
from typing import Any

FAULTS = (OSError, asyncio.TimeoutError, asyncio.IncompleteReadError, ValueError)
"""By what a member does not answer."""

Look = Callable[[int], AsyncIterator[dict[str, Any]]]
"""Gives what the member at this place tells of itself, again and again."""


class Elections:
    """Looks at the members while a call has no answer. What a member has taken for a leader that has stopped is lost, and nobody says so: once
    there is another leader, it is to be asked again at once."""

    def __init__(self, places: Iterable[int], look: Look) -> None:
        self._places, self._look = places, look
        self._term = 0
        """That of the last leader that was told: each one that is elected has a greater one."""
        self._next: asyncio.Future[int] | None = None
        self._looks: list[asyncio.Task[None]] = []

    @property
    def next(self) -> asyncio.Future[int]:
        """Has its result once a member tells of a new leader: the place of that member."""
        if self._next is None or self._next.done():
            self._next = asyncio.get_running_loop().create_future()
        return self._next

    def begin(self) -> None:
        """A call has no answer yet: looks at all members, until it is told that one is answered."""
        if not self._looks:
            self._looks = [asyncio.ensure_future(self._look_at(place)) for place in self._places]

    def end(self, place: int, found: dict[str, Any]) -> bool:
        """A call that wants a leader has this answer, of the member at this place: whether that leader is a new one."""
        for look in self._looks:
            look.cancel()
        self._looks = []
        return self._heed(place, number(found.get("header", {}), "raft_term"))

    async def _look_at(self, place: int) -> None:
        async for told in self._look(place):
            # one that seeks a leader has a greater term already, and names none
            if number(told, "leader"):
                self._heed(place, number(told, "raftTerm"))

    def _heed(self, place: int, term: int) -> bool:
        """A member has a leader of this term: whether it is a new one."""
        is_new = 0 < self._term < term
        self._term = max(self._term, term)
        if is_new and self._next and not self._next.done():
            self._next.set_result(place)
        return is_new


def number(told: dict[str, Any], name: str) -> int:
    """One that etcd tells as a text, or leaves out where it is 0."""
    found = told.get(name, "0")
    return int(found) if isinstance(found, (str, int)) else 0
