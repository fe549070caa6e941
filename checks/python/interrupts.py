"""A handler that a timer calls often, within calls of the thread and between them; and what came of it."""

from __future__ import annotations

import collections
import contextlib
import signal
from collections.abc import Callable, Iterator

from pazturrok import NestedCallError

EVERY = 0.0003
"""How many seconds are between two of its calls."""
ENOUGH = 100
"""How often it has to come within a call."""


def is_enough(counts: collections.Counter[str]) -> bool:
    """Whether it came within a call so often. It fails where it comes, and is never refused."""
    assert sum(counts.values()) < 200 * ENOUGH, counts
    return counts["refused"] >= ENOUGH


@contextlib.contextmanager
def interrupting(call: Callable[[], object]) -> Iterator[collections.Counter[str]]:
    """Calls it often, and counts how often it gave what, or was refused within another call."""
    counts: collections.Counter[str] = collections.Counter()
    busy = False

    def handle(*_: object) -> None:
        nonlocal busy
        if busy:
            return
        busy = True
        try:
            counts[repr(call())] += 1
        except NestedCallError:
            counts["refused"] += 1
        finally:
            busy = False

    before = signal.signal(signal.SIGALRM, handle)
    signal.setitimer(signal.ITIMER_REAL, EVERY, EVERY)
    try:
        yield counts
    finally:
        signal.setitimer(signal.ITIMER_REAL, 0)
        signal.signal(signal.SIGALRM, before)
