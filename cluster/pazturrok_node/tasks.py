"""Tasks that are ended, and what waits until something holds."""

from __future__ import annotations

import asyncio
from collections.abc import Callable, Iterable
from typing import Any


async def end_all(tasks: Iterable[asyncio.Task[Any]], pause: float) -> None:
    """Cancels tasks until they have ended, with so many seconds in between: one cancellation may be lost where `wait_for` has its result."""
    pending = set(tasks)
    while pending:
        for task in pending:
            task.cancel()
        _, pending = await asyncio.wait(pending, timeout=pause)


class Waits:
    """Those that wait until something holds."""

    def __init__(self) -> None:
        self._all: list[tuple[Callable[[], bool], asyncio.Future[None]]] = []

    async def until(self, holds: Callable[[], bool]) -> None:
        if not holds():
            future: asyncio.Future[None] = asyncio.get_running_loop().create_future()
            self._all.append((holds, future))
            await future

    def look(self) -> None:
        """Something has changed: those go on for whom it holds now."""
        if not self._all:
            return
        waiting, self._all = self._all, []
        for holds, future in waiting:
            if future.done():
                continue
            if holds():
                future.set_result(None)
            else:
                self._all.append((holds, future))
