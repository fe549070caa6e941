"""A store in this process, by the library: the same calls and values as over a pipe, of forms and of messages."""

from __future__ import annotations

import os
from collections.abc import Callable, Sequence
from typing import TypeVar

from .alone import alone
from .answers import refusal_of
from .errors import BrokenStoreError, ClosedStoreError, FaultError, NestedCallError, RefusedError, telling
from .library import EXISTING, RATIO, Figures, Library, calls_of, checked_ratio, find_library
from .messages import MessageStore
from .naming import NAMING_QUESTION
from .printer import check_characters
from .properties import with_way_around
from .store import Link, Outcome, State, Store, changes_naming

Given = TypeVar("Given")


def asked(library: Library, call: Callable[[Library], Given], after_fault: Callable[[], object]) -> Given:
    """What the library gives to a call. Where it has failed, what is to be done after a fault is done."""
    try:
        return call(library)
    except NestedCallError:  # it is of a handler, which the call was interrupted by
        raise
    except (BrokenStoreError, FaultError):
        after_fault()
        raise


class EmbeddedStore(Store):
    """A store in this process. Threads may share it: each waits until the one before it has its answers.

    `library` is the path of libpazturrok.so; without it PAZTURROK_LIBRARY names it, or the system finds it.
    With `existing` a folder that holds no store is refused. A FaultError tells why a store cannot be opened.

    A call that wrote takes a snapshot once the file in use has 1 MiB and is `snapshot_ratio` times as long as when it
    was begun; 0 is never.

    After a fork the child has no store: its calls raise BrokenStoreError.
    """

    def __init__(
        self,
        folder: str | os.PathLike[str],
        library: str | os.PathLike[str] | None = None,
        *,
        existing: bool = False,
        unicode: bool = True,
        snapshot_ratio: int = RATIO,
    ) -> None:
        self._words = []
        self._folder = os.fspath(folder)
        self._flags = EXISTING if existing else 0
        self._ratio = checked_ratio(snapshot_ratio)
        self._calls = calls_of(find_library(library))
        self._begin(None, None, unicode)

    def _start(self) -> Link:
        return Library(self._folder, self._calls, self._flags, self._ratio)

    def _exchange(self, texts: list[str], answers: list[str], seconds: float | None) -> None:
        """Executes the texts. No answer is left half read, so only a fault breaks the store."""
        if seconds is not None:
            raise ValueError("a store in this process has no time limits")
        self._call(lambda library: library.exchange(texts, answers, self._ends_session, None))
        self._round_trips += 1
        self._state = State.GOOD

    def _ends_session(self, answer: str) -> bool:
        """No refusal ends anything: each text is one form."""
        return False

    def _call(self, call: Callable[[Library], Given]) -> Given:
        """What the library gives. After a fault the store is broken."""
        assert isinstance(self._program, Library)
        return asked(self._program, call, self._break)

    def _break(self) -> None:
        self._state = State.BROKEN

    @alone
    def answer(self, text: str) -> str:
        """The printed text of a form's value, as it is, of a text that nobody looked at before."""
        check_characters(text, text)
        self._make_ready()
        with telling([text], (), None):
            answer = self._call(lambda library: library.execute(text.encode("ascii")))
        if changes_naming(text):
            self._ask_naming(None)
        if answer.startswith("! "):
            refusal = refusal_of(answer)
            assert refusal
            error = RefusedError(*refusal)
            error.concern(text, None)
            raise error
        return answer

    @alone
    def operators(self) -> None:
        """Makes the functions that compare and compute known to the store, by the library's own call; see Store.operators."""
        self._make_ready()
        line = self._call(lambda library: library.operators())
        self._ask_naming(None)
        refusal = refusal_of(line) if line else None
        if refusal:
            raise with_way_around(RefusedError(*refusal))

    @alone
    def snapshot(self) -> None:
        """Takes a snapshot, so that the next opening reads the world, and not each form that made it."""
        self._make_ready()
        line = self._call(lambda library: library.snapshot())
        refusal = refusal_of(line) if line else None
        if refusal:
            raise RefusedError(*refusal)

    @alone
    def figures(self) -> Figures:
        """What the file in use holds: its generation, records and version."""
        self._make_ready()
        return self._call(lambda library: library.figures())


class EmbeddedMessageStore(MessageStore):
    """A store in this process that carries out messages, each once, and answers questions. Threads may share it.

    `library`, `existing` and `snapshot_ratio` are those of EmbeddedStore. A store that was closed or killed and is opened again tells
    its `position`: what has a number up to it is carried out, and nothing over it has written.
    """

    def __init__(
        self,
        folder: str | os.PathLike[str],
        library: str | os.PathLike[str] | None = None,
        *,
        existing: bool = False,
        unicode: bool = True,
        snapshot_ratio: int = RATIO,
    ) -> None:
        self._folder = os.fspath(folder)
        self._flags = EXISTING if existing else 0
        self._ratio = checked_ratio(snapshot_ratio)
        self._calls = calls_of(find_library(library))
        self._library: Library | None = None
        self._begin(unicode)

    @alone
    def snapshot(self) -> None:
        """Takes a snapshot, so that the next opening reads the world, and not each form that made it."""
        self._ready()
        line = self._call(lambda library: library.snapshot())
        refusal = refusal_of(line) if line else None
        if refusal:
            raise RefusedError(*refusal)

    @alone
    def figures(self) -> Figures:
        """What the file in use holds: its generation, records and version."""
        self._ready()
        return self._call(lambda library: library.figures())

    def _do_some(self, texts: Sequence[str], outcomes: list[Outcome]) -> None:
        numbers = range(self._ready() + 1, self._last + 1 + len(texts))
        self._last += len(texts)
        messages = [(number, text.encode("ascii")) for number, text in zip(numbers, texts)]
        outcomes += map(self._naming.outcome, self._call(lambda library: library.do_all(messages)))

    def _ask(self, text: str) -> str:
        self._ready()
        return self._call(lambda library: library.ask(text.encode("ascii")))

    def _call(self, call: Callable[[Library], Given]) -> Given:
        """What the library gives. After a fault the next call opens the store again."""
        assert self._library
        return asked(self._library, call, self._leave)

    def _ready(self) -> int:
        if self._is_closed:
            raise ClosedStoreError
        if self._library is None:
            self._open()
        return self._last

    def _open(self) -> int:
        self._library = Library(self._folder, self._calls, self._flags, self._ratio)
        try:
            position = self._call(lambda library: library.position())
            self._ask_naming()
        except BaseException:
            self._leave()
            raise
        self._last = max(self._last, position)
        return position

    def _leave(self) -> int | None:
        library, self._library = self._library, None
        return library.end()[0] if library else None

    def _ask_naming(self) -> None:
        self._naming.take(self._call(lambda library: library.ask(NAMING_QUESTION.encode("ascii"))))
