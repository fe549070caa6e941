"""What can go wrong, and what stands after it."""

from __future__ import annotations

import contextlib
from collections.abc import Iterator, Sequence
from typing import Any

WAY_TO_FUNCTIONS = "open it once by `pazturrok run DIR --operators`, or call operators()"
"""How a store gets the package of the functions that compare and compute."""

WAY_TO_FUNCTIONS_OF_NODES = "send the forms of lisp/operators.lisp to a node, once (docs/run/machines.md), or call operators()"
"""The same of the store of nodes: one that another program wrote to is refused by its node."""

SHOWN = 100
"""So many characters of a form a message has at most; the error has the whole."""


def shown(text: str) -> str:
    """The beginning of a text, on one line."""
    line = " ".join(text[: 4 * SHOWN].split())
    return line if len(line) <= SHOWN and len(text) <= 4 * SHOWN else f"{line[:SHOWN].rstrip()} .."


class StoreError(Exception):
    """Something that a store or this client of it refuses, or that went wrong.

    Of one that is about a form, `form` is the text that was sent, whole, and `index` the place of the form in the
    list that was given, from 0; None of a form that was given alone.
    """

    form: str | None = None
    index: int | None = None

    BEFORE_FORM = ": "
    """What stands between the error and its form."""

    def concern(self, form: str | None, index: int | None) -> None:
        """Says which form it is of."""
        self.form, self.index = form, index

    def _summary(self) -> str:
        return super().__str__()

    def _lines(self) -> str | None:
        """What stands on lines of its own after it."""
        return None

    def __str__(self) -> str:
        text, which = self._summary(), "" if self.index is None else f"forms[{self.index}]"
        if self.form is not None:
            text += f"{self.BEFORE_FORM}{which and which + ' is '}{shown(self.form)}"
        elif which:
            text = f"{which}: {text}"
        lines = self._lines()
        return f"{text}\n{lines}" if lines else text


class RefusedError(StoreError):
    """The store refused the form, which changed nothing.

    `reason` is what stands behind the number, as the operator that is not known, where the program tells it.
    The store goes on: after 1 to 25 the session has ended, `place` is what standard error says of it, and
    the next form opens the store again. `hint` is what the client knows to do about it, if anything.
    """

    hint: str | None = None

    def __init__(self, number: int, name: str, place: str | None = None, reason: str | None = None) -> None:
        # the program tells a part of the form behind the name
        reason = reason.removeprefix(f"{name}: ") if reason else None
        super().__init__(f"{number} {name}" + (f" ({reason})" if reason else ""))
        self.number = number
        self.name = name
        self.place = place
        self.reason = reason

    def _lines(self) -> str | None:
        # of a form that was read the place says no more than the form, which is told
        return self.hint or (None if self.reason and self.number > 25 else self.place)


class UnsendableError(StoreError):
    """No session can read this object or text. Nothing was sent, and the store goes on."""

    def __init__(self, thing: object, reason: str) -> None:
        shown = repr(thing)
        super().__init__(f"{shown[:100]}{' ..' if len(shown) > 100 else ''} cannot be sent: {reason}")
        self.thing = thing
        self.reason = reason


class MalformedAnswerError(StoreError):
    """The program answered what is no printed text of an object.

    Where its end is known all the same the store goes on, and else it is broken.
    """

    def __init__(self, text: str, reason: str) -> None:
        super().__init__(f"the answer {text[:100]!r} is not of the protocol: {reason}")
        self.text = text
        self.reason = reason


class UnansweredError(StoreError):
    """The program gave no answer: whether the form is in the store is not known, and the store is broken.

    Of many forms that were sent at once, `outcomes` are those of the first ones, which were answered; `form` and
    `index` are of the first one that was not.
    """

    outcomes: list[Any] = []  # noqa: RUF012

    BEFORE_FORM = "; not answered: "


class FaultError(UnansweredError):
    """The library could not open the store, or its device failed: the number, its name and the cause.

    Whether the form is in the store is not known, and the store is broken. Of a store that could not be opened
    `folder` is its folder.
    """

    def __init__(self, number: int, name: str, cause: str, folder: str | None = None) -> None:
        text = f"{number} {name}" + (f": {cause}" if cause else "")
        super().__init__(text if folder is None else f"{text} ({folder})")
        self.number = number
        self.name = name
        self.cause = cause
        self.folder = folder


class NoLibraryError(StoreError):
    """The library of this path cannot be loaded, or is another one."""

    def __init__(self, path: str, reason: str) -> None:
        super().__init__(f"there is no store in this process: {reason}; PAZTURROK_LIBRARY names its file")
        self.path = path
        self.reason = reason


class NoProgramError(StoreError):
    """The program of this path cannot be started: it is not there, or is no program."""

    def __init__(self, path: str, reason: str) -> None:
        super().__init__(f"the program {path!r} cannot be started: {reason}")
        self.path = path
        self.reason = reason


class StoppedError(UnansweredError):
    """The program has ended; `fault` is what it wrote to standard error of that.

    Of a store that could not be opened `folder` is its folder.
    """

    folder: str | None = None

    def __init__(self, status: int, fault: str) -> None:
        super().__init__(f"the program has ended with status {status}")
        self.status = status
        self.fault = fault

    def _summary(self) -> str:
        return super()._summary() + (f" as it opened {self.folder}" if self.folder else "")

    def _lines(self) -> str | None:
        return self.fault


class TimeLimitError(UnansweredError, TimeoutError):
    """No whole answer came in time, and the program was ended."""

    def __init__(self, seconds: float) -> None:
        super().__init__(f"no answer within {seconds} seconds; the program was ended")
        self.seconds = seconds


@contextlib.contextmanager
def telling(texts: Sequence[str], outcomes: Sequence[Any], first: int | None) -> Iterator[None]:
    """Within it the texts of forms get their outcomes. Each error of these is told which form it is of, and one that
    leaves the rest without an answer also what the outcomes are.

    `first` is the index of the first form, None of a form alone.
    """
    try:
        yield
    except UnansweredError as error:
        error.outcomes = list(outcomes)
        for text in texts[len(outcomes) :][:1]:
            error.concern(text, None if first is None else first + len(outcomes))
        raise
    finally:
        for place, (text, outcome) in enumerate(zip(texts, outcomes)):
            if isinstance(outcome, StoreError):
                outcome.concern(text, None if first is None else first + place)


class LostAnswerError(StoreError):
    """The message was carried out, once; its answer was lost, and it is not sent again."""

    def __init__(self, number: int) -> None:
        super().__init__(f"message {number} was carried out, and its answer was lost")
        self.number = number


class NoNodeError(UnansweredError, TimeoutError):
    """No node answered in time.

    What was sent may be carried out later, or not; sent again under the same name it is carried out once.
    """

    def __init__(self, seconds: float, reason: str) -> None:
        super().__init__(f"no node answered within {seconds} seconds: {reason}")
        self.seconds = seconds
        self.reason = reason


class BrokenStoreError(StoreError):
    """An earlier form was left before its answer was read whole. Nothing was sent.

    What the program still has to say would be taken for the answer of another form.
    """

    def __init__(
        self, reason: str = "a form was left before its answer was read whole: reopen() opens the store again"
    ) -> None:
        super().__init__(reason)


class NestedCallError(BrokenStoreError):
    """This thread is within another call on the store, which goes on. Nothing was sent.

    A signal handler or a finalizer called, which had interrupted it. There is nothing to open again.
    """

    def __init__(self) -> None:
        super().__init__("this thread is within another call on the store, which goes on")


class ClosedStoreError(StoreError):
    """The store was closed. Nothing was sent."""

    def __init__(self) -> None:
        super().__init__("the store is closed")
