"""A store: forms are sent to it, one after the other or many at once, and their values come back."""

from __future__ import annotations

import enum
import itertools
import os
import re
from collections.abc import Callable, Iterable, Iterator, Sequence
from types import TracebackType
from typing import Protocol, Union

from .alone import Shared, alone
from .answers import parse_answer, refusal_of
from .errors import (
    WAY_TO_FUNCTIONS,
    BrokenStoreError,
    ClosedStoreError,
    MalformedAnswerError,
    RefusedError,
    StoppedError,
    StoreError,
    UnansweredError,
    UnsendableError,
    telling,
)
from .printer import FORM_LIMIT, check_characters, packages_of, printed, string_text
from .program import REFUSED, Program, flags_of
from .properties import Properties
from .texts import is_one_form, without_texts
from .values import FUNCTIONS, LISP, OPERATORS, Symbol, Value

Form = Union[str, "list[Value]"]
Outcome = Union[Value, StoreError]

NAMING_QUESTION = f"(LIST *PACKAGE* {' '.join(chr(39) + name for name in sorted(OPERATORS))})"
"""What the current package is, and which symbols of COMMON-LISP are printed in it without a prefix."""

CHANGES_NAMING = re.compile(r"IN-PACKAGE|USE-PACKAGE|IMPORT|EXPORT", re.IGNORECASE)
"""What stands in a form that may change how symbols are printed, where its escapes and bars are left out."""


class Link(Protocol):
    """What executes the texts of forms: a program that runs, or the library in this process."""

    def exchange(
        self, texts: Sequence[str], answers: list[str], is_last: Callable[[str], bool], seconds: float | None
    ) -> None:
        """Executes texts, and appends the answer to each, up to one that is the last of the session."""

    def reason(self, place: int) -> str | None:
        """What is told of the refusal of a text of the last exchange, beside its number."""

    def end(self, limit: float | None = None) -> tuple[int, str]:
        """Ends it, and gives its status and what it told of faults."""


class State(enum.Enum):
    """What can be done with a store."""

    GOOD = "each form that was sent has its whole answer"
    BROKEN = "a form was left within its answer"
    ENDED = "a text that could not be read ended the session: the next form opens the store again"
    CLOSED = "the store was closed"


class Store(Shared, Properties):
    """A program over a folder. Threads may share it: each waits until the one before it has its answers.

    `time_limit` is how many seconds an answer may take, `opening_time_limit` how many the opening, None for
    any time. With `existing` a folder that holds no store is refused. With `one_sync` halves that are begun are kept
    with one sync, on a disk whose writes mix; a store that is kept so wants it each time. `options` are further words of
    the command line, as ("--snapshot-every", "1000"). Without `unicode` texts are ASCII alone.

    After a fork the child has no store: its calls raise BrokenStoreError.
    """

    def __init__(
        self,
        folder: str | os.PathLike[str],
        program: str | os.PathLike[str] = "pazturrok",
        *,
        time_limit: float | None = None,
        opening_time_limit: float | None = None,
        existing: bool = False,
        one_sync: bool = False,
        options: Sequence[str] = (),
        unicode: bool = True,
    ) -> None:
        own = ["--rescue", "--group", *flags_of(existing, one_sync)]
        unanswered = {"--quiet", "--messages", "--help"}.intersection(options)
        if unanswered:
            raise ValueError(f"{min(unanswered)} of options: a store reads the answer to each form")
        further = [word for word in options if word not in own]
        self._folder = os.fspath(folder)
        self._words = [os.fspath(program), "run", self._folder, *own, *further]
        self._begin(time_limit, opening_time_limit, unicode)

    def _begin(self, time_limit: float | None, opening_time_limit: float | None, unicode: bool) -> None:
        self._unicode = unicode
        self._time_limit = time_limit
        self._opening_time_limit = opening_time_limit
        self._state = State.CLOSED
        self._program: Link | None = None
        self._round_trips = 0
        Shared.__init__(self)
        self._open()

    def _start(self) -> Link:
        return Program(self._words)

    def _leave_to_parent(self) -> None:
        if isinstance(self._program, Program):
            self._program.leave_to_parent()
            self._program = None
            self._state = State.CLOSED if self._state is State.CLOSED else State.BROKEN

    @property
    def state(self) -> State:
        """What can be done with the store."""
        return self._state

    @property
    def round_trips(self) -> int:
        """How often something was sent, and answers were waited for."""
        return self._round_trips

    @property
    def pid(self) -> int | None:
        """The number of the program's process."""
        return self._program.process.pid if isinstance(self._program, Program) else None

    def __enter__(self) -> Store:
        return self

    def __exit__(
        self, kind: type[BaseException] | None, error: BaseException | None, traceback: TracebackType | None
    ) -> None:
        self.close()

    def _put_form(self, form: list[Value]) -> Value:
        return self.execute(form)

    def _look_form(self, form: list[Value]) -> Value:
        return self.execute(form)

    # Opening and closing

    def _open(self) -> None:
        self._state = State.BROKEN
        self._packages: set[str] = set()
        self._program = self._start()
        try:
            self._ask_naming(self._opening_time_limit)
        except StoppedError as error:
            error.folder = self._folder
            raise
        finally:
            if self._state is not State.GOOD:
                self._program.end()

    @alone
    def close(self) -> int | None:
        """Ends the session, and gives the status of the program. What was answered is in the store.

        It waits ten seconds at most for the program, and then kills it.
        """
        return self._close()

    @alone
    def reopen(self) -> None:
        """Ends the program if it still runs, and opens the store again."""
        self._close()
        self._open()

    def _close(self) -> int | None:
        self._state = State.CLOSED
        return self._program.end()[0] if self._program else None

    # Forms

    def execute(self, form: Form, *, time_limit: float | None = None) -> Value:
        """Sends a form, its text or the form as a list, and gives its value.

        It is read under the standard readtable, in COMMON-LISP-USER, in base 10.
        """
        return value_of(self._execute_forms([form], self._seconds(time_limit), None)[0])

    def execute_all(
        self, forms: Iterable[Form], *, time_limit: float | None = None, raise_on_refusal: bool = True
    ) -> list[Outcome]:
        """Sends many forms, without waiting for each answer, and gives the list of their values.

        All of them are done, whether one is refused or not. The first refusal is raised when all are
        answered; or, without `raise_on_refusal`, its exception stands in the place of a value. `time_limit`
        is for the answers of what is sent at once.
        """
        outcomes = self._execute_forms(list(forms), self._seconds(time_limit), 0)
        if raise_on_refusal:
            for outcome in outcomes:
                value_of(outcome)
        return outcomes

    def _seconds(self, time_limit: float | None) -> float | None:
        """The limit of a call: its own, or that of the store."""
        seconds = self._time_limit if time_limit is None else time_limit
        if seconds is not None and seconds <= 0:
            raise ValueError("a time limit is more than 0 seconds")
        return seconds

    @alone
    def _execute_forms(self, forms: list[Form], seconds: float | None, first: int | None) -> list[Outcome]:
        """The outcomes of forms. `first` is the index of the first one, None of a form alone."""
        texts = texts_of(forms, lambda form: self._text(form, seconds), first)
        outcomes: list[Outcome] = []
        with telling(texts, outcomes, first):
            while len(outcomes) < len(texts):
                self._carry_out(_first_texts(texts[len(outcomes) :]), outcomes, seconds)
        return outcomes

    def iterate(
        self, forms: Iterable[Form], *, at_once: int = 1000, time_limit: float | None = None
    ) -> Iterator[Outcome]:
        """Sends forms as they come, so many of them at once, and gives the value of each, or its exception.

        Forms may be without end: no more of them, and of their values, are held than are sent at once.
        """
        remaining, seconds, first = iter(forms), self._seconds(time_limit), 0
        while some := list(itertools.islice(remaining, at_once)):
            yield from self._execute_forms(some, seconds, first)
            first += len(some)

    def _text(self, form: Form, seconds: float | None) -> str:
        """The text of a form, which some session can read."""
        if not isinstance(form, str):
            text = printed(form, unicode=self._unicode)
            self._check_packages(form, seconds)
            return text
        check_characters(form, form)
        if not is_one_form(form):
            raise UnsendableError(form, "it is not one whole form")
        if len(form) > FORM_LIMIT:
            raise UnsendableError(form, f"it is longer than {FORM_LIMIT} characters")
        return form

    def _check_packages(self, form: Value, seconds: float | None) -> None:
        for package in sorted(set(packages_of(form)) - self._packages):
            self._make_ready()
            answer = self._answer(f"(IMPORT NIL {string_text(package)})", seconds)
            if refusal_of(answer):
                way = f": {WAY_TO_FUNCTIONS}" if package == FUNCTIONS else ""
                raise UnsendableError(form, f"the store has no package {package!r}{way}")
            self._packages.add(package)

    def _make_ready(self) -> Link:
        """The program of a store that can be sent to."""
        if self._state is State.BROKEN:
            raise BrokenStoreError
        if self._state is State.CLOSED:
            raise ClosedStoreError
        if self._state is State.ENDED:
            self._open()
        assert self._program
        return self._program

    def _carry_out(self, texts: list[str], outcomes: list[Outcome], seconds: float | None) -> None:
        """Sends texts at once, and appends the outcomes of those that were answered."""
        self._make_ready()
        answers: list[str] = []
        try:
            self._exchange(texts, answers, seconds)
        except UnansweredError:
            outcomes += map(self._outcome, answers)
            raise
        reasons = list(map(self._reason, answers, itertools.count()))
        outcomes += map(self._outcome, answers[:-1], reasons)
        place, reason = self._end_session() if self._ends_session(answers[-1]) else (None, None)
        if place is None and changes_naming(texts[-1]):
            self._ask_naming(seconds)
        outcomes.append(self._outcome(answers[-1], reasons[-1] or reason, place))

    # Texts to and fro

    def _exchange(self, texts: list[str], answers: list[str], seconds: float | None) -> None:
        """Sends the texts of whole forms, and appends their answers, up to one that ends the session.

        The store is broken before anything is sent, and good when all is read: whatever leaves this function
        in another way leaves it broken.
        """
        assert self._program
        self._state = State.BROKEN
        self._program.exchange(texts, answers, self._ends_session, seconds)
        self._round_trips += 1
        self._state = State.GOOD

    def _answer(self, text: str, seconds: float | None) -> str:
        answers: list[str] = []
        self._exchange([text], answers, seconds)
        return answers[0]

    def _ends_session(self, answer: str) -> bool:
        refusal = refusal_of(answer)
        return refusal is not None and (refusal[0] <= 25 or "--strict" in self._words)

    def _end_session(self) -> tuple[str, str | None]:
        """Ends the session after its last refusal, and gives what standard error says of its place, and what it was about."""
        assert self._program
        self._state = State.ENDED
        lines = self._program.end()[1].splitlines()
        told = [REFUSED.fullmatch(line) for line in lines]
        places = [line for line, of_refusal in zip(lines, told) if not of_refusal]
        reasons = [of_refusal[2] for of_refusal in told if of_refusal]
        return (places or [""])[-1], (reasons or [None])[-1]

    def _reason(self, answer: str, place: int) -> str | None:
        """What is told of a refusal, beside its number, of the answer at this place of the last exchange."""
        return self._program.reason(place) if self._program and answer.startswith("! ") else None

    def _ask_naming(self, seconds: float | None) -> None:
        """Asks how symbols are printed. The store is good when that is known."""
        answer = self._answer(NAMING_QUESTION, seconds)
        self._state = State.BROKEN
        named = parse_answer(answer, lambda prefix, name: "" if prefix else name)
        if not isinstance(named, list) or not named or not all(isinstance(name, str) for name in named):
            raise MalformedAnswerError(answer, "no package and names")
        self._current, *bare = map(str, named)
        self._bare = frozenset(bare) - {""}
        self._state = State.GOOD

    def _symbol(self, prefix: str | None, name: str) -> Value:
        """The object for a symbol that an answer names so."""
        package = prefix or (LISP if name in self._bare else self._current)
        symbol = Symbol(name, package)
        return [] if symbol == Symbol("NIL", LISP) else symbol

    def _outcome(self, answer: str, reason: str | None = None, place: str | None = None) -> Outcome:
        """The value that an answer tells; or that the form was refused, or answered with nonsense."""
        try:
            refusal = refusal_of(answer)
            if refusal:
                return RefusedError(*refusal, place, reason)
            return parse_answer(answer, self._symbol, self._unicode)
        except MalformedAnswerError as error:
            return error


def value_of(outcome: Outcome) -> Value:
    """The value of a form; an exception is raised."""
    if isinstance(outcome, StoreError):
        raise outcome
    return outcome


def texts_of(forms: Iterable[Form], text_of: Callable[[Form], str], first: int | None) -> list[str]:
    """The text of each form. One that cannot be sent is told by its index."""
    texts: list[str] = []
    for form in forms:
        try:
            texts.append(text_of(form))
        except UnsendableError as error:
            error.concern(None, None if first is None else first + len(texts))
            raise
    return texts


def changes_naming(text: str) -> bool:
    """Whether the form may change how symbols are printed after it. What stands in a text changes nothing."""
    return _has_such_a_name(text) and _has_such_a_name(without_texts(text))


def _has_such_a_name(text: str) -> bool:
    return CHANGES_NAMING.search(re.sub(r"[\\|]", "", text)) is not None


def _first_texts(texts: list[str]) -> list[str]:
    """The first texts, up to one that may change how symbols are printed."""
    for place, text in enumerate(texts):
        if changes_naming(text):
            return texts[: place + 1]
    return texts
