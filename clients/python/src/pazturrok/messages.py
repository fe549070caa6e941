"""Messages with numbers: each is carried out once, whatever becomes of the program that does it."""

from __future__ import annotations

import os
import re
from collections.abc import Iterable, Sequence
from types import TracebackType

from .alone import Shared, alone
from .errors import (
    ClosedStoreError,
    LostAnswerError,
    MalformedAnswerError,
    StoppedError,
    UnsendableError,
    telling,
)
from .named import (
    checked_name,
    checked_number,
    named_message,
    number_of_entry,
    outcome_of_named,
    question_of_entry,
)
from .naming import NAMING_QUESTION, Naming, until_naming
from .printer import FORM_LIMIT, check_characters, printed
from .program import Program, flags_of
from .properties import Properties
from .store import Form, Outcome, changes_naming, texts_of, value_of
from .values import Value

HEAD = re.compile(rb"(?:(?:by )?(?:0|[1-9][0-9]*)|ask) (0|[1-9][0-9]*)")
POSITION = re.compile(rb"at (0|[1-9][0-9]*)")
RESTARTS = 5
"""How often the program is started again, one time after the other, before any answer has come."""


class FrameSplitter:
    """Splits what the program writes into answers: each the line before it, a newline, and its text.

    First comes the position, if it is not known already.
    """

    def __init__(self, position: int | None = None) -> None:
        self._bytes = bytearray()
        self.position = position

    @property
    def is_empty(self) -> bool:
        """Whether no byte has come since the last answer."""
        return not self._bytes

    def feed(self, data: bytes) -> list[str]:
        """The answers that these bytes make whole."""
        self._bytes += data
        answers, place = [], self._pass_position()
        while (end := self._end(place)) is not None:
            answers.append(self._bytes[place : end - 1].decode("latin-1"))
            place = end
        del self._bytes[:place]
        return answers

    def _pass_position(self) -> int:
        """The place after the position, which comes once."""
        end = self._bytes.find(b"\n") + 1
        if self.position is not None or not end:
            return 0
        told = POSITION.fullmatch(self._bytes, 0, end - 1)
        if not told:
            raise MalformedAnswerError(self._bytes[:end].decode("latin-1"), "no position")
        self.position = int(told[1])
        return end

    def _end(self, place: int) -> int | None:
        """The place after the answer that begins here, or None where it is not whole."""
        start = self._bytes.find(b"\n", place) + 1
        if self.position is None or not start:
            return None
        head = HEAD.fullmatch(self._bytes, place, start - 1)
        if not head:
            raise MalformedAnswerError(self._bytes[place:start].decode("latin-1"), "no head of an answer")
        end = start + int(head[1]) + 1
        if end > len(self._bytes):
            return None
        if self._bytes[end - 1 : end] != b"\n":
            text = self._bytes[place:end].decode("latin-1")
            raise MalformedAnswerError(text, "it is longer than its length")
        return end


class MessageStore(Shared, Properties):
    """A program over a folder that carries out messages, of which each has a number, and answers questions.

    A message is carried out once. Where the program was killed it is started again: it tells which message it
    has carried out last, and those after it are sent again. One whose answer was lost so is not: a
    `LostAnswerError` stands in place of its value. A form is read as the store reads, under its current
    readtable, package and read base.

    With `client_name` the store keeps the number and the answer of the last message under this name. Then each message
    waits for the answer to the one before it, and is sent again where the program was killed: no answer is lost. Numbers are
    those of the client: `position` is the last one, also of an earlier process, and `do` takes a number of one's own.

    One MessageStore at a time may feed a store. `time_limit` is how many seconds the answers of what is sent
    at once may take. With `existing` a folder that holds no store is refused. `one_sync` is that of Store. `options` are
    further words of the command line, as ("--snapshot-every", "1000"). Without `unicode` texts are ASCII alone.
    """

    def __init__(
        self,
        folder: str | os.PathLike[str],
        program: str | os.PathLike[str] = "pazturrok",
        *,
        time_limit: float | None = None,
        existing: bool = False,
        one_sync: bool = False,
        options: Sequence[str] = (),
        unicode: bool = True,
        client_name: str | None = None,
    ) -> None:
        self._client_name = None if client_name is None else checked_name(client_name)
        own = ["--messages", *flags_of(existing, one_sync)]
        self._folder = os.fspath(folder)
        self._words = [os.fspath(program), "run", self._folder, *own, *(word for word in options if word not in own)]
        self._time_limit = time_limit
        self._begin(unicode)

    _client_name: str | None = None

    def _begin(self, unicode: bool) -> None:
        """Opens the store for the first time."""
        self._unicode = unicode
        self._program: Program | None = None
        self._is_closed = False
        Shared.__init__(self)
        self._last = 0
        self._naming = Naming(unicode)
        self._open()

    def _leave_to_parent(self) -> None:
        program, self._program = self._program, None
        if program:
            program.leave_to_parent()

    @property
    def position(self) -> int:
        """The number of the last message that was sent, or that the store told when it was opened: of a client with a
        name that of its own messages."""
        return self._last

    @property
    def pid(self) -> int | None:
        """The number of the program's process."""
        program = self._program  # another thread may take it for an exchange
        return program.process.pid if program else None

    def __enter__(self) -> MessageStore:
        return self

    def __exit__(
        self, kind: type[BaseException] | None, error: BaseException | None, traceback: TracebackType | None
    ) -> None:
        self.close()

    @alone
    def close(self) -> int | None:
        """Ends the session, and gives the status of the program. What was answered is in the store."""
        self._is_closed = True
        return self._leave()

    def do(self, form: Form, *, number: int | None = None) -> Value:
        """Has a form carried out, its text or the form as a list, and gives its value.

        A client with a name may give it a number of its own, greater than that of its last message: the same form is sent
        again under that number, by this process or another one, and its answer comes again, word for word.
        """
        return value_of(self._do_texts([text_of(form, self._unicode)], None, self._checked(number))[0])

    def _checked(self, number: int | None) -> int | None:
        if number is None:
            return None
        if self._client_name is None:
            raise ValueError("a number of one's own is for a client with a name")
        return checked_number(number)

    def do_all(self, forms: Iterable[Form]) -> list[Outcome]:
        """Has many forms carried out, and gives the value of each, or its exception. All are sent at once, but for those
        of a client with a name."""
        return self._do_texts(texts_of(forms, lambda form: text_of(form, self._unicode), 0), 0)

    @alone
    def unregister(self) -> None:
        """Has the store forget this client: its number and its answer go, and its numbers begin anew."""
        if self._client_name is None:
            raise ValueError("this client has no name")
        value_of(self._do_named(None, self._ready()))

    @alone
    def ask(self, form: Form) -> Value:
        """Asks for the value of a form, which may change nothing."""
        text = text_of(form, self._unicode)
        outcomes: list[Outcome] = []
        with telling([text], outcomes, None):
            outcomes.append(self._naming.outcome(self._ask(text)))
        return value_of(outcomes[0])

    def _put_form(self, form: list[Value]) -> Value:
        return self.do(form)

    def _look_form(self, form: list[Value]) -> Value:
        return self.ask(form)

    # Sending

    @alone
    def _do_texts(self, texts: Sequence[str], first: int | None, number: int | None = None) -> list[Outcome]:
        """The outcomes of texts. `first` is the index of the first one, None of a form alone."""
        outcomes: list[Outcome] = []
        with telling(texts, outcomes, first):
            while len(outcomes) < len(texts):
                if self._client_name is None:
                    self._do_some(until_naming(texts[len(outcomes) :]), outcomes)
                else:
                    outcomes.append(self._do_named(texts[len(outcomes)], number))
                if changes_naming(texts[len(outcomes) - 1]):
                    self._ask_naming()
        return outcomes

    def _do_some(self, texts: Sequence[str], outcomes: list[Outcome]) -> None:
        """Appends the outcomes of texts that change no names, but for the last one."""
        numbers = range(self._ready() + 1, self._last + 1 + len(texts))
        self._last += len(texts)
        unanswered = list(zip(numbers, texts))
        stops = 0
        while unanswered:
            answers: list[str] = []
            try:
                self._exchange([message(*pair) for pair in unanswered], answers)
            except StoppedError as error:
                outcomes += map(self._naming.outcome, answers)
                stops = 1 if answers else stops + 1
                if error.status >= 0 or stops > RESTARTS:
                    raise
                del unanswered[: len(answers)]
                position = self._open()
                lost = [LostAnswerError(number) for number, _ in unanswered if number <= position]
                outcomes += lost
                del unanswered[: len(lost)]
            else:
                outcomes += map(self._naming.outcome, answers)
                del unanswered[: len(answers)]

    def _do_named(self, text: str | None, number: int | None) -> Outcome:
        """The outcome of a message of a client with a name, under this number or the next one."""
        assert self._client_name is not None
        number = checked_number(self._ready() + 1) if number is None else number
        self._last = max(self._last, number)
        answer = self._send(named_message(self._client_name, number, text))
        return outcome_of_named(self._naming.outcome(answer), number)

    def _ask(self, text: str) -> str:
        """The answer to a question."""
        return self._send(question(text))

    def _send(self, frame: str) -> str:
        """The answer to a frame, which is sent again where the program was killed."""
        for stops in range(RESTARTS + 1):
            answers: list[str] = []
            try:
                self._ready()
                self._exchange([frame], answers)
                return answers[0]
            except StoppedError as error:
                if error.status >= 0 or stops == RESTARTS:
                    raise
        raise AssertionError

    def _exchange(self, frames: Sequence[str], answers: list[str]) -> None:
        """Sends frames, and appends the answers without their heads, which have to be those of the frames."""
        assert self._program
        program, self._program = self._program, None
        found: list[str] = []
        try:
            program.exchange(frames, found, lambda _: False, self._time_limit)
            self._program = program
        finally:
            if self._program is None:
                program.end()
            for frame, answer in zip(frames, found):
                head, _, text = answer.partition("\n")
                wanted = frame.partition("\n")[0].removeprefix("do ").rpartition(" ")[0]
                if head.rpartition(" ")[0] != wanted:
                    raise MalformedAnswerError(answer, f"it is not that of {wanted}")
                answers.append(text)

    # Opening and closing

    def _ready(self) -> int:
        """The last number of a store that is open."""
        if self._is_closed:
            raise ClosedStoreError
        if self._program is None:
            self._open()
        return self._last

    def _open(self) -> int:
        """Opens the store, asks how it prints symbols, and gives its position."""
        for stops in range(RESTARTS + 1):
            splitter = FrameSplitter()
            self._program = Program(self._words, splitter)
            try:
                self._ask_naming()
                position = self._ask_position(splitter)
                break
            except StoppedError as error:
                error.folder = self._folder
                if error.status >= 0 or stops == RESTARTS:
                    raise
            except BaseException:
                self._leave()
                raise
        self._last = max(self._last, position)
        return position

    def _ask_position(self, splitter: FrameSplitter) -> int:
        """The number of the last message that the store has: of a client with a name it is asked for, and else told."""
        if self._client_name is None:
            assert splitter.position is not None
            return splitter.position
        answers: list[str] = []
        self._exchange([question(question_of_entry(self._client_name))], answers)
        return number_of_entry(self._naming.outcome(answers[0]))

    def _leave(self) -> int | None:
        program, self._program = self._program, None
        return program.end()[0] if program else None

    # Values

    def _ask_naming(self) -> None:
        answers: list[str] = []
        self._exchange([question(NAMING_QUESTION)], answers)
        self._naming.take(answers[0])


def text_of(form: Form, unicode: bool) -> str:
    """The text of a form, which a store can read as far as its characters and its length go. That of a list means the
    same whatever package is current, as another client may have changed it."""
    text = form if isinstance(form, str) else printed(form, unicode=unicode, anywhere=True)
    check_characters(text, form)
    if len(text) > FORM_LIMIT:
        raise UnsendableError(form, f"it is longer than {FORM_LIMIT} characters")
    return text


def message(number: int, text: str) -> str:
    """A message without the newline at its end."""
    return f"do {number} {len(text)}\n{text}"


def question(text: str) -> str:
    return f"ask {len(text)}\n{text}"
