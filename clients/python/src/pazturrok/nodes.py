"""A store for many clients: the node of one machine, or those of several, of which any answers."""

from __future__ import annotations

import contextlib
import math
import re
import ssl
import time
import uuid
from collections.abc import Iterable, Sequence
from types import TracebackType

from .alone import Shared, alone
from .answers import refusal_of
from .connection import Connection
from .errors import (
    WAY_TO_FUNCTIONS_OF_NODES,
    BrokenStoreError,
    ClosedStoreError,
    LostAnswerError,
    MalformedAnswerError,
    NoNodeError,
    RefusedError,
    telling,
)
from .messages import question, text_of
from .named import (
    checked_name,
    checked_number,
    named_message,
    number_of_entry,
    outcome_of_named,
    question_of_entry,
)
from .naming import NAMING_QUESTION, Naming, until_naming
from .properties import Name, Properties, put_form, set_form, take_form, telling_way
from .store import Form, Outcome, changes_naming, texts_of, value_of
from .values import NIL, Value

VERSION, VERSION_WITH_NAMES = 1, 2
"""Of the frames that are sent; and of those that are sent for a client with a name."""

LEFT_TO_PARENT = "a client with a name stays with the parent of this process: open a store for a name of its own"

AT_ONCE = 2000
"""How many messages are sent before the first of them is answered."""

RESEND = 140.0
"""So many seconds a message is sent again. Its name may be free after 150, and it would be carried out twice."""

UNKNOWN_CLIENT = "before it said anything, as where it does not take the certificate of this client"

PAUSE = 0.05
"""How many seconds are between two tries."""

MOST_TRIES = 6
"""How often a question is sent, to one node after the other. By one for which it has no memory each store ends."""

OLD_NUMBER = 50
"""The refusal of a message that was carried out before, and whose answer is not kept any more."""

NO_ROOM = 54
"""The refusal of a message, or of a client, for which a node has no room."""


class NodeStore(Shared, Properties):
    """A store for many clients. A request goes to one node, and to the next where that does not answer.

    A message is carried out once: it has a name, and is sent again under it. `ask` asks the store of one
    node, as far as it has come; `read` does so after all that was answered before, by any node, to anybody.

    `nodes` are HOST:PORT, or `unix:` and the path of a socket; `context` is for TLS. A call raises NoNodeError where no node
    answers within `time_limit` seconds; `patience` is how many seconds one of them may say nothing. Without
    `unicode` texts are ASCII alone.

    With `client_name` the store itself keeps the number and the answer of the last message under this name, for as long as
    nobody takes them away. `do` is that of MessageStore then, and so is `unregister`; one process at a time may have a name.
    Nodes of several machines take such messages once all of them know them.

    After a fork the child has a connection and names of its own, so both may go on; but a client with a name stays with the parent.
    """

    def __init__(
        self,
        nodes: Sequence[str],
        *,
        time_limit: float = 120.0,
        patience: float = 10.0,
        context: ssl.SSLContext | None = None,
        unicode: bool = True,
        client_name: str | None = None,
    ) -> None:
        self._client_name = None if client_name is None else checked_name(client_name)
        self._number: int | None = None  # of the last message of a client with a name, once that is known
        self._is_of_parent = False
        if not nodes:
            raise ValueError("no nodes")
        self._nodes, self._context = [checked_node(node) for node in nodes], context
        self._time_limit, self._patience = time_limit, patience
        self._naming, self._unicode = Naming(unicode), unicode
        self._connection: Connection | None = None
        self._is_closed = False
        self._at = 0
        self._begin_names()
        super().__init__()

    def _begin_names(self) -> None:
        """Names that no other store gives: what is sent under one of them is carried out once, whoever sends it."""
        self._prefix, self._count = uuid.uuid4().hex, 0

    def _leave_to_parent(self) -> None:
        self._begin_names()
        self._is_of_parent = self._client_name is not None
        with contextlib.suppress(OSError):  # the other stores of this process have their turn too
            self._leave()

    @property
    def node(self) -> str:
        """The node that is asked next."""
        return self._nodes[self._at]

    def __enter__(self) -> NodeStore:
        return self

    def __exit__(
        self, kind: type[BaseException] | None, error: BaseException | None, traceback: TracebackType | None
    ) -> None:
        self.close()

    @alone
    def close(self) -> None:
        self._is_closed = True
        self._leave()

    def do(self, form: Form, *, name: str | None = None, number: int | None = None) -> Value:
        """Has a form carried out, and gives its value.

        A name of one's own makes it one with what another call, or another process, sends under it: 1 to 100
        letters, digits, dots, hyphens and underscores. A client with a name has numbers in place of that.
        """
        if name is not None:
            checked_name(name)
        if number is not None:
            checked_number(number)
        if (number if self._client_name is None else name) is not None:
            raise ValueError("a client with a name takes a number, and any other client the name of a form")
        return value_of(self._do_texts([text_of(form, self._unicode)], name, None, number)[0])

    @property
    def position(self) -> int:
        """The number of the last message of a client with a name."""
        return self._ask_number()

    @alone
    def unregister(self) -> None:
        """Has the store forget this client with a name: its number and its answer go, and its numbers begin anew."""
        if self._client_name is None:
            raise ValueError("this client has no name")
        value_of(self._do_named(None, self._number_now()))

    def do_all(self, forms: Iterable[Form]) -> list[Outcome]:
        """Has many forms carried out, in their order, and gives the value of each, or its exception."""
        return self._do_texts(texts_of(forms, lambda form: text_of(form, self._unicode), 0), None, 0)

    def ask(self, form: Form) -> Value:
        """Asks the store of one node, as far as it has come; the form may change nothing."""
        return self._question("ask", form)

    def read(self, form: Form) -> Value:
        """Asks after all that was answered before, anywhere: what it gives was so within this call."""
        return self._question("read", form)

    def put(self, symbol: Name, indicator: Name, value: Value, *, name: str | None = None) -> Value:
        """Sets the property of a symbol, and gives the value back, as the store has it; `name` is that of `do`."""
        return self.do(put_form(symbol, indicator, value), name=name)

    def compare_and_set(
        self, symbol: Name, indicator: Name, old: Value, new: Value, *, name: str | None = None
    ) -> bool:
        """Sets the property of a symbol where it is EQUAL to the old value, and tells whether it did; `name` is that of `do`.

        NIL stands for no property. The store has to have the package PAZTURROK, as operators() makes it.
        """
        form = set_form(symbol, indicator, old, new)
        with telling_way(form, WAY_TO_FUNCTIONS_OF_NODES):
            return self.do(form, name=name) != NIL

    def take(
        self, symbol: Name, indicator: Name, default: Value | None = None, *, name: str | None = None
    ) -> Value:
        """Takes the first item away from the list that is the property of a symbol, and gives it; `name` is that of `do`.

        Where the list is empty it gives the default, or NIL. The store has to have the package PAZTURROK.
        """
        form = take_form(symbol, indicator, default)
        with telling_way(form, WAY_TO_FUNCTIONS_OF_NODES):
            return self.do(form, name=name)

    def _put_form(self, form: list[Value]) -> Value:
        return self.do(form)

    def _look_form(self, form: list[Value]) -> Value:
        return self.read(form)

    # Sending

    @alone
    def _do_texts(
        self, texts: Sequence[str], name: str | None, first: int | None, number: int | None = None
    ) -> list[Outcome]:
        """The outcomes of texts. `first` is the index of the first one, None of a form alone."""
        outcomes: list[Outcome] = []
        with telling(texts, outcomes, first):
            while len(outcomes) < len(texts):
                if self._client_name is not None:
                    outcomes.append(self._do_named(texts[len(outcomes)], number))
                    continue
                some = until_naming(texts[len(outcomes) : len(outcomes) + AT_ONCE])
                frames = [f"do {name or self._next_name()} {len(text)}\n{text}" for text in some]
                try:
                    outcomes += [self._outcome(*answer) for answer in self._send(frames, resend=RESEND)]
                except NoNodeError as error:
                    outcomes += [self._outcome(*answer) for answer in error.outcomes]
                    raise
                if changes_naming(some[-1]):
                    self._leave()
        return outcomes

    def _do_named(self, text: str | None, number: int | None) -> Outcome:
        """The outcome of a message of a client with a name, under this number or the next one."""
        assert self._client_name is not None
        if self._is_of_parent:
            raise BrokenStoreError(LEFT_TO_PARENT)
        last = self._number_now()
        number = checked_number(last + 1) if number is None else number
        frame = named_message(self._client_name, number, text)
        self._number = max(last, number)
        head, answer = self._send([frame])[0]
        if head != f"by {number}":
            return MalformedAnswerError(answer, "it is not that of a message with this number")
        if text is not None and changes_naming(text):
            self._leave()
        return outcome_of_named(self._naming.outcome(answer), number)

    @alone
    def _ask_number(self) -> int:
        return self._number_now()

    def _number_now(self) -> int:
        """The number of the last message of a client with a name, which the store is asked for once."""
        if self._client_name is None:
            raise ValueError("this client has no name")
        if self._number is None:
            form = question_of_entry(self._client_name)
            answer = self._send([f"read {len(form)}\n{form}"], MOST_TRIES)[0][1]
            self._number = number_of_entry(self._naming.outcome(answer))
        return self._number

    def _next_name(self) -> str:
        self._count += 1
        return f"{self._prefix}-{self._count}"

    @alone
    def _question(self, kind: str, form: Form) -> Value:
        text = text_of(form, self._unicode)
        outcomes: list[Outcome] = []
        with telling([text], outcomes, None):
            outcomes.append(self._naming.outcome(self._send([f"{kind} {len(text)}\n{text}"], MOST_TRIES)[0][1]))
        return value_of(outcomes[0])

    def _send(
        self, frames: Sequence[str], tries: float = math.inf, resend: float = math.inf
    ) -> list[tuple[str, str]]:
        """The answers to frames, which are sent until they have one, no more than so many times, and for so many
        seconds after the first time. A node that refuses to speak by TLS is not asked again."""
        if self._is_closed:
            raise ClosedStoreError
        answers: list[tuple[str, str]] = []
        strange: set[str] = set()
        begun = time.monotonic()
        end, reason = begun + self._time_limit, ""
        while not reason or (tries > 0 and time.monotonic() < end and len(strange) < len(set(self._nodes))):
            seconds = min(self._patience, max(0.01, end - time.monotonic()))
            try:
                connection = self._connect(seconds)
                tries -= 1
                end, resend = min(end, time.monotonic() + resend), math.inf
                connection.exchange(frames[len(answers) :], answers, seconds)
                return answers
            except OSError as error:
                self._leave()
                strange |= {self.node} if refuses_tls(error) else set()
                reason = f"{'' if tries > 0 else f'it was sent {MOST_TRIES} times; '}{self.node}: {error}"
                self._at = (self._at + 1) % len(self._nodes)
                time.sleep(PAUSE)
            except BaseException:
                self._leave()
                raise
        lost = NoNodeError(round(time.monotonic() - begun, 1), reason)
        lost.outcomes = answers
        raise lost

    def _connect(self, seconds: float) -> Connection:
        """The connection; a new one asks first how symbols are printed."""
        if self._connection is None:
            self._connection = Connection(self.node, self._context, seconds)
            answers: list[tuple[str, str]] = []
            try:
                version = VERSION if self._client_name is None else VERSION_WITH_NAMES
                self._connection.exchange([f"version {version} 0\n", question(NAMING_QUESTION)], answers, seconds)
            except OSError as error:
                heed_greeting(answers)
                if self._context and not answers:
                    raise ConnectionError(f"{error}, {UNKNOWN_CLIENT}") from error
                raise
            heed_greeting(answers)
            self._naming.take(answers[1][1])
        return self._connection

    def _leave(self) -> None:
        connection, self._connection = self._connection, None
        if connection:
            connection.close()

    def _outcome(self, head: str, answer: str) -> Outcome:
        if not head.isdigit():
            return MalformedAnswerError(answer, "it is not that of a message")
        outcome = self._naming.outcome(answer)
        if isinstance(outcome, RefusedError) and outcome.number == OLD_NUMBER:
            return LostAnswerError(int(head))
        return outcome


def refuses_tls(error: OSError) -> bool:
    """Whether one of both does not take the other for whom it is to speak to. That stays so, other than a connection that is lost."""
    return isinstance(error, ssl.SSLError) and not isinstance(error, (ssl.SSLEOFError, ssl.SSLZeroReturnError, ssl.SSLSyscallError))


def checked_node(node: str) -> str:
    """A node that can be connected to."""
    if not ("/" in node or node.startswith("unix:") or re.fullmatch(r".+:[0-9]+", node)):
        raise ValueError(f"a node is HOST:PORT, or unix: and the path of a socket, and not {node!r}")
    return node


def heed_greeting(answers: Sequence[tuple[str, str]]) -> None:
    """What a node says first: it may refuse a client, and ends the connection then. Another one may take it."""
    refusal = refusal_of(answers[0][1]) if answers else None
    if refusal and refusal[0] == NO_ROOM:
        raise ConnectionError("it takes no more clients")
    if refusal:
        raise RefusedError(*refusal)
