"""Clients that are killed between sending and reading: the next process of the same name sends again, and has each answer, word for word."""

from __future__ import annotations

import json
import os
import random
import signal
import sys
import time
from collections.abc import Iterator
from typing import Any, NamedTuple, NoReturn

HERE = os.path.dirname(os.path.abspath(__file__))
sys.path[:0] = [os.path.dirname(HERE), os.path.join(os.path.dirname(os.path.dirname(HERE)), "clients", "python", "src")]

from lib.places import PATIENCE  # noqa: E402
from lib.wanted import Deviation, want  # noqa: E402
from pazturrok import MessageStore, StoppedError  # noqa: E402
from pazturrok.program import Program  # noqa: E402

NAME = "till-3"
FORMS = (
    "(INCF (GET 'ALL 'COUNT))",
    "(LIST (INCF (GET 'ALL 'COUNT)) \"a \\\"text\\\" \\\\\n\" 'B)",
    "(GET 'ALL 'COUNT)",
    "(INCF (GET 'NOTHING 'COUNT))",
    ")",
)
PLACES = ("before it is sent", "once it is sent", "once it is carried out", "once the answer has come")


class Death(NamedTuple):
    """At which of its messages a client is killed, and where."""

    message: int
    place: str


def answer_to(form: str, count: int) -> tuple[str, int]:
    """The answer to a form, of a counter that has come so far, and how far it is then."""
    place = FORMS.index(form)
    if place < 2:
        count += 1
    return (str(count), f'({count} "a \\"text\\" \\\\\n" B)', str(count), "! 33 ARGUMENT-KIND", "! 4 STRAY-CLOSE")[place], count


def die() -> NoReturn:
    os.kill(os.getpid(), signal.SIGKILL)
    raise AssertionError


class Dying:
    """Has this process killed at one of its messages."""

    def __init__(self, death: Death) -> None:
        self._death, self._sent, self._is_sent = death, 0, False
        self._write, self._read = Program._write, Program._read

        def write(program: Program, data: memoryview) -> int:
            return self._dying_write(program, data)

        def read(program: Program) -> list[str]:
            return self._dying_read(program)

        setattr(Program, "_write", write)
        setattr(Program, "_read", read)

    def _is_due(self, place: str) -> bool:
        return self._sent == self._death.message and self._death.place == place

    def _dying_write(self, program: Program, data: memoryview) -> int:
        if bytes(data[:3]) == b"by ":
            self._sent += 1
            if self._is_due(PLACES[0]):
                die()
        written = self._write(program, data)
        if written == len(data) and self._is_due(PLACES[1]):
            die()
        self._is_sent = written == len(data)
        return written

    def _dying_read(self, program: Program) -> list[str]:
        if self._is_sent and self._is_due(PLACES[2]):
            time.sleep(0.003)
            die()
        answers = self._read(program)
        if answers and self._is_sent and self._is_due(PLACES[3]):
            die()
        return answers


def opened(program: str, folder: str) -> MessageStore:
    """The store, once the program of the client before has let go of it."""
    until = time.monotonic() + PATIENCE
    while True:
        try:
            return MessageStore(folder, program, client_name=NAME)
        except StoppedError as error:
            if "locked" not in error.fault or time.monotonic() > until:
                raise
            time.sleep(0.001)


def live(program: str, folder: str, number: int, form_of: dict[int, str], death: Death, pipe: int) -> NoReturn:
    """A client that sends messages from a number on, and tells the answer to each; until it is killed."""
    store = opened(program, folder)
    os.write(pipe, json.dumps(["opened", store.position]).encode() + b"\n")
    # the text as it is
    setattr(store._naming, "outcome", str)
    Dying(death)
    for one in range(number, number + death.message + 1):
        told = store.do(form_of[one], number=one)
        os.write(pipe, json.dumps([one, told]).encode() + b"\n")
    os._exit(3)


def lines_of(program: str, folder: str, number: int, form_of: dict[int, str], death: Death) -> Iterator[list[Any]]:
    """What a client tells until it is killed."""
    mine, its = os.pipe()
    child = os.fork()
    if not child:
        os.close(mine)
        try:
            live(program, folder, number, form_of, death, its)
        finally:
            os._exit(4)
    os.close(its)
    with os.fdopen(mine, "rb") as told:
        yield from map(json.loads, told)
    status = os.waitpid(child, 0)[1]
    want(os.WIFSIGNALED(status), "a client was not killed but ended with", status, death)


class Play:
    """Clients of one name, one after the other, each of which is killed."""

    def __init__(self, program: str, folder: str, rng: random.Random) -> None:
        self._program, self._folder, self._rng = program, folder, rng
        self._forms: dict[int, str] = {}
        self._answered = self._count = 0
        self.kept = 0
        """How many messages the store had carried out whose client was killed before it had read the answer."""

    @property
    def answered(self) -> int:
        return self._answered

    def begin(self) -> None:
        with MessageStore(self._folder, self._program) as store:
            store.do("(SETF (GET 'ALL 'COUNT) 0)")

    def kill(self) -> None:
        """Has a client live until it is killed, and looks at each answer that it had."""
        death, number = Death(self._rng.randrange(1, 4), self._rng.choice(PLACES)), self._answered + 1
        for one in range(number, number + death.message + 1):
            self._forms.setdefault(one, self._rng.choice(FORMS))
        for told in lines_of(self._program, self._folder, number, self._forms, death):
            if told[0] == "opened":
                want(told[1] in (self._answered, number), "the store has come to", told[1], "and answered was", self._answered)
                self.kept += told[1] == number
                continue
            wanted, self._count = answer_to(self._forms[told[0]], self._count)
            want(told == [self._answered + 1, wanted], told, "wanted was", wanted)
            self._answered += 1

    def end(self) -> None:
        """Has the last message answered, and looks at the counter."""
        store = opened(self._program, self._folder)
        with store:
            if self._answered + 1 in self._forms:
                form = self._forms[self._answered + 1]
                self._count = answer_to(form, self._count)[1]
                try:
                    store.do(form, number=self._answered + 1)
                except Exception as error:  # pylint: disable=broad-exception-caught # (a refusal that is one of FORMS)
                    want(form in FORMS[3:], error)
            want(store.ask("(GET 'ALL 'COUNT)") == self._count, "the counter is another one than", self._count)


def run(program: str, folder: str, kills: int, rng: random.Random) -> int:
    """So many kills of clients; how many answers they had."""
    play = Play(program, folder, rng)
    play.begin()
    try:
        for _ in range(kills):
            play.kill()
        play.end()
    except Deviation as error:
        sys.exit(f"a client that was killed: {error}")
    print(f"{kills} kills of clients, {play.answered} answers, and {play.kept} of them to messages that were sent again and not carried out again")
    return play.answered + 1
