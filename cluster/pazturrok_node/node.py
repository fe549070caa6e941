"""A node: the entries of the log are fed to its store in their order, and what it answers goes to those who wait."""

from __future__ import annotations

import asyncio
import collections
import contextlib
import logging
import time
from collections.abc import Callable, Sequence
from typing import NamedTuple

from .answers import Answers
from .child import Child
from .faults import Fault
from .frames import ANSWER, LOST, NO_FRAME, NO_MEMORY, Frames, NoFrameError, message, named_message, question
from .log import COMPARED, MARKS, BehindError, Entry, Keeper, Log, Reached, is_named
from .tasks import Waits, end_all

logger = logging.getLogger(__name__)

UNKEPT = (b"! 46 ", b"! 48 ", b"! 54 ")
"""A message of a client that is refused so may have no entry in the table of clients: fed again, it could be carried out."""

NO_FRAMES = 1
"""The status of a program that was sent bytes which it takes for no frame."""

NOTHING = b"NIL"
"""What a store is fed in place of an entry that is skipped."""

LONGEST_PAUSE = 10.0
"""At most so many seconds are between two starts of a store that ends at once."""

SILENCE = 300.0
"""A store that says nothing for so many seconds, though it is asked, is ended. A snapshot of a large one may take a minute."""


class Told(NamedTuple):
    """What a store answers to a question, and its position then."""

    position: int
    text: bytes


class Question:
    """A question of a client, who takes its answer, and how often the store has ended while it was under way."""

    def __init__(self, text: bytes, take: Callable[[Told], None]) -> None:
        self.text, self.ends, self.take = text, 0, take


class Node:
    def __init__(self, log: Log, keeper: Keeper, words: Sequence[str], silence: float = SILENCE) -> None:
        self.log, self._keeper, self._words, self._silence = log, keeper, words, silence
        self._heard = time.monotonic()
        """When the store has said something last, or was asked something while it had nothing to say."""
        self.answers = Answers()
        self.is_hearing = False
        """Whether answers are being taken; after them comes `have_heard`."""
        self.have_heard: Callable[[], None] = lambda: None
        self.position = 0
        """The number of the last entry that the store has answered."""
        self.lasting = 0
        """A number that an opening of the store would tell, or a lower one than that."""
        self.unread_mark = self.compared = 0
        """The number of the last mark that the store could not read, and of the last one after which worlds are compared."""
        self.difference = ""
        """How the world of the store differs from those of others, where nobody can say which of them is right."""
        self.fault = Fault()
        """Why the store has ended last, where it said so."""
        self.is_admitted = asyncio.Event()
        self.count_of_entries = self.count_of_ends = 0
        """How many entries the store has answered, and how often it has ended, while this node ran."""
        self._ended_at = (0, 0)
        """The number of the entry before whose answer the store has ended last, with no question under way, and how often it did."""
        self._suspect = 0
        """The number of the first entry that was under way as the store ended last: it is fed alone."""
        self._reached = (0, 0)
        """A place of the log up to which all entries were sent to the store, and the number of the last one."""
        self._child: Child | None = None
        self._frames = Frames(ANSWER)
        self._skipped: dict[int, bytes] = {}
        self._last: Entry | None = None
        self._sent: collections.deque[Entry] = collections.deque()
        self._unasked: collections.deque[Question] = collections.deque()
        """Questions that were not sent to the store."""
        self._asked: collections.deque[Question] = collections.deque()
        """Those that were, and have no answer."""
        self._may_ask = False
        self._are_answered = asyncio.Event()
        self._moved = Waits()

    # What clients want

    async def reach(self, number: int) -> None:
        """Waits until the store has carried out the entry with this number."""
        await self._moved.until(lambda: self.position >= number)

    async def reach_entry(self, number: int) -> bool:
        """Does so for an entry that a client names; False where the log has none with such a number."""
        await self.is_admitted.wait()
        if number > self.position:
            last = await self.log.last()
            await self._moved.until(lambda: self.position >= number or self._has_all(last))
        return self.position >= number

    def _has_all(self, place: int) -> bool:
        """Whether the store has carried out all entries up to this place of the log."""
        return self._reached[0] >= place and self.position >= self._reached[1]

    async def reach_last(self) -> None:
        """Waits until it has carried out all entries that were in the log when this was called."""
        last = await self.log.last()
        await self._moved.until(lambda: self._reached[0] >= last)
        await self.reach(self._reached[1])

    def ask(self, text: bytes, take: Callable[[Told], None]) -> None:
        """Has taken what the store answers to a question, as far as it has come."""
        self._unasked.append(Question(text, take))
        self._ask_all()

    # The store

    async def run(self) -> None:
        """Starts the store whenever it ends, and feeds it from its position on. DeviceError where its device has failed."""
        pause = 0.05
        while True:
            await self._keeper.look()
            child = await Child.start(self._words)
            if isinstance(child, Fault):
                self.fault = child
                child.look(was_open=False)
            else:
                before = self.position
                try:
                    status = await self._follow(child)
                except BehindError as error:
                    await self._keeper.catch_up(error)
                    continue
                logger.error("the store ended with status %s, at %d", status, self.position)
                self.fault = child.fault
                self.fault.look(was_open=True)
                self._count_end()
                if self.stuck:
                    await self._keeper.ended_at(self.stuck, self.fault.refusal or self._refusal_of(status))
                pause = 0.05 if self.position > before else pause
            await asyncio.sleep(pause)
            pause = min(2 * pause, LONGEST_PAUSE)

    async def _follow(self, child: Child) -> int:
        """Has the store carry out entries until it ends, and gives its status."""
        try:
            await self._keeper.admit(child.position)
            self._skipped = await self.log.skipped()
            self._settle(child.position)
            await self._serve(child)
        finally:
            status = await child.end()
        return status

    def _count_end(self) -> None:
        """The store has ended: by a question that was under way, or else by the first entry that was."""
        asked = list(self._asked)
        self._asked.clear()
        self.count_of_ends += 1
        for one in asked:
            one.ends += 1
        self._unasked.extendleft(reversed(asked))
        self._refuse({one.text for one in asked if one.ends > 1})
        number = self._sent[0].number if self._sent else 0
        self._suspect = number or self._suspect
        if not asked:
            self._ended_at = (number, self._ended_at[1] + 1 if number == self._ended_at[0] else 1)

    def _refusal_of(self, status: int) -> bytes:
        """Why the store has ended with this status, where it told no number: an older one knows no messages of clients with a name."""
        is_unknown = status == NO_FRAMES and self._sent and is_named(self._sent[0].name)
        return NO_FRAME if is_unknown else b""

    def _refuse(self, texts: set[bytes]) -> None:
        """Refuses these questions, by which the store has ended again, to all who wait with them. A client that gives up sooner than a slow
        store ends, and asks anew, is one of those: each of its questions would have the store end twice, and the next one wait for that."""
        refused = [one for one in self._unasked if one.text in texts]
        self._unasked = collections.deque(one for one in self._unasked if one.text not in texts)
        for one in refused:
            one.take(Told(self.position, NO_MEMORY))

    @property
    def is_running(self) -> bool:
        return self._child is not None

    @property
    def under_way(self) -> int:
        """How many entries the store has not answered that were sent to it."""
        return len(self._sent)

    @property
    def stuck(self) -> int:
        """The number of the entry at which the store ends again and again, or 0."""
        number, count = self._ended_at
        return number if number > self.position and count > 1 else 0

    async def end(self) -> None:
        """Writes down how the store was left."""
        if self.is_admitted.is_set() and self._child is None:
            self.note()
            await self._keeper.ended()

    def note(self) -> None:
        """Writes down what the store has answered last."""
        if self._last:
            self._keeper.saw(self._last)

    async def heed_skips(self) -> None:
        """RefusedStoreError where the other stores skip what this one has carried out."""
        await self._keeper.heed_skips(self.position)

    def _settle(self, position: int) -> None:
        """The store has carried out the entries up to this number: nobody has the answers that were not read."""
        for entry in self._sent:
            if entry.number <= position and entry.name:
                self.answers.resolve(entry.number, self._skipped.get(entry.number, LOST))
        self._sent.clear()
        # a store that another node gave has more than this node has sent it
        self.answers.settle(position)
        self.lasting = max(self.lasting, position)
        self._move(position)
        self._moved.look()
        self.is_admitted.set()

    async def _serve(self, child: Child) -> None:
        self._child, self._frames = child, Frames(ANSWER)
        child.hear(self._hear)
        tasks = [asyncio.ensure_future(work) for work in (self._feed(child), self._watch_over(child))]
        try:
            done, _ = await asyncio.wait([*tasks, child.is_over], return_when=asyncio.FIRST_COMPLETED)
            for task in done:
                task.result()
        finally:
            child.leave()
            self._child, self._may_ask = None, False
            await end_all(tasks, 1)

    async def _watch_over(self, child: Child) -> None:
        """Ends a store that is asked and says nothing for too long: it is started again."""
        while not (self._sent or self._asked) or time.monotonic() - self._heard < self._silence:
            await asyncio.sleep(min(1.0, self._silence / 4))
        logger.error("the store has said nothing for %.0f s, at %d: it is ended", self._silence, self.position)
        child.process.kill()

    def _will_send(self) -> None:
        """Something is about to be sent to the store: from now on it is waited for."""
        if not self._sent and not self._asked:
            self._heard = time.monotonic()

    # Feeding it

    async def _ask_alone(self) -> None:
        """Asks one after the other what was under way as the store ended before: so it is known by which of them it ends."""
        for one in [one for one in self._unasked if one.ends]:
            self._unasked.remove(one)
            self._send_question(one)
            await self._are_answered.wait()
        self._may_ask = True
        self._ask_all()

    def _ask_all(self) -> None:
        while self._may_ask and self._unasked:
            self._send_question(self._unasked.popleft())

    def _send_question(self, one: Question) -> None:
        if self._child:
            self._will_send()
            self._asked.append(one)
            self._are_answered.clear()
            self._child.send(question(one.text))

    async def _feed(self, child: Child) -> None:
        last = child.position
        self._are_answered.set()
        with contextlib.suppress(ConnectionError):
            await self._ask_alone()
            async for found in self.log.watch(child.position, self._feed_at_once):
                if isinstance(found, Reached):
                    self._reach(found.place, last)
                elif found:
                    last = found[-1].number
                    await self._feed_all(child, found)

    def _reach(self, place: int, last: int) -> None:
        """All entries up to this place of the log were sent to the store, and the last one has this number."""
        if last >= self._reached[1]:
            self._reached = (place, last)
            self._moved.look()

    def _feed_at_once(self, entries: Sequence[Entry]) -> bool:
        """Feeds entries in this turn of the loop; False, and nothing is fed, where some have to wait."""
        child = self._child
        if child is None or child.is_full or any(self._is_for_itself(entry) for entry in entries):
            return False
        self._send_entries(child, entries)
        self._reach(self.log.place(entries[-1].number), entries[-1].number)
        return True

    def _is_for_itself(self, entry: Entry) -> bool:
        """By this entry the store may have ended, or worlds are compared after it."""
        return entry.number == self._suspect or entry.text == COMPARED

    async def _feed_all(self, child: Child, entries: Sequence[Entry]) -> None:
        """Feeds entries by one write, but for one by which the store may have ended, and for one after which worlds are compared: so a
        record of each store ends with it."""
        some: list[Entry] = []
        for entry in entries:
            if self._is_for_itself(entry):
                self._send_entries(child, some)
                some = []
                await self._feed_alone(child, entry)
            else:
                some.append(entry)
        self._send_entries(child, some)
        await child.drain()

    async def _feed_alone(self, child: Child, entry: Entry) -> None:
        """Feeds an entry while no question is under way: so it is known whether the store ends by it."""
        self._may_ask = False
        await self._are_answered.wait()
        if self._sent:
            await self.reach(self._sent[-1].number)
        self._send_entries(child, [entry])
        await self.reach(entry.number)
        self._may_ask = True
        self._ask_all()

    def _send_entries(self, child: Child, entries: Sequence[Entry]) -> None:
        if not entries:
            return
        self._will_send()
        skipped = self._skipped
        for entry in entries if skipped else ():
            if entry.number in skipped:
                self._keeper.will_skip(entry.number)
        if self.log.is_shared:
            entries = [one for entry in entries for one in self._with_number(entry)]
        self._sent.extend(entries)
        child.send(b"".join([message(entry.number, NOTHING) if entry.number in skipped else frame_of(entry) for entry in entries]))

    def _with_number(self, entry: Entry) -> tuple[Entry, ...]:
        """An entry, and after a message of a client with a name one without a form, which takes its number in the store: what comes next is written with
        that as the position. So none is fed again over what came after it."""
        takes_none = is_named(entry.name) and entry.number not in self._skipped
        return (entry, Entry(entry.number, b"", b"")) if takes_none else (entry,)

    # What it answers

    def _hear(self, data: bytes) -> None:
        self._heard, self.is_hearing = time.monotonic(), True
        try:
            for head, text in self._frames.split(data):
                if head[2]:
                    self._take_answer(bool(head[1]), int(head[2]), text)
                else:
                    self._answer_question(text)
        finally:
            self.is_hearing = False
            self.have_heard()
        self._moved.look()

    def _take_answer(self, is_of_client: bool, told: int, text: bytes) -> None:
        if not self._sent:
            raise NoFrameError(f"an answer to {told}, and no entry waits for one")
        entry = self._sent.popleft()
        number = entry.number
        wanted = entry.client[1] if is_of_client and is_named(entry.name) else number
        if told != wanted:
            raise NoFrameError(f"an answer to {told}, and not to {wanted}")
        if is_of_client and text.startswith(UNKEPT):
            self.log.want_mark()
        if entry.text in MARKS:
            self._take_mark(entry, text)
        if entry.name:
            self._last = entry
            self.count_of_entries += 1
            self._move(number)
            self.answers.resolve(number, self._skipped.get(number, text))

    def _take_mark(self, entry: Entry, text: bytes) -> None:
        """The store has read a mark, and so has written its position; or it reads no such form."""
        if text != MARKS[entry.text]:
            self.unread_mark = entry.number
            return
        self.lasting = entry.number
        if entry.text == COMPARED:
            self.compared = entry.number

    def _answer_question(self, text: bytes) -> None:
        if not self._asked:
            raise NoFrameError("an answer to a question, and none was asked")
        one = self._asked.popleft()
        one.take(Told(self.position, text))
        if not self._asked:
            self._are_answered.set()

    def _move(self, position: int) -> None:
        self.answers.settled = max(self.answers.settled, position)
        self.position = max(self.position, position)


def frame_of(entry: Entry) -> bytes:
    """What the store is fed of an entry."""
    return named_message(*entry.client, entry.text) if is_named(entry.name) else message(entry.number, entry.text)
