"""The log of a node: what it is asked, whoever keeps it."""

from __future__ import annotations

import abc
import enum
import uuid
from collections.abc import AsyncIterator, Callable, Sequence
from typing import NamedTuple, Union

MARK = (
    b"(COMMON-LISP:SETF (COMMON-LISP:GET (COMMON-LISP:QUOTE COMMON-LISP-USER::|position|)"
    b" (COMMON-LISP:QUOTE COMMON-LISP-USER::|position|)) 0)"
)
"""A form that changes nothing, as the store overrules it; but it writes, and so the store has its position for good."""

COMPARED = MARK[:-2] + b"1)"
"""Another one, after which the nodes compare the worlds of their stores."""

MARKS = {MARK: b"0", COMPARED: b"1"}
"""What a store answers to them that reads them so."""

BEHIND = "this store is behind what is left of the log"


class BehindError(Exception):
    """Entries that a store has not carried out cannot be had any more. One that has come to `needed` does not want them."""

    def __init__(self, reason: str, needed: int = 0) -> None:
        super().__init__(reason)
        self.needed = needed


class RefusedStoreError(Exception):
    """The store is none of the log as it stands; nothing was carried out."""


class Refused(NamedTuple):
    """A form is no entry and will be none, and this is its answer."""

    answer: bytes


Placed = Union[int, Refused]
"""The number of an entry; or why a form is none, as where its name is that of an entry with another text."""


class FullError(Exception):
    """The log has no room for entries, and took none of them but those that it has already."""

    def __init__(self, reason: str, placed: dict[bytes, Placed] | None = None) -> None:
        super().__init__(reason)
        self.placed = placed or {}
        """Of the names that it has."""


class BusyError(Exception):
    """The log took no entries for now: they may be put again."""


class Entry(NamedTuple):
    number: int
    name: bytes
    text: bytes

    @property
    def client(self) -> tuple[bytes, int]:
        """Of a message of a client with a name: that name, and its number."""
        client, number, *_ = self.name.split(b":")
        return client, int(number)


def name_of_message(client: bytes, number: int) -> bytes:
    """The name of an entry that is a message of a client with a name."""
    return b"%s:%d" % (client, number)


MARKED = b"!"
"""What the name of a mark begins with in a log that is shared. No name of a client has it."""


def name_of_mark() -> bytes:
    return MARKED + uuid.uuid4().hex.encode("ascii")


def is_named(name: bytes) -> bool:
    """Whether an entry of this name is such a message: the table of clients in the store has its answer, and it may be fed again."""
    return b":" in name


class Ground(enum.IntEnum):
    """What an entry has before it, where the store is opened anew: messages of clients leave its position as it is, so it is fed again those that
    stand after the last other entry."""

    UNSURE = 0
    """A message by which a client went, and which would take later ones of it away; or one that was refused and has no entry in the table of clients."""

    KEPT = 1
    """A message that has an entry: it is answered again, and not carried out."""

    POSITION = 2
    """Another entry. Where anything after it is written, its number is the position, and nothing up to it is fed again."""


def ground_after(name: bytes, text: bytes) -> Ground:
    """What the entry after this one has. A message by which a client goes has no text."""
    if not is_named(name):
        return Ground.POSITION
    return Ground.KEPT if text else Ground.UNSURE


def ground_for(name: bytes, text: bytes) -> Ground:
    """What an entry has to have before it, or a mark is put there. A client that goes makes room, in which one that was refused would be carried out."""
    if not is_named(name):
        return Ground.UNSURE
    return Ground.KEPT if text else Ground.POSITION


class Reached(NamedTuple):
    """All entries up to this place of the log were given."""

    place: int


Found = Union[Sequence[Entry], Reached]
"""Entries that came together, or how far those go that were given."""


class Log(abc.ABC):
    """Entries in one order, each with a number and a name. An entry has a place too, which may be that of those
    beside it."""

    most_entries = 100
    """At most so many entries are appended at once."""

    most_bytes = 1_000_000
    """And so many bytes of them, but for one entry alone."""

    lanes = 1
    """So often `append` may be under way at once."""

    takes_named = False
    """Whether it takes messages of clients with a name."""

    is_shared = False
    """Whether stores of other nodes carry out its entries too."""

    def want_mark(self) -> None:
        """Has a mark stand before the next message of a client with a name."""

    @property
    def silent_seconds(self) -> float:
        """For how long whoever keeps the log has not answered."""
        return 0.0

    @property
    def trouble(self) -> str | None:
        """Why the log takes no form now, or None."""
        return None

    @property
    def token(self) -> str:
        """By which nodes know whether their log is the same one; empty where no other node has it."""
        return ""

    @abc.abstractmethod
    async def append(self, entries: Sequence[tuple[bytes, bytes]], floor: int) -> list[Placed] | None:
        """Puts entries under their names, each unless one is there, in this order: the number of each, or Refused where the one that is
        there has another text. All names differ.

        None, and nothing is put, where entries after the number `floor` are deleted: one of them may have had such a
        name. FullError and
        BusyError where nothing is put for want of room, or for now.
        """

    @abc.abstractmethod
    async def last(self) -> int:
        """The place of the last entry; 0 where there is none."""

    @property
    def is_quick(self) -> bool:
        """Whether `append_at_once` may be called now."""
        return False

    def append_at_once(self, entries: Sequence[tuple[bytes, bytes]]) -> list[Placed]:
        """The same as `append` in this turn of the loop."""
        raise NotImplementedError

    @abc.abstractmethod
    def watch(self, number: int, take: Callable[[Sequence[Entry]], bool] | None = None) -> AsyncIterator[Found]:
        """The entries after this number, in their order, for ever, and how far they go; BehindError where they are
        not all there. While it waits for more, a log may hand them to `take` as they come; False has them come here."""

    @abc.abstractmethod
    async def trimmed(self) -> int:
        """The last place whose entries are deleted; 0 where none are."""

    @abc.abstractmethod
    def place(self, number: int) -> int:
        """The place of an entry; of a number before the first one that with which the log begins."""

    @abc.abstractmethod
    async def skipped(self) -> dict[int, bytes]:
        """The numbers of the entries that are skipped, and what is answered in their place."""


class Keeper(abc.ABC):
    """Looks whether a store belongs to the log, and writes down what the node knows of it."""

    @abc.abstractmethod
    async def look(self) -> None:
        """Looks at the files, while no program has them open."""

    @abc.abstractmethod
    async def admit(self, position: int) -> None:
        """A program has opened the store, at this position: RefusedStoreError where that is none of the log."""

    @abc.abstractmethod
    async def heed_skips(self, position: int) -> None:
        """RefusedStoreError where an entry is skipped that this store has carried out, as it has come to this
        position."""

    @abc.abstractmethod
    async def ended_at(self, number: int, refusal: bytes) -> None:
        """The store has ended at an entry again, while that was alone: with this refusal, if it told one."""

    @abc.abstractmethod
    def will_skip(self, number: int) -> None:
        """The store is about to skip an entry."""

    @abc.abstractmethod
    def saw(self, entry: Entry) -> None:
        """The store has answered an entry."""

    @abc.abstractmethod
    async def ended(self) -> None:
        """The program has ended, and nobody will open the store but this node."""

    @abc.abstractmethod
    async def catch_up(self, error: BehindError) -> None:
        """The store is behind what is left of the log, and no program has it: gets one that is not, or raises the error again."""
