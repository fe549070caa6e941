"""libpazturrok by ctypes: what executes the texts of forms in this process."""

from __future__ import annotations

import ctypes
import ctypes.util
import os
import weakref
from collections.abc import Callable, Sequence
from dataclasses import dataclass

from .errors import BrokenStoreError, FaultError, MalformedAnswerError, NoLibraryError, RefusedError

RESCUE = 1
"""Forms are read under the standard readtable, in COMMON-LISP-USER, in base 10."""
EXISTING = 1
"""What is missing is not made."""
RATIO = 10
"""So many times the half in use grows before a store takes a snapshot by itself, if it has 1 MiB then."""

DEVICE = 60
REOPEN = 61


class _Fault(ctypes.Structure):
    _fields_ = (("number", ctypes.c_int), ("system_error", ctypes.c_int), ("cause", ctypes.c_char * 120))


class _Outcome(ctypes.Structure):
    _fields_ = (("number", ctypes.c_int), ("answer", ctypes.c_void_p), ("length", ctypes.c_size_t))


class _Message(ctypes.Structure):
    _fields_ = (("number", ctypes.c_uint64), ("text", ctypes.c_char_p), ("length", ctypes.c_size_t))


class _Figures(ctypes.Structure):
    _fields_ = (("generation", ctypes.c_uint64), ("records", ctypes.c_uint64), ("version", ctypes.c_int))


@dataclass(frozen=True)
class Figures:
    """What the file in use holds."""

    generation: int
    records: int
    version: int


def find_library(path: str | os.PathLike[str] | None) -> str:
    """The path of the library: the one that is given, or that PAZTURROK_LIBRARY names, or the system's."""
    if path is not None:
        return os.fspath(path)
    return os.environ.get("PAZTURROK_LIBRARY") or ctypes.util.find_library("pazturrok") or "libpazturrok.so"


class Calls:
    """The calls of the library that is in a file."""

    def __init__(self, path: str) -> None:
        library = ctypes.CDLL(path)
        store, text, size = ctypes.c_uint64, ctypes.c_char_p, ctypes.c_size_t
        answer, length = ctypes.POINTER(ctypes.c_void_p), ctypes.POINTER(ctypes.c_size_t)
        self.open = library.pazturrok_open
        self.open.argtypes = [text, ctypes.c_int, ctypes.POINTER(store), ctypes.POINTER(_Fault)]
        self.execute = library.pazturrok_execute
        self.execute.argtypes = [store, ctypes.c_int, text, size, answer, length]
        self.execute_all = library.pazturrok_execute_all
        self.execute_all.argtypes = [
            store, ctypes.c_int, ctypes.POINTER(text), length, size, ctypes.POINTER(_Outcome)
        ]  # fmt: skip
        self.position = library.pazturrok_position
        self.position.argtypes = [store, ctypes.POINTER(store)]
        self.do = library.pazturrok_do
        self.do.argtypes = [store, ctypes.POINTER(_Message), size, ctypes.POINTER(_Outcome)]
        self.ask = library.pazturrok_ask
        self.ask.argtypes = [store, text, size, answer, length]
        self.operators = library.pazturrok_operators
        self.operators.argtypes = [store]
        self.snapshot = library.pazturrok_snapshot
        self.snapshot.argtypes = [store]
        self.snapshot_ratio = library.pazturrok_snapshot_ratio
        self.snapshot_ratio.argtypes = [store, ctypes.c_uint64]
        self.figures_of = library.pazturrok_figures_of
        self.figures_of.argtypes = [store, ctypes.POINTER(_Figures)]
        self.fault_of = library.pazturrok_fault_of
        self.fault_of.argtypes = [store, ctypes.POINTER(_Fault)]
        self.fault_of.restype = None
        self.close = library.pazturrok_close
        self.close.argtypes = [store]
        self._name = library.pazturrok_name
        self._name.argtypes = [ctypes.c_int]
        self._name.restype = text

    def name(self, number: int) -> str:
        """The name of a refusal."""
        return bytes(self._name(number)).decode("ascii")

    def fault(self, fault: _Fault, folder: str | None = None) -> FaultError:
        return FaultError(fault.number, self.name(fault.number), fault.cause.decode("utf-8", "replace"), folder)


_loaded: dict[str, Calls] = {}


def calls_of(path: str) -> Calls:
    """The calls of a library, which is loaded once."""
    if path not in _loaded:
        try:
            _loaded[path] = Calls(path)
        except (OSError, AttributeError) as error:
            raise NoLibraryError(path, str(error)) from error
    return _loaded[path]


def checked_ratio(ratio: int) -> int:
    """How many times a half grows before a snapshot: a number of 64 bits, 0 for never."""
    if not 0 <= ratio < 1 << 64:
        raise ValueError("snapshot_ratio is a number from 0 to 18446744073709551615")
    return ratio


class Library:
    """An open store of the library. It belongs to one thread at a time."""

    def __init__(self, folder: str, calls: Calls, flags: int, ratio: int = RATIO) -> None:
        self._calls = calls
        self._store = ctypes.c_uint64()
        self._answer = ctypes.c_void_p()
        self._length = ctypes.c_size_t()
        self._arguments = (ctypes.byref(self._answer), ctypes.byref(self._length))
        fault = _Fault()
        name = os.fsencode(folder)
        if b"\0" in name:  # C would take what is before it for the whole
            raise ValueError("embedded null byte")
        if calls.open(name, flags, ctypes.byref(self._store), ctypes.byref(fault)):
            raise calls.fault(fault, folder)
        self._close = weakref.finalize(self, calls.close, self._store.value)
        calls.snapshot_ratio(self._store, ratio)

    def exchange(
        self, texts: Sequence[str], answers: list[str], is_last: Callable[[str], bool], seconds: float | None
    ) -> None:
        """Executes texts, and appends the answer to each. A refusal is the line that the program writes."""
        if len(texts) == 1:
            answers.append(self.execute(texts[0].encode("ascii")))
        elif texts:
            answers += self._execute_all([text.encode("ascii") for text in texts])

    def execute(self, text: bytes) -> str:
        """The answer to one form."""
        number = self._calls.execute(self._store, RESCUE, text, len(text), *self._arguments)
        if number:
            return self._refusal(number)
        return self._text(self._answer.value, self._length.value)

    def _execute_all(self, texts: list[bytes]) -> list[str]:
        count = len(texts)
        lengths = (ctypes.c_size_t * count)(*map(len, texts))
        outcomes = (_Outcome * count)()
        number = self._calls.execute_all(
            self._store, RESCUE, (ctypes.c_char_p * count)(*texts), lengths, count, outcomes
        )
        return self._lines(number, outcomes)

    def do_all(self, messages: Sequence[tuple[int, bytes]]) -> list[str]:
        """Carries out messages, each a number and a text: the line of each answer."""
        outcomes = (_Outcome * len(messages))()
        handed = (_Message * len(messages))(*(_Message(number, text, len(text)) for number, text in messages))
        return self._lines(self._calls.do(self._store, handed, len(messages), outcomes), outcomes)

    def ask(self, text: bytes) -> str:
        """The line of the answer to a question."""
        number = self._calls.ask(self._store, text, len(text), *self._arguments)
        return self._refusal(number) if number else self._text(self._answer.value, self._length.value)

    def position(self) -> int:
        """The number of the last message that the store holds."""
        position = ctypes.c_uint64()
        number = self._calls.position(self._store, ctypes.byref(position))
        if number:
            self._refusal(number)
            raise RefusedError(number, self._calls.name(number))
        return position.value

    def _lines(self, number: int, outcomes: ctypes.Array[_Outcome]) -> list[str]:
        """The answers of many; or the refusal of all of them."""
        if number:
            return [self._refusal(number)] * len(outcomes)
        return [
            self._refusal(each.number) if each.number else self._text(each.answer, each.length)
            for each in outcomes
        ]

    def _text(self, answer: int | None, length: int) -> str:
        try:
            return ctypes.string_at(answer or 0, length).decode("ascii") if length else ""
        except UnicodeDecodeError:
            raise MalformedAnswerError("", "a character is over 127") from None

    def _refusal(self, number: int) -> str:
        """The line of a refusal, if the store goes on after it."""
        if number == REOPEN:
            raise BrokenStoreError
        if number == DEVICE or number < 0:
            fault = _Fault()
            self._calls.fault_of(self._store, ctypes.byref(fault))
            raise self._calls.fault(fault)
        return f"! {number} {self._calls.name(number)}"

    def operators(self) -> str | None:
        """Makes the functions that compare and compute known. Gives the line of a refusal, or None."""
        number = self._calls.operators(self._store)
        return self._refusal(number) if number else None

    def snapshot(self) -> str | None:
        """Takes a snapshot. Gives the line of a refusal, or None."""
        number = self._calls.snapshot(self._store)
        return self._refusal(number) if number else None

    def figures(self) -> Figures:
        """What the file in use holds."""
        figures = _Figures()
        number = self._calls.figures_of(self._store, ctypes.byref(figures))
        if number:
            self._refusal(number)
        return Figures(figures.generation, figures.records, figures.version)

    def reason(self, place: int) -> str | None:
        """The library tells the number alone."""
        return None

    def end(self, limit: float | None = None) -> tuple[int, str]:
        """Closes the store."""
        self._close()
        return 0, ""
