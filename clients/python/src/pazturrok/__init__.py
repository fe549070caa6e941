"""A client of Pazturrok: it sends forms to a store, and reads their values.

    with Store("store") as store:
        store.execute("(SETF (GET 'APPLE 'PRICE) 7)")

A Store starts the program over a folder; a MessageStore sends it messages that are carried out once, whatever
becomes of the program; an EmbeddedStore and an EmbeddedMessageStore have the store in this process, by the library;
a NodeStore speaks to a node, of one machine or of several.
README.md beside pyproject.toml says how they are used, docs/run/protocol.md what goes to and fro.
"""

from .embedded import EmbeddedMessageStore, EmbeddedStore
from .errors import (
    BrokenStoreError,
    ClosedStoreError,
    FaultError,
    LostAnswerError,
    MalformedAnswerError,
    NestedCallError,
    NoLibraryError,
    NoNodeError,
    NoProgramError,
    RefusedError,
    StoppedError,
    StoreError,
    TimeLimitError,
    UnsendableError,
)
from .messages import MessageStore
from .nodes import NodeStore
from .printer import printed
from .store import Store
from .values import NIL, Character, DottedList, Symbol, T, Value, keyword, quote

__all__ = [
    "NIL",
    "BrokenStoreError",
    "Character",
    "ClosedStoreError",
    "DottedList",
    "EmbeddedMessageStore",
    "EmbeddedStore",
    "FaultError",
    "LostAnswerError",
    "MalformedAnswerError",
    "MessageStore",
    "NestedCallError",
    "NoLibraryError",
    "NoNodeError",
    "NoProgramError",
    "NodeStore",
    "RefusedError",
    "StoppedError",
    "Store",
    "StoreError",
    "Symbol",
    "T",
    "TimeLimitError",
    "UnsendableError",
    "Value",
    "keyword",
    "printed",
    "quote",
]
__version__ = "0.3.0"
