"""Calls on a store that threads share: one at a time."""

from __future__ import annotations

import functools
import os
import threading
import weakref
from collections.abc import Callable
from typing import Any, TypeVar, cast

from .errors import NestedCallError

Method = TypeVar("Method", bound=Callable[..., Any])


class Shared:
    """A store that threads may share: a call waits until those of other threads have ended."""

    def __init__(self) -> None:
        """After what `_leave_to_parent` looks at is there: another thread may fork at any moment."""
        self._lock = threading.RLock()  # held by the thread whose turn it is
        self._call_lock = threading.Lock()  # held while it is within a call
        self._process = os.getpid()
        _stores.add(self)

    def _let_go_in_child(self) -> None:
        """Lets go of locks that another thread held, and of the store: both are the parent's alone."""
        if self._lock.acquire(blocking=False):
            self._lock.release()
        else:
            self._lock, self._call_lock = threading.RLock(), threading.Lock()
        self._look_for_fork()

    def _look_for_fork(self) -> None:
        """Leaves the store to the parent, once in a child."""
        if self._process != os.getpid():
            self._process = os.getpid()
            self._leave_to_parent()

    def _leave_to_parent(self) -> None:
        """Lets go of what is the parent's alone, without a word to the program or the node behind it."""


_stores: weakref.WeakSet[Shared] = weakref.WeakSet()


def _let_go_in_child() -> None:
    for store in _stores:
        store._let_go_in_child()


os.register_at_fork(after_in_child=_let_go_in_child)


def alone(method: Method) -> Method:
    """A call on a store that is alone there.

    One within a call of the same thread, as of a signal handler or a finalizer, is refused, and the other
    goes on: each would take what is answered for its own. Both locks are taken by `with` alone, so that they
    are let go whatever a handler raises.
    """

    @functools.wraps(method)
    def call(self: Shared, *arguments: Any, **options: Any) -> Any:
        with self._lock:
            if self._call_lock.locked():
                raise NestedCallError
            with self._call_lock:
                self._look_for_fork()  # who forks without Python, as some servers do, calls nothing after it
                return method(self, *arguments, **options)

    return cast(Method, call)
