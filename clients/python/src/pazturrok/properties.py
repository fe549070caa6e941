"""Properties of symbols by calls of Python, each one form."""

from __future__ import annotations

import contextlib
from collections.abc import Iterator
from typing import Union

from .errors import WAY_TO_FUNCTIONS, MalformedAnswerError, RefusedError
from .functions import NAME_CONFLICT, PACKAGE_EXISTS, WAY_AROUND_CONFLICT, forms_of_functions
from .printer import packages_of, printed
from .values import FUNCTIONS, NIL, Symbol, Value, quote

Name = Union[Symbol, str]
"""A symbol, or the name of one in COMMON-LISP-USER, as it is printed."""

GET, SETF, SYMBOL_PLIST = Symbol("GET"), Symbol("SETF"), Symbol("SYMBOL-PLIST")
IF, LIST, PROGN, T = Symbol("IF"), Symbol("LIST"), Symbol("PROGN"), Symbol("T")
CAR, CDR, EQUAL = Symbol("CAR", FUNCTIONS), Symbol("CDR", FUNCTIONS), Symbol("EQUAL", FUNCTIONS)

NO_PACKAGE = 11
"""The refusal of a text that names a package which the store does not have."""


def put_form(symbol: Name, indicator: Name, value: Value) -> list[Value]:
    """The form that sets a property."""
    return [SETF, place_of(symbol, indicator), quote(value)]


def set_form(symbol: Name, indicator: Name, old: Value, new: Value) -> list[Value]:
    """The form that sets a property where it is EQUAL to the old value, and whose value is whether it did."""
    place = place_of(symbol, indicator)
    return [IF, [EQUAL, place, quote(old)], [PROGN, [SETF, place, quote(new)], T], NIL]


def take_form(symbol: Name, indicator: Name, default: Value | None) -> list[Value]:
    """The form that takes the first item away from the list that is a property."""
    place = place_of(symbol, indicator)
    taken: list[Value] = [CAR, [LIST, [CAR, place], [SETF, place, [CDR, place]]]]
    return [IF, place, taken, quote(NIL if default is None else default)]


@contextlib.contextmanager
def telling_way(form: list[Value], way: str = WAY_TO_FUNCTIONS) -> Iterator[None]:
    """Within it a form is sent that takes functions of PAZTURROK. Where a store lacks them its error says how it gets them."""
    try:
        yield
    except RefusedError as error:
        if error.number == NO_PACKAGE and set(packages_of(form)) == {FUNCTIONS}:
            error.hint = f"the store has no package {FUNCTIONS!r}: {way}"
        raise


class Properties:
    """What has the properties of symbols. Names are as they are printed: the symbol apple of a form is "APPLE"."""

    def _put_form(self, form: list[Value]) -> Value:
        """The value of a form that writes."""
        raise NotImplementedError

    def _look_form(self, form: list[Value]) -> Value:
        """The value of a form that writes nothing."""
        raise NotImplementedError

    def operators(self) -> None:
        """Makes the functions that compare and compute known to the store, by their plain names, as `run DIR --operators` does.

        A second time nothing changes. Where COMMON-LISP-USER has a symbol of such a name, RefusedError with the number
        37 is raised, and the functions are there by their names with the package, as PAZTURROK::CAR.
        """
        refusals = []
        for form in forms_of_functions():
            try:
                self._put_form(form)
            except RefusedError as error:
                if error.number != PACKAGE_EXISTS:
                    refusals.append(error)
        if refusals:
            raise with_way_around(refusals[0])

    def get(self, symbol: Name, indicator: Name, default: Value | None = None) -> Value:
        """The property of a symbol, or the default, or NIL, where it has none."""
        return self._look_form([*place_of(symbol, indicator), quote(NIL if default is None else default)])

    def put(self, symbol: Name, indicator: Name, value: Value) -> Value:
        """Sets the property of a symbol, and gives the value back, as the store has it."""
        return self._put_form(put_form(symbol, indicator, value))

    def compare_and_set(self, symbol: Name, indicator: Name, old: Value, new: Value) -> bool:
        """Sets the property of a symbol where it is EQUAL to the old value, and tells whether it did; NIL stands for none.
        The store has to have the package PAZTURROK, as operators() makes it."""
        form = set_form(symbol, indicator, old, new)
        with telling_way(form):
            return self._put_form(form) != NIL

    def take(self, symbol: Name, indicator: Name, default: Value | None = None) -> Value:
        """Takes the first item away from the list that is the property of a symbol, and gives it.

        Where the list is empty it gives the default, or NIL. The store has to have the package PAZTURROK, as
        operators() makes it.
        """
        form = take_form(symbol, indicator, default)
        with telling_way(form):
            return self._put_form(form)

    def plist(self, symbol: Name) -> list[tuple[Value, Value]]:
        """The indicators of a symbol, each with its property."""
        found = self._look_form([SYMBOL_PLIST, quote(symbol_of(symbol))])
        if not isinstance(found, list) or len(found) % 2:
            raise MalformedAnswerError(printed(found), "it is no property list")
        return list(zip(found[::2], found[1::2]))


def with_way_around(error: RefusedError) -> RefusedError:
    """A refusal of the functions, which says what can be done about a name that is taken."""
    if error.number == NAME_CONFLICT:
        error.hint = WAY_AROUND_CONFLICT
    return error


def symbol_of(name: Name) -> Symbol:
    return Symbol(name) if isinstance(name, str) else name


def place_of(symbol: Name, indicator: Name) -> list[Value]:
    """The form whose value is a property, and that SETF takes as its place."""
    return [GET, quote(symbol_of(symbol)), quote(symbol_of(indicator))]
