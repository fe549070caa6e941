#!/usr/bin/env python3
"""Rules as data: a rule gives a property to each symbol that meets its conditions, and has no such property yet.

    rules.py NODE rule ADULT "((AGE >= 18))" "(STATUS ADULT)"
    rules.py NODE rule VOTER "((STATUS EQL ADULT) (TOWN EQL BERN))" "(VOTES YES)"
    rules.py NODE run

A condition has an indicator, a function of two values, and a value. The rules are the properties of the symbol RULES.
"""

from __future__ import annotations

import sys
from collections.abc import Iterator

from pazturrok import NodeStore, Symbol, T, Value, quote

GET, RULES, SETF = Symbol("GET"), Symbol("RULES"), Symbol("SETF")
NAMES = ("AND", "EQUAL", "NOT", "WHEN", "SYMBOLS-WITH")
AND, EQUAL, NOT, WHEN, SYMBOLS_WITH = (Symbol(name, "PAZTURROK") for name in NAMES)


def place(symbol: Symbol, indicator: Symbol) -> list[Value]:
    return [GET, quote(symbol), quote(indicator)]


def firing(name: Symbol, rule: list[Value], symbol: Symbol) -> list[Value]:
    """Carries a rule out for a symbol, if it is still this rule, and the conditions hold: all of it is one form."""
    conditions, (given, value) = rule
    tests = [[function, place(symbol, it), quote(wanted)] for it, function, wanted in conditions]
    test = [AND, [EQUAL, place(RULES, name), quote(rule)], [NOT, place(symbol, given)], *tests]
    return [WHEN, test, [SETF, place(symbol, given), quote(value)], T]


def firings(store: NodeStore) -> Iterator[list[Value]]:
    """One for each rule and each symbol that has the property of its first condition."""
    for name, rule in store.plist("RULES"):
        for symbol in store.read([SYMBOLS_WITH, quote(rule[0][0][0])]):
            yield firing(name, rule, symbol)


def run(store: NodeStore) -> int:
    """Carries rules out until none has anything to give. Returns how many properties they gave."""
    fired = sum(outcome == T for outcome in store.do_all(list(firings(store))))
    return fired + run(store) if fired else 0


def main(node: str, command: str, *words: str) -> None:
    with NodeStore([node]) as store:
        if command == "rule":
            store.do("(SETF (GET 'RULES '{}) '({} {}))".format(*words))
        else:
            print(run(store))


if __name__ == "__main__":
    main(*sys.argv[1:])
