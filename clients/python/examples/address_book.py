#!/usr/bin/env python3
"""An address book for several clients at once: each change is one form.

    address_book.py NODE add "Anna Meier"
    address_book.py NODE move "Anna Meier" Bern
    address_book.py NODE call "Anna Meier" "031 311 11 11"
    address_book.py NODE drop "Anna Meier"
    address_book.py NODE in Bern

A person, a town and a telephone are symbols, each kind in a package of its own. A town has its persons as a set.
"""

from __future__ import annotations

import sys

from pazturrok import NIL, NodeStore, printed

PACKAGES = [f'(MAKE-PACKAGE "{name}")' for name in ("PERSON", "TOWN", "PHONE")]


def known(name: str, package: str = "PERSON") -> str:
    """A form whose value is the symbol of this name, or NIL. It makes no symbol."""
    return f'(FIND-SYMBOL {printed(name)} "{package}")'


def made(name: str, package: str) -> str:
    return f'(INTERN {printed(name)} "{package}")'


def add(name: str) -> str:
    """Its value is whether there was no such person."""
    return f"""(UNLESS (GET 'PERSONS {known(name)})
        (SETF (GET 'PERSONS {made(name, "PERSON")}) {printed(name)}) T)"""


def leave(name: str) -> str:
    return f"(WHEN (GET {known(name)} 'TOWN) (REMPROP (GET {known(name)} 'TOWN) {known(name)}))"


def move(name: str, town: str) -> str:
    return f"""(WHEN (GET 'PERSONS {known(name)}) {leave(name)}
        (SETF (GET {known(name)} 'TOWN) {made(town, "TOWN")})
        (SETF (GET {known(town, "TOWN")} {known(name)}) {printed(name)}) T)"""


def call(name: str, phone: str) -> str:
    place = f"(GET {known(name)} 'PHONES)"
    return f"""(WHEN (GET 'PERSONS {known(name)})
        (SETF {place} (ADJOIN {made(phone, "PHONE")} {place})) T)"""


def drop(name: str) -> str:
    return f"""(WHEN (GET 'PERSONS {known(name)}) {leave(name)}
        (REMPROP {known(name)} 'TOWN) (REMPROP {known(name)} 'PHONES)
        (REMPROP 'PERSONS {known(name)}))"""


def inhabitants(store: NodeStore, town: str) -> list[str]:
    return sorted(store.read(f"(SYMBOL-PLIST {known(town, 'TOWN')})")[1::2])


def main(node: str, command: str, *words: str) -> None:
    with NodeStore([node]) as store:
        store.do_all(PACKAGES)  # each is refused with 35 from the second time on
        if command == "in":
            print(*inhabitants(store, *words), sep="\n")
        else:
            print(store.do({"add": add, "move": move, "call": call, "drop": drop}[command](*words)) != NIL)


if __name__ == "__main__":
    main(*sys.argv[1:])
