"""The functions that compare and compute, and the forms that make them known to a store: those of lisp/operators.lisp."""

from __future__ import annotations

from .values import FUNCTIONS, USER, Symbol, Value, quote

NAMES = tuple(
    """
    EQL EQUAL NOT CONSP SYMBOLP STRINGP INTEGERP CHARACTERP VECTORP = /= < <= > >= MIN MAX + - * FLOOR
    MOD STRING= STRING< SYMBOL-NAME CONS CAR CDR NTH APPEND MEMBER ASSOC ADJOIN LENGTH REVERSE REMOVE
    VECTOR SVREF AND OR COND WHEN UNLESS PROG1 ASSERT FIND-SYMBOL LIST-ALL-PACKAGES SYMBOLS-WITH DECF
    POP FORGET-NAMES
    """.split()
)
"""The functions. INCF with a default is none of them, as its plain name is that of another operator."""

PACKAGE_EXISTS = 35
"""The refusal of a store that has the package."""

NAME_CONFLICT = 37
WAY_AROUND_CONFLICT = "a symbol of such a name is there already: write a function with its package, as PAZTURROK::CAR"


def forms_of_functions() -> list[list[Value]]:
    """Each form by itself: they make the package, the names external in it, and these known in COMMON-LISP-USER."""
    names: list[Value] = [Symbol(name, FUNCTIONS) for name in NAMES]
    return [
        [Symbol("MAKE-PACKAGE"), FUNCTIONS],
        [Symbol("EXPORT"), quote(names), FUNCTIONS],
        [Symbol("USE-PACKAGE"), FUNCTIONS, USER],
    ]
