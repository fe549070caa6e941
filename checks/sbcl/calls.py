"""Random calls of the operators whose value depends on their arguments alone, and of those that change a place."""

from __future__ import annotations

from random import Random

SMALL = ["0", "1", "2", "3", "-1", "-2", "7", "10", "1/2", "-3/4", "7/3"]
LARGE = ["170141183460469231731687303715884105727", "-170141183460469231731687303715884105728",
         "13043817825332782212", "-13043817825332782213", "85070591730234615865843651857942052864"]
TEXTS = ['"ab"', '"abc"', '"ABC"', '""', '"B"', '"b a"', '"banana"']
CHARACTERS = ["#\\a", "#\\b", "#\\A", "#\\Space", "#\\1"]
SYMBOLS = ["'A", "'B", "'|ab|", ":K", "NIL", "T", "'#:U", "'ABC"]

# Each operator with what it takes: I an integer or ratio, L a list, P a list of pairs, S a sequence, V a vector, D what
# stands for a text, O any object, N an index, C a clause of COND; a star after a mark for any number more of them, a
# question mark where it may be left out.
TAKES = {
    "EQL": "OO", "EQUAL": "OO", "NOT": "O", "CONSP": "O", "SYMBOLP": "O", "STRINGP": "O", "INTEGERP": "O",
    "CHARACTERP": "O", "VECTORP": "O", "=": "II*", "/=": "II?", "<": "II*", "<=": "II*", ">": "II*", ">=": "II*",
    "MIN": "II*", "MAX": "II*", "+": "I*", "-": "II*", "*": "I*", "FLOOR": "II?", "MOD": "II", "STRING=": "DD",
    "STRING<": "DD", "SYMBOL-NAME": "D", "CONS": "OO", "CAR": "L", "CDR": "L", "NTH": "NL", "MEMBER": "OL",
    "ASSOC": "OP", "ADJOIN": "OL", "LENGTH": "S", "REVERSE": "S", "REMOVE": "OS", "SVREF": "VN", "APPEND": "L*",
    "VECTOR": "O*", "IF": "OOO", "LIST": "O*", "AND": "O*", "OR": "O*", "COND": "C*", "WHEN": "OO*", "UNLESS": "OO*",
    "PROG1": "OO*", "ASSERT": "O",
}
# The operators of PAZTURROK that are called otherwise: those that change a place, and one that looks a symbol up.
OTHERS = ["DECF", "POP", "FIND-SYMBOL"]
# What gives an argument of a kind, often enough for calls within calls to meet.
GIVES = {
    "I": ["+", "-", "*", "FLOOR", "MOD", "MIN", "MAX", "LENGTH"],
    "L": ["LIST", "CONS", "CDR", "MEMBER", "APPEND", "REVERSE", "REMOVE", "ADJOIN"],
    "N": ["LENGTH", "MOD"],
    "D": ["SYMBOL-NAME", "CAR"],
    "S": ["LIST", "VECTOR", "REVERSE", "REMOVE", "SYMBOL-NAME"],
    "V": ["VECTOR"],
    "P": ["LIST", "CDR"],
    "O": list(TAKES),
}


def number(random: Random) -> str:
    """A number: mostly a small one."""
    return random.choice(SMALL if random.random() < 0.85 else LARGE)


def atom(random: Random) -> str:
    """An object that is no pair and no vector."""
    kind = random.random()
    if kind < 0.4:
        return number(random)
    return random.choice(TEXTS if kind < 0.55 else CHARACTERS if kind < 0.7 else SYMBOLS)


def bare(random: Random) -> str:
    """The same within a quoted object."""
    return atom(random).lstrip("'")


def within(random: Random, depth: int) -> str:
    """An object as it stands within a quoted one."""
    if depth == 0 or random.random() < 0.7:
        return bare(random)
    items = " ".join(within(random, depth - 1) for _ in range(random.randint(0, 4)))
    if random.random() < 0.15:
        return f"#({items})"
    tail = f" . {bare(random)}" if items and random.random() < 0.1 else ""
    return f"({items}{tail})"


def quoted(random: Random, mark: str) -> str:
    """A list, a vector, or a list of pairs, quoted."""
    if mark == "P":
        pairs = [f"({bare(random)} . {bare(random)})" for _ in range(random.randint(0, 4))]
        pairs += ["NIL"] * (random.random() < 0.1) + [within(random, 1)] * (random.random() < 0.1)
        return f"'({' '.join(random.sample(pairs, len(pairs)))})"
    items = " ".join(within(random, 2) for _ in range(random.randint(0, 4)))
    tail = f" . {bare(random)}" if items and mark == "L" and random.random() < 0.08 else ""
    return f"'#({items})" if mark == "V" else f"'({items}{tail})"


def argument(random: Random, mark: str, depth: int) -> str:
    """An argument of a kind; now and then of another one."""
    if random.random() < 0.06:
        mark = random.choice("ILSDON")
    if mark == "C":
        return f"({' '.join(argument(random, 'O', depth) for _ in range(random.randint(1, 3)))})"
    if depth and random.random() < 0.35:
        return call(random, random.choice(GIVES[mark]), depth - 1)
    if mark in "IN":
        return number(random) if mark == "I" else random.choice(["0", "1", "2", "3", "-1"])
    if mark == "D":
        return random.choice([*TEXTS, *SYMBOLS, *CHARACTERS])
    if mark == "S":
        return random.choice([quoted(random, "L"), quoted(random, "V"), random.choice(TEXTS)])
    if mark == "O":
        return atom(random) if random.random() < 0.7 else quoted(random, random.choice("LLVP"))
    return "NIL" if random.random() < 0.08 else quoted(random, mark)


def call(random: Random, name: str, depth: int) -> str:
    """A call of this operator."""
    takes = TAKES[name]
    marks = takes.rstrip("*?")
    if takes.endswith("?") and random.random() < 0.2:
        marks = marks[:-1]
    if takes.endswith("*"):
        # (such a one takes none at least, or the marks before it)
        marks = marks[:-1] + marks[-1] * random.randint(0, 3)
    return f"({' '.join([name, *(argument(random, mark, depth) for mark in marks)])})"


def changed_place(random: Random) -> str:
    """A property that is set or not, is changed, and is read again."""
    name = random.choice(["PAZTURROK::INCF", "DECF", "POP"])
    mark, chance = ("L" if name == "POP" else "I"), random.random
    first = f"(SETF (GET 'A 'N) {argument(random, mark, 1)})" if chance() < 0.6 else ""
    default = f" {argument(random, mark, 1)}" if chance() < 0.6 else ""
    amount = f" {argument(random, mark, 1)}" if mark == "I" and chance() < 0.6 else ""
    return f"(PROGN (REMPROP 'A 'N) {first} (LIST ({name} (GET 'A 'N{default}){amount}) (GET 'A 'N)))"


def looked_up(random: Random) -> str:
    """A name that has an operator, or none."""
    return f'(FIND-SYMBOL "{random.choice([*TAKES, *OTHERS, "NOWHERE", "car", ""])}")'


def trial(random: Random) -> str:
    """A form."""
    kind = random.random()
    if kind < 0.1:
        return changed_place(random)
    return looked_up(random) if kind < 0.12 else call(random, random.choice(list(TAKES)), 2)
