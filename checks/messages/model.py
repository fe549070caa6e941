"""A model of a store that takes frames: what each text gives, and what the store holds after it.

It knows the texts that `Maker` makes, and no others."""
import random
import re

OLD = "! 50 OLD-NUMBER"
WRITES = "! 51 QUESTION-WRITES"

HOME = b'(COMMON-LISP:IN-PACKAGE "COMMON-LISP-USER")'
AWAY = b'(IN-PACKAGE "KEYWORD")'
UNKNOWN = "! 31 UNKNOWN-OPERATOR"
COUNTERS = [b"NT", b"NU", b"NV", b"NW"]
PLACE = re.compile(rb"\((SETF|PUSH|INCF) (?:([0-9]+) )?\(GET '(\S+) 'KY\)(?: ([0-9]+|\".*\"))?\)", re.DOTALL)

# texts that are never read: in every package, and in every base
UNREADABLE = {
    b"": "! 1 END-OF-FILE",
    b" \n": "! 1 END-OF-FILE",
    b"(": "! 1 END-OF-FILE",
    b'(GET \'NX "': "! 1 END-OF-FILE",
    b"; no form": "! 1 END-OF-FILE",
    b")": "! 4 STRAY-CLOSE",
    b") (INCF (GET 'NX 'KY))": "! 4 STRAY-CLOSE",
    b"#<": "! 14 NO-DISPATCH",
    b"\xff": "! 2 INVALID-CHARACTER",
    b"(SETF (GET 'NX 'KY) \x80)": "! 2 INVALID-CHARACTER",
    b"`X": "! 25 OUT-OF-PROFILE",
    b"1 2": "! 26 TEXT-LEFT-OVER",
    b"(GET 'NX 'KY) (INCF (GET 'NX 'KY))": "! 26 TEXT-LEFT-OVER",
    b"(INCF (GET 'NX 'KY))  ": "! 26 TEXT-LEFT-OVER",
}


class Model:
    def __init__(self):
        self.properties = {}
        self.base = 10
        self.lost = False
        """Whether the current package does not use COMMON-LISP, so that no operator is found."""
        self.seen = None
        """What a message sees of the position: nothing."""

    def copy(self):
        other = Model()
        other.properties, other.base, other.lost, other.seen = dict(self.properties), self.base, self.lost, self.seen
        return other

    def carry_out(self, text):
        """The answer to a message, and whether it wrote."""
        if text in UNREADABLE:
            return UNREADABLE[text], False
        if text.endswith(b"  "):
            return "! 26 TEXT-LEFT-OVER", False
        if text == HOME:
            self.lost = False
            return '"COMMON-LISP-USER"', True
        if self.lost:
            return UNKNOWN, False
        if text == AWAY:
            self.lost = True
            return '"KEYWORD"', True
        return self.evaluate(text)

    def evaluate(self, text):
        """A form, where operators are found."""
        if text == b"(NOTHING)":
            return UNKNOWN, False
        if text.startswith(b"(GET '|position|"):
            return printed(self.seen), False
        if text.startswith(b"(SETF (GET '|position|"):
            return "5", True
        if found := re.fullmatch(rb"\(SETF \*READ-BASE\* ([0-9]+)\.\)", text):
            self.base = int(found[1])
            return str(self.base), True
        if found := re.fullmatch(rb"\(GET '(\S+) 'KY\)", text):
            return printed(self.properties.get(found[1])), False
        operator, item, symbol, value = PLACE.fullmatch(text).groups()
        return self.change(operator, int(item or b"0", self.base), symbol, value)

    def change(self, operator, item, symbol, value):
        had = self.properties.get(symbol)
        if operator == b"SETF":
            had = value.decode("latin-1") if value.startswith(b'"') else int(value, self.base)
        elif operator == b"PUSH":
            had = (item, *(had or ()))
        elif isinstance(had, int):
            had += int(value or b"1", self.base)
        else:
            return "! 33 ARGUMENT-KIND", False
        self.properties[symbol] = had
        return printed(had), True

    def ask(self, text):
        """The answer to a question."""
        answer, wrote = self.copy().carry_out(text)
        return WRITES if wrote else answer


def printed(value):
    if value is None:
        return "NIL"
    if isinstance(value, tuple):
        return "(" + " ".join(map(str, value)) + ")"
    return str(value)


class Maker:
    """Makes texts by chance."""

    def __init__(self, seed):
        self.chance = random.Random(seed)
        self.away = 0
        self.first = [b"(SETF (GET '%s 'KY) 0)" % name for name in COUNTERS]

    def counter(self):
        return b"(INCF (GET '%s 'KY))" % self.chance.choice(COUNTERS)

    def text(self):
        """Counters are made first. Then mostly they go on; or there is another change, a look, a text that is refused
        or cannot be read."""
        if self.first:
            return self.first.pop()
        if self.away:
            self.away -= 1
            if not self.away:
                return HOME
        kind = self.chance.random()
        if kind < 0.6:
            return self.counter()
        for most, make in ((0.7, self.look), (0.8, self.other_change), (0.87, self.setting)):
            if kind < most:
                return make()
        return self.chance.choice(sorted(UNREADABLE))

    def look(self):
        return b"(GET '%s 'KY)" % self.chance.choice([*COUNTERS, b"TEXT", b"NOWHERE"])

    def other_change(self):
        if self.chance.random() < 0.3:
            return self.chance.choice([b"(INCF (GET 'TEXT 'KY))", b"(NOTHING)",
                                       b"(SETF (GET '|position| '|position|) 5)"])
        if self.chance.random() < 0.3:
            return b"(PUSH %d (GET 'LIST%d 'KY))" % (self.chance.randrange(8), self.chance.randrange(100))
        words = [b"one\n", b"! 31 two", b"do 1 2\n", b"(three", b"ask"]
        return b"(SETF (GET 'TEXT 'KY) \"%s\")" % b" ".join(self.chance.choice(words)
                                                            for _ in range(self.chance.randrange(4)))

    def setting(self):
        """What changes how the next forms are read, and what would show the position."""
        kind = self.chance.randrange(8)
        if kind < 3:
            return b"(GET '|position| '|position|)"
        if kind < 7:
            return b"(SETF *READ-BASE* %d.)" % self.chance.choice([8, 10, 16])
        self.away = self.chance.randrange(2, 6)
        return AWAY
