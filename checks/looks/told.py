"""What looks tell of a small store: a symbol and its home, names like a pattern, counts, JSON that says the same as the lines,
the figures of the files alone, and nothing more once the reader of the output has gone."""
import itertools
import json
import os
import re
import subprocess
from typing import Any, Callable, Dict, List, Tuple

FORMS = rb"""
(SETF (GET 'APPLE 'PRICE) 7)
(SETF (GET 'APPLE 'NOTE) "a \"b\" \\ d
e")
(SETF (GET '|foo bar| 'PRICE) 170141183460469231731687303715884105727)
(MAKE-PACKAGE "P")
(SETF (GET 'P::APPLE '|in "dex"|) '(1 #\a "b"))
(PROGN (SETF (GET 'C8 'V) 1) (SETF (GET 'C80 'V) 2) (SETF (GET 'XC8 'V) 3))
(INTERN "BARE")
"""

NAMES_OF_WORLD = {"packages", "symbols", "symbols-with-properties", "properties"}

Called = Tuple[int, str, str]


class Looks:
    """A store of these forms, and what is told of it."""

    def __init__(self, program: str, room: str) -> None:
        self.program, self.store = program, os.path.join(room, "told")
        self.failures: List[str] = []
        self.passed = 0
        subprocess.run([program, "run", self.store], input=FORMS, stdout=subprocess.DEVNULL, check=True)

    def check(self, name: str, found: object, wanted: object) -> None:
        """Counts whether something was found that was wanted."""
        if found == wanted:
            self.passed += 1
        else:
            self.failures.append(f"looks: {name}:\n  got  {found!r}\n  want {wanted!r}")

    def look(self, command: str, *words: str) -> Called:
        """The status, the output and the faults of a look."""
        done = subprocess.run([self.program, command, self.store, *words], capture_output=True, text=True, check=False)
        return done.returncode, done.stdout, done.stderr

    def told(self, command: str, *words: str) -> List[str]:
        """The lines of a look that ends well."""
        status, out, err = self.look(command, *words)
        self.check(f"{command} {words} ends well", (status, err), (0, ""))
        return out.splitlines()


def escaped(text: str) -> str:
    """A text for a line of a terminal."""
    return "".join("\\\\" if c == "\\" else c if " " <= c <= "~" else f"\\x{ord(c):02X}" for c in text)


SYMBOLS = (("APPLE", "COMMON-LISP-USER", 2), ("P::APPLE", "P", 1), ("|foo bar|", "COMMON-LISP-USER", 1),
           ("BARE", "COMMON-LISP-USER", 0))


def symbols(looks: Looks) -> None:
    """A symbol, as it is printed."""
    for name, home, count in SYMBOLS:
        lines = [line for line in looks.told("show") if line.startswith(name + " ")]
        looks.check(f"{name} has properties", len(lines), count)
        looks.check(f"show {name}", looks.told("show", name), [f"home {home}", *lines])
        forms = [form for form in looks.told("show", "--forms") if f"(GET '{name} " in form]
        text = looks.told("show", name, "--forms")
        setting = [form for form in text if "(GET" in form]
        looks.check(f"show {name} --forms", (text[0], setting), (f"; home {home}", forms))
        found = [json.loads(line) for line in looks.told("show", name, "--json")]
        properties = [it for it in all_objects(looks) if it["symbol"] == name]
        looks.check(f"show {name} --json", found, [{"symbol": name, "home": home}, *properties])
    for name in ("NOPE", "apple", "foo bar", "P:APPLE", "Q::APPLE", ""):
        status, out, err = looks.look("show", name)
        is_told = "': there is no such symbol (" in err and err.count("\n") == 1
        looks.check(f"show {name!r}", (status, out, is_told), (2, "", True))
    looks.check("a symbol of a package", looks.told("show", "APPLE", "--package", "P"), looks.told("show", "P::APPLE"))
    looks.check("as it is printed", looks.told("show", "P::APPLE", "--package", "P"), looks.told("show", "P::APPLE"))
    looks.check("its name with a space", looks.told("show", "foo bar", "--package", "COMMON-LISP-USER"), looks.told("show", "|foo bar|"))
    looks.check("counted", looks.told("show", "APPLE", "--package", "P", "--count"), ["properties 1 symbols 1"])
    for words in (("P::APPLE", "COMMON-LISP-USER"), ("C8", "P"), ("apple", "P")):
        looks.check(f"{words} are of another package", looks.look("show", words[0], "--package", words[1])[0], 2)
    priced = looks.told("show", "APPLE", "--indicator", "PRICE")
    looks.check("one of its properties", priced, ["home COMMON-LISP-USER", "APPLE PRICE 7"])


PATTERNS = {"C8": ["C8"], "c8": ["C8"], "C8*": ["C8", "C80"], "*C8": ["C8", "XC8"], "*c8*": ["C8", "C80", "XC8"],
            "*80": ["C80"], "C": [], "": [], "C8**": ["C8", "C80"], "*OO B*": ["|foo bar|"], "C800*": [], "*C800": [],
            "f*b*r": ["|foo bar|"], "*o*o*": ["|foo bar|"], "*o*o*o*": [], "c*8": ["C8"], "c*8*0": ["C80"], "c8*8": []}
# the names of the symbols with properties, in the order in which they are shown
NAMES = ("APPLE", "C8", "C80", "XC8", "foo bar", "APPLE")
# how many properties each of them has
COUNTS = (2, 1, 1, 1, 1, 1)
LETTERS = "*c80"


def patterns(looks: Looks) -> None:
    """Names like a pattern."""
    for pattern, names in PATTERNS.items():
        found = [line.rsplit(" ", 2)[0] for line in looks.told("show", "--like", pattern)]
        looks.check(f"names like {pattern!r}", found, names)
    for pattern in ("*", "**", "***"):
        looks.check(f"names like {pattern}", looks.told("show", "--like", pattern), looks.told("show"))
    for length in range(4):
        for letters in itertools.product(LETTERS, repeat=length):
            pattern = "".join(letters)
            test = re.compile(".*".join(map(re.escape, pattern.split("*"))), re.IGNORECASE)
            like = [test.fullmatch(name) is not None for name in NAMES]
            counts = f"properties {sum(n for n, is_like in zip(COUNTS, like) if is_like)} symbols {sum(like)}"
            looks.check(f"how many are like {pattern!r}", looks.told("show", "--count", "--like", pattern), [counts])
    looks.check("a pattern of many stars", looks.told("show", "--count", "--like", "*a*p" * 5000 + "*e"), ["properties 0 symbols 0"])


def counts(looks: Looks) -> None:
    """A count says how many lines there are, and how many symbols in them."""
    for words in ([], ["--like", "c*"], ["--package", "P"], ["--indicator", "PRICE"], ["--like", "*p*", "--indicator", "NOTE"]):
        symbols = [it["symbol"] for it in (json.loads(line) for line in looks.told("show", "--json", *words))]
        wanted = {"properties": len(symbols), "symbols": len(set(symbols))}
        looks.check(f"show --count {words}", looks.told("show", "--count", *words), ["properties {properties} symbols {symbols}".format(**wanted)])
        looks.check(f"show --count --json {words}", json.loads(looks.told("show", "--count", "--json", *words)[0]), wanted)
    for name, _, count in SYMBOLS:
        looks.check(f"show {name} --count", looks.told("show", name, "--count"), [f"properties {count} symbols 1"])
    for words in (["NOPE"], ["--indicator", "NOPE"], ["--package", "NOPE"]):
        looks.check(f"show --count {words}", looks.look("show", "--count", *words), looks.look("show", *words))
    status, out, err = looks.look("show", "--forms", "--count")
    looks.check("forms and a count", (status, out, "'--forms' cannot be used with '--count'" in err), (2, "", True))


def all_objects(looks: Looks) -> List[Dict[str, str]]:
    """The properties, as JSON has them."""
    return [json.loads(line) for line in looks.told("show", "--json")]


def objects(looks: Looks) -> None:
    """JSON says the same as the lines."""
    shown = [" ".join(escaped(it[name]) for name in ("symbol", "indicator", "value")) for it in all_objects(looks)]
    looks.check("show --json", shown, looks.told("show"))
    records = [json.loads(line) for line in looks.told("log", "--json")]
    lines = [f"{it['generation']}.{it['record']} {it['mode']} " + escaped(it["form"]) for it in records]
    looks.check("log --json", lines, looks.told("log", "--places"))
    later = [json.loads(line) for line in looks.told("log", "--json", "--from", "3")]
    looks.check("log --json --from", later, records[2:])
    status, out, err = looks.look("show", "--forms", "--json")
    looks.check("forms and JSON", (status, out, "'--forms' cannot be used with '--json'" in err), (2, "", True))


def ageless(named: Dict[str, Any]) -> Dict[str, Any]:
    """The figures that stay the same while nothing is written."""
    return {name: value for name, value in named.items() if not name.endswith("-age")}


def figures(looks: Looks) -> None:
    """Figures as lines and as JSON, with the world and without it."""
    lines = dict(line.split(" ") for line in looks.told("info"))
    whole = json.loads(looks.told("info", "--json")[0])
    looks.check("names of info --json", list(whole), list(lines))
    looks.check("info --json", {name: str(value) for name, value in ageless(whole).items()}, ageless(lines))
    looks.check("numbers", {type(value) for name, value in whole.items() if name != "half"}, {int})
    of_files = dict(line.split(" ") for line in looks.told("info", "--files"))
    looks.check("names of info --files", list(of_files), [name for name in lines if name not in NAMES_OF_WORLD])
    looks.check("info --files", ageless(of_files), {name: lines[name] for name in ageless(of_files)})
    both = json.loads(looks.told("info", "--files", "--json")[0])
    looks.check("names of both", list(both), list(of_files))
    looks.check("info --files --json", ageless(both), {name: whole[name] for name in ageless(of_files)})


def verified(looks: Looks) -> None:
    """The line of `verify`, as an object, with the position once there is one."""
    for _ in range(2):
        words = " ".join(looks.told("verify", "--existing")).split(" ")
        wanted = {name: value if name == "half" else int(value) for name, value in zip(words[::2], words[1::2])}
        lines = looks.told("verify", "--json")
        looks.check("verify --json", [list(json.loads(line).items()) for line in lines], [list(wanted.items())])
        looks.check("verify --existing --json", looks.told("verify", "--existing", "--json"), lines)
        session = [looks.program, "run", looks.store, "--messages"]
        subprocess.run(session, input=b"do 7 20\n(SETF (GET 'M 'B) 8)\n", stdout=subprocess.DEVNULL, check=True)
    looks.check("with a position", json.loads(lines[0]).get("position"), 7)
    missing = os.path.join(looks.store, "missing")
    done = subprocess.run([looks.program, "verify", missing, "--json"], capture_output=True, text=True, check=False)
    looks.check("no store", (done.returncode, done.stdout, done.stderr[:4]), (3, "", "! 60"))
    looks.check("nothing is made", os.path.exists(missing), False)


TEXTS = (b"", b"1 2 (", b"1 ) 2\n#z\n\n  (a\n b:c:d)\n3", b"(1 . ", b"(1\n2))\n)")


def unreadable(looks: Looks) -> None:
    """The lines of `check`, as objects."""
    for text in TEXTS:
        lines, objects_of = (subprocess.run([looks.program, "check", *words], input=text, capture_output=True, check=False)
                             for words in ([], ["--json"]))
        looks.check(f"status of {text!r}", (objects_of.returncode, objects_of.stderr), (lines.returncode, b""))
        *refused, counts_of = lines.stdout.decode().splitlines()
        *told, last = [json.loads(line) for line in objects_of.stdout.splitlines()]
        as_lines = ["line {line}, column {column}: refused with {number} {name} in form {form}, which began at line {start-line}, "
                    "column {start-column}".format(**it) for it in told]
        looks.check(f"check --json of {text!r}", as_lines, refused)
        looks.check(f"numbers of {text!r}", {type(it[name]) for it in told for name in it if name != "name"} <= {int}, True)
        looks.check(f"counts of {text!r}", "forms {forms} unreadable {unreadable}".format(**last), counts_of)


UNREAD = (["show"], ["log"], ["info"], ["show", "--json"], ["dump", "--existing"], ["verify", "--existing"], ["verify", "--json"],
          ["export", "--existing"])


def unread(looks: Looks) -> None:
    """A look whose reader has gone ends well, and says nothing. A session does not."""
    for words in UNREAD:
        read, write = os.pipe()
        os.close(read)
        line = [looks.program, words[0], looks.store, *words[1:]]
        with subprocess.Popen(line, stdout=write, stderr=subprocess.PIPE) as running:
            os.close(write)
            err = running.communicate()[1]
        looks.check(f"{words} without a reader", (running.returncode, err), (0, b""))
    with open("/dev/full", "wb") as full:
        done = subprocess.run([looks.program, "show", looks.store], stdout=full, stderr=subprocess.PIPE, check=False)
    looks.check("an output that takes nothing", (done.returncode, done.stderr), (3, b"! 68 OUTPUT\nstandard output: no storage space\n"))


PARTS: List[Callable[[Looks], None]] = [symbols, patterns, counts, objects, figures, verified, unreadable, unread]


def check_all(program: str, room: str) -> Tuple[int, List[str]]:
    """How much passed, and what did not."""
    looks = Looks(program, room)
    for part in PARTS:
        part(looks)
    return looks.passed, looks.failures
