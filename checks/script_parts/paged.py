"""What the help tells of operators and of the numbers of refusals: each of them, as the pages have it."""
import os
import re
from typing import List, Tuple

from calls import PLAIN, TOP, called, check, is_refused

Told = Tuple[int, bytes, bytes]

# The one operator of PAZTURROK whose plain name another one has.
OWN_INCREMENT = "PAZTURROK::INCF"


def page(name: str) -> str:
    """A page on the use of the language."""
    with open(os.path.join(TOP, "docs", "use", name), encoding="utf-8") as file:
        return file.read()


def told(script: str, word: str) -> Told:
    """What the help tells of a word, where nothing is compiled and the kit is not there."""
    answer: Told = called(script, "help", word, PATH=PLAIN)
    return answer


def operator_told(script: str, operator: str, rows: List[str]) -> None:
    """The help of an operator has each row of the table that has its name."""
    status, out, err = told(script, operator)
    of_it = [row for row in rows if re.search(rf"\({operator}[ )]", row)]
    lacking = [row for row in of_it if row not in out.decode().splitlines()]
    sections = re.findall(r" \([0-9]+(?:\.[0-9]+)+\)", out.decode())
    check(f"help of {operator}", (status, err, lacking, b"\n  Value: " in out, sections), (0, b"", [], True, []))
    # a command has the name of one operator
    if operator != "EXPORT":
        check(f"help of {operator} in lower case", told(script, operator.lower()), (status, out, err))


def function_told(script: str, function: str, rows: List[str]) -> None:
    """The help of a function has the forms of its row and what comes of them, says whose function it is, and takes a letter for none of an operator."""
    status, out, err = told(script, function)
    forms = [" ".join(re.findall(r"`([^`]*)`", row.split("|")[1])) for row in rows if re.match(rf"\| (`[^`]*` )*`\({re.escape(function)}[ )]", row)]
    lines = out.decode().splitlines()
    check(f"help of {function}", (status, err, len(forms), lines[:1], "of the package PAZTURROK" in out.decode()), (0, b"", 1, forms, True))
    check(f"letters of {function}", b"stands for its name\n" in out or b"an n that names" in out, False)
    check(f"help of {function} in lower case", told(script, function.lower()), (status, out, err))


def check_functions(script: str) -> None:
    """The help of each function: those of the page are those that lisp/operators.lisp makes known."""
    tables = re.split(r"\n\| Form \| Value \| (?:Does it write \| )?Refusals \|\n", page("operators.md"))[1:]
    rows = [row for table in tables for row in table.split("\n\n")[0].splitlines() if row.startswith("| `")]
    of_page = {name for row in rows for name in re.findall(r"`\(([^ )]+)[^`]*`", row.split("|")[1])} - {OWN_INCREMENT}
    with open(os.path.join(TOP, "lisp", "operators.lisp"), encoding="ascii") as file:
        made_known = set(re.findall(r"PAZTURROK::([^ )\n]+)", file.read()))
    check("functions of the page", (sorted(of_page), len(of_page) > 30), (sorted(made_known), True))
    for function in sorted(made_known):
        function_told(script, function, rows)
    check("an example of a function", b"In a session:\n  (PAZTURROK::FLOOR -7 2)\n  -4\n" in told(script, "FLOOR")[1], True)
    for word in ("/", "<>", "=="):
        check(f"no function {word}", told(script, word)[:2], (2, b""))


def check_increment(script: str) -> None:
    """INCF is an operator of COMMON-LISP, and one with a default is a symbol of PAZTURROK: the help has both."""
    out = told(script, "INCF")[1].decode()
    check("both forms", [line for line in out.splitlines() if line.startswith("(")], ["(INCF (GET s i) [x])", f"({OWN_INCREMENT} (GET s i [x]) [k])"])
    check("the package of the other", [line for line in out.splitlines() if "of the package PAZTURROK" in line][0].split()[0], OWN_INCREMENT)
    check("no package of GET", "of the package PAZTURROK" in told(script, "GET")[1].decode(), False)
    check("with its package", told(script, OWN_INCREMENT), told(script, "INCF"))


def check_links(script: str, numbers: List[str]) -> None:
    """Where the page has a link, the help has the page that it leads to, by its place."""
    texts = [" ".join(told(script, number)[1].decode().split()) for number in numbers]
    links = {link for text in texts for link in re.findall(r"[\w./-]+\.md", text)}
    check("links", (sorted(link for link in links if not os.path.isfile(os.path.join(TOP, link))), len(links) > 3), ([], True))
    check("a part of a page", 'do as "Damaged files" in docs/run/operating.md has it. Nothing was written' in texts[numbers.index("62")], True)


def check_all(script: str) -> None:
    """Checks all of it."""
    check_functions(script)
    check_increment(script)
    of_operators = page("operators.md").split("| Does it write |")[0]
    rows = re.findall(r"^\| `(\([^`]*)` \|.*\| (?:yes|no|if [^|]*) \|.*\|$", of_operators, re.M)
    operators = {row[1:].replace(")", " ").split()[0] for row in rows}
    check("rows of the page", (len(rows) >= 27, "GET" in operators), (True, True))
    for operator in sorted(operators):
        operator_told(script, operator, rows)
    check("an example", "In a session:\n  (SETF (GET 'ACC 'BAL) 70)\n  70\n" in told(script, "SETF")[1].decode(), True)
    check("a variable", "In a session:\n  *READ-BASE*\n  10\n" in told(script, "*READ-BASE*")[1].decode(), True)
    numbers = re.findall(r"^\| (\d+) \| ([A-Z-]+) \|", page("refusals.md"), re.M)
    check("numbers of the page", len(numbers) > 50, True)
    for number, name in numbers:
        status, out, err = told(script, number)
        check(f"help of {number}", (status, out.decode().split("\n", 1)[0], err), (0, f"{number} {name}", b""))
        check(f"help of {name}", [told(script, word) for word in (name, name.lower())], [(status, out, err)] * 2)
    check("what to do", [b"  What to do: " in told(script, number)[1] for number in ("60", "64", "90")], [True] * 3)
    check_links(script, [number for number, _ in numbers])
    for word in ("FROB", "T", "NIL"):
        is_refused("no operator", script, "help", word, says=f"no operator and no command '{word}'")
    is_refused("no number", script, "help", "999", says="no refusal has the number 999")
    check("a command", told(script, "show")[1].startswith(b"Shows properties"), True)
