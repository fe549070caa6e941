"""Words that are nearly known, the list of the operators, and that the examples of the help are what a new store answers."""
import os
import re
import subprocess

from calls import PLAIN, PROGRAM, TOP, called, check, is_refused

# Words that are none, and which is meant: of a clone and of the program, and of options that the script carries out.
COMMANDS = (("shwo", "show"), ("rnu", "run"), ("instal", "install"), ("buidl", "build"), ("relaese", "release"), ("uninstal", "uninstall"), ("complie", "compile"), ("operator", "operators"))
OPTIONS = (("run", "--operator", "--operators"), ("run", "--waitt", "--wait"), ("check", "--rnu", "--run"), ("show", "--htm=x", "--html"),
           ("show", "--value", "--values"), ("backup", "--a", "--at"))

# Of these the example is the count of names in a store without others, and a form that is not refused only in another session.
OF_OTHER_STORES = {"FORGET-NAMES"}


def check_words(script, room):
    """The word that is meant is told, before there is a program and after; an option of the program has the program's own tip."""
    none = os.path.join(room, "none")
    for word, meant in COMMANDS:
        is_refused("a command", script, word, none, says=f"no command '{word}'; did you mean {meant}?")
        if word != "operator":
            is_refused("help of a command", script, "help", word, says=f"no command '{word}'; did you mean {meant}?")
    for command, option, meant in OPTIONS:
        is_refused("an option", script, command, none, option, says=f"{command} knows no {option.split('=')[0]}; did you mean {meant}?")
    for word, meant in (("--hlep", "--help"), ("version", "--version")):
        is_refused("an option that is none", script, word, says=f"no command '{word}'; did you mean {meant}?")
    for words in (["frob", none], ["help", "frob"], ["-x"]):
        is_refused("what nobody means", script, *words, says="; those of the program are run snapshot upgrade export dump verify show info log backup check help, and those of this script operators uninstall compile build install release")
    for words in ([], ["--quiet"]):
        is_refused("a form in the place of a word", script, "run", none, *words, "(GET 'A 'B)", says=f'from standard input: echo "FORM" | ./pazturrok run {none}')
    for word, meant in (("SEFT", "SETF"), ("INTRN", "INTERN"), ("UNKNOWN-OPERATR", "UNKNOWN-OPERATOR")):
        is_refused("an operator that is meant", script, "help", word, says=f"no operator and no command '{word}'; did you mean {meant}?")
    for words in (["run", none, "--exsting"], ["run", none, "--oooo"], ["run", none, "--one-sink"], ["run", none, "--one"], ["check", none, "--hello"]):
        wanted = subprocess.run([PROGRAM, *words], stdin=subprocess.DEVNULL, capture_output=True, check=False)
        check(f"words of the program: {words}", called(script, *words), (wanted.returncode, wanted.stdout, wanted.stderr))
    check("what is made by them", os.path.exists(none), False)


def check_list(script):
    """The list has each operator of the page and each function that the script makes known, also where nothing is compiled."""
    told = called(script, "operators", PATH=PLAIN)
    listed = set(re.findall(r"[A-Z*+/=<>-][A-Z0-9*+/=<>-]*", told[1].decode()))
    with open(os.path.join(TOP, "lisp", "operators.lisp"), encoding="ascii") as file:
        functions = set(re.findall(r"PAZTURROK::([^ )\n]+)", file.read()))
    check("the list", (told[0], told[2], functions - listed, {"GET", "SETF", "QUOTE", "INTERN", "IN-READTABLE"} - listed), (0, b"", set(), set()))
    check("the same by other words", [called(script, "help", word) for word in ("operators", "OPERATORS")], [told] * 2)
    return listed


def example_of(text):
    """The forms of an example, each with its answer."""
    lines = [line[2:] for line in text.partition("In a session:\n")[2].split("\n\n")[0].splitlines()]
    return list(zip(lines[::2], lines[1::2]))


def check_examples(script, room, listed):
    """Over a new store that knows the operators each example gives what it says."""
    tried = 0
    for name in sorted(listed - OF_OTHER_STORES):
        status, out, _ = called(script, "help", name, PATH=PLAIN)
        example = example_of(out.decode())
        if status or not example:
            continue
        store = os.path.join(room, f"example {tried}")
        tried += 1
        forms = [form for form, _ in example]
        made = [form for form in forms if form == '(MAKE-PACKAGE "PAZTURROK")']
        options = [] if made else ["--operators"]
        answers = called(script, "run", store, *options, stdin="\n".join(forms).encode())[1].decode().splitlines()
        check(f"the example of {name}", list(zip(forms, answers)), example)
    check("examples", tried > 60, True)


def check_all(script, room):
    """Checks all of it."""
    check_words(script, room)
    check_examples(script, room, check_list(script))
