"""The page of the commands, made from the sources of the command line."""
import re

from pages import names_of, read

PAGE = "docs/run/commands.md"

SCRIPT = "pazturrok"

HEAD = """# The commands

Every command of the program with its options, in the words of its help. `checks/docs --write` makes this page from the sources of the command line (`crates/command_words`). What to do with them is in [operating.md](operating.md) and, for those that load, look and copy, in [data.md](data.md). The [exit status](operating.md#the-exit-status) says how a command ended.

An option that is not given is off, but for `--snapshot-ratio`, which is 10 then. **`--existing`** is an option of every command but `check`: the command refuses a folder that holds no store, and makes nothing. `show`, `info`, `log` and `backup` take it too, and nothing changes by it: a command that only looks makes nothing in any case. The script `./pazturrok` gives `--existing` to `snapshot`, `upgrade`, `export`, `dump` and `verify` in any case, so `run` alone makes a store.

`--help` after a command has its help with an example; `--version` tells the version of the program and of the files that it writes. `./pazturrok help GET` tells what the operator `GET` does, with an example, and `./pazturrok help 31` or `help UNKNOWN-OPERATOR` what this refusal means and what to do; so of each [operator](../use/operators.md) and each [number](../use/refusals.md). In a session at a terminal the lines `help GET` and `(help 31)` tell the same. `./pazturrok operators` lists the operators, and so does `help operators`.

Four variables of the environment count: `PAZTURROK_MEMORY` ([Memory](operating.md#memory)), `PAZTURROK_REASONS` ([what a refusal is about](../use/refusals.md#what-a-refusal-is-about)), `PAZTURROK_HISTORY` ([At a terminal](data.md#at-a-terminal)), and `PAZTURROK_PAGES`, which names a file with what the pages say, and is set by the script. There is no file of settings.
"""


TAIL = """## Looks by example

```sh
$ ./pazturrok run store <<'END'
(SETF (GET 'APPLE 'PRICE) 7)
(SETF (GET 'APPLE 'NAME) "red")
(SETF (GET 'APRICOT 'PRICE) 1/2)
END
7
"red"
1/2
$ ./pazturrok show store APPLE
home COMMON-LISP-USER
APPLE PRICE 7
APPLE NAME "red"
$ ./pazturrok show store --like 'ap*' --indicator PRICE
APPLE PRICE 7
APRICOT PRICE 1/2
$ ./pazturrok show store --like 'a*t'
APRICOT PRICE 1/2
$ ./pazturrok show store --like 'ap*' --count
properties 3 symbols 2
$ ./pazturrok show store APPLE --json
{"symbol":"APPLE","home":"COMMON-LISP-USER"}
{"symbol":"APPLE","indicator":"PRICE","value":"7"}
{"symbol":"APPLE","indicator":"NAME","value":"\\"red\\""}
$ ./pazturrok log store --json --from 2
{"generation":1,"record":2,"mode":"current","form":"(SETF (GET 'APPLE 'NAME) \\"red\\")"}
{"generation":1,"record":3,"mode":"current","form":"(SETF (GET 'APRICOT 'PRICE) 1/2)"}
$ ./pazturrok verify store --json
{"half":"A","generation":1,"records":3}
$ ./pazturrok info store --files | head -4
half A
version 2
generation 1
records 3
```

A reader that goes before the end, as `head` here, is no fault of a look: its status is 0, and it says nothing.

## JSON

With `--json` the commands `show`, `log`, `info`, `verify` and `check` write objects of JSON (RFC 8259), each in a line, with these members in this order:

| Command | Members |
|---|---|
| `show` | `symbol`, `indicator` and `value`: the three texts of a line, each as a string. With SYMBOL an object with `symbol` and `home` comes first. With `--count` one object with the numbers `properties` and `symbols` |
| `log` | `generation`, `record`, `mode`, which is `"current"` or `"rescue"`, and `form`, the text as a string |
| `info` | one object: `half`, which is `"A"` or `"B"`, and the names of the other lines, each with its number. With `--files` those of the world are not there, and an age that is not known never is |
| `verify` | one object: `half`, `generation` and `records`, and `position`, if there is one |
| `check` | for each form that cannot be read `name` and `number` of its refusal, `form`, its number from 1 on, `line` and `column` of the refusal, and `start-line` and `start-column`, where the form began. The last object has `forms` and `unreadable` |

A value is the text that Lisp prints, in a string: `7` is `"7"`, and the text `"a"` is `"\\"a\\""`. So each integer is exact. Every other number is a number of JSON, and from 2^53 on a string of its digits, as many readers keep no more than 53 bits. A control character, and a byte over 126, is written by its number, as `\\u000A`. Nothing else is escaped but the quotation mark and the backslash.

With `--values` `show` writes the same objects, in which `value` is a value of JSON:

    ./pazturrok show store APPLE --values
    {"symbol":"APPLE","home":"COMMON-LISP-USER"}
    {"symbol":"APPLE","indicator":"PRICE","value":7}
    {"symbol":"APPLE","indicator":"NAME","value":"red"}

| Value | In JSON |
|---|---|
| an integer | a number; from 2^53 on `{"integer":"9007199254740992"}` |
| a text | a string. A reference as `&#xFC;`, which the clients write for a character past ASCII, is that character |
| a list; one that does not end in `NIL` | an array; `{"list":[1,2],"tail":3}` |
| `T`; `NIL`, which is the empty list | `true`; `[]` |
| a ratio; a vector; a character | `{"ratio":"1/2"}`; `{"vector":[1,2]}`; `{"character":"a"}` |
| a symbol | `{"symbol":"SHOP::APPLE"}`, as it is printed |

Text for Prometheus, once a minute, from files alone:

    ./pazturrok info DIR --files --json | jq -r 'to_entries[] | select(.key != "half") | "pazturrok_\\(.key | gsub("-"; "_")) \\(.value)"'
"""


def sources():
    return "".join(read(name) for name in names_of("crates/command_words/src/**/*.rt"))


def texts(code):
    """The texts of constants by their names."""
    return dict(re.findall(r'const (\w+): &str\s*=\s*"([^"]*)";', code))


def options(code):
    """The options by their names: what their value is called, if they have one, and what they do."""
    known, found, said = texts(code), {}, ""
    words = r'let help\s*=\s*"([^"]*)"|\b(?:with_)?(?:flag|option)\(\s*(?:command,\s*)?alloc,\s*(\w+),\s*(?:"(\w+)",\s*)?(?:help|"([^"]*)")\s*,?\s*\)|Arg::new\(alloc, (\w+)\)(?:\s*\.help\("([^"]*)"\))?'
    for text, name, value, own, place, of_place in re.findall(words, code):
        if of_place and place in known:
            found[known[place]] = ("", of_place)
        if text:
            said = text
        elif name in known:
            found[known[name]] = (value, own or said)
    return found


def commands(code):
    """Each command in the order of the help: how it is called, and what it does."""
    known = texts(code)
    told = re.findall(r'about: "([^"]*)",\s*usage: (\w+),', code) + re.findall(r'\.about\("([^"]*)"\)\s*\.override_usage\((\w+)\)', code)
    does = {known[usage].split("\\n")[0]: text for text, usage in told}
    for usage in re.split(r"\\n\s*", known["USAGE"]):
        yield usage.removeprefix("./pazturrok "), does[usage]


def options_of_script(command):
    """The options of a command that the script carries out, and not the program: each with what it does, and how."""
    of_name = dict(re.findall('^([A-Z]+)_DOES="([^"]*)"', read(SCRIPT), re.M))
    return {
        "run": {
            "--operators": (of_name["OPERATORS"], "and then starts the program"),
            "--wait SECONDS": (of_name["WAIT"], "and then starts the program"),
        },
        "show": {
            "--where CONDITION": (of_name["WHERE"], "by a look of the program"),
            "--html FILE": (of_name["HTML"], "by looks of the program"),
            "--force": (of_name["FORCE"], "by looks of the program"),
            "--values": (of_name["VALUES"], "by a look of the program"),
        },
        "log": {"--follow": (of_name["FOLLOW"], "by looks of the program")},
        "verify": {"--sums FILE": (of_name["SUMS"], "by looks of the program")},
        "backup": {"--at N": (of_name["AT"], "by looks of the program")},
        "check": {"--run": (of_name["RUN"], "by sessions of the program")},
    }.get(command, {})


def line_of(usage):
    """How a command is called, with the option that its own line leaves out."""
    return usage if usage.startswith("check ") or "--existing" in usage else f"{usage} [--existing]"


def rows_of_script(command):
    """The rows of those options."""
    for option, (does, how) in options_of_script(command).items():
        yield f"| `{option}` | {does}. The script `./pazturrok` carries this option out, {how} |"


def rows(usage, known):
    for place in re.findall(r"\[([A-Z]+)\]", usage):
        yield f"| `{place}` | {known[place][1]} |"
    own = {option.split(" ")[0] for option in options_of_script(usage.split(" ")[0])}
    for name in re.findall(r"--([a-z-]+)", usage):
        if name != "existing" and name in known and f"--{name}" not in own:
            value, does = known[name]
            yield f"| `--{name}{' ' + value if value else ''}` | {does} |"
    yield from rows_of_script(usage.split(" ")[0])


def page():
    code = sources()
    known = options(code)
    parts = [HEAD]
    for usage, does in commands(code):
        name = usage.split(" ")[0] + (" --messages" if " --messages" in usage else "")
        table = "\n".join(rows(usage, known))
        parts.append(f"## {name}\n\n{does}.\n\n    ./pazturrok {line_of(usage)}\n")
        if table:
            parts.append(f"| Option | What it does |\n|---|---|\n{table}\n")
    parts.append(TAIL)
    return "\n".join(parts)


def page_of_commands():
    if read(PAGE) != page():
        yield f"{PAGE} is not the page of the command line: checks/docs --write makes it"
