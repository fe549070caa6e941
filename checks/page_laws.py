"""The laws that crates hand to others, and which of them a function calls: where none does, nothing shows that values meet its premises."""
import re

from pages import names_of, read

PAGE = "docs/trust/open.md"

# A function that others may call and that has no result; and what stands in the body of one that does nothing: calls of others of its kind.
FUNCTION = re.compile(r"^pub fn (\w+)(?:<[^(]*>)?\([^)]*\)\n((?:    .*\n)+)\{(\}|\n(?:    .*\n)*\})", flags=re.M)
NOTHING = re.compile(r"let _ = \S+;|(?:\w+\.)?\w+(?:::<[^;]*>)?\(\);")


def sources():
    """Each source without its comments, with its crate."""
    return [(name.split("/")[1], re.sub(r"//[^\n]*", "", read(name))) for name in names_of("crates/*/src/**/*.rt")]


def laws():
    """The laws by their names, each with its crate: the contracts of functions that do nothing."""
    found = {}
    for crate, code in sources():
        for law, _, body in FUNCTION.findall(code):
            if all(NOTHING.fullmatch(line.strip()) for line in body.strip("{}\n").split("\n") if line.strip()):
                found[law] = crate
    return found


def uncalled():
    """The laws that no function calls, each with its crate."""
    called = {name for _, code in sources() for name in re.findall(r"(?<!fn )\b(\w+)(?:::<[^;]*?>)?\(", code)}
    return {law: crate for law, crate in laws().items() if law not in called}


def callers():
    """The page says how many laws there are, and how many of them nobody calls."""
    all_laws, alone = len(laws()), uncalled()
    said = f"Of {all_laws} laws {len(alone)} have no caller" if alone else f"Each of the {all_laws} laws has a caller"
    if said not in " ".join(read(PAGE).split()):
        yield f"{PAGE}: {said}: " + ", ".join(f"{law} of {crate}" for law, crate in sorted(alone.items()))
