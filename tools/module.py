"""The module that the kit compiles for a run that is watched, and what is to be compiled of it."""
import os
import re
from typing import Dict, Iterable, Iterator, List, Optional, TextIO, Tuple

# The processor that rt compiles for.
PROCESSOR = "x86-64-v2"

# The lines of the module that are there for a watched run alone: what is looked at of each access to memory, and what fills a variable before its
# first value. What stays is an index, a sum and a step that is called unreachable.
WATCHED = re.compile(
    r'  call void @"rattle-llvm-checks::(Alignment|Cast|Null|Offset|Signature|Value)"'
    r"|  call void @llvm\.memset\.p0\.i64\(ptr %r\d+, i8 -86, "
)

HINTS = {"always": "alwaysinline", "never": "noinline", None: "inlinehint"}
FUNCTION = re.compile(r"\s*(?:pub(?:\([^)]*\))?\s+)?(?:final\s+)?(?:const\s+)?(?:unsafe\s+)?fn\s+(\w+)")
INLINE = re.compile(r"\s*#\[inline(?:\((\w+)\))?\]")

# For each name of a function: the modules in which it has a hint, and the hint.
Hints = Dict[str, List[Tuple[str, str]]]


# ---- what is to be inlined


def hints_of_source(file: TextIO) -> Iterator[Tuple[str, str]]:
    """Each function of a source that has a hint, and the hint."""
    hint: Optional[str] = None
    for line in file:
        inline, function = INLINE.match(line), FUNCTION.match(line)
        if inline:
            hint = HINTS.get(inline[1])
        elif function:
            if hint:
                yield function[1], hint
            hint = None


def hints_of(crates: Iterable[str]) -> Hints:
    """The hints of all sources in these folders of crates."""
    found: Hints = {}
    for place in crates:
        for crate in sorted(os.listdir(place)):
            root = f"{place}/{crate}/src"
            for folder, _, names in os.walk(root):
                for name in sorted(names):
                    if not name.endswith(".rt"):
                        continue
                    parts = os.path.relpath(f"{folder}/{name}", root)[: -len(".rt")].split("/")
                    module = "::".join([crate] + ([] if parts in (["lib"], ["main"]) else parts))
                    with open(f"{folder}/{name}", encoding="utf-8", errors="replace") as file:
                        for function, hint in hints_of_source(file):
                            found.setdefault(function, []).append((module, hint))
    return found


# ---- the module


def with_hint(line: str, hints: Hints) -> str:
    """The first line of a function, with its hint."""
    found = re.search(r'@(?:"([^"]+)"|([\w.$]+))\(', line)
    whole = re.sub(r"::<#[0-9a-f]+>", "", (found[1] or found[2]) if found else "")
    parts = whole.split("::")
    for module, hint in hints.get(parts[-1], ()):
        if whole.startswith(f"{module}::") and len(parts) - len(module.split("::")) in (1, 2):
            return re.sub(r"\) (local_unnamed_addr )?#(\d+)", rf") {hint} #\2", line, count=1)
    return line


def clean(source: str, out: str, hints: Hints) -> None:
    """Takes out of a module what is there for a watched run alone."""
    with open(source, encoding="utf-8", errors="surrogateescape") as file, open(out, "w", encoding="utf-8", errors="surrogateescape") as to:
        for line in file:
            if WATCHED.match(line):
                continue
            if line.startswith("define "):
                line = with_hint(line, hints)
            elif line.startswith("attributes"):
                line = line.replace(" sanitize_address", "").replace('"target-cpu"="x86-64"', f'"target-cpu"="{PROCESSOR}"')
            to.write(line)
