"""Wrong bodies as edits of a crate's files: which functions each changes, and which may be tried together."""

from __future__ import annotations

import difflib
import os
import re
from typing import Any, NamedTuple

from lib import kit

FUNCTION = re.compile(r"( *)(?:pub(?:\([^)]*\))? )?(?:(?:const|unsafe|final) )*fn (\w+)")

Hunk = tuple[int, int, list[str]]
"""Lines that differ: where they begin and end, and what stands there instead."""


class Function(NamedTuple):
    """A function of a file: the end of its name in a check, its cycle if it is of one, and the lines at which it, its
    body and its end stand."""

    path: str
    cycle: str | None
    head: int
    body: int
    last: int


class Edit(NamedTuple):
    """A wrong body: the texts of the files with it, the functions that it changes, and what differs in each file."""

    file: str
    name: str
    texts: dict[str, str]
    functions: list[Function]
    hunks: dict[str, list[Hunk]]
    changes_heads: bool


def owner_of(head: str) -> str:
    """Returns the name that a check gives the impl with this head: of an impl of a trait, the type's and the trait's,
    and of `From` that of what it is made of."""
    head = re.sub(r"'\w+,? ?", "", head)
    source = re.search(r"\bFrom<(?:\w+::)*(\w+)[^ ]* for ", head)
    while re.search(r"<[^<>]*>", head):
        head = re.sub(r"<[^<>]*>", "", head)
    trait, _, made = head.partition(" for ")
    names = [made, trait] if made else [trait]
    return "".join([*(re.findall(r"\w+", it.split(" where ")[0])[-1] for it in names), source[1] if source else ""])


def functions_of(file: str, text: str) -> list[Function]:
    """Returns the functions of a file."""
    module = [it for it in file[len("src/") : -len(".rt")].split("/") if it not in ("lib", "main", "mod")]
    lines = text.split("\n")
    found = [function_at(lines, first, module) for first, line in enumerate(lines) if FUNCTION.match(line)]
    return [it for it in found if it]


def function_at(lines: list[str], first: int, module: list[str]) -> Function | None:
    """Returns the function that begins at this line, or nothing if it has no body, or one that is not laid out."""
    head = FUNCTION.match(lines[first])
    assert head
    indent, name = head.groups()
    last = first
    if not lines[first].endswith("}"):
        last = next((i for i in range(first, len(lines)) if lines[i] == f"{indent}}}"), first)
    bodies = [i for i in range(first, last + 1) if begins_body(lines[i], indent, i == first)]
    inside = [it for it in lines[first + 1 : last] if FUNCTION.match(it)]
    if not bodies or not all(it.startswith(f"{indent} ") for it in inside):
        return None
    # (a check names a method by the module of its type, which may be another one: it takes the end of a name too)
    path = "::".join([*(impl_above(lines, first, indent) or module), name])
    return Function(path, cycle_above(lines, first), first, bodies[0], last)


def begins_body(line: str, indent: str, is_first: bool) -> bool:
    """Returns whether the body of a function with this indent begins with this line."""
    return line == f"{indent}{{" or is_first and line.endswith(" {") or bool(re.match(rf"{indent}\) .*{{$", line))


def cycle_above(lines: list[str], first: int) -> str | None:
    """Returns the cycle that the attributes of a function name."""
    above = first
    while above and lines[above - 1].strip().startswith(("#[", "///")):
        above -= 1
    cycle = re.search(r"#\[cycle\((\w+)\)", "\n".join(lines[above:first]))
    return cycle[1] if cycle else None


def impl_above(lines: list[str], first: int, indent: str) -> list[str]:
    """Returns the name of the impl in which a function stands, if it stands in one."""
    impls = [i for i in range(first) if indent and re.match(r"(unsafe )?impl\b", lines[i])]
    heads = [" ".join(lines[i:first]).partition("{")[0] for i in impls[-1:]]
    return [owner_of(head.split("impl", 1)[1]) for head in heads]


def hunks_of(before: str, after: str) -> list[Hunk]:
    """Returns the lines that differ: where they begin and end, and what stands there instead."""
    kept, new = before.split("\n"), after.split("\n")
    steps = difflib.SequenceMatcher(None, kept, new, autojunk=False).get_opcodes()
    return [(i1, i2, new[j1:j2]) for kind, i1, i2, j1, j2 in steps if kind != "equal"]


def text_in(crate: Any, path: str) -> str:
    """Returns the text of a file of the crate."""
    with open(f"{crate.folder}/{path}", encoding="utf-8") as file:
        return file.read()


def read_edit(crate: Any, file: str) -> tuple[Edit | None, str | None]:
    """Returns the edit with the functions that it changes, none if it changes anything else, or why it cannot be
    applied."""
    texts, why = kit.load_rt().read_edit(file, crate.folder)
    if why:
        return None, why
    hunks: dict[str, list[Hunk]] = {}
    changed: list[tuple[Function | None, int]] = []
    for path, text in texts.items():
        before = text_in(crate, path)
        known = functions_of(path, before) if path.startswith("src/") else []
        hunks[path] = hunks_of(before, text)
        changed += [(changed_by(known, hunk), hunk[0]) for hunk in hunks[path]]
    functions = [function for function, _ in changed if function]
    changes_heads = any(function and first < function.body for function, first in changed)
    are_all = len(functions) == len(changed)
    given = list(dict.fromkeys(functions)) if are_all else []
    return Edit(file, os.path.basename(file), texts, given, hunks, changes_heads), None


def changed_by(functions: list[Function], hunk: Hunk) -> Function | None:
    """Returns the function in which these lines are, if they are in one."""
    first, end, _ = hunk
    return next((it for it in reversed(functions) if it.head <= first and end <= it.last + 1), None)


def merged(crate: Any, edits: list[Edit]) -> dict[str, str]:
    """Returns the texts of the files with all these edits."""
    texts = {}
    for path in {path for edit in edits for path in edit.hunks}:
        lines = text_in(crate, path).split("\n")
        changes = [hunk for edit in edits for hunk in edit.hunks.get(path, [])]
        for start, end, new in sorted(changes, key=lambda it: it[0], reverse=True):
            lines[start:end] = new
        texts[path] = "\n".join(lines)
    return texts


def paths_of(edits: list[Edit]) -> list[str]:
    """Returns the names of the functions that these edits change."""
    return [it.path for edit in edits for it in edit.functions]


def batches_of(edits: list[Edit]) -> list[list[Edit]]:
    """Returns the edits in batches, in none of which a function or a cycle is touched twice. One that changes heads has
    a batch of its own."""
    batches: list[tuple[set[str], list[Edit]]] = []
    for edit in [it for it in edits if not it.changes_heads]:
        touched = {it.cycle or it.path for it in edit.functions}
        batch = next((it for it in batches if not it[0] & touched), None)
        if batch is None:
            batch = set(), []
            batches.append(batch)
        batch[0].update(touched)
        batch[1].append(edit)
    return [together for _, together in batches] + [[it] for it in edits if it.changes_heads]
