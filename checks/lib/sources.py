"""A copy of what the gate reads, and whether it is that of the clone still."""

from __future__ import annotations

import glob
import hashlib
import os
import shutil

# What no step reads of a crate: what was built, and the wrong bodies that are tried by hand.
LEFT_OUT = ("out", "wrong-bodies")

# What `rt ci` refuses wherever else in a repository it stands, as it refuses links: files that no check would read.
REFUSED_ENDS = (".rt", ".antt")
REFUSED_NAMES = ("BUILD.bazel", "MODULE.bazel", "crates.txt", ".git")

Sums = dict[str, str]


def sum_of(file: str) -> str:
    """Returns the sum of a file."""
    if os.path.islink(file) or not os.path.isfile(file):
        return "no file"
    with open(file, "rb") as source:
        return hashlib.sha256(source.read()).hexdigest()


def sums_of(top: str) -> Sums:
    """Returns the sum of each file that the gate reads, by its path."""
    paths = ["crates.txt", "HANDLES"]
    for place, folders, files in os.walk(f"{top}/crates"):
        folders[:] = [it for it in folders if it not in left_out(place, folders)]
        paths += [os.path.relpath(f"{place}/{it}", top) for it in files]
    return {path: sum_of(f"{top}/{path}") for path in paths}


def left_out(place: str, names: list[str]) -> list[str]:
    """Returns which of these names in a folder are left out: those right in the folder of a crate."""
    is_of_crate = os.path.basename(os.path.dirname(place)) == "crates"
    return [it for it in names if is_of_crate and it in LEFT_OUT]


def copy_crates(top: str, room: str) -> Sums:
    """Copies what `rt ci` reads, and the wrong bodies of must-fail/ apart from it. Returns the sums of all of it."""
    shutil.copytree(f"{top}/crates", f"{room}/crates", symlinks=True, ignore=left_out)
    for name in ("crates.txt", "HANDLES"):
        shutil.copy(f"{top}/{name}", room)
    copy_refused(top, room)
    # wherever it lies, rt takes it for the top of a repository
    os.mkdir(f"{room}/.git")
    sums = sums_of(room)
    set_edits_apart(room)
    return sums


def copy_refused(top: str, room: str) -> None:
    """Copies from outside the crates what `rt ci` refuses in a repository, so that it refuses the copy for it. (What is
    in a folder `out` is no part of the repository.)"""
    for place, folders, files in os.walk(top):
        inside = os.path.relpath(place, top)
        own = ("crates.txt", ".git") if inside == "." else ()
        for name in [it for it in [*folders, *files] if is_refused(place, it) and it not in own]:
            to = f"{room}/{inside}/{name}"
            os.makedirs(os.path.dirname(to), exist_ok=True)
            if os.path.isdir(f"{place}/{name}") and not os.path.islink(f"{place}/{name}"):
                os.makedirs(to, exist_ok=True)
            elif not os.path.lexists(to):
                shutil.copy(f"{place}/{name}", to, follow_symlinks=False)
        folders[:] = [it for it in folders if it not in ("out", ".git")]


def is_refused(place: str, name: str) -> bool:
    """Returns whether `rt ci` refuses a file or folder of this name in a folder where it does not belong."""
    return os.path.islink(f"{place}/{name}") or name.endswith(REFUSED_ENDS) or name in REFUSED_NAMES


def set_edits_apart(room: str) -> None:
    """Takes the wrong bodies from where `rt ci` would try each in a check of its own."""
    for folder in glob.glob(f"{room}/crates/*/must-fail"):
        os.renames(folder, f"{room}/edits/{os.path.basename(os.path.dirname(folder))}")


def put_back_edits(room: str) -> None:
    """Puts them back."""
    for folder in glob.glob(f"{room}/edits/*"):
        os.rename(folder, f"{room}/crates/{os.path.basename(folder)}/must-fail")


def count_edits(room: str) -> int:
    """Returns how many wrong bodies there are, those of a wrong name too."""
    places = os.walk(f"{room}/crates")
    kept = [files for place, _, files in places if "must-fail" in os.path.relpath(place, room).split(os.sep)]
    return sum(not name.endswith(".md") for files in kept for name in files)


def changed(sums: Sums, top: str, room: str) -> list[str]:
    """Returns the paths of the sources that are others than at the beginning, in the clone or the copy."""
    now = [sums_of(top), sums_of(room)]
    return sorted(path for path in {*sums, *now[0], *now[1]} if any(it.get(path) != sums.get(path) for it in now))
