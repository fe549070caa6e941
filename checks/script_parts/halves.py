"""What the script tells of the two files of a store before the program is started, which then refuses them itself."""
import os
import shutil
import subprocess
from typing import Tuple

from calls import PROGRAM, called, check, write
from lib.halves import Record, batched

LOOKS = ("show", "info", "log", "verify", "run")
# So long a call may take that once had no end.
MOST_SECONDS = 60


def refused_by_program(script: str, folder: str, *words: str) -> Tuple[bool, bytes]:
    """Whether a call over the script gives the status, the output and the end of what is told that the program gives; and what the script tells before."""
    options = [] if words[0] in ("show", "info", "log", "run") else ["--existing"]
    wanted = subprocess.run([PROGRAM, words[0], *options, *words[1:], folder], stdin=subprocess.DEVNULL, capture_output=True, check=False)
    found = subprocess.run([script, *words, folder], stdin=subprocess.DEVNULL, capture_output=True, timeout=MOST_SECONDS, check=False)
    same = (found.returncode, found.stdout, found.stderr.endswith(wanted.stderr)) == (wanted.returncode, wanted.stdout, True)
    return same, found.stderr[: len(found.stderr) - len(wanted.stderr)]


def check_no_files(script: str, room: str) -> None:
    """A pipe, a folder and an unreadable file in the place of a half: the program refuses them, and the shell tells no line of its own."""
    for name, make in (("pipe", os.mkfifo), ("folder", os.mkdir)):
        for half in ("half-a", "half-b"):
            folder = os.path.join(room, f"{name} {half}")
            called(script, "run", folder, stdin=b"(LIST 1)")
            os.remove(os.path.join(folder, half))
            make(os.path.join(folder, half))
            for command in LOOKS:
                check(f"a {name} in place of {half}: {command}", refused_by_program(script, folder, command), (True, b""))
    folder = os.path.join(room, "no rights")
    called(script, "run", folder, stdin=b"(SETF (GET 'A 'B) 7)")
    os.chmod(os.path.join(folder, "half-a"), 0)
    for command in LOOKS:
        told = refused_by_program(script, folder, command)
        check(f"a half that may not be read: {command}", told, (True, b""))


def check_missing(script: str, room: str) -> None:
    """A half that is missing is told; a session goes on as it does by the program alone."""
    whole = os.path.join(room, "whole")
    called(script, "run", whole, stdin=b"(SETF (GET 'A 'B) 7)")
    check("both halves", called(script, "show", whole), (0, b"A B 7\n", b""))
    for missing, beside in (("half-a", "half-b"), ("half-b", "half-a")):
        folder = os.path.join(room, f"without {missing}")
        shutil.copytree(whole, folder)
        os.remove(os.path.join(folder, missing))
        told = f"pazturrok: {folder} has {beside} and no {missing}: a file is missing. See \"Files that are missing\"".encode()
        for command in LOOKS[:-1]:
            same, before = refused_by_program(script, folder, command)
            check(f"a half is missing: {command}", (same, before.startswith(told), before.count(b"\n")), (True, True, 1))
        status, _, err = called(script, "run", folder, stdin=b"(GET 'A 'B)")
        check("a session makes it anew", (status, err.startswith(told), err.count(b"\n"), os.path.exists(os.path.join(folder, missing))), (0, True, 1, True))
        check("and once it is there nothing is told", called(script, "run", folder, stdin=b"12")[::2], (0, b""))
    folder = os.path.join(room, "begun")
    write(os.path.join(folder, "half-a"), "")
    check("what a first start leaves", called(script, "run", folder, stdin=b"(LIST 1)"), (0, b"(1)\n", b""))


def check_damaged(script: str, room: str) -> None:
    """After the number of damaged files stands what to do."""
    folder = os.path.join(room, "damaged")
    called(script, "run", folder, stdin=b"(SETF (GET 'A 'B) 7)")
    with open(os.path.join(folder, "half-a"), "r+b") as file:
        file.seek(60)
        file.write(b"xxxx")
    shutil.copy(os.path.join(folder, "half-a"), os.path.join(folder, "half-b"))
    told = f"pazturrok: {folder}: its files are damaged; keep a copy of both, and see \"Damaged files\" in docs/run/operating.md (help 62)\n".encode()
    for command in ("show", "info", "run"):
        check(f"damaged files: {command}", called(script, command, folder), (3, b"", told + b"! 62 DAMAGED\n"))


def check_file(script: str, room: str) -> None:
    """A file in the place of a folder is called one."""
    file = os.path.join(room, "afile")
    write(file, "")
    for folder in (file, file + "/"):
        check("a file and no folder", refused_by_program(script, folder, "show"), (True, f"pazturrok: {file} is a file and no folder\n".encode()))


def check_version_3(script: str, room: str) -> None:
    """Of a half of version 3 the shell tells nothing, nor of what a crash leaves of one that never began."""
    folder = os.path.join(room, "version 3")
    os.makedirs(folder)
    snapshot = subprocess.run([PROGRAM, "dump", os.path.join(room, "no store yet")], stdin=subprocess.DEVNULL, capture_output=True, check=True).stdout
    with open(os.path.join(folder, "half-a"), "wb") as file:
        file.write(batched(1, snapshot, [[Record(False, b"(SETF (GET 'A 'B) 7)")]]))
    write(os.path.join(folder, "half-b"), "")
    check("a half of version 3", called(script, "show", folder), (0, b"A B 7\n", b""))
    check("a session over it", called(script, "run", folder, stdin=b"(GET 'A 'B)"), (0, b"7\n", b""))
    begun = os.path.join(room, "begun in version 3")
    os.makedirs(begun)
    for name, held in (("half-a", b"\0" + batched(1, snapshot)[1:]), ("half-b", b"")):
        with open(os.path.join(begun, name), "wb") as file:
            file.write(held)
    check("a store of version 3 that never began", called(script, "run", begun, stdin=b"(LIST 1)"), (0, b"(1)\n", b""))


def check_all(script: str, room: str) -> None:
    """Checks all of it."""
    room = os.path.join(room, "halves")
    os.mkdir(room)
    for part in (check_no_files, check_missing, check_damaged, check_version_3, check_file):
        part(script, room)
