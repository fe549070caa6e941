"""What the parts of this check share: the program, calls of the script, and what is counted."""
import os
import subprocess
import sys
from typing import Tuple

TOP = os.path.dirname(os.path.dirname(os.path.dirname(os.path.abspath(__file__))))
PROGRAM = os.path.abspath(sys.argv[1] if len(sys.argv) > 1 else os.path.join(TOP, "crates", "store_program", "out", "store_program"))
# Where the commands of every system are, and rt is not.
PLAIN = "/usr/bin:/bin"
NOT_PROVED = b"pazturrok: compiled, not proved: ./pazturrok build proves it\n"
WORDS_OF_CLONE = (b"./pazturrok compile ", b"./pazturrok build ", b"./pazturrok install PREFIX ", b"./pazturrok uninstall PREFIX ", b"./pazturrok release [FILE] ")

# How many passed, and how many failed.
counts = [0, 0]


def check(name: str, found: object, wanted: object) -> None:
    counts[found != wanted] += 1
    if found != wanted:
        print(f"script: {name}:\n  got  {found!r}\n  want {wanted!r}")


def called(script: str, *words: str, stdin: bytes = b"", **environment: str) -> Tuple[int, bytes, bytes]:
    """The status of a call, its output, and what it tells on standard error."""
    done = subprocess.run([script, *words], input=stdin, capture_output=True, env={**os.environ, **environment}, check=False)
    return done.returncode, done.stdout, done.stderr


def of_program(*words):
    """What the program itself writes."""
    return subprocess.run([PROGRAM, *words], capture_output=True, check=False).stdout


def is_refused(name: str, script: str, *words: str, says: str, **how: str) -> None:
    status, out, err = called(script, *words, stdin=b"", **how)
    check(f"{name}: {words}", (status, out, err.startswith(b"pazturrok: "), err.count(b"\n"), says.encode() in err), (2, b"", True, 1, True))


def command(room, name, text):
    """A folder with a command of this name, which is this script."""
    folder = os.path.join(room, "commands")
    os.makedirs(folder, exist_ok=True)
    write(os.path.join(folder, name), text, 0o755)
    return folder


def write(path, text, rights=0o644):
    os.makedirs(os.path.dirname(path), exist_ok=True)
    with open(path, "w", encoding="ascii") as file:
        file.write(text)
    os.chmod(path, rights)
