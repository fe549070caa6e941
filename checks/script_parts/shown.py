"""`show DIR --html FILE`: the page has what the looks of the program tell, and nothing of the store changes."""
import base64
import os
import re
from typing import Dict

from calls import called, check, is_refused

FORMS = b"""(SETF (GET 'A 'B) '(1 "</script>" #\\<))
(MAKE-PACKAGE "P")
(SETF (GET 'P::|x y| 'A) #(1 2))
(SET-SYNTAX-FROM-CHAR #\\[ #\\()
(GET 'A 'B)
"""


def parts_of(page: str) -> Dict[str, bytes]:
    """The texts in a page, by the names of its blocks."""
    with open(page, encoding="ascii") as file:
        blocks = re.findall(r'<script type="text/plain" id="data-(\w+)">\n([A-Za-z0-9+/=\n]*)</script>', file.read())
    return {name: base64.b64decode(text) for name, text in blocks}


def of_a_store(script: str, room: str) -> None:
    """What the page has is what the looks tell."""
    store, page = os.path.join(room, "store of a page"), os.path.join(room, "a page.html")
    called(script, "run", store, stdin=FORMS)
    world, log = (called(script, *words)[1] for words in (("dump", store, "--existing"), ("log", store)))
    check("no words are written", called(script, "show", store, "--html", page), (0, b"", b""))
    check("who may read it", oct(os.stat(page).st_mode & 0o777), oct(0o600))
    found = parts_of(page)
    check("the blocks", sorted(found), ["folder", "info", "log", "made", "world"])
    check("the world and the log", (found["world"], found["log"]), (world, log))
    names = [line.split(b" ")[0] for line in called(script, "info", store)[1].splitlines()]
    check("the figures", [line.split(b" ")[0] for line in found["info"].splitlines()], names)
    check("the folder", found["folder"], os.path.realpath(store).encode() + b"\n")
    check("the store", called(script, "dump", store, "--existing")[1], world)
    called(script, "run", store, stdin=b"(SETF (GET 'A 'B) 2)")
    check("once more", (called(script, "show", f"--html={page}", store)[0], b"(A B 2)" in parts_of(page)["world"]), (0, True))
    half = os.path.join(store, "half-a")
    with open(half, "rb") as file:
        before = file.read()
    link = os.path.join(room, "link to a half")
    os.symlink(os.path.join(store, "half-b"), link)
    for place in (half, link, f"{room}/./store of a page/page.html"):
        is_refused("a file of the store", script, "show", store, "--html", place, says="in the folder of the store")
    with open(half, "rb") as file:
        check("the half", (file.read(), sorted(os.listdir(store))), (before, ["half-a", "half-b"]))
    other = os.path.join(room, "no page")
    with open(other, "wb") as file:
        file.write(b"a text")
    is_refused("a file that is no page", script, "show", store, "--html", other, says="is no page")
    with open(other, "wb") as file:
        file.write(b"<!DOCTYPE html>\n<title>A page of somebody</title>\n")
    is_refused("a page of somebody else", script, "show", store, "--html", other, says="is no page of this command: name another file, or give --force")
    check("one that may be replaced", (called(script, "show", store, "--html", other, "--force")[0], b"(A B 2)" in parts_of(other)["world"]), (0, True))
    status, out, err = called(script, "show", store, "--html", "/dev/full")
    check("no room", (status, out, b"pazturrok: /dev/full cannot be written, and no page was made\n" in err), (3, b"", True))
    check("what is left", [name for name in os.listdir(room) if name.startswith(("a page.html.", "no page."))], [])


def check_all(script: str, room: str) -> None:
    """Checks all of it in a room."""
    of_a_store(script, room)
    none = os.path.join(room, "none")
    status, out, _ = called(script, "show", none, "--html", none + ".html")
    check("no store", (status, out, os.path.exists(none), os.path.exists(none + ".html")), (3, b"", False, False))
    is_refused("no place", script, "show", none, "--html", os.path.join(none, "page.html"), says="is not there")
    is_refused("a folder in the place of a page", script, "show", none, "--html", room, says="is a folder: name a file")
    is_refused("no folder", script, "show", "--html", none, says="a folder is missing")
    is_refused("no file", script, "show", none, "--html", says="a file is missing")
    is_refused("two folders", script, "show", none, none, "--html", none, says="takes one folder")
    is_refused("words", script, "show", none, "--forms", "--html", none, says="knows no --forms")
