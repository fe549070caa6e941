"""`show DIR --html FILE` in a browser, where chromium is installed: the filter, the package, a symbol, a readtable, and a store whose texts are no page."""
import html
import json
import os
import re
import shutil
import subprocess
from typing import Dict, List

from calls import called, check

PATIENCE = 600

FORMS = b"""(SETF (GET 'APPLE 'PRICE) 7)
(MAKE-PACKAGE "SHOP")
(SETF (GET 'SHOP::PEAR 'PRICE) "</script><img src='none' onerror='window.taken = 1'><script>window.taken = 2</script>")
(SETF (GET '|<b>apple</b>| 'SIZES) '(1 2))
(SETF (GET 'LONG 'TEXT) "%s")
(SET-SYNTAX-FROM-CHAR #\\[ #\\()
""" % (b"long " * 200)

# What is done with the page, and what is told of it then.
DRIVER = """<script>
const told = {}, rows = (id) => [...document.querySelectorAll(`#${id} tr`)].map((one) => [...one.children].map((it) => it.textContent));
const set = (id, value, kind) => { const one = document.getElementById(id); one.value = value; one.dispatchEvent(new Event(kind)); };
const count = () => document.getElementById("count").textContent;
told.all = [count(), rows("properties").length];
set("filter", "apple", "input");
told.filtered = rows("properties");
set("filter", "", "input");
set("package", "SHOP", "change");
told.ofPackage = [count(), rows("properties").map((row) => row[0])];
set("package", "all packages", "change");
set("filter", "long long", "input");
told.cut = rows("properties")[0][2].slice(-28);
document.querySelector("#properties button").click();
told.whole = rows("properties")[0][2].length;
told.readtable = [...document.querySelectorAll("#readtables tbody tr")].map((one) => [...one.children].map((it) => it.textContent).slice(0, 3));
told.packages = rows("packages").map((row) => row.slice(0, 3));
told.records = rows("records").length;
told.taken = [window.taken ?? null, document.images.length, document.querySelectorAll("b").length];
const out = document.createElement("pre");
out.id = "told";
out.textContent = JSON.stringify(told);
document.body.append(out);
</script>
"""


def driven(page: str, room: str) -> Dict[str, object]:
    """What the driver tells of a page in the browser."""
    with open(page, encoding="ascii") as file:
        text = file.read().replace("</body>", DRIVER + "</body>")
    copy = os.path.join(room, "driven.html")
    with open(copy, "w", encoding="ascii") as file:
        file.write(text)
    words = ["chromium", "--headless", "--no-sandbox", "--disable-gpu", f"--user-data-dir={room}/browser", "--dump-dom", f"file://{copy}"]
    done = subprocess.run(words, capture_output=True, text=True, env={**os.environ, "HOME": room}, timeout=PATIENCE, check=False)
    found = re.search(r'<pre id="told">(.*?)</pre>', done.stdout, re.S)
    check("the browser", (done.returncode, found is not None), (0, True))
    told: Dict[str, object] = json.loads(html.unescape(found[1])) if found else {}
    return told


def many(script: str, room: str) -> None:
    """A page of 100,000 properties."""
    store, page = os.path.join(room, "many of a page"), os.path.join(room, "many.html")
    forms: List[bytes] = [b"(PROGN%s 1)" % b"".join(b" (SETF (GET 'S%d 'LONG) \"long long %d\")" % (n, n) for n in range(at, at + 1000)) for at in range(0, 100_000, 1000)]
    called(script, "run", store, "--quiet", stdin=b"\n".join(forms))
    called(script, "show", store, "--html", page)
    told = driven(page, room)
    check("many properties", (told.get("all"), told.get("filtered"), told.get("whole")), (["100000 of 100000 properties", 501], [], 13))


def check_all(script: str, room: str) -> None:
    """Checks all of it in a room."""
    if not shutil.which("chromium"):
        print("script: chromium is not installed: the page of a store was not tried in a browser")
        return
    store, page = os.path.join(room, "store in a browser"), os.path.join(room, "in a browser.html")
    called(script, "run", store, stdin=FORMS)
    called(script, "show", store, "--html", page)
    told = driven(page, room)
    check("all properties", told.get("all"), ["4 of 4 properties", 4])
    check("the filter", told.get("filtered"), [["|<b>apple</b>|", "SIZES", "(1 2)"], ["APPLE", "PRICE", "7"]])
    check("the package", told.get("ofPackage"), ["1 of 4 properties", ["SHOP::PEAR"]])
    check("a long text", (told.get("cut"), told.get("whole")), ("g ... 1002 characters in all", 1002))
    check("a readtable", told.get("readtable"), [["[", "terminating macro character", '"STD-LIST"']])
    check("packages", told.get("packages"), [["COMMON-LISP-USER", "COMMON-LISP", "6"], ["KEYWORD", "", "0"], ["SHOP", "", "1"]])
    check("records", told.get("records"), 6)
    check("nothing of the store runs", told.get("taken"), [None, 0, 0])
    many(script, room)
