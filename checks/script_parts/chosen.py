"""`show --where`: the symbols of which conditions hold. `verify --sums`: that no byte of the halves has changed, but as a store changes them."""
import json
import os
import shutil
import subprocess
import time
from typing import List, Tuple

from calls import PROGRAM, called, check, is_refused, of_program

FORMS = b"""(SETF (GET 'APPLE 'PRICE) 7)
(SETF (GET 'APPLE 'NAME) "red")
(SETF (GET 'APRICOT 'PRICE) 1/2)
(SETF (GET 'APRICOT 'COLOR) 'RED)
(MAKE-PACKAGE "SHOP")
(SETF (GET 'CHERRY 'SHOP::PRICE) 170141183460469231731687303715884105727)
(SETF (GET 'DATE 'NAME) "a \\"b\\" \\\\ c
d")
(SETF (GET 'DATE 'PRICE) -14/3)
(SETF (GET 'ELDER 'PRICE) '(1 "x"))
(SETF (GET 'FIG 'NAME) "Z&#xFC;rich")
(SETF (GET 'FIG '|a b|) NIL)
"""

# Conditions, and of which symbols each holds.
CHOSEN = (
    (["PRICE=7"], "APPLE"), (["price = 7.0"], "APPLE"), (["PRICE=14/2"], "APPLE"), (["PRICE>5"], "APPLE CHERRY"), (["PRICE>=7"], "APPLE CHERRY"),
    (["PRICE < 7"], "APRICOT DATE"), (["PRICE<=0.5"], "APRICOT DATE"), (["PRICE<0.5"], "DATE"), (["PRICE < -4.66"], "DATE"), (["PRICE < -14/3"], ""),
    (["PRICE>170141183460469231731687303715884105726"], "CHERRY"), (["PRICE>170141183460469231731687303715884105727"], ""),
    (["PRICE/=7"], "APRICOT CHERRY DATE ELDER"), (["NAME=red"], "APPLE"), (['NAME="red"'], "APPLE"), (["NAME=Red"], ""), (["COLOR=red"], "APRICOT"),
    (['COLOR="RED"'], ""), (["PRICE=(1 \"x\")"], "ELDER"), (["NAME=Z\u00fcrich"], "FIG"), (["a b=nil"], "FIG"), (["NAME>=b"], "APPLE"), (["NAME<b"], "DATE FIG"),
    (["PRICE>0", "PRICE<10"], "APPLE APRICOT"), (["PRICE>0", "NAME=red"], "APPLE"),
)


def asked(*conditions: str) -> List[str]:
    """The words that ask for these."""
    return [word for condition in conditions for word in ("--where", condition)]


def check_chosen(script: str, room: str) -> None:
    """Conditions by themselves and together, how what is left is written, and words that are none."""
    store = os.path.join(room, "chosen")
    called(script, "run", store, stdin=FORMS)
    for conditions, symbols in CHOSEN:
        status, out, err = called(script, "show", store, *asked(*conditions), "--json")
        found = list(dict.fromkeys(json.loads(line)["symbol"] for line in out.splitlines()))
        check(f"show --where {conditions}", (status, found, err), (0, symbols.split(), b""))
    whole = of_program("show", store)
    check("each line as show writes it", called(script, "show", store, "--where", "PRICE/=x")[1] + called(script, "show", store, "--where=NAME>Z", "--like=fig")[1], whole)
    check("some properties", called(script, "show", store, "--where", "PRICE>=7", "--indicator", "NAME"), (0, b"APPLE NAME \"red\"\n", b""))
    check("of some symbols", called(script, "show", store, "--like", "ap*", "--where", "PRICE>=0", "--count"), (0, b"properties 4 symbols 2\n", b""))
    check("a count as JSON", called(script, "show", store, "--where=PRICE=8", "--count", "--json"), (0, b'{"properties":0,"symbols":0}\n', b""))
    status, out, err = called(script, "show", store, "--where", "NAME=Z\u00fcrich", "--values")
    check("values", (status, [json.loads(line)["value"] for line in out.splitlines()], err), (0, ["Z\u00fcrich", []], b""))
    headed = subprocess.run(["sh", "-c", '"$0" "$@" | head -n 1', script, "show", store, "--where", "PRICE/=8"], capture_output=True, check=False)
    check("a reader that goes", (headed.stdout, headed.stderr), (whole[:whole.index(b"\n") + 1], b""))
    for words, says in ((asked("PRICE"), "takes a condition"), (asked("=7"), "takes a condition"), (asked(""), "takes a condition"), (asked("A<>7"), "writes /="), (asked("A!=7"), "writes /="), (asked("A==7"), "writes /="), (asked("A=>7"), "writes <= and >="), (["--where"], "is missing after --where"),
                        ([*asked("A=1"), "--forms"], "knows no --forms"), ([*asked("A=1"), "APPLE"], "takes one folder"), ([*asked("A=1"), "--values", "--count"], "and not both"),
                        (asked("COST=7"), "no property has an indicator of the name COST"), ([*asked("PRICE=7"), "--indicator", "X"], "of the name X"), (["--wher", "A=1"], "did you mean --where?")):
        is_refused("show --where", script, "show", store, *words, says=says)
    none = os.path.join(room, "none")
    check("no store", (called(script, "show", none, *asked("A=1"))[:2], os.path.exists(none)), ((3, b""), False))


def many(script: str, room: str) -> None:
    """A hundred thousand properties, in a time at which nobody waits."""
    store = os.path.join(room, "many")
    forms = b"".join(b"(SETF (GET 'S%d 'N) %d)(SETF (GET 'S%d 'T) \"text %d\")" % (at, at, at, at) for at in range(50000))
    subprocess.run([PROGRAM, "run", store, "--quiet", "--group"], input=forms, capture_output=True, check=True)
    begun = time.monotonic()
    check("one of many", called(script, "show", store, "--where", "N=49999"), (0, b"S49999 N 49999\nS49999 T \"text 49999\"\n", b""))
    check("in good time", time.monotonic() - begun < 60, True)


def changed(half: str, place: int, byte: bytes) -> None:
    """Another byte at a place of a half."""
    with open(half, "r+b") as file:
        file.seek(place)
        file.write(byte)


def summed(script: str, store: str, sums: str) -> Tuple[int, List[bytes], bytes]:
    """What comes of a call with sums."""
    status, out, err = called(script, "verify", store, "--sums", sums)
    return status, out.splitlines(), err


def check_sums(script: str, room: str) -> None:
    """What the store itself changes is no damage, and words that are none."""
    store, sums = os.path.join(room, "of sums"), os.path.join(room, "sums")
    half = os.path.join(store, "half-a")
    called(script, "run", store, stdin=FORMS)
    first = os.path.getsize(half) - 1
    check("the first sums", summed(script, store, sums), (0, [b"half A generation 1 records 11"], b""))
    called(script, "run", store, stdin=b"(SETF (GET 'A 'B) 1)")
    check("a longer half", summed(script, store, sums), (0, [b"half A generation 1 records 12", b"same generation 1 bytes %d" % first], b""))
    second = os.path.getsize(half) - 1
    called(script, "snapshot", store)
    check("a snapshot", summed(script, store, sums), (0, [b"half B generation 2 records 0", b"same generation 1 bytes %d" % second], b""))
    told = summed(script, store, sums)
    check("both halves", (told[0], [line.split(b" bytes")[0] for line in told[1]], told[2]), (0, [b"half B generation 2 records 0", b"same generation 2", b"same generation 1"], b""))
    called(script, "snapshot", store)
    told = summed(script, store, sums)
    check("one that is begun anew", (told[0], [line.split(b" bytes")[0] for line in told[1]], told[2]), (0, [b"half A generation 3 records 0", b"same generation 2"], b""))
    check("who may read it", oct(os.stat(sums).st_mode & 0o777), oct(0o600))
    damaged(script, room, store, sums)
    for words, says in (([store, "--sums"], "a file is missing"), (["--sums", sums], "a folder is missing"), ([store, "--sums", sums, "--json"], "knows no --json"),
                        ([store, "--sums", os.path.join(store, "sums")], "is in the folder of the store"), ([store, "--sum", sums], "did you mean --sums?"),
                        ([store, f"--sums={script}"], "has no sums of this command"), ([store, "--sums", os.path.join(room, "none", "sums")], "is not there")):
        status, _, err = called(script, "verify", *words)
        check(f"verify {words}", (status, says.encode() in err, err.count(b"\n")), (2, True, 1))
    check("what is left", [name for name in os.listdir(room) if name.startswith("sums.")], [])


def damaged(script: str, room: str, store: str, sums: str) -> None:
    """A byte that turned over, where no opening finds it; a first byte, by which an older world is taken; an older store."""
    summed(script, store, sums)
    with open(sums, "rb") as file:
        before = file.read()
    copy = os.path.join(room, "a copy of sums")
    shutil.copytree(store, copy)
    with open(os.path.join(copy, "half-a"), "rb") as file:
        place = file.read().index(b" 7 ")
    changed(os.path.join(copy, "half-a"), place + 1, b"8")
    check("what an opening finds of it", called(script, "verify", copy), (0, b"half A generation 3 records 0\n", b""))
    status, out, err = summed(script, copy, sums)
    check("a byte that turned over", (status, out, b"some are not what they were" in err), (3, [b"half A generation 3 records 0"], True))
    shutil.copy(os.path.join(store, "half-a"), os.path.join(copy, "half-a"))
    check("the store again", summed(script, copy, sums)[0], 0)
    changed(os.path.join(copy, "half-a"), 0, b"\0")
    status, out, err = summed(script, copy, sums)
    check("a first byte", (status, out[:1], b"the newer one is damaged, or an older store was put there" in err), (3, [b"half B generation 2 records 0"], True))
    changed(os.path.join(copy, "half-a"), 0, b"\xa5")
    os.truncate(os.path.join(copy, "half-a"), 20)
    check("one that is cut", summed(script, copy, sums)[0], 3)
    with open(sums, "rb") as file:
        check("the sums stay", [line for line in file.read().splitlines() if line not in before.splitlines()], [])


def check_all(script: str, room: str) -> None:
    """Checks all of it in a room."""
    check_chosen(script, room)
    many(script, room)
    check_sums(script, room)
