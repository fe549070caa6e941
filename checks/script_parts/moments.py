"""A store of an earlier moment, by `backup --at`; files that are none of a store; and values of a store as JSON."""
import fcntl
import json
import os

from calls import called, check, is_refused

FORMS = b"""(SETF (GET 'STOCK 'APPLES) 7)
(SETF (GET 'STOCK 'NOTE) "a text
of two lines")
(SETF (GET 'STOCK 'PEARS) 8)
(SETF (GET 'STOCK 'APPLES) NIL)
"""
NEW_STORE = 154


def dumped(script, store, *words):
    return called(script, "dump", store, "--existing", *words)


def halves_of(store):
    """What the files of a store hold."""
    found = []
    for name in ("half-a", "half-b"):
        with open(os.path.join(store, name), "rb") as file:
            found.append(file.read())
    return found


def check_moments(script, room):
    """Each moment of the half in use, and of the one before it, can be had again; the store itself is left alone."""
    store = os.path.join(room, "of moments")
    called(script, "run", store, stdin=FORMS)
    worlds = [dumped(script, store, "--at", str(count))[1] for count in range(5)]
    before = halves_of(store)
    for count, world in enumerate(worlds):
        for at in (str(count), f"1.{count}"):
            new = os.path.join(room, f"moment {at}")
            check(f"the moment {at}", (called(script, "backup", store, new, "--at", at), dumped(script, new), sorted(os.listdir(new))),
                  ((0, b"", b""), (0, world, b""), ["half-a", "half-b"]))
    new = os.path.join(room, "moment 3")
    check("it goes on", called(script, "run", new, "--existing", stdin=b"(LIST (GET 'STOCK 'APPLES) (INCF (GET 'STOCK 'PEARS)))"), (0, b"(7 9)\n", b""))
    check("who may read it", [oct(os.stat(os.path.join(new, name)).st_mode & 0o777) for name in ("half-a", "half-b")], ["0o600"] * 2)
    check("the store", halves_of(store), before)
    called(script, "snapshot", store)
    called(script, "run", store, stdin=b"(SETF (GET 'STOCK 'PLUMS) 1)")
    new = os.path.join(room, "before the snapshot")
    check("before the snapshot", (called(script, "backup", store, new, "--at=1.2"), dumped(script, new)[1]), ((0, b"", b""), worlds[2]))
    new = os.path.join(room, "after the snapshot")
    check("after the snapshot", (called(script, "backup", store, new, "--at", "0"), dumped(script, new)[1]), ((0, b"", b""), worlds[4]))
    check_wrong_moments(script, room, store)


def check_wrong_moments(script, room, store):
    new = os.path.join(room, "no moment")
    for words, says in ((["x"], "the number of a record"), (["1."], "the number of a record"), ([".1"], "the number of a record"), (["1.2.3"], "the number of a record"),
                        (["7.1"], "no half of"), (["1", "--forms"], "knows no --forms")):
        is_refused("no moment", script, "backup", store, new, "--at", *words, says=says)
    is_refused("no number", script, "backup", store, new, "--at", says="the number of a record")
    is_refused("one folder", script, "backup", store, "--at", "1", says="two folders")
    is_refused("a folder that is there", script, "backup", store, room, "--at", "1", says="is there")
    status, out, err = called(script, "backup", store, new, "--at", "9")
    check("a record that is not there", (status in (2, 3), out, err != b""), (True, b"", True))
    status, out, _ = called(script, "backup", os.path.join(room, "none"), new, "--at", "1")
    check("no store", (status, out), (3, b""))
    check("what is left of them", [os.path.exists(new), os.path.exists(new + ".partial")], [False, False])


def check_damaged(script, room):
    """A store whose first byte is damaged is not begun anew; what a crash leaves of one that never began is."""
    store = os.path.join(room, "damaged")
    called(script, "run", store, stdin=FORMS)
    half = os.path.join(store, "half-a")
    for byte in (b"\x00", b"x"):
        with open(half, "r+b") as file:
            file.write(byte)
        before = halves_of(store)
        for words in (["run", store], ["run", store, "--existing"], ["verify", store], ["show", store], ["snapshot", store], ["dump", store, "--existing"],
                      ["run", store, "--operators"], ["backup", store, store + " 2"], ["info", store, "--files"]):
            status, out, err = called(script, *words, stdin=b"(LIST 1)")
            check(f"damaged: {words}", (status, out, err.startswith(b"pazturrok: ") and b"they are damaged, or no store's" in err, err.count(b"\n")), (3, b"", True, 1))
        check("damaged files", (halves_of(store), sorted(os.listdir(store))), (before, ["half-a", "half-b"]))
    with open(half, "r+b") as file:
        file.write(b"\xa5")
    check("mended", called(script, "run", store, "--existing", stdin=b"(GET 'STOCK 'PEARS)"), (0, b"8\n", b""))
    with open(half, "r+b") as file:
        file.write(b"\x00")
        fcntl.flock(file, fcntl.LOCK_EX)
        status, out, err = called(script, "run", store, stdin=b"(LIST 1)")
        check("files that a process has locked are left to the program", (status, out, b"no store's" in err, b"is served by process" in err), (3, b"", False, True))
    with open(half, "r+b") as file:
        file.write(b"\xa5")
    check_told_of(script, room, store)
    for count in (0, 1, NEW_STORE):
        begun = os.path.join(room, f"begun {count}")
        os.makedirs(begun)
        for name in ("half-a", "half-b"):
            with open(os.path.join(begun, name), "wb") as file:
                file.write(b"\x00" * count)
        check(f"a store that never began: {count} bytes", called(script, "run", begun, stdin=b"(LIST 1)"), (0, b"(1)\n", b""))


def check_told_of(script, room, store):
    """Before the program refuses a folder or a version, it is told which."""
    none = os.path.join(room, "danaged")
    told = f"! 60 DEVICE\n{none}: there is no store in this folder\n".encode()
    for words in (["show", none], ["verify", none], ["run", none, "--existing"]):
        check(f"no folder: {words}", called(script, *words), (3, b"", f"pazturrok: there is no folder {none}; did you mean {store}?\n".encode() + told))
    os.makedirs(none + " not")
    check("no store", called(script, "info", none + " not"), (3, b"", f"pazturrok: {none} not has no half-a and no half-b, so it holds no store\n".encode() + told.replace(none.encode(), none.encode() + b" not")))
    newer, half = os.path.join(room, "newer"), os.path.join(room, "newer", "half-a")
    called(script, "run", newer, stdin=b"(LIST 1)")
    with open(half, "r+b") as file:
        file.seek(1)
        file.write(b"\x01\x00")
    status, out, err = called(script, "show", newer)
    says = f"pazturrok: {half} is of version 256, and this program knows versions up to ".encode()
    check("a later version", (status, out, err.startswith(says), err.endswith(b": use a newer one\n! 66 VERSION\n")), (3, b"", True, True))


VALUES = b"""(SETF (GET 'V 'INTEGERS) '(7 -9007199254740991 9007199254740992 -170141183460469231731687303715884105727))
(SETF (GET 'V 'OTHERS) '(1/2 T NIL #\\a #\\Space #\\" KEY :KEY |a "b| (1 . 2) #(1 (2)) ()))
(SETF (GET 'V 'TEXT) "a \\"text\\" \\\\ Z&#xFC;rich &#x1F600; &#x26;#xFC; &#xD800; &")
(SETF (GET 'V 'LINES) "two
lines")
(SETF (GET '|","value":"| 'V) 8)
"""
IN_JSON = {
    "INTEGERS": [7, -9007199254740991, {"integer": "9007199254740992"}, {"integer": "-170141183460469231731687303715884105727"}],
    "OTHERS": [{"ratio": "1/2"}, True, [], {"character": "a"}, {"character": " "}, {"character": '"'}, {"symbol": "KEY"}, {"symbol": ":KEY"}, {"symbol": '|a "b|'},
               {"list": [1], "tail": 2}, {"vector": [1, [2]]}, []],
    "TEXT": 'a "text" \\ Z\xfcrich \U0001f600 &#xFC; &#xD800; &',
    "LINES": "two\nlines",
    "V": 8,
}


def check_values(script, room):
    """Values are those of JSON, and the rest is what --json writes."""
    store = os.path.join(room, "of values")
    called(script, "run", store, stdin=VALUES)
    status, out, err = called(script, "show", store, "--values")
    lines = [json.loads(line) for line in out.splitlines()]
    check("values", (status, {line["indicator"]: line["value"] for line in lines}, err), (0, IN_JSON, b""))
    plain = [json.loads(line) for line in called(script, "show", store, "--json")[1].splitlines()]
    check("what is round them", [{**line, "value": 0} for line in lines], [{**line, "value": 0} for line in plain])
    of_one = called(script, "show", store, "V", "--indicator", "LINES", "--values")[1]
    check("with a symbol", of_one, b'{"symbol":"V","home":"COMMON-LISP-USER"}\n{"symbol":"V","indicator":"LINES","value":"two\\u000Alines"}\n')
    for words in ([os.path.join(room, "none")], [store, "NO-SYMBOL"]):
        check(f"a look that is refused: {words}", called(script, "show", *words, "--values"), called(script, "show", *words, "--json"))
    for option in ("--forms", "--count"):
        is_refused("two ways", script, "show", store, "--values", option, says=f"knows no {option}")
    long = b"(SETF (GET 'V 'LONG) '(" + b"1 " * 200_000 + b"))(SETF (GET 'V 'TEXT) \"" + b"a" * 400_000 + b'")'
    called(script, "run", store, stdin=long)
    found = {line["indicator"]: line["value"] for line in map(json.loads, called(script, "show", store, "V", "--values")[1].splitlines()[1:])}
    check("long values", (found["LONG"], found["TEXT"]), ([1] * 200_000, "a" * 400_000))


def check_all(script, room):
    """Checks all of it."""
    check_moments(script, room)
    check_damaged(script, room)
    check_values(script, room)
