"""An installed program, with all or without, what takes it away again, and a release."""
import hashlib
import os
import pty
import re
import shutil
import subprocess
import tarfile
import time

from calls import PLAIN, PROGRAM, called, check, command, is_refused, write


def completed(text, *words):
    """What bash completes a line of words to."""
    line = ". \"$0\"; COMP_WORDS=(\"$@\") COMP_CWORD=$(($# - 1)); _pazturrok; echo \"${COMPREPLY[*]}\""
    done = subprocess.run(["bash", "-c", line, text, *words], capture_output=True, text=True, check=False)
    return done.stdout.split(), done.stderr


def text_of(*path):
    with open(os.path.join(*path), encoding="utf-8") as file:
        return file.read()


def bytes_of(path):
    with open(path, "rb") as file:
        return file.read()


def check_proved(script, room):
    """A proved program below a prefix, which is then moved."""
    for words in (["install"], ["install", ""], ["install", "a", "b"], ["install", "--all"], ["install", "a", "--more"], ["build", "more"]):
        is_refused("words", script, *words, says="takes")
    prefix = os.path.join(room, "prefix")
    done = called(script, "install", prefix)
    check("install", (done[0], done[1].count(prefix.encode()), done[2]), (0, 25, b"pazturrok: installing the proved program of commit 0123abc\n"))
    check_replaced(script, prefix)
    moved = os.path.join(room, "moved")
    os.rename(prefix, moved)
    there = os.path.join(moved, "bin", "pazturrok")
    check("what is installed runs", called(there, "run", os.path.join(room, "store"), stdin=b"(LIST 1)"), (0, b"(1)\n", b""))
    check("what is installed has the functions", called(there, "run", os.path.join(room, "of functions"), "--operators", stdin=b"(EQL 1 1)"), (0, b"T\n", b""))
    is_refused("installed", there, "run", os.path.join(room, "store"), says="write a number", PAZTURROK_MEMORY="abc")
    for word in ("compile", "build", "install", "release"):
        is_refused("installed", there, word, room, says="is installed")
    origin = text_of(moved, "share", "doc", "pazturrok", "ORIGIN")
    check("it is told what is installed", ("commit: 0123abc\n" in origin, "sha256 of store_program: " in origin, "not proved" in origin), (True, True, False))
    if shutil.which("bash"):
        check("completions are installed", completed(os.path.join(moved, "share", "bash-completion", "completions", "pazturrok"), "pazturrok", "in"), (["info"], ""))
    check("its help has how it is taken away", b"\nuninstall PREFIX takes away" in called(there, "--help")[1], True)
    helps = [called(there, *words)[1].decode() for words in (["--help"], ["help"], ["run", "--help"], ["help", "show"])]
    check("its help has its name", [("./pazturrok" in text, "pazturrok " in text) for text in helps], [(False, True)] * 4)
    check("its help of uninstall", called(there, "help", "uninstall"), called(there, "uninstall", "--help"))
    check("its help with wrong words", called(there, "run", "--bogus", "--help")[0], 2)
    check_named(there, room)
    page = os.path.join(moved, "share", "man", "man1", "pazturrok.1")
    manual, usage = text_of(page), helps[2].splitlines()[0]
    check("the manual page has the help", (usage.replace("-", "\\-") in manual, manual.count(".SS ") > 5, ".SS run \\-\\-messages\n" in manual), (True, True, True))
    forms = os.path.join(moved, "share", "man", "man7", "pazturrok-forms.7")
    check("the manual page of forms", (".B \"(GET s i [x])\"\n" in text_of(forms), ".B \"31 UNKNOWN\\-OPERATOR\"\n" in text_of(forms), ".B \"(SYMBOL\\-NAME s)\"\n" in text_of(forms)), (True, True, True))
    check("its help from the pages", [called(there, "help", word)[1].split(b"\n")[0] for word in ("GET", "31")], [b"(GET s i [x])", b"31 UNKNOWN-OPERATOR"])
    for name in (page, forms) if shutil.which("groff") else ():
        linted = subprocess.run(["groff", "-man", "-ww", "-Tascii", "-z", name], capture_output=True, check=False)
        check(f"a manual page is well formed: {name}", (linted.returncode, linted.stderr), (0, b""))


# Words that the program refuses.
WRONG = ([], ["run"], ["run", "--bogus"], ["run", "a", "b"], ["run", "a", "--snapshot-every", "x"], ["run", "a", "--operators", "--bogus"], ["backup", "a"],
         ["show"], ["check", "a", "b"], ["dump", "a", "--at"], ["run", "--bogus", "--help"])


def check_named(there, room):
    """An installed one has its own name in what it says of wrong words, which are tried on no folder, and at a terminal what the pages say."""
    for words in WRONG:
        status, out, err = called(there, *words)
        of_program = [word for word in words if word != "--operators"]
        wanted = subprocess.run([PROGRAM, *of_program], stdin=subprocess.DEVNULL, capture_output=True, check=False).stderr
        check(f"wrong words: {words}", (status, out, err), (2, b"", wanted.replace(b"./pazturrok", b"pazturrok")))
    check("what is made by them", [os.path.exists(name) for name in ("a", "b")], [False, False])
    done = subprocess.run([there, "run", "5", "--snapshot-every", "5"], cwd=room, input=b"(LIST 1)", capture_output=True, check=False)
    check("a folder that is a number", (done.returncode, done.stdout, done.stderr), (0, b"(1)\n", b""))
    check_right_words(there, room)
    folder = os.path.join(room, "at a terminal")
    told = f"pazturrok: there is no folder {folder}\n! 60 DEVICE\n{folder}: there is no store in this folder\n".encode()
    check("no store", called(there, "info", folder), (3, b"", told))
    for words, says in ((["frob"], "no command 'frob'; those of the program are"), (["shwo"], "did you mean show?"), (["help", "SEFT"], "did you mean SETF?")):
        is_refused("an installed one", there, *words, says=says)
    for words in ([], ["--quiet"], ["--operators"]):
        text = typed_at_terminal([there, "run", folder, *words], b"help 31\n(help 'get)\nhelp frob\n")
        says = [b"\r\n31 UNKNOWN-OPERATOR\r\n", b"\r\n(GET s i [x])\r\n", b"there is no operator and no number frob;"]
        check(f"at a terminal {words}", ([word in text for word in says], b"./pazturrok" in text), ([True] * 3, False))


def typed_at_terminal(words, lines):
    """What is told at a terminal on these lines."""
    master, slave = pty.openpty()
    running = subprocess.Popen(words, stdin=slave, stdout=subprocess.DEVNULL, stderr=slave)
    os.close(slave)
    os.write(master, lines + b"\x04")
    text = b""
    try:
        while more := os.read(master, 65536):
            text += more
    except OSError:
        pass
    running.wait()
    os.close(master)
    return text


def check_right_words(there, room):
    """An installed one does what the program does."""
    store, file = os.path.join(room, "of right words"), os.path.join(room, "forms of right words")
    write(file, "(LIST 1) 1.5\n")
    called(there, "run", store, stdin=b"(SETF (GET 'A 'B) 7)")
    for words in (["dump", store], ["dump", "--at", "1", store], ["log", "--from", "1", store], ["show", "--package", "COMMON-LISP-USER", store],
                  ["show", "--like", "a", "--indicator", "b", store], ["show", "--package=CL", store], ["log", "--", store], ["verify", store, "--existing"], ["show", store], ["show", store, "A"], ["show", store, "NONE"], ["log", store], ["log", store, "--from", "9"],
                  ["log", store, "--from", "7.1"], ["export", store], ["check", file], ["check", file, "--store", store], ["check", "--store", store, file],
                  ["check", file + " not"]):
        done = subprocess.run([PROGRAM, *words], stdin=subprocess.DEVNULL, capture_output=True, check=False)
        check(f"right words: {words}", called(there, *words), (done.returncode, done.stdout, done.stderr))
    check("snapshots", [called(there, word, store)[::2] for word in ("snapshot", "upgrade")], [(0, b"")] * 2)
    check("a backup", (called(there, "backup", store, store + " copy"), called(there, "dump", store + " copy")[1]), ((0, b"", b""), called(there, "dump", store)[1]))


def check_replaced(script, prefix):
    """A proved program that is installed stays, unless that of the clone is proved too and is that of its sources, or it is to be replaced."""
    clone, there = os.path.dirname(script), os.path.join(prefix, "libexec", "pazturrok", "store_program")
    built, source = (os.path.join(clone, "crates", *path) for path in (("store_program", "out", "store_program"), ("command_words", "src", "help.rt")))
    bytes_there = bytes_of(there)
    check("the same is installed again", called(script, "install", prefix)[0], 0)
    length = os.path.getsize(source)
    with open(source, "a", encoding="utf-8") as file:
        file.write("// changed\n")
    # later than what the check wrote of the program's sources, however long it took
    later = time.time() + 100
    os.utime(source, (later, later))
    is_refused("one of other sources", script, "install", prefix, says="is of other sources than those of the clone: ./pazturrok build makes one")
    status, _, err = called(script, "install", prefix, "--replace")
    check("one of other sources that is to be put there", (status, b"installing the proved program of commit 0123abc\n" in err), (0, True))
    os.truncate(source, length)
    os.rename(built, built + ".away")
    is_refused("none", script, "install", "--all", prefix, says="this clone has none", PATH=PLAIN)
    compiled = os.path.join(os.path.dirname(built), "compiled_program")
    shutil.copy(built + ".away", compiled)
    os.utime(compiled, (later + 100, later + 100))
    is_refused("one that is not proved", script, "install", prefix, says="that of this clone is compiled, not proved: ./pazturrok build makes one")
    check("it stays", bytes_of(there) == bytes_there, True)
    os.remove(compiled)
    os.rename(built + ".away", built)


# What `install --all` puts there beside the program.
ALL = ("bin/pazturrok-node", "lib/pazturrok/cluster/pazturrok_node/main.py", "lib/systemd/system/pazturrok-node.service", "share/pazturrok/pazturrok.env",
       "share/pazturrok/python/src/pazturrok/__init__.py", "share/common-lisp/source/pazturrok-client/pazturrok-client.asd")


# What stands in the place of make, where the library for C is made.
MAKE = """#!/bin/sh
for word; do
    case $word in PREFIX=*) prefix=${word#PREFIX=} ;; esac
done
mkdir -p "$prefix/include" "$prefix/lib/pkgconfig"
touch "$prefix/include/pazturrok.h" "$prefix/include/pazturrok_link.h" "$prefix/lib/libpazturrok.a" "$prefix/lib/libpazturrok.so" "$prefix/lib/libpazturrok_link.a"
echo "prefix=$prefix" >"$prefix/lib/pkgconfig/pazturrok.pc"
"""


def below(folder):
    """The names of all that is below a folder."""
    return sorted(os.path.relpath(os.path.join(at, name), folder) for at, folders, files in os.walk(folder) for name in folders + files)


def check_removed(kit, room):
    """What was installed goes again, and nothing else."""
    prefix = os.path.join(room, "a prefix")
    for name in ("bin/other", "share/pazturrok/store/half-a", "share/pazturrok/own"):
        write(os.path.join(prefix, name), "")
    os.makedirs(os.path.join(prefix, "share", "man"))
    for words, says in ((["uninstall"], "takes a folder"), (["uninstall", prefix, room], "takes a folder"), (["uninstall", "--all"], "takes a folder"),
                        (["uninstall", prefix], "installed, so it is not known"), (["uninstall", os.path.join(room, "nowhere")], "is no folder")):
        is_refused("what is not installed", kit.script, *words, says=says)
    before = below(prefix)
    check("installs", [kit.called("install", *more, prefix)[0] for more in ([], ["--all"], [])], [0, 0, 0])
    there, known = os.path.join(prefix, "bin", "pazturrok"), os.path.join(prefix, "share", "pazturrok", "installed")
    python = os.path.join(prefix, "share", "pazturrok", "python", "src", "pazturrok", "__pycache__")
    write(os.path.join(python, "store.cpython-39.pyc"), "")
    whole = text_of(known)
    for line in ("-  ../elsewhere", "0  bin/other", "-  /bin", "bin/other"):
        write(known, whole + line + "\n")
        is_refused(f"a list with {line}", there, "uninstall", prefix, says="is not what install wrote")
    write(known, whole)
    running = subprocess.Popen([there, "run", os.path.join(room, "served")], stdin=subprocess.PIPE, stdout=subprocess.PIPE, stderr=subprocess.DEVNULL)
    running.stdin.write(b"1\n")
    running.stdin.flush()
    running.stdout.readline()
    is_refused("while it runs", there, "uninstall", prefix, says=f"process {running.pid} runs the program")
    running.communicate()
    check("nothing went", (below(prefix)[:3], len(below(prefix)) > len(before) + 100), (["bin", "bin/other", "bin/pazturrok"], True))
    write(os.path.join(prefix, "share", "pazturrok", "pazturrok.env"), "PAZTURROK_MEMORY=1G\n")
    status, out, err = called(there, "uninstall", prefix)
    left = sorted([*before, "share/pazturrok/pazturrok.env"])
    check("what is left", (status, out.endswith(b"files are taken away from " + prefix.encode() + b"\n"), b"pazturrok.env is left, as it was changed since\n" in err, below(prefix)),
          (0, True, True, left))
    check("a prefix of its own", (kit.called("install", "--all", prefix + "-2")[0], kit.called("uninstall", prefix + "-2")[0], os.path.exists(prefix + "-2")), (0, 0, False))


def check_compiled(kit, room):
    """A program that is compiled and not proved, with all that goes with it, below a prefix and as a release."""
    prefix, store = os.path.join(room, "all"), os.path.join(room, "of-all")
    status, _, err = kit.called("install", "--all", prefix)
    check("install --all", (status, [os.path.exists(os.path.join(prefix, name)) for name in ALL], b"will say so at each start" in err, b"the library for C is left out" in err),
          (0, [True] * len(ALL), True, True))
    there = os.path.join(prefix, "bin", "pazturrok")
    check("it says what it is", called(there, "run", store, stdin=b"(LIST 1)"), (0, b"(1)\n", b"pazturrok: compiled, not proved\n"))
    check("its origin", "compiled, not proved: compiled with a kit in the place of the kit\n" in text_of(prefix, "share", "doc", "pazturrok", "ORIGIN"), True)
    check("the node starts", (called(os.path.join(prefix, "bin", "pazturrok-node"), "--help")[0],
                              f"ExecStart={prefix}/lib/pazturrok/cluster/pazturrok-node " in text_of(prefix, "lib", "systemd", "system", "pazturrok-node.service")), (0, True))
    command(room, "make", MAKE)
    check_removed(kit, room)
    write(os.path.join(kit.clone, "crates", "pazturrok_c", "out", "compiled_library.a"), "")
    files = [os.path.join(room, name) for name in ("one.tar.gz", "two.tar.gz")]
    told = [kit.called("release", file) for file in files]
    check("a release", [(status, out[64:]) for status, out, _ in told], [(0, f"  {file}\n".encode()) for file in files])
    if told[0][0]:
        print(told[0][2].decode())
        return
    with open(files[0], "rb") as file:
        check("the same is packed as the same", [out[:64].decode() for _, out, _ in told], [hashlib.sha256(file.read()).hexdigest()] * 2)
    with tarfile.open(files[0]) as packed:
        names = packed.getnames()
        packed.extractall(os.path.join(room, "unpacked"))
    folder = os.path.join(room, "unpacked", names[0])
    check("it has the library for C", (text_of(folder, "lib", "pkgconfig", "pazturrok.pc"), "the library for C: compiled, not proved\n" in text_of(folder, "share", "doc", "pazturrok", "ORIGIN")),
          ("prefix=/usr/local\n", True))
    check("its name says what it is", re.fullmatch(r"pazturrok-[\d.]+-.*-not-proved", names[0]) is not None, True)
    summed = subprocess.run(["sha256sum", "--quiet", "-c", "SHA256SUMS"], cwd=folder, capture_output=True, check=False)
    check("its sums", (summed.returncode, summed.stdout, len(text_of(folder, "SHA256SUMS").splitlines()) > 50), (0, b"", True))
    check("it runs where it lies", called(os.path.join(folder, "bin", "pazturrok"), "run", store, stdin=b"(LIST 1)", PATH=PLAIN),
          (0, b"(1)\n", b"pazturrok: compiled, not proved\n"))
