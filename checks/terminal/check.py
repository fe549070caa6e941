#!/usr/bin/env python3
"""Tries `run` at a terminal: a pseudo-terminal is given to the program, and what it writes is compared, answers and prompts apart. With `rlwrap`
round it, where that is installed."""
import fcntl
import os
import pty
import select
import shutil
import signal
import socket
import struct
import subprocess
import sys
import tempfile
import termios
import time

program = os.path.abspath(sys.argv[1])
# Only a program that hangs is waited for so many seconds.
PATIENCE = 300
EVERYTHING = (sys.maxsize, sys.maxsize)


class Terminal:
    """The program at a pseudo-terminal; its answers and what it tells on standard error come by pipes of their own."""

    def __init__(self, *words):
        self.master, slave = pty.openpty()
        attributes = termios.tcgetattr(slave)
        attributes[3] &= ~termios.ECHO
        termios.tcsetattr(slave, termios.TCSANOW, attributes)
        self.process = subprocess.Popen([program, *words], stdin=slave, stdout=subprocess.PIPE, stderr=subprocess.PIPE)
        os.close(slave)

    def read(self, lengths):
        """Reads from both streams until each has given so many bytes, or has ended. What comes after them is part of the next step."""
        wanted = dict(zip((self.process.stdout, self.process.stderr), lengths))
        found = {stream: b"" for stream in wanted}
        while lacking := [stream for stream in wanted if len(found[stream]) < wanted[stream]]:
            ready, _, _ = select.select(lacking, [], [], PATIENCE)
            if not ready:
                break
            for stream in ready:
                more = os.read(stream.fileno(), 65536)
                found[stream] += more
                wanted[stream] = wanted[stream] if more else 0
        return tuple(text.decode() for text in found.values())

    def step(self, name, typed, answers, told):
        """Types a text, and compares the answers and what is told on standard error."""
        os.write(self.master, typed.encode())
        check(name, self.read((len(answers), len(told))), (answers, told))

    def end(self, name, typed, answers, told, status):
        """The same of the last text: all that comes is compared, and the status."""
        os.write(self.master, typed.encode())
        found = self.read(EVERYTHING)
        check(name, (*found, self.process.wait(timeout=PATIENCE)), (answers, told, status))
        os.close(self.master)


CONTROL_D = "\x04"
WELCOME = "Type a form and Enter; help tells more, Ctrl-D ends. For editing lines: rlwrap before the command.\n"
HELP = """(SETF (GET 'APPLE 'PRICE) 7) sets a property, (GET 'APPLE 'PRICE) gives it, (SYMBOL-PLIST 'APPLE) gives all of a symbol.
An answer that begins with ! is a refusal: help 31 tells of the number 31, help GET of the operator GET.
Beside this session the command with the word help has all commands, and docs/use/operators.md all operators.
Ctrl-D at the beginning of a line ends. Each answer is in the store by then.
"""
LEAVING = "Ctrl-D at the beginning of a line ends.\n"
CUT = """A terminal hands on 4,095 bytes of a line, and dropped the rest of this one, so the form that was begun is not whole.
Ctrl-C ends the session, and the store gets nothing of that form. Write it in shorter lines, or send it from a file: run DIR < FILE
"""
UNANSWERED = "Nothing was answered: a form is open, or the readtable makes comments of what is typed; --rescue reads under the standard one.\n"
BESIDE = "Beside this session the command tells more, with the words help %s\n"
PAGES = "@ 31\n31 UNKNOWN-OPERATOR\n  the symbol is no operator\n@ GET\n(GET s i [x])\n  Value: the property\n"
STRAY = "STRAY-CLOSE: )"
WITHOUT_STANDARD = ': this package does not use COMMON-LISP; (COMMON-LISP:IN-PACKAGE "CL-USER") leads back'
QUOTED = "NOT-A-FORM: %s; quoted it is a value: '%s"
TOLD = "line %d, column %d: %d: %s (help %d)\n"
REFUSED = "line %d, column %d: refused with %s in form %d, which began at line %d, column %d\n"
DROPPED = "The rest of the line was dropped, and a new session begins.\n"
passed = failed = 0


def check(name, got, want):
    global passed, failed
    if got == want:
        passed += 1
    else:
        failed += 1
        print(f"{name}:\n  got  {got!r}\n  want {want!r}")


def waits(process, state="S"):
    """Waits until the process waits for a stream, or is in another state."""
    for _ in range(PATIENCE * 10):
        with open(f"/proc/{process.pid}/stat", encoding="ascii") as file:
            if file.read().rsplit(")", 1)[1].split()[0] == state:
                return
        time.sleep(0.1)


def stops_and_goes_on(process):
    """Stops the process where it waits for a stream, and lets it go on."""
    waits(process)
    process.send_signal(signal.SIGSTOP)
    waits(process, "T")
    process.send_signal(signal.SIGCONT)


def rest_of(master):
    """What the programs that had a terminal have written to it, once they have ended."""
    text = b""
    while True:
        try:
            text += os.read(master, 65536)
        except OSError:
            return text.decode()


def interrupted(folder):
    """A read and a write of a socket with a time limit, which end early after a stop and a continuation: both are made again."""
    near, far = socket.socketpair()
    limit = struct.pack("ll", PATIENCE, 0)
    far.setsockopt(socket.SOL_SOCKET, socket.SO_RCVTIMEO, limit)
    far.setsockopt(socket.SOL_SOCKET, socket.SO_SNDTIMEO, limit)
    process = subprocess.Popen([program, "run", folder], stdin=far, stdout=far, stderr=subprocess.PIPE)
    far.close()
    near.sendall(b"(GET 'A 'B)\n")
    answers = near.recv(2)
    for text in (b"(GET 'A 'B)\n", b"#(%s)\n" % (b'"%s"' % (b"x" * 999_000))):
        stops_and_goes_on(process)
        near.sendall(text)
    # the last answer is longer than the socket holds: once it has begun, the program waits in its write
    while len(answers) < 5 and (more := near.recv(5 - len(answers))):
        answers += more
    stops_and_goes_on(process)
    near.shutdown(socket.SHUT_WR)
    while more := near.recv(65536):
        answers += more
    check("a stop and a continuation", (answers[:4], len(answers), process.wait(timeout=PATIENCE), process.stderr.read()),
          (b"9\n9\n", 4 + 999_006, 0, b""))


def told_at_terminal(folder, *words, answers):
    """What a load by a pipe tells at a terminal that is its standard error; its answers go to another one, or to a pipe."""
    master, slave = pty.openpty()
    stdout = slave if answers else subprocess.PIPE
    process = subprocess.Popen([program, "run", folder, *words], stdin=subprocess.PIPE, stdout=stdout, stderr=slave)
    os.close(slave)
    found = b""
    for number in range(1, 5):
        process.stdin.write(b"(GET 'A 'B)\n")
        process.stdin.flush()
        # its second begins when it does: with the first answer at the latest
        while found.count(b"9") < number and (more := os.read(master if answers else process.stdout.fileno(), 65536)):
            found += more
        time.sleep(0.6)
    process.stdin.write(b")\n")
    process.stdin.close()
    process.wait(timeout=PATIENCE)
    text = (found if answers else b"").decode() + rest_of(master)
    os.close(master)
    return text


def load(folder):
    """A load that takes more than a second tells how far it is, and takes the line away before it tells anything else."""
    refused = "line 5, column 1: refused with 4 STRAY-CLOSE in form 5, which began at line 5, column 1\r\n"
    text = told_at_terminal(folder, answers=False)
    lines = text.split("\r\x1b[K")
    check("how far a load is", (lines[0], bool(lines[1:-1]), set(line.split(" in ")[0] for line in lines[1:-1]), lines[-1]),
          ("", True, {"0 MB read"}, refused))
    check("nothing of it beside answers", told_at_terminal(folder, answers=True), "9\r\n" * 4 + "! 4 STRAY-CLOSE\r\n" + refused)


def long_opening(folder):
    """What takes a second to open is told before it is opened, at a terminal alone."""
    form = b"(PROGN (SETF (GET 'A 'B) \"%s\") 1)\n" % (b"x" * 1_000_000)
    subprocess.run([program, "run", folder, "--snapshot-ratio", "0"], input=form * 7, stdout=subprocess.DEVNULL, check=True)
    told = "opening half-a, 7 MB: about 1 s\r\n"
    for words, answers in ((["verify", folder], b"half A generation 1 records 7\n"), (["verify", folder, "--existing"], b"half A generation 1 records 7\n"),
                           (["run", folder], b"")):
        master, slave = pty.openpty()
        process = subprocess.Popen([program, *words], stdin=subprocess.DEVNULL, stdout=subprocess.PIPE, stderr=slave)
        os.close(slave)
        check(f"a long opening: {words[0]}", (process.communicate()[0], rest_of(master)), (answers, told))
        os.close(master)
    silent = subprocess.run([program, "verify", folder], capture_output=True)
    check("a long opening without a terminal", (silent.stdout, silent.stderr), (b"half A generation 1 records 7\n", b""))


def edited(room):
    """With rlwrap round it a line comes back by the arrow up, in the next session too: it keeps them in a file."""
    if not shutil.which("rlwrap"):
        print("terminal: rlwrap is not installed: lines that come back were not tried")
        return
    environment = {**os.environ, "HOME": room, "TERM": "xterm", "RLWRAP_HOME": room}
    for count, keys in ((1, b"(LIST 'A 12)\n"), (2, b"\x1b[A\n\x1b[A\x1b[A\n")):
        master, slave = pty.openpty()
        fcntl.ioctl(slave, termios.TIOCSWINSZ, struct.pack("HHHH", 24, 80, 0, 0))
        process = subprocess.Popen(["rlwrap", program, "run", os.path.join(room, "edited")], stdin=slave, stdout=slave, stderr=slave, env=environment,
                                   start_new_session=True, preexec_fn=lambda: fcntl.ioctl(0, termios.TIOCSCTTY, 0))
        os.close(slave)
        found = b""
        while b"> " not in found:
            found += os.read(master, 65536)
        for line in keys.splitlines(keepends=True):
            before = found.count(b"(A 12)")
            os.write(master, line)
            while found.count(b"(A 12)") == before:
                found += os.read(master, 65536)
        os.write(master, CONTROL_D.encode())
        rest_of(master)
        check(f"lines that come back: {count}", (found.count(b"(A 12)"), process.wait(timeout=PATIENCE)), (count, 0))
        os.close(master)


with tempfile.TemporaryDirectory() as room:
    store = os.path.join(room, "store")
    it = Terminal("run", store)
    it.step("welcome", "", "", WELCOME + "> ")
    it.step("a form", "(SETF (GET 'A 'B) 7)\n", "7\n", "> ")
    it.step("a token", "12\n", "12\n", "> ")
    it.step("nothing", "\n", "", "> ")
    it.step("a comment", "; a remark\n", "", "> ")
    it.step("a form of two lines", "(LIST 1\n", "", ". ")
    it.step("its end", " 2)\n", "(1 2)\n", "> ")
    it.step("two forms", "(LIST 1) (LIST 2\n", "(1)\n", ". ")
    it.step("the end of the second", ")\n", "(2)\n", "> ")
    it.step("refused by evaluation", "(FROB)\n", "! 31 UNKNOWN-OPERATOR\n", TOLD % (9, 1, 31, "no operator FROB", 31) + "> ")
    it.step("refused by the reader", "10.5 (SETF (GET 'A 'B) 8)\n", "! 7 FLOAT-TOKEN\n", TOLD % (10, 5, 7, "FLOAT-TOKEN: 10.5", 7) + DROPPED + "> ")
    it.step("the next session", "(GET 'A 'B)\n", "7\n", "> ")
    it.step("a paste", "(SETF (GET 'A 'B) 9)\n) (SETF (GET 'A 'B) 10)\n(GET 'A 'B)\n", "9\n! 4 STRAY-CLOSE\n9\n",
            "> " + TOLD % (13, 1, 4, STRAY, 4) + DROPPED + "> > ")
    it.step("a readtable", "(SET-MACRO-CHARACTER #\\[ :SQUARE) (SET-MACRO-CHARACTER #\\] :CLOSE)\n", "T\nT\n", "> ")
    it.step("a new bracket", "[1\n", "", ". ")
    it.step("and its end", "2]\n", "#(1 2)\n", "> ")
    it.end("the end", CONTROL_D, "", "\n", 0)

    it = Terminal("run", store, "--rescue")
    it.step("a refusal", ")\n", "! 4 STRAY-CLOSE\n", WELCOME + "> " + TOLD % (1, 1, 4, STRAY, 4) + DROPPED + "> ")
    it.end("the status of the last session", CONTROL_D, "", "\n", 0)

    it = Terminal("run", store, "--strict")
    it.step("a strict session", "(GET 'A 'B)\n(FROB) (SETF (GET 'A 'B) 8)\n(GET 'A 'B)\n", "9\n! 31 UNKNOWN-OPERATOR\n9\n",
            WELCOME + "> > " + TOLD % (2, 1, 31, "no operator FROB", 31) + DROPPED + "> > ")
    it.end("its end", CONTROL_D, "", "\n", 0)

    it = Terminal("run", store, "--existing", "--group")
    it.step("forms of a group, and the beginning of one", "12 (GET 'A 'B) (LIST 1\n", "12\n9\n", WELCOME + "> . ")
    it.step("its end", ")\n", "(1)\n", "> ")
    it.end("the end of groups", CONTROL_D, "", "\n", 0)

    it = Terminal("run", store)
    it.end("a refusal in a line that does not end", ") 7" + CONTROL_D * 2, "! 4 STRAY-CLOSE\n",
           WELCOME + "> " + REFUSED % (1, 1, "4 STRAY-CLOSE", 1, 1, 1), 1)

    it = Terminal("run", store)
    it.step("a form without its end", "(LIST\n", "", WELCOME + "> . ")
    it.end("the end inside a form", CONTROL_D, "! 1 END-OF-FILE\n",
           "\n" + UNANSWERED + REFUSED % (2, 1, "1 END-OF-FILE", 1, 1, 1), 1)

    it = Terminal("run", store)
    it.step("a word for help", "help\n", "! 30 NOT-A-FORM\n",
            WELCOME + "> " + TOLD % (1, 1, 30, QUOTED % ("HELP", "HELP"), 30) + HELP + "> ")
    it.step("a word to leave", " 12\nexit\n", "12\n! 30 NOT-A-FORM\n", "> " + TOLD % (3, 1, 30, QUOTED % ("EXIT", "EXIT"), 30) + LEAVING + "> ")
    it.step("a form for help", "(help)\n", "! 31 UNKNOWN-OPERATOR\n", TOLD % (4, 1, 31, "no operator HELP", 31) + HELP + "> ")
    it.step("a question mark", "?\n", "! 30 NOT-A-FORM\n", TOLD % (5, 1, 30, QUOTED % ("?", "?"), 30) + HELP + "> ")
    it.step("a form to leave", "(QUIT)\n", "! 31 UNKNOWN-OPERATOR\n", TOLD % (6, 1, 31, "no operator QUIT", 31) + LEAVING + "> ")
    it.step("help of an operator", "help GET\n", "! 30 NOT-A-FORM\n" * 2,
            TOLD % (7, 1, 30, QUOTED % ("HELP", "HELP"), 30) + TOLD % (7, 6, 30, QUOTED % ("GET", "GET"), 30) + BESIDE % "GET" + "> ")
    it.step("help of a number", "help 31\n", "! 30 NOT-A-FORM\n31\n", TOLD % (8, 1, 30, QUOTED % ("HELP", "HELP"), 30) + BESIDE % "31" + "> ")
    it.step("an operator of PAZTURROK", "(+ 1 2)\n", "! 31 UNKNOWN-OPERATOR\n",
            TOLD % (9, 1, 31, "no operator +: run DIR --operators makes it known", 31) + "> ")
    it.step("a package without operators", '(MAKE-PACKAGE "BOOK")\n(IN-PACKAGE "BOOK")\n', '"BOOK"\n"BOOK"\n', "> > ")
    it.step("its first form", "(LIST 1)\n", "! 31 UNKNOWN-OPERATOR\n",
            TOLD % (12, 1, 31, "no operator LIST" + WITHOUT_STANDARD, 31) + "> ")
    it.step("the way back", '(COMMON-LISP:IN-PACKAGE "CL-USER")\n', '"COMMON-LISP-USER"\n', "> ")
    it.step("a readtable in which each form is a comment", "(SET-SYNTAX-FROM-CHAR #\\( #\\;)\n", "T\n", "> ")
    it.step("forms that are comments", "(LIST 1)\n" * 4, "", ". . . " + UNANSWERED + ". ")
    it.end("their end", CONTROL_D, "", "\n", 0)

    it = Terminal("run", store, "--rescue")
    for place in range(0, 5000, 1000):
        os.write(it.master, (b'(LIST "' + b"x" * 4993)[place:place + 1000])
    it.step("a line that the terminal cuts", '")\n', "", WELCOME + "> " + CUT + ". ")
    it.step("the rest of its form", '")\n', '("' + "x" * 4088 + '\n")\n', "> ")
    it.step("a line that it does not cut", "(LIST 1" + " " * 4000 + ")\n", "(1)\n", "> ")
    it.end("its end", CONTROL_D, "", "\n", 0)

    it = Terminal("run", store, "--rescue")
    for place in range(0, 5000, 1000):
        os.write(it.master, (b"(SETF (GET 'A 'B) \"" + b"x" * 4979)[place:place + 1000])
    it.step("a form that the terminal cuts", '")\n', "", WELCOME + "> " + CUT + ". ")
    it.end("the end inside it", CONTROL_D, "! 1 END-OF-FILE\n",
           "\n" + UNANSWERED + REFUSED % (2, 1, "1 END-OF-FILE", 1, 1, 1), 1)
    check("it was not carried out", subprocess.run([program, "run", store, "--rescue"], input=b"(GET 'A 'B)", capture_output=True).stdout, b"9\n")

    it = Terminal("run", store, "--rescue")
    it.step("the way back", "(COPY-READTABLE NIL :USER)\n", ":USER\n", WELCOME + "> > ")
    it.end("its end", CONTROL_D, "", "\n", 0)

    it = Terminal("run", store, "--quiet")
    it.step("refusals alone", "(GET 'A 'B)\n(FROB)\n(GET 'A 'B)\n", "! 31 UNKNOWN-OPERATOR\n", WELCOME + "> > " + TOLD % (2, 1, 31, "no operator FROB", 31) + "> > ")
    it.step("a refusal by the reader", ")\n", "! 4 STRAY-CLOSE\n", TOLD % (4, 1, 4, STRAY, 4) + DROPPED + "> ")
    it.end("and their count", CONTROL_D, "", "\nanswers 4 refusals 2\n", 0)

    # where the script names the pages, the lines for help tell what they have
    pages = os.path.join(room, "pages.txt")
    with open(pages, "w", encoding="ascii") as file:
        file.write(PAGES)
    os.environ["PAZTURROK_PAGES"] = pages
    it = Terminal("run", store)
    it.step("a number of the pages", "help 31\n", "! 30 NOT-A-FORM\n31\n",
            WELCOME + "> " + TOLD % (1, 1, 30, QUOTED % ("HELP", "HELP"), 30) + "31 UNKNOWN-OPERATOR\n  the symbol is no operator\n> ")
    for line, (typed, operator) in enumerate((("(help 'get)", "HELP"), ('(HELP "GET")', "HELP"), ("(describe 'get)", "DESCRIBE")), 2):
        it.step(f"an operator of the pages: {typed}", typed + "\n", "! 31 UNKNOWN-OPERATOR\n",
                TOLD % (line, 1, 31, f"no operator {operator}", 31) + "(GET s i [x])\n  Value: the property\n> ")
    it.step("a word that the pages do not have", "help frob\n", "! 30 NOT-A-FORM\n" * 2,
            TOLD % (5, 1, 30, QUOTED % ("HELP", "HELP"), 30) + TOLD % (5, 6, 30, QUOTED % ("FROB", "FROB"), 30)
            + "there is no operator and no number frob; help tells of a first form\n> ")
    it.end("the end of help", CONTROL_D, "", "\n", 0)
    del os.environ["PAZTURROK_PAGES"]

    it = Terminal("verify", store)
    it.end("another command asks for nothing", "", "half A generation 1 records 9\n", "", 0)

    it = Terminal("run", store + "2", "--existing")
    it.end("a fault", "", "", "! 60 DEVICE\n%s2: there is no store in this folder\n" % store, 3)

    piped = subprocess.run([program, "run", store], input=b"(GET 'A 'B)\n) 5\n", capture_output=True)
    told = REFUSED % (2, 1, "4 STRAY-CLOSE", 2, 2, 1)
    check("a pipe", (piped.stdout, piped.stderr, piped.returncode), (b"9\n! 4 STRAY-CLOSE\n", told.encode(), 1))

    # why a form is refused is told through a pipe where somebody asks for it, and not else
    bare = {name: value for name, value in os.environ.items() if name != "PAZTURROK_REASONS"}
    for asked, told in (None, ""), ("", ""), ("told", TOLD % (1, 1, 31, "no operator FROB", 31)):
        environment = bare if asked is None else {**bare, "PAZTURROK_REASONS": asked}
        piped = subprocess.run([program, "run", store], input=b"(FROB)\n", capture_output=True, env=environment)
        check(f"a refused form, asked: {asked}", (piped.stdout, piped.stderr), (b"! 31 UNKNOWN-OPERATOR\n", told.encode()))

    # control characters of a word do not reach the terminal
    told = subprocess.run([program, "run", store, "--\x1b[31mred\x9b"], capture_output=True)
    check("a word with control characters", (told.returncode, b"\\x1b[31mred\\x9b" in told.stderr, b"\x1b" in told.stderr, b"\xc2\x9b" in told.stderr),
          (2, True, False, False))
    edited(room)
    interrupted(store)
    load(store)
    long_opening(os.path.join(room, "long"))

print(f"{passed} passed, {failed} failed")
sys.exit(1 if failed else 0)
