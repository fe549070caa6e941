"""A session whose lines are edited: over a terminal, of which all that is shown is looked at."""
import os
import pty
import select
import shutil
import signal
import subprocess
import time

from calls import check

UP, CONTROL_C, CONTROL_D = b"\x1b[A", b"\x03", b"\x04"
PATIENCE = 120
PROMPT = b"\r\n> "


class Typed:
    """The script at a terminal."""

    def __init__(self, script, store, history, *words, **environment):
        self.master, slave = pty.openpty()
        environment = {**os.environ, "TERM": "xterm", "PAZTURROK_HISTORY": history, "INPUTRC": "/dev/null", **environment}
        self.process = subprocess.Popen([script, "run", store, *words], stdin=slave, stdout=slave, stderr=slave, env=environment, start_new_session=True,
                                        preexec_fn=lambda: (signal.signal(signal.SIGINT, signal.SIG_DFL), take_terminal()))
        os.close(slave)
        self.shown = b""

    def until(self, text):
        """Waits until this is shown, and gives what came up to its end."""
        deadline = time.monotonic() + PATIENCE
        while text not in self.shown and time.monotonic() < deadline:
            if select.select([self.master], [], [], 1)[0]:
                try:
                    self.shown += os.read(self.master, 65536)
                except OSError:
                    break
        whole, mark, self.shown = self.shown.partition(text)
        return whole + mark

    def type(self, text, until=PROMPT):
        os.write(self.master, text)
        return plain(self.until(until))

    def end(self, text=CONTROL_D):
        """The last text, and the status. A Ctrl-C that comes before Python waits for a line is not heard, so it is typed again."""
        os.write(self.master, text)
        while text == CONTROL_C and self.process.poll() is None:
            time.sleep(1)
            os.write(self.master, text)
        self.until(b"\0 never")
        status = self.process.wait(timeout=PATIENCE)
        os.close(self.master)
        return status


def take_terminal():
    """Makes the terminal that of the new session, so that Ctrl-C of it is a signal."""
    os.close(os.open(os.ttyname(0), os.O_RDWR))


def plain(text):
    """What is shown, without the marks by which pasted texts are told."""
    for mark in (b"\x1b[?2004h", b"\x1b[?2004l\r", b"\x1b[?2004l"):
        text = text.replace(mark, b"")
    return text


def check_session(script, store, history):
    """Answers, prompts and lines that come back, within a session and in the next one; and who may read them."""
    one = Typed(script, store, history)
    check("the welcome", plain(one.until(b"> ")).splitlines()[-2:], [b"Type a form and Enter; help tells more, Ctrl-D ends.", b"> "])
    check("a form", one.type(b"(SETF (GET 'A 'B) 7)\n"), b"(SETF (GET 'A 'B) 7)\r\n7\r\n> ")
    check("a form of two lines", (one.type(b"(LIST 1\n", b"\r\n. "), one.type(b"2)\n")), (b"(LIST 1\r\n. ", b"2)\r\n(1 2)\r\n> "))
    check("a line that comes back", b"\r\n7\r\n> " in one.type(UP * 3 + b"\n"), True)
    check("a line that is edited", b"\r\n8\r\n> " in one.type(UP + b"\x7f\x7f8)\n"), True)
    check("a refusal", b"! 31 UNKNOWN-OPERATOR\r\n" in one.type(b"(FROB)\n"), True)
    check("its end", one.end(), 0)
    check("who may read the lines", oct(os.stat(history).st_mode & 0o777), "0o600")
    with open(history, encoding="ascii") as file:
        check("the lines", file.read().splitlines()[:3], ["(SETF (GET 'A 'B) 7)", "(LIST 1", "2)"])
    again = Typed(script, store, history)
    again.until(b"> ")
    check("a line of the session before", b"! 31 UNKNOWN-OPERATOR" in again.type(UP + b"\n"), True)
    check("what is in the store", again.type(b"(GET 'A 'B)\n"), b"(GET 'A 'B)\r\n8\r\n> ")
    check("Ctrl-C ends it", again.end(CONTROL_C), -signal.SIGINT)


def check_dropped(script, store, history):
    """Ctrl-C drops the line and the form that are typed, and a word as `quit` ends."""
    one = Typed(script, store, history)
    one.until(b"> ")
    one.type(b'(SETF (GET \'A \'B) "a text\n', b"\r\n. ")
    one.type(b"that goes on\n", b"\r\n. ")
    one.type(b"and more", b"and more")
    time.sleep(1)
    told = one.type(CONTROL_C)
    check("a form that is dropped", (b"!" in told, b"dropped" in told), (False, False))
    check("what is in the store", b"\r\n8\r\n> " in one.type(b"(GET 'A 'B)\n"), True)
    one.type(b"(LIST 1", b"(LIST 1")
    time.sleep(1)
    check("a line that is dropped", one.type(CONTROL_C), b"\r\n> ")
    check("after it", b"\r\n(3)\r\n> " in one.type(b"(LIST 3)\n"), True)
    check("its end", one.end(b"quit\n"), 0)
    for word in (b"(exit)\n", b".quit\n"):
        other = Typed(script, store, history)
        other.until(b"> ")
        check(f"the end by {word}", other.end(word), 0)


def check_help(script, store, history):
    """Lines that ask for help are answered, and the store has nothing of them."""
    one = Typed(script, store, history)
    one.until(b"> ")
    for line, says in ((b"help GET", b"(GET s i [x])"), (b"(help 31)", b"31 UNKNOWN-OPERATOR"), (b"(describe 'get)", b"(GET s i [x])"), (b"help pazturrok::car", b"(CAR l)"),
                       (b"help unknown-operator", b"31 UNKNOWN-OPERATOR"), (b".help", b"help operators lists the operators"), (b"help seft", b"did you mean SETF?"),
                       (b"help operators", b"In each store:"), (b"help", b"help operators lists the operators"), (b"?", b"help operators lists the operators"),
                       (b"help frob", b"there is no operator and no number frob")):
        told = one.type(line + b"\n")
        check(f"{line}", (says in told, b"! 3" in told), (True, False))
    told = one.type(b"(LIST\n", b"\r\n. ") + one.type(b"'help)\n")
    check("a line within a form is none of them", b"(HELP)" in told, True)
    check("its end", one.end(), 0)


def check_names(script, store, history):
    """TAB completes operators and names that were typed, and is a character within a text; operators are found by a part of their name."""
    one = Typed(script, store, history)
    one.until(b"> ")
    one.type(b"(SETF (GET 'ORCHARD 'B) 5)\n")
    check("an operator that is completed", b"\r\n(B 5)\r\n> " in one.type(b"(symbol-pl\t 'ORCHARD)\n"), True)
    check("a name that is completed", b"\r\n(ORCHARD B)\r\n> " in one.type(b"(LIST 'orc\t 'B)\n"), True)
    check("a TAB within a text", b'\r\n("list\tORC\t")\r\n> ' in one.type(b'(LIST "list\tORC\t")\n'), True)
    check("one before a form", b"\r\n(3)\r\n> " in one.type(b"\t(LIST 3)\n"), True)
    for line, says in ((b'(apropos "plist")', b"\r\n(SYMBOL-PLIST s)\r\n"), (b"apropos frob", b"no operator with frob"), (b"(apropos 'frob)", b"show DIR --like '*FROB*'")):
        told = one.type(line + b"\n")
        check(f"{line}", (says in told, b"! 3" in told), (True, False))
    check("its end", one.end(), 0)


def check_others(script, store, history):
    """A paste, characters past ASCII, and sessions whose lines are left to the terminal."""
    one = Typed(script, store, history)
    one.until(b"> ")
    check("a paste", b"(1 2)\r\n" in one.type(b"\x1b[200~(LIST 1\n2)\n(LIST 3)\x1b[201~\n", b"(3)\r\n> "), True)
    words = b"long " * 2_400
    check("a long line", one.type(b'(LIST "' + words + b'" 7)\n').endswith(b'(\"' + words + b'\" 7)\r\n> '), True)
    full = b"full " * 817
    check("as long as a terminal takes", b"hands on" in one.type(b'(LIST "' + full + b'" )\n', b'full ")\r\n> '), False)
    check("one without a blank", b"Send the form from a file" in one.type(b'"' + b"x" * 5000 + b'"\n'), True)
    check("a character", b"! 2 INVALID-CHARACTER" in one.type('"Z\xfcrich"\n'.encode()), True)
    check("its end", one.end(), 0)
    for name, words, environment in (("without a file", (), {"PAZTURROK_HISTORY": ""}), ("a terminal that knows no cursor", (), {"TERM": "dumb"}), ("quiet", ("--quiet",), {})):
        left = Typed(script, store, history, *words, **environment)
        if name != "quiet":
            check(f"{name}: the welcome", b"rlwrap before the command" in left.until(b"> "), True)
        check(f"{name}: its end", left.end(b"(LIST 7)\n" + CONTROL_D), 0)
    wrong = Typed(script, store, history, "--bogus")
    check("words that are refused", wrong.end(b""), 2)


def check_all(script, room):
    """Checks all of it."""
    if not shutil.which("python3"):
        print("script: there is no python3: lines at a terminal were not tried")
        return
    store, history = os.path.join(room, "typed"), os.path.join(room, "lines that were typed")
    check_session(script, store, history)
    check_help(script, store, history)
    check_dropped(script, store, history)
    check_names(script, store, history)
    check_others(script, store, history)
