"""A session at a terminal whose lines can be edited, and come back by the arrow up, in later sessions too.

usage: lines.py HISTORY PAGES PROGRAM WORD..

The program gets a terminal of its own, so it does there what it does at any terminal. What it writes is handed on byte by byte. A line that it asks
for is read with its prompt, kept in the file HISTORY, and handed over. Where a form begins, lines as `help`, `help GET` and `(help 31)` are answered
from the file PAGES, and so is `(apropos "SYM")`; the store gets nothing of them. Without that file they go to the program too. TAB completes names:
those of PAGES, and those in lines that were typed. Ctrl-C drops the line and the form that are typed, and `quit` ends. Where Python has no readline
the program is started as it is.
"""
import difflib
import os
import pty
import re
import select
import signal
import sys
import termios
import tty
from typing import Dict, List, Optional

try:
    import readline
except ImportError:
    os.execv(sys.argv[3], sys.argv[3:])

PROMPT, INNER_PROMPT = b"> ", b". "

MOST_LINES = 1000
"""So many lines are kept at least, and twice as many at most."""

RLWRAP = b" For editing lines: rlwrap before the command."
"""What the program says of a terminal, which is not so here."""

FULL, CUT = 4096, re.compile(rb"A terminal hands on 4,095 bytes .*\n.*\n")
"""What it says of a line of so many bytes, which another terminal would have cut."""

HELP = """(SETF (GET 'APPLE 'PRICE) 7) sets a property, (GET 'APPLE 'PRICE) gives it, (SYMBOL-PLIST 'APPLE) gives all of a symbol.
An answer that begins with ! is a refusal: help 31 tells of the number 31. help operators lists the operators, help GET tells of GET,
(apropos "SYM") finds operators by a part of their name. Beside this session the command with the word help has all commands.
The arrow up has the lines before, Ctrl-R finds one. TAB completes a name, if it is an operator or was typed before.
Ctrl-C drops what is typed. Ctrl-D at the beginning of a line ends, and so does quit. Each answer is in the store by then.
"""

QUESTION = re.compile(r"\s*\(?\s*(?:\?|(?:[:.]?help|describe)(?:\s+'?(\S+?))?)\s*\)?\s*", re.IGNORECASE)

APROPOS = re.compile(r"\s*\(?\s*:?apropos\s+['\":]*([^\s()\"]+)\"?\s*\)?\s*", re.IGNORECASE)

SYMBOLS = "Beside this session show DIR --like '*%s*' shows the symbols of the store that have it in their name.\n"
"""How symbols are found so, of which the pages have nothing."""

BETWEEN_NAMES = " \t\n()`,;"
"""What stands between names. A quote is none of it, as readline would add the other one to a name behind it."""

LEAVE = re.compile(r"\s*(?:\.?(?:quit|exit)|\(\s*(?:quit|exit)\s*\))\s*", re.IGNORECASE)

DROPPED = "\udcff"
"""A line with a byte that no form has: the program drops the form that is open, and begins anew with the next line."""

LONGEST = 4000
"""So many bytes without a blank or a parenthesis that closes are handed over at most: a terminal keeps 4,095 until it hands them on."""

TOO_LONG = b"More than 4,000 bytes without a blank cannot be typed. Send the form from a file: run DIR < FILE\n"

EDITED = (termios.VERASE, termios.VKILL, termios.VWERASE, termios.VREPRINT, termios.VLNEXT)
"""The characters by which a terminal edits a line itself."""

ENDS = ((termios.VEOL, b" "), (termios.VEOL2, b")"))
"""Where a terminal hands on a line that has no end yet."""


def pages_of(path: str) -> Dict[str, str]:
    """What the pages say of each word."""
    try:
        with open(path, encoding="utf-8", errors="replace") as file:
            parts = re.split(r"^@ (.*)\n", file.read(), flags=re.M)
    except OSError:
        return {}
    return dict(zip(parts[1::2], parts[2::2]))


class Names:
    """The names that TAB completes: operators and variables of the pages, and those in lines that were typed."""

    def __init__(self, pages: Dict[str, str]) -> None:
        self.operators = {name: text for name, text in pages.items() if name != "OPERATORS" and not text[:1].isdigit()}
        self.names = set(self.operators)
        self.before = ""
        self.found: List[str] = []
        readline.set_completer_delims(BETWEEN_NAMES)
        readline.set_completer(self.complete)
        readline.parse_and_bind("set completion-ignore-case on")
        readline.parse_and_bind("tab: complete")

    def add(self, line: str) -> None:
        """Takes the names of a line, as they were typed. One of two letters is typed sooner than it is completed."""
        self.names.update(word for word in re.split(f"[{BETWEEN_NAMES}'\"]", line) if len(word) > 2 and not word[0].isdigit())

    def complete(self, word: str, count: int) -> Optional[str]:
        """The names that begin so, one after the other. Within a text of Lisp, and where no name begins, a TAB is a character as others."""
        if count == 0:
            typed = self.before + readline.get_line_buffer()[: readline.get_endidx()]
            begin = word.lstrip("'")
            quote = word[: len(word) - len(begin)]
            # of `apple` and `APPLE` the one that begins as the word does
            names = sorted(self.names, key=lambda name: name.startswith(begin))
            found = {name.upper(): quote + name for name in names if name.upper().startswith(begin.upper())}
            is_text = typed.replace('\\"', "").count('"') % 2 == 1
            self.found = [word + "\t"] if is_text or not begin else sorted(found.values())
        return self.found[count] if count < len(self.found) else None

    def like(self, part: str) -> str:
        """The forms of the operators that have this in their name, a line each."""
        forms = dict.fromkeys(text.partition("\n")[0] for name, text in sorted(self.operators.items()) if part.upper() in name and text[0] == "(")
        none = f"there is no operator with {part} in its name; help operators lists the operators\n"
        return ("".join(form + "\n" for form in forms) or none) + SYMBOLS % part.upper()


class History:
    """The lines of this session and of those before it, in a file that nobody else may read."""

    def __init__(self, path: str, names: Names) -> None:
        self.path, self.names = path, names
        readline.set_auto_history(False)
        try:
            with open(path, encoding="utf-8", errors="surrogateescape") as file:
                lines = file.read().split("\n")[:-1]
        except OSError:
            return
        if len(lines) > 2 * MOST_LINES:
            self.write("".join(line + "\n" for line in lines[-MOST_LINES:]), os.O_TRUNC)
        for line in lines[-MOST_LINES:]:
            readline.add_history(line)
            names.add(line)

    def add(self, line: str) -> None:
        """Keeps a line at once, as the session may end in any way; but not the same line twice, one after the other."""
        self.names.add(line)
        last = readline.get_history_item(readline.get_current_history_length())
        if line.strip() and line != last:
            readline.add_history(line)
            self.write(line + "\n", os.O_APPEND)

    def write(self, text: str, how: int) -> None:
        """A session without a file that takes its lines goes on."""
        try:
            with open(os.open(self.path, os.O_WRONLY | os.O_CREAT | how, 0o600), "w", encoding="utf-8", errors="surrogateescape") as file:
                file.write(text)
        except OSError:
            pass


def terminal_for_lines() -> List[int]:
    """A terminal that hands over lines as they are, of any length, and shows nothing; Ctrl-D ends what is typed there."""
    master, slave = pty.openpty()
    tty.setraw(slave, termios.TCSANOW)
    mode = termios.tcgetattr(slave)
    mode[3] |= termios.ICANON | termios.IEXTEN
    for character in EDITED:
        mode[6][character] = b"\0"
    for character, byte in ENDS:
        mode[6][character] = byte
    termios.tcsetattr(slave, termios.TCSANOW, mode)
    os.set_blocking(master, False)
    return [master, slave]


def started(words: List[str], slave: int) -> int:
    """The process of the program, with this terminal."""
    process = os.fork()
    if process == 0:
        # a signal of the keyboard is for what edits the lines, and not for the program
        os.setsid()
        signal.signal(signal.SIGINT, signal.SIG_DFL)
        signal.signal(signal.SIGPIPE, signal.SIG_DFL)
        for stream in (0, 1, 2):
            os.dup2(slave, stream)
        os.closerange(3, 256)
        try:
            os.execv(words[0], words)
        finally:
            os._exit(127)
    os.close(slave)
    return process


class Session:
    """The program, of which what it writes is shown, and which gets the lines that are typed."""

    def __init__(self, master: int, history: History, pages: Dict[str, str]) -> None:
        self.master, self.history, self.pages = master, history, pages
        self.unsent: List[str] = []
        self.unwritten = b""
        self.is_greeted = self.is_dropping = self.is_full = False

    def serve(self) -> None:
        """Goes on until the program has ended."""
        held = b""
        for data in iter(self.read, b""):
            whole, mark, held = (held + data).rpartition(b"\n")
            self.write(whole + mark)
            if held in (PROMPT, INNER_PROMPT):
                self.is_dropping = False
                self.hand_over(held)
                held = b""
        self.write(held)

    def read(self) -> bytes:
        """What the program writes next; nothing once it has ended. Meanwhile it gets what is left of a line."""
        while True:
            readable, writable, _ = select.select([self.master], [self.master] if self.unwritten else [], [])
            try:
                if writable:
                    self.unwritten = self.unwritten[os.write(self.master, self.unwritten[:LONGEST]) :]
                if readable:
                    return os.read(self.master, 65536)
            except BlockingIOError:
                pass
            except OSError:
                return b""

    def write(self, text: bytes) -> None:
        if self.is_dropping:
            return
        if text and not self.is_greeted:
            self.is_greeted = True
            text = text.replace(RLWRAP, b"")
        if self.is_full:
            text = CUT.sub(b"", text)
        while text:
            text = text[os.write(1, text) :]

    def hand_over(self, prompt: bytes) -> None:
        """Hands over the next line, which is typed, or was pasted with the one before it."""
        if not self.unsent:
            line = self.typed(prompt)
            while line is not None and self.is_answered(prompt, line):
                line = self.typed(prompt)
            if line is None:
                self.unwritten = b"\x04"
                return
            self.is_dropping = line == DROPPED
            self.unsent = line.split("\n")
        self.unwritten = bytes_of(self.unsent.pop(0)) + b"\n"
        self.is_full = len(self.unwritten) == FULL

    def typed(self, prompt: bytes) -> Optional[str]:
        """A line as it is typed; None after Ctrl-D and where a form would begin after `quit`. After Ctrl-C it is DROPPED if a form is open."""
        names = self.history.names
        if prompt == PROMPT:
            names.before = ""
        while True:
            try:
                line = input(prompt.decode("ascii"))
                if max(map(len, re.split(rb"[ )\n]", bytes_of(line)))) <= LONGEST:
                    break
                self.write(TOO_LONG)
            except EOFError:
                self.write(b"\n")
                return None
            except KeyboardInterrupt:
                if prompt == PROMPT and not readline.get_line_buffer():
                    raise
                self.write(b"\n")
                if prompt == INNER_PROMPT:
                    return DROPPED
        if prompt == PROMPT and LEAVE.fullmatch(line):
            return None
        names.before += line + "\n"
        for part in line.split("\n"):
            self.history.add(part)
        return line

    def is_answered(self, prompt: bytes, line: str) -> bool:
        """Answers a line that asks for help with what the pages have of it."""
        if prompt != PROMPT or not self.pages:
            return False
        looked_for = APROPOS.fullmatch(line)
        if looked_for:
            self.write(self.history.names.like(looked_for[1]).encode("utf-8"))
            return True
        asked = QUESTION.fullmatch(line)
        if not asked:
            return False
        word = (asked[1] or "").upper().rpartition("::")[2]
        meant = "".join(f"; did you mean {near}?" for near in difflib.get_close_matches(word, self.pages, 1, 0.75))
        none = f"there is no operator and no number {asked[1]}{meant or ';'} help operators lists the operators\n"
        self.write((self.pages.get(word, none) if word else HELP).encode("utf-8"))
        return True


def bytes_of(line: str) -> bytes:
    """A line as it was typed."""
    return line.encode(sys.stdin.encoding, "surrogateescape")


def ended(process: int) -> int:
    """How the program has ended. One that was interrupted ends by that."""
    while True:
        try:
            return os.waitpid(process, 0)[1]
        except KeyboardInterrupt:
            os.kill(process, signal.SIGINT)


def main() -> int:
    history, pages, *words = sys.argv[1:]
    sys.stdin.reconfigure(errors="surrogateescape")
    told = pages_of(pages)
    kept = History(history, Names(told))
    master, slave = terminal_for_lines()
    process = started(words, slave)
    try:
        Session(master, kept, told).serve()
    except KeyboardInterrupt:
        os.kill(process, signal.SIGINT)
    status = ended(process)
    if os.WIFSIGNALED(status):
        signal.signal(os.WTERMSIG(status), signal.SIG_DFL)
        os.kill(os.getpid(), os.WTERMSIG(status))
    return os.WEXITSTATUS(status)


sys.exit(main())
