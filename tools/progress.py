"""How far a compilation is: the time that has gone, the step, and what it had of a processor."""
import collections
import os
import sys
import threading
import time
from typing import Callable, Deque, Tuple


def say(text: str) -> None:
    print(f"pazturrok: {text}", file=sys.stderr, flush=True)


def clock(seconds: float) -> str:
    """A time in minutes and seconds, as 0:50."""
    return f"{int(seconds) // 60}:{int(seconds) % 60:02}"


class Course:
    """How much of its work a compilation has done: the seconds of a processor that it had, beside those that it is known to take.

    Of the time that is left nothing is told: it hangs on what else the machine does, which nobody knows beforehand. What is told of the whole never
    changes, and what was had never falls.
    """

    # Under so many seconds of a processor nothing is told, as their pace may be that of a beginning.
    LEAST = 30.0
    # The share of a processor is that of the last so many looks.
    WINDOW = 60
    # What a share is called, each from so much on.
    SHARES = ((0.87, "a whole one"), (0.71, "three quarters of one"), (0.58, "two thirds of one"), (0.42, "half of one"), (0.29, "a third of one"),
              (0.22, "a quarter of one"), (0.15, "a fifth of one"), (0.06, "a tenth of one"), (0.0, "next to nothing of one"))

    def __init__(self, whole: float) -> None:
        self.whole, self.used = whole, 0.0
        self.seen: Deque[Tuple[float, float]] = collections.deque(maxlen=self.WINDOW)

    def look(self, now: float, used: float) -> None:
        """Takes down at a time how many seconds of a processor went so far."""
        self.used = max(self.used, used)
        self.seen.append((now, self.used))

    def share(self) -> str:
        """How much of a processor it gets."""
        (began, at_first), (now, at_last) = self.seen[0], self.seen[-1]
        pace = (at_last - at_first) / max(now - began, 0.1)
        return next(name for least, name in self.SHARES if pace >= least)

    def told(self) -> str:
        """How far it is; nothing before that means something."""
        if self.used < self.LEAST or len(self.seen) < 2:
            return ""
        of_whole = f"of about {clock(self.whole)} minutes" if self.used <= self.whole else f"minutes, and not the usual {clock(self.whole)},"
        return f"has had {clock(self.used)} {of_whole} of a processor, and gets {self.share()}"


class Progress:
    """Tells how far it is: at a terminal on one line, else now and then."""

    # What each step does.
    STEPS = ("reading the sources", "cleaning the module", "compiling the module")
    # So many seconds of a processor all of them take: 165 of a machine that does nothing else, and more beside other work.
    WHOLE = 180.0
    QUIET = 20.0

    def __init__(self, what: str, children: Callable[[], float]) -> None:
        """Of what; `children` tells how many seconds of a processor went into what runs now."""
        self.what, self.children = what, children
        self.step, self.began = 0, time.monotonic()
        self.course = Course(self.WHOLE)
        self.done = threading.Event()
        self.is_terminal = sys.stderr.isatty()
        self.teller = threading.Thread(target=self.tell, daemon=True)

    def __enter__(self) -> "Progress":
        say(f"compiling {self.what} without proof, once: two to four minutes where the machine does nothing else, longer beside other work")
        self.teller.start()
        return self

    def __exit__(self, *_: object) -> None:
        self.done.set()
        self.teller.join()

    def look(self) -> None:
        """Takes down how many seconds of a processor went so far."""
        self.course.look(time.monotonic(), sum(os.times()[:4]) + self.children())

    def line(self) -> str:
        told = self.course.told()
        step = f"step {self.step + 1} of {len(self.STEPS)}, {self.STEPS[self.step]}"
        return f"{clock(time.monotonic() - self.began)} gone, {step}{told and '; ' + told}"

    def tell(self) -> None:
        last = time.monotonic()
        while not self.done.wait(1.0):
            self.look()
            if self.is_terminal:
                sys.stderr.write(f"\rpazturrok: {self.line()} \033[K")
                sys.stderr.flush()
            elif time.monotonic() - last >= self.QUIET:
                last = time.monotonic()
                say(self.line())
        if self.is_terminal:
            sys.stderr.write("\r\033[K")
