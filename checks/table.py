"""The checks over a built program, and how they are run: as many at once as there are processors, the longest first."""
import collections
import concurrent.futures
import os
import re
import shutil
import subprocess
import time

TOP = os.path.dirname(os.path.dirname(os.path.abspath(__file__)))
MOST_AT_ONCE, LAST_LINES = 4, 12
# A check that takes so many seconds hangs: it is ended, and named as any other one that fails.
MOST_SECONDS = 3600

# What stands in the words of a check for what was built: the program; the library for C, which is proved once more
# where a check builds it; and the folder of the crates with their tests.
PROGRAM, ENGINE, CRATES = "PROGRAM", "ENGINE", "CRATES"
BUILT = {
    PROGRAM: "crates/store_program/out/store_program",
    ENGINE: "crates/pazturrok_c/out/libpazturrok_c.a",
    CRATES: "crates",
}
TESTS = ("program_tests", "reader_tests")

# A check: what it is called; the words that run it; the commands that it wants, of those with a bar between them one;
# and how many seconds it takes. The longest ones begin first.
Check = collections.namedtuple("Check", "name words wants seconds")


def campaign(part, seconds):
    """Returns a part of the campaign as a check of its own."""
    words = f"checks/campaign --program {PROGRAM} --crates {CRATES} {part}"
    return Check(f"the campaign: {part}", words, "rt", seconds)


# What is looked at without a program.
TEXTS = [
    Check("the pages", "checks/docs", "", 3),
    Check("the wrong bodies", "checks/wrong-bodies/run --apply", "rt", 2),
    Check("the house", "checks/house", "", 2),
    Check("the gate's own scripts", "checks/selftest", "rt", 5),
]

CHECKS = [
    Check("the sessions", f"checks/sessions/run --program {PROGRAM}", "", 10),
    Check("the pieces", f"checks/pieces --program {PROGRAM}", "", 45),
    Check("the script", f"checks/script {PROGRAM}", "", 25),
    Check("the terminal", f"checks/terminal/run {PROGRAM}", "", 7),
    Check("the exports", f"checks/export/run {PROGRAM}", "", 15),
    Check("the replays", f"checks/replays {PROGRAM}", "", 15),
    Check("the readings", f"checks/readings/run {PROGRAM}", "", 30),
    Check("the replays over version 3", f"checks/replays {PROGRAM} --version 3 --sessions 100 --seed 301", "", 5),
    Check("the altered bytes", f"checks/altered {PROGRAM}", "", 15),
    Check("the torn stores", f"checks/torn {PROGRAM} --images 600", "", 15),
    Check("the messages", f"checks/messages/run {PROGRAM}", "", 8),
    Check("the clients with a name", f"checks/client_table/run {PROGRAM}", "", 30),
    Check("the groups", f"checks/groups --program {PROGRAM} --sessions --kills 25", "", 35),
    Check("the calls", f"checks/calls/run --engine {ENGINE}", "rt", 15),
    Check("the looks", f"checks/looks/run {PROGRAM} --looks 300", "", 12),
    Check("the client for Common Lisp", f"checks/lisp/run {PROGRAM}", "sbcl|ecl", 80),
    Check("the client for Python", f"checks/python/run {PROGRAM}", "", 30),
    Check("the nodes", f"checks/cluster/run {PROGRAM} --short", "etcd", 240),
    Check("the library", f"checks/embedded/run --short --engine {ENGINE} --program {PROGRAM}", "rt cc make", 100),
    Check("the costs", f"checks/costs --counted --program {PROGRAM}", "valgrind", 160),
    campaign("growth", 120),
    campaign("scripts", 40),
    campaign("tests", 3),
    campaign("device", 50),
    campaign("power", 15),
    campaign("host", 3),
    campaign("looks", 6),
    campaign("folders", 2),
]

# What is counted of the proved program alone: compiled without proof it has other figures.
PROVED = [
    Check("the instructions", f"checks/instructions --program {PROGRAM} --engine {ENGINE}", "valgrind cc make rt", 55),
]

VERDICT = re.compile(r"(\d+) passed, (\d+) failed")


def lacking(check, built=None):
    """Returns what a check wants and does not find: commands, and files of what was built where that may be missing."""
    missing = [it.split("|") for it in check.wants.split() if not any(map(shutil.which, it.split("|")))]
    commands = [it for either in missing for it in either]
    if not built:
        return commands
    files = [built[it] for it in check.words.split() if it in (PROGRAM, ENGINE)]
    if check.words.endswith(f"{CRATES} tests"):
        files += [os.path.join(built[CRATES], it, "out", f"{it}_tests") for it in TESTS]
    return commands + [it for it in files if not os.path.isfile(os.path.join(TOP, it))]


def verdict_of(line):
    """Returns how much passed and failed, if the line tells it."""
    told = VERDICT.fullmatch(line.strip())
    return told and (int(told[1]), int(told[2]))


def judged(status, last):
    """Returns how much of a check passed and failed, by its status and its last line, and what is wrong with these."""
    passed, failed = verdict_of(last) or (0, 0)
    if failed or (status == 0 and passed):
        return passed, failed, []
    return passed, 1, [f"it ended with status {status}, and its last line does not tell that all passed"]


class Run:
    """Checks that are run, and what came of them. `who` begins each line that is said of them."""

    def __init__(self, who, built=None):
        self.who, self.built = who, {**BUILT, **(built or {})}
        self.passed = self.failed = self.ended = 0
        self.notes = []

    def say(self, text):
        print(f"{self.who}: {text}", flush=True)

    def leave_out(self, checks, is_built):
        """Returns those that can be run here. Of the others a line is kept."""
        missing = {it: lacking(it, None if is_built else self.built) for it in checks}
        for check, names in missing.items():
            if names:
                self.notes.append(f"{self.who}: {check.name} could not run: there is no {' and no '.join(names)} here")
        return [it for it in checks if not missing[it]]

    def command(self, check):
        first, *others = [self.built.get(it, it) for it in check.words.split()]
        return [os.path.join(TOP, first), *others]

    def count(self, check, status, lines, more=()):
        """Counts what a check told by its last line, and keeps the last lines of one that failed."""
        last = next((it for it in reversed(lines) if it.strip()), "")
        passed, failed, why = judged(status, last)
        self.passed, self.failed, self.ended = self.passed + passed, self.failed + failed, self.ended + 1
        for line in why:
            self.say(f"{check.name}: {line}")
        if failed:
            said = [it for it in lines if it.strip() and not verdict_of(it)][-LAST_LINES:]
            self.notes.append(f"{self.who}: {check.name} FAILED; its last lines:")
            self.notes += [f"    {it}" for it in [*said, *more[-LAST_LINES:], *why]]
        return passed, failed

    def stream(self, check):
        """Runs a check whose lines are shown as they come, and returns how much failed."""
        self.say(check.name)
        lines, how = [], {"cwd": TOP, "stdout": subprocess.PIPE, "text": True, "errors": "replace"}
        with subprocess.Popen(self.command(check), **how) as running:
            for line in running.stdout:
                # (such a line alone would speak of all checks)
                print(f"{self.who}: {check.name}: {line}" if verdict_of(line) else line, end="", flush=True)
                lines = [*lines[-LAST_LINES:], line.rstrip("\n")]
        return self.count(check, running.returncode, lines)[1]

    def whole(self, check):
        """Runs a check, and returns it, how it ended, and in how many seconds."""
        began = time.monotonic()
        how = {"cwd": TOP, "stdin": subprocess.DEVNULL, "capture_output": True, "text": True, "errors": "replace"}
        try:
            ended = subprocess.run(self.command(check), check=False, timeout=MOST_SECONDS, **how)
        except OSError as error:
            ended = subprocess.CompletedProcess(check.words, 127, "", f"it does not start: {error}\n")
        except subprocess.TimeoutExpired as error:
            # (what it has said by then comes as bytes)
            said = [(it or b"").decode(errors="replace") for it in (error.stdout, error.stderr)]
            ended = subprocess.CompletedProcess(check.words, 124, said[0], f"{said[1]}\nit was ended after {MOST_SECONDS} s\n")
        return check, ended, time.monotonic() - began

    def side_by_side(self, checks):
        """Runs checks, as many at once as there are processors, and shows the lines of each when it ends."""
        at_once = min(MOST_AT_ONCE, len(os.sched_getaffinity(0)))
        self.ended = 0
        self.say(f"{len(checks)} checks, {at_once} at once")
        with concurrent.futures.ThreadPoolExecutor(at_once) as pool:
            running = [pool.submit(self.whole, it) for it in sorted(checks, key=lambda it: -it.seconds)]
            try:
                for it in concurrent.futures.as_completed(running):
                    self.show(*it.result(), len(checks))
            except BaseException:
                pool.shutdown(wait=False, cancel_futures=True)
                raise

    def show(self, check, ended, seconds, number):
        lines, more = ended.stdout.splitlines(), ended.stderr.splitlines()
        self.say(check.name)
        print(*[it for it in lines if not verdict_of(it)], *more, sep="\n")
        passed, failed = self.count(check, ended.returncode, lines, more)
        self.say(f"{check.name}: {passed} passed, {failed} failed in {seconds:.0f} s, {self.ended} of {number} checks")

    def end(self):
        """Says what was left out and what failed, and returns the status."""
        print(*self.notes, f"{self.passed} passed, {self.failed} failed", sep="\n", flush=True)
        return 1 if self.failed or not self.passed else 0
