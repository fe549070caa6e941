"""Looks into a store while a session writes to it as fast as it can, with and without groups, and with snapshots.

Form n sets the property of key n modulo KEYS to n. So what is shown tells the forms that the world holds: the greatest number n that
is there, and each other key has the greatest number up to n that is its own. Each look has to show such a world, of a prefix that
holds every form that was answered before the look began, and none that was not sent before it ended. What looks tell
of a store at rest comes first (told.py).
"""
import argparse
import os
import random
import re
import shutil
import subprocess
import sys
import tempfile
import threading

sys.dont_write_bytecode = True

import told

KEYS = 40
# only a program that hangs is waited for so many seconds
PATIENCE = 600
# how a session is started: its words, how long the texts are that make the files long, and how many forms it is sent at most
SESSIONS = [
    (["--snapshot-every", "1"], 0, 1_000_000),
    (["--snapshot-every", "7"], 0, 1_000_000),
    (["--snapshot-every", "50", "--group"], 100, 1_000_000),
    (["--group"], 0, 20_000),
    ([], 20_000, 300),
    (["--snapshot-every", "3"], 2_000, 1_000_000),
]


class Deviation(Exception):
    pass


class Writer(threading.Thread):
    """A session that is sent forms until it is stopped. `sent` and `answered` count forms."""

    def __init__(self, program, folder, first, words, size, most):
        super().__init__()
        self.session = subprocess.Popen([program, "run", folder, *words], stdin=subprocess.PIPE, stdout=subprocess.PIPE)
        self.sent = self.answered = first
        self.text = "x" * size
        self.last = first + most
        self.ending = False

    def run(self):
        reader = threading.Thread(target=self.read)
        reader.start()
        try:
            while not self.ending:
                if self.sent == self.last:
                    self.session.stdin.flush()
                    threading.Event().wait(0.01)
                    continue
                number = self.sent + 1
                # counted before it is written, so that `sent` is never behind what the program has read
                self.sent = number
                self.session.stdin.write(f"(PROGN (SETF (GET 'K{number % KEYS} 'V) {number}) (SETF (GET 'FILL 'V) \"{self.text}\") {number})\n".encode())
                if number % 16 == 0:
                    self.session.stdin.flush()
                while self.sent - self.answered > 400 and not self.ending:
                    self.session.stdin.flush()
                    threading.Event().wait(0.0005)
        except OSError:
            pass
        finally:
            try:
                self.session.stdin.close()
            except OSError:
                pass
            reader.join()
            self.session.wait()

    def read(self):
        for line in self.session.stdout:
            if not line.startswith(b"! "):
                self.answered = int(line)

    def stop(self, kill):
        self.ending = True
        if kill:
            self.session.kill()
        self.join()


def call(program, *words):
    done = subprocess.run([program, *words], stdin=subprocess.DEVNULL, stdout=subprocess.PIPE, stderr=subprocess.PIPE, timeout=PATIENCE)
    return done.returncode, done.stdout.decode(), done.stderr.decode()


def number_shown(values, before, after):
    """The number of forms in the world that has these values by key; a deviation if it is none."""
    last = max(values.values(), default=0)
    for key in range(KEYS):
        wanted = last - (last - key) % KEYS
        if values.get(key, 0) != max(wanted, 0):
            raise Deviation(f"key {key} has {values.get(key, 0)} in a world of {last} forms")
    if not before <= last <= after:
        raise Deviation(f"{last} forms are shown: {before} were answered before, {after} sent after")
    return last


def values_in(text):
    return {int(key): int(value) for key, value in re.findall(r"^K(\d+) V (\d+)$", text, re.M)}


def look(program, writer, folder, room, kind):
    before = writer.answered
    if kind == "show":
        status, output, faults = call(program, "show", folder, "--like", "k*")
        values = values_in(output)
    elif kind in ("forms", "export"):
        words = ["show", folder, "--forms"] if kind == "forms" else ["export", folder, "--existing"]
        status, output, faults = call(program, *words)
        values = {int(key): int(value) for key, value in re.findall(r"^\(SETF \(GET 'K(\d+) 'V\) '(\d+)\)$", output, re.M)}
    elif kind == "backup":
        copy = os.path.join(room, "backup")
        status, output, faults = call(program, "backup", folder, copy)
        if status == 0:
            status, output, faults = call(program, "show", copy)
            shutil.rmtree(copy)
        values = values_in(output)
    elif kind in ("info", "verify", "log"):
        words = [folder, "--existing"] if kind == "verify" else [folder]
        status, output, faults = call(program, kind, *words)
        if status != 0:
            raise Deviation(f"{kind} ended with status {status}: {faults}")
        return
    else:
        raise ValueError(kind)
    after = writer.sent
    if status != 0 or faults:
        raise Deviation(f"{kind} ended with status {status}: {faults}")
    number_shown(values, before, after)


KINDS = ["show"] * 12 + ["forms", "export", "export", "backup", "info", "verify", "log"]


def trial(program, room, looks, chance):
    """As many looks into one store, over sessions in a row; each third one is killed."""
    folder = os.path.join(room, "store")
    status, _, faults = call(program, "run", folder)
    if status != 0:
        raise Deviation(f"no store was made: {faults}")
    done = sessions = 0
    first = 0
    while done < looks:
        writer = Writer(program, folder, first, *SESSIONS[sessions % len(SESSIONS)])
        writer.start()
        try:
            for _ in range(min(chance.randint(40, 120), looks - done)):
                look(program, writer, folder, room, chance.choice(KINDS))
                done += 1
        finally:
            writer.stop(kill=sessions % 3 == 2)
        # what is in the store now is where the next session goes on
        status, output, faults = call(program, "show", folder)
        first = number_shown(values_in(output), writer.answered, writer.sent)
        sessions += 1
    return sessions


def main():
    words = argparse.ArgumentParser(description=__doc__.splitlines()[0])
    words.add_argument("program")
    words.add_argument("--looks", type=int, default=1000)
    words.add_argument("--room", help="where the store is made; in memory without it")
    words.add_argument("--seed", type=int, default=1)
    asked = words.parse_args()
    with tempfile.TemporaryDirectory(prefix="looks-") as folder:
        passed, failures = told.check_all(os.path.abspath(asked.program), folder)
    for failure in failures:
        print(failure)
    room = tempfile.mkdtemp(prefix="looks-", dir=asked.room or ("/dev/shm" if os.access("/dev/shm", os.W_OK | os.X_OK) else None))
    try:
        sessions = trial(os.path.abspath(asked.program), room, asked.looks, random.Random(asked.seed))
    except Deviation as deviation:
        print(f"looks: seed {asked.seed}: {deviation}\n{passed} passed, {len(failures) + 1} failed")
        return 1
    finally:
        shutil.rmtree(room, ignore_errors=True)
    print(f"looks: {asked.looks} looks into {sessions} sessions\n{passed + 1} passed, {len(failures)} failed")
    return 1 if failures else 0


if __name__ == "__main__":
    sys.exit(main())
