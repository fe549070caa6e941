"""What is done to the program from outside: its streams are closed, a second one is started on its folder, its files
may not grow, a half is full, it is killed at a random moment."""
import os
import random
import resource
import signal
import subprocess
import time

from lib.frames import message
from lib.places import PATIENCE
from lib.room import DEVICE, OUTPUT, Answer, without_cause
from lib.wanted import want

NEW_STORE = 154
HALF_LIMIT = 1_073_741_824


def form(number):
    return b"(SETF (GET 'A 'N) %d)\n" % number


def count_in(room):
    """The number that the store holds, by a session of its own."""
    got = room.run(["run"], b"(GET 'A 'N)\n")
    want(got.status == 0 and not got.err, "reopening:", got)
    return 0 if got.out == b"NIL\n" else int(got.out)


def filled(room, count):
    """A store in which so many forms were answered."""
    room.put(None)
    got = room.run(["run"], b"".join(form(number + 1) for number in range(count)))
    want(got == Answer(0, b"".join(b"%d\n" % (number + 1) for number in range(count)), b""), "the first session:", got)


def closed_streams(room):
    """Each of the three standard streams is closed or not. What is meant for a stream never gets into a file."""
    filled(room, 3)
    for streams in range(1, 8):
        before = room.files()
        closed = [number for number in range(3) if streams >> number & 1]
        feeds = 0 not in closed
        child = subprocess.Popen([room.program, "run", room.store], stdin=subprocess.PIPE if feeds else None,
                                 stdout=subprocess.PIPE,
                                 stderr=subprocess.PIPE, preexec_fn=lambda: [os.close(number) for number in closed])
        child.communicate(b"(GET 'A 'N)\n(FROB)\n" if feeds else None, timeout=PATIENCE)
        want(child.returncode >= 0, "with", closed, "closed it ended by signal", -child.returncode)
        # a form that is accepted and writes is logged; all else stays, but the gate that it opens
        for old, new in zip(before, room.files()):
            want(new[: max(len(old) - 1, 0)] == old[:-1], "with", closed, "closed a file was overwritten")
        want(count_in(room) == 3, "with", closed, "closed the world is lost")
    return 7


def reader_gone(room):
    """Nobody reads the answers any more. This is told as 68, and each form that was answered is there."""
    room.put(None)
    read, write = os.pipe()
    os.close(read)
    child = subprocess.Popen([room.program, "run", room.store], stdin=subprocess.PIPE, stdout=write,
                             stderr=subprocess.PIPE)
    os.close(write)
    _, faults = child.communicate(form(1) + form(2), timeout=PATIENCE)
    want((child.returncode, faults) == (3, OUTPUT + b"standard output: broken pipe\n"), "nobody reads:", child.returncode, faults)
    want(count_in(room) in (0, 1), "nobody reads: the world")
    return 1


def two_processes(room):
    """A second process on the folder is refused; the first one goes on, and nothing of it is lost."""
    room.put(None)
    first = subprocess.Popen([room.program, "run", room.store], stdin=subprocess.PIPE, stdout=subprocess.PIPE,
                             stderr=subprocess.PIPE)
    half, end = os.path.join(room.store, "half-a"), time.monotonic() + PATIENCE
    while not (os.path.exists(half) and os.path.getsize(half) == NEW_STORE) and time.monotonic() < end:
        time.sleep(0.01)
    for number in (1, 2):
        second = room.run(["run"], form(9))
        want(second == Answer(3, b"", DEVICE), "the second process:", second)
        first.stdin.write(form(number))
        first.stdin.flush()
    answers, faults = first.communicate(timeout=PATIENCE)
    want((first.returncode, answers, faults) == (0, b"1\n2\n", b""), "the first process:", first.returncode, answers,
         faults)
    want(count_in(room) == 2, "what the first process stored")
    return 2


def no_room(room):
    """The file may not grow any more, so that a write is short and the next one fails."""
    filled(room, 2)
    size = len(room.files()[0])

    def bound(more):
        signal.signal(signal.SIGXFSZ, signal.SIG_IGN)
        resource.setrlimit(resource.RLIMIT_FSIZE, (size + more, size + more))

    for more in (0, 1, 5, 20):
        done = subprocess.run([room.program, "run", room.store], input=form(9), capture_output=True, timeout=PATIENCE,
                              preexec_fn=lambda: bound(more))
        got = Answer(done.returncode, done.stdout, without_cause(done.stderr))
        want(got == Answer(3, b"", DEVICE), more, "bytes of room:", got)
        want(count_in(room) == 2, more, "bytes of room: the world before")
    return 4


def fill(half):
    """Fills a half with records up to its limit. Gives how many bytes are left."""
    left = HALF_LIMIT - os.path.getsize(half)
    with open(half, "rb+") as file:
        file.seek(-1, os.SEEK_END)
        while left >= 30:
            size = min(65_536, left - 20 if left < 65_542 + 30 else 65_536)
            file.write(b"\xa5\0" + size.to_bytes(4, "big") + b"(GET 'A" + b" " * (size - 10) + b"'N)")
            left -= 6 + size
        file.write(b"\0")
    return left


def full(room):
    """A half has no room for one more record. A snapshot makes room, and the form is accepted."""
    filled(room, 0)
    half = os.path.join(room.store, "half-a")
    left = fill(half)
    got = room.run(["run"], form(1))
    want(got == Answer(0, b"1\n", b""), "a form that does not fit:", got)
    want(os.path.getsize(half) + left == HALF_LIMIT, "the file stays")
    told = room.run(["verify"])
    want(told.out.splitlines()[0] == b"half B generation 2 records 1", "the other half is in use:", told)
    want(count_in(room) == 1, "reopened")
    return 1


def full_of_messages(room):
    """A half has no room for the records of messages, or for that of the first position. A snapshot makes room, and
    they are carried out once."""
    texts = [b"(SETF (GET 'A 'N) 1)", b"(INCF (GET 'A 'N))", b"(INCF (GET 'A 'N))"]
    sent = b"".join(message(number, text) for number, text in enumerate(texts, 1))
    for begun in (True, False):
        filled(room, 0)
        if begun:
            room.run(["run", "--messages"])
        fill(os.path.join(room.store, "half-a"))
        got = room.run(["run", "--messages"], sent)
        want(got == Answer(0, b"at 0\n1 1\n1\n2 1\n2\n3 1\n3\n", b""), "messages that do not fit:", got)
        told = room.run(["verify"])
        want(told.out.startswith(b"half B generation 2 records "), "the other half is in use:", told)
        again = room.run(["run", "--messages"], sent)
        want(again.out.startswith(b"at 3\n1 15\n! 50"), "the same messages again:", again)
        want(count_in(room) == 3, "reopened")
    return 2


def killed(room, times):
    """The program is killed at a random moment, while it takes snapshots too. Reopened, it has each answered form, and
    at most one more."""
    dice = random.Random(7)
    stored = between = 0
    with open(room.path("forms"), "w+b") as forms:
        for turn in range(times):
            if turn % 20 == 0:
                room.put(None)
                stored = 0
            forms.seek(0)
            forms.truncate()
            # what is answered stays in the pipe: 2,000 lines of at most 6 bytes
            forms.write(b"".join(form(stored + number + 1) for number in range(2000)))
            forms.seek(0)
            every = dice.choice(["1", "2", "7", "100", "1000000"])
            child = subprocess.Popen([room.program, "run", room.store, "--snapshot-every", every], stdin=forms,
                                     stdout=subprocess.PIPE,
                                     stderr=subprocess.DEVNULL)
            # each second kill comes after some answers, however slow the machine is
            seen = [child.stdout.readline() for _ in range(dice.randrange(1, 100))] if turn % 2 else []
            time.sleep(dice.uniform(0.0, 0.01 if seen else 0.15))
            child.kill()
            with child.stdout:
                lines = (b"".join(seen) + child.stdout.read()).split(b"\n")[:-1]
            child.wait(PATIENCE)
            want(lines == [b"%d" % (stored + number + 1) for number in range(len(lines))], "kill", turn, lines[-3:])
            answered, found = stored + len(lines), count_in(room)
            want(answered <= found <= answered + 1, "kill", turn, answered, "answered,", found, "found")
            between += 0 < len(lines) < 2000
            stored = found
    want(between > 0, "no kill came between two answers")
    return between


def run(room, kills, is_long):
    """So many kills, and what needs 3 GB of memory where that is asked for. Gives how many runs there were, and of
    what."""
    kinds = {"closed streams": closed_streams(room), "readers that are gone": reader_gone(room),
             "second processes": two_processes(room), "files that may not grow": no_room(room)}
    if is_long:
        kinds["full halves"] = full(room) + full_of_messages(room)
    kinds["kills between two answers"] = killed(room, kills)
    kinds["other kills"] = kills - kinds["kills between two answers"]
    return sum(kinds.values()), kinds
