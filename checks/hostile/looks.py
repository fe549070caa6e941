"""Looks into a store at bad moments: a session writes between two reads of a look; a backup is stopped, or finds no
room; the files may not be written."""
import os
import re
import resource
import shutil
import signal
import subprocess

from hostile.store import library
from lib.places import PATIENCE
from lib.room import DEVICE, Answer
from lib.wanted import want

# How the sessions are started that write: a form of the second and the third is followed by a snapshot, or each second
# one is.
SESSIONS = [[], ["--group"], ["--snapshot-every", "1"], ["--snapshot-every", "2"]]
LOOKS = ["show", "dump", "export", "backup"]
BUSY = rb"(cannot read %s/half-[ab]|%s): the store takes snapshots faster than they can be read\n"
NOBODY = 65_534


class Writer:
    """A session that sets a property to 1, 2 and so on, and counts."""

    def __init__(self, room, words):
        self.session = subprocess.Popen([room.program, "run", room.store, *words], stdin=subprocess.PIPE,
                                        stdout=subprocess.PIPE)
        self.number = 0

    def write(self, forms):
        for _ in range(forms):
            self.number += 1
            self.session.stdin.write(b"(SETF (GET 'A 'N) %d)\n" % self.number)
            self.session.stdin.flush()
            want(self.session.stdout.readline() == b"%d\n" % self.number, "the session answers")

    def end(self):
        self.session.communicate()


def looked(room, stops, words, act):
    """What a look tells that is stopped before each of its reads, and how many there were. Before read n `act(n)` is
    done."""
    child = subprocess.Popen([room.program, *words], stdin=subprocess.DEVNULL, stdout=subprocess.PIPE,
                             stderr=subprocess.PIPE,
                             env={**os.environ, "LD_PRELOAD": stops, "STOPS": "1"})
    reads = 0
    while True:
        _, status = os.waitpid(child.pid, os.WUNTRACED)
        if not os.WIFSTOPPED(status):
            child.returncode = os.waitstatus_to_exitcode(status)
            break
        act(reads)
        reads += 1
        os.kill(child.pid, signal.SIGCONT)
    return Answer(child.returncode, child.stdout.read(), child.stderr.read()), reads


# The line of a look that has the number.
NUMBER = {"show": rb"^A N (\d+)$", "dump": rb"^\(\(A N (\d+)\)\)$", "export": rb"^\(SETF \(GET '.*'(\d+)\)$"}


def call(room, *words, **how):
    done = subprocess.run([room.program, *words], stdin=subprocess.DEVNULL, capture_output=True, timeout=PATIENCE,
                          **how)
    return Answer(done.returncode, done.stdout, done.stderr)


def words_of(room, kind):
    """The words of a look, and where a backup goes to."""
    copy = room.path("copy")
    return {"show": ["show", room.store],
            "backup": ["backup", room.store, copy]}.get(kind, [kind, room.store, "--existing"]), copy


def number_in(room, kind, got, *what):
    """The number in the world that a look tells."""
    want((got.status, got.err) == (0, b""), kind, *what, "ended with", got)
    copy = room.path("copy")
    if kind == "backup":
        got = call(room, "show", copy)
        shutil.rmtree(copy)
    found = re.findall(NUMBER["show" if kind == "backup" else kind], got.out, re.M)
    want(len(found) < 2, kind, *what, "tells", got)
    return int(found[0]) if found else 0


def seen_between(room, stops, kind, options, forms, moment):
    """A look between two of whose reads so many forms are answered: before the read of this number, or, of `None`,
    before each of the first 40. It tells a world that the store had meanwhile. Gives how many reads there were."""
    room.put(None)
    writer = Writer(room, options)
    writer.write(3)
    before = writer.number
    got, reads = looked(room, stops, words_of(room, kind)[0],
                        lambda read: writer.write(forms) if read == moment or moment is None and read < 40 else None)
    number = number_in(room, kind, got, options, forms, "before read", moment)
    want(before <= number <= writer.number, kind, options, "shows", number, "of", before, "to", writer.number)
    writer.end()
    return reads


def between(room, stops):
    """The session writes before each of the reads in turn, and before all of them."""
    runs = 0
    for kind in LOOKS:
        for options in SESSIONS:
            for forms in (1, 2, 3):
                reads = seen_between(room, stops, kind, options, forms, None)
                for moment in range(min(reads, 12)):
                    seen_between(room, stops, kind, options, forms, moment)
                runs += 1 + min(reads, 12)
    return runs


def never_had(room, stops):
    """Where a half is begun anew within each try, that is told."""
    room.put(None)
    writer = Writer(room, ["--snapshot-every", "1"])
    # (the store is there once a form is answered)
    writer.write(1)
    got, reads = looked(room, stops, ["show", room.store], lambda read: writer.write(2))
    store = re.escape(os.fsencode(room.store))
    is_told = got.err.startswith(DEVICE) and re.fullmatch(BUSY % (store, store), got.err[len(DEVICE):])
    want((got.status, got.out) == (3, b"") and is_told, "snapshots without an end:", got, reads)
    writer.end()
    return 1


def backups(room):
    """A backup that finds no room tells why, and leaves nothing; one that was killed leaves a folder, which the next
    one names."""
    room.put(None)
    copy, partial = room.path("copy"), room.path("copy.partial")
    call(room, "run", room.store)
    for most, wanted in ((100, DEVICE + b"cannot write half-a: File too large (os error 27)\n"), (1000, b"")):
        got = call(room, "backup", room.store, copy,
                   preexec_fn=lambda: (signal.signal(signal.SIGXFSZ, signal.SIG_IGN),
                                       resource.setrlimit(resource.RLIMIT_FSIZE, (most, most))))
        want(got == Answer(3 if wanted else 0, b"", wanted), "a backup in files of", most, "bytes:", got)
        want(os.path.exists(copy) == (not wanted) and not os.path.exists(partial), "a backup in files of", most,
             "bytes leaves something")
    shutil.rmtree(copy)
    os.mkdir(partial)
    got = call(room, "backup", room.store, copy)
    told = b"error: %s is there already: a backup to this place was stopped, or is under way; if none is, take it away with rm -r\n" % partial.encode()
    want(got == Answer(2, b"", told), "a folder of a backup that was stopped:", got)
    want(os.listdir(partial) == [] and not os.path.exists(copy), "it was touched")
    os.rmdir(partial)
    return 3


def without_rights(room):
    """Who may only read the files can look, and not write."""
    room.put(None)
    call(room, "run", room.store)

    def nobody():
        if os.getuid() == 0:
            os.setgid(NOBODY)
            os.setuid(NOBODY)

    program, runs = room.program_for(nobody), 0
    os.chmod(room.store, 0o555)
    for half in ("half-a", "half-b"):
        os.chmod(os.path.join(room.store, half), 0o444)
    for words in (["show"], ["info"], ["log"], ["dump", "--existing"], ["verify", "--existing"],
                  ["export", "--existing"], ["dump", "--at", "0"]):
        done = subprocess.run([program, words[0], room.store, *words[1:]], capture_output=True, preexec_fn=nobody)
        want((done.returncode, done.stderr) == (0, b""), words, "without the right to write:", done)
        runs += 1
    done = subprocess.run([program, "verify", room.store], capture_output=True, preexec_fn=nobody)
    want(done.returncode == 3, "verify without --existing, without the right to write:", done)
    os.chmod(room.store, 0o755)
    return runs + 1


# Mounts a file system of its own, puts a store into it, and calls the program over that once nothing may be written
# there; and the mounts alone.
MOUNTS = """mount -t tmpfs none "$1" && mount -o remount,ro "$1\""""
READ_ONLY = """mount -t tmpfs none "$1" && cp -r "$2" "$1/store" && mount -o remount,ro "$1" && cd "$1" && shift 2 && exec "$@\""""


def mounted_read_only(room):
    """On a file system that is mounted to be read alone each look tells what it tells elsewhere, and what writes is 60.
    It wants a namespace of its own, and to mount in it, which some systems allow to nobody."""
    place = room.path("mounted")
    os.mkdir(place)
    if shutil.which("unshare") is None or subprocess.run(["unshare", "-rm", "sh", "-c", MOUNTS, "sh", place],
                                                         capture_output=True).returncode:
        os.rmdir(place)
        return 0
    room.put(None)
    subprocess.run([room.program, "run", room.store], input=b"(SETF (GET 'A 'N) 1)\n", capture_output=True)

    def there(*words):
        call = ["unshare", "-rm", "sh", "-c", READ_ONLY, "sh", place, room.store, os.path.abspath(room.program),
                words[0], "store", *words[1:]]
        done = subprocess.run(call, stdin=subprocess.DEVNULL, capture_output=True, timeout=PATIENCE)
        return Answer(done.returncode, done.stdout, done.stderr)

    looks = (["show"], ["log"], ["dump", "--existing"], ["verify", "--existing"], ["export", "--existing"],
             ["dump", "--at", "1"])
    for words in looks:
        want(there(*words) == call(room, words[0], room.store, *words[1:]), words,
             "on a file system that is read alone:", there(*words))
    opened = b"cannot open store/half-a: "
    writes = ((["run", "--existing"], opened), (["snapshot"], opened), (["dump"], opened), (["backup", "copy"], b""))
    for words, call_of_system in writes:
        told = DEVICE + call_of_system + b"Read-only file system (os error 30)\n"
        want(there(*words) == Answer(3, b"", told), words, "there:", there(*words))
    os.rmdir(place)
    return len(looks) + len(writes)


def run(room):
    stops = library("stops", room)
    counts = {"between reads": between(room, stops), "without an end": never_had(room, stops), "backups": backups(room),
              "without rights": without_rights(room),
              "read-only": mounted_read_only(room)}
    return sum(counts.values()), ", ".join(f"{count} {kind}" for kind, count in counts.items())
