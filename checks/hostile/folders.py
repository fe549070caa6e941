"""Odd folders: what is told of them, and that the store is as it was. Devices, other users and a full file system as
root alone."""
import ctypes
import os
import shutil
import socket
import stat
import subprocess

from lib.places import PATIENCE, bytes_of
from lib.room import DEVICE, Answer, without_cause
from lib.wanted import want

SET = b"(SETF (GET 'A 'B) 8)\n(GET 'A 'B)\n"
GET = b"(GET 'A 'B)\n"
SERVED = Answer(0, b"8\n8\n", b"")
FAULT = Answer(3, b"", DEVICE)
DAMAGED = Answer(3, b"", b"! 62 DAMAGED\n")
NOBODY = 65_534
# An open half of a later generation: version 1, generation 9, and the length of its text.
LATER = b"\xa5\0\1" + (9).to_bytes(8, "big")
# A file that is longer than what it holds, and one that is longer than a half may be.
LONG, TOO_LONG = 1 << 26, 1 << 40


class Folder:
    """A store in which the property is 7."""

    def __init__(self, room, name="store"):
        self.room, self.path = room, room.path(name)
        self.a, self.b = (os.path.join(self.path, half) for half in ("half-a", "half-b"))

    def anew(self):
        if os.path.islink(self.path):
            os.unlink(self.path)
        shutil.rmtree(self.path, ignore_errors=True)
        served = self.run(text=b"(SETF (GET 'A 'B) 7)\n")
        want(served == Answer(0, b"7\n", b""), "a new store:", served)

    def run(self, path=None, options=(), text=SET, program=None, **more):
        words = [program or self.room.program, "run", path or self.path, *options]
        done = subprocess.run(words, input=text, capture_output=True, timeout=PATIENCE, **more)
        self.told = done.stderr
        return Answer(done.returncode, done.stdout, without_cause(done.stderr))

    def with_half(self, half, make, options):
        """What is told of a store where this stands in place of a half, which is put back after it and was not
        touched."""
        self.anew()
        aside = half + "-aside"
        os.rename(half, aside)
        held = bytes_of(aside)
        make(half)
        got = self.run(options=options)
        if os.path.isdir(half) and not os.path.islink(half):
            os.rmdir(half)
        elif os.path.lexists(half):
            os.unlink(half)
        want(bytes_of(aside) == held, half, "was written")
        os.rename(aside, half)
        return got


def a_socket(path):
    made = socket.socket(socket.AF_UNIX)
    made.bind(os.path.relpath(path))
    made.close()


def other_files(folder):
    """What stands in place of a half, and what is told then, where files may be made and where they may not. Each is
    refused, and nothing is written."""
    linked, no_file = b": half-a or half-b is a link, or has a second name\n", b": half-a or half-b is no regular file\n"
    kinds = [
        ("a folder", os.mkdir, no_file),
        ("a pipe", os.mkfifo, no_file),
        ("a socket", a_socket, None),
        ("a link to /dev/full", lambda path: os.symlink("/dev/full", path), linked),
        ("a link to /dev/zero", lambda path: os.symlink("/dev/zero", path), linked),
        ("a link to itself", lambda path: os.symlink(os.path.basename(path), path), linked),
        ("a link to the half", lambda path: os.symlink(path + "-aside", path), linked),
        ("the half by another name", lambda path: os.link(path + "-aside", path), linked),
        ("a link into a folder that is missing", lambda path: os.symlink("nowhere/x", path), linked),
        ("a link to no file", lambda path: os.symlink("missing", path), linked),
    ]
    if os.geteuid() == 0:
        kinds.append(("a device", lambda path: os.mknod(path, stat.S_IFCHR | 0o666, os.makedev(1, 3)), no_file))
    for half, other in ((folder.a, folder.b), (folder.b, folder.a)):
        both = [("a link to the other half", lambda path: os.symlink(os.path.basename(other), path), linked),
                ("the other half by another name", lambda path: os.link(other, path), linked)]
        for name, make, cause in kinds + both:
            for options in (["--snapshot-every", "1"], ["--existing", "--snapshot-every", "1"]):
                got = folder.with_half(half, make, options)
                want(cause is None or folder.told == DEVICE + os.fsencode(folder.path) + cause, os.path.basename(half), "is", name, options,
                     folder.told)
                yield f"{os.path.basename(half)} is {name}: {options}", got, FAULT, b"7\n"


def owners(folder):
    """Files are made for their owner alone; who may open them is not changed."""
    folder.anew()
    for half in (folder.a, folder.b):
        want(stat.S_IMODE(os.stat(half).st_mode) == 0o600, half, oct(os.stat(half).st_mode))
        os.chmod(half, 0o640)
    yield "rights of the files", folder.run(options=["--snapshot-every", "1"]), SERVED, b"8\n"
    for half in (folder.a, folder.b):
        want(stat.S_IMODE(os.stat(half).st_mode) == 0o640, half, oct(os.stat(half).st_mode))


def other_names(folder):
    """Names of the folder."""
    folder.anew()
    real = folder.path + "-real"
    shutil.rmtree(real, ignore_errors=True)
    os.rename(folder.path, real)
    os.symlink(real, folder.path)
    yield "the folder is a link", folder.run(), SERVED, b"8\n"
    folder.anew()
    yield "a name with a slash", folder.run(folder.path + "/"), SERVED, b"8\n"
    folder.anew()
    yield "a name with dots", folder.run(os.path.join(folder.path, "..", os.path.basename(folder.path),
                                                      ".")), SERVED, b"8\n"
    folder.anew()
    yield "the folder is half A", folder.run(folder.a), FAULT, b"7\n"
    yield "the parent is missing", folder.run(os.path.join(folder.path + "-new", "x", "y")), SERVED, b"7\n"
    shutil.rmtree(folder.path + "-new")
    yield "a name of 300 bytes", folder.run(folder.path + "x" * 300), FAULT, b"7\n"
    yield "a name of 6,000 bytes", folder.run(os.path.join(folder.path, "y/" * 3000 + "z")), FAULT, b"7\n"
    # a path may have 4,095 bytes, and those of the halves are longer than that of their folder
    new = folder.path + "-new"
    long = new + "/." * ((4090 - len(new)) // 2)
    yield "a name that is too long for the halves", folder.run(long), FAULT, b"7\n"
    want(not os.path.lexists(new), "a name that is too long made a folder")
    yield "a name with a newline", folder.run(folder.path + "-a\nb"), SERVED, b"7\n"
    shutil.rmtree(folder.path + "-a\nb")


def rights(folder):
    """What somebody else may do."""

    def nobody():
        os.setgid(NOBODY)
        os.setuid(NOBODY)

    program = folder.room.program_for(nobody)
    for name, of_folder, of_a, of_b, wanted, after in (
        ("nothing may be written", 0o555, 0o444, 0o444, FAULT, b"7\n"),
        ("half B may not be written", 0o777, 0o666, 0o444, FAULT, b"7\n"),
        ("half B is missing, and may not be made", 0o755, 0o666, None, FAULT, b"7\n"),
        ("all may be written", 0o777, 0o666, 0o666, SERVED, b"8\n"),
        ("the folder may not be read", 0o311, 0o666, 0o666, FAULT, b"7\n"),
    ):
        folder.anew()
        os.chmod(folder.a, of_a)
        if of_b is None:
            os.unlink(folder.b)
        else:
            os.chmod(folder.b, of_b)
        os.chmod(folder.path, of_folder)
        got = folder.run(program=program, preexec_fn=nobody)
        os.chmod(folder.path, 0o755)
        yield name, got, wanted, after


def lengths(folder):
    """Files that are missing, or longer than what they hold."""
    folder.anew()
    os.unlink(folder.a)
    # as in a new folder: the model of a crash allows it (docs/run/operating.md)
    yield "half A is missing, and half B is empty", folder.run(text=GET), Answer(0, b"NIL\n", b""), b"NIL\n"
    folder.anew()
    folder.run(options=["--snapshot-every", "1"])
    os.unlink(folder.a)
    yield "half A is missing, and half B is in use", folder.run(text=GET), Answer(0, b"8\n", b""), b"8\n"
    folder.anew()
    os.truncate(folder.b, LONG)
    yield "half B is closed, and long", folder.run(options=["--snapshot-every", "1"]), SERVED, b"8\n"
    want(os.path.getsize(folder.b) < 1000, "half B was not cut")
    folder.anew()
    os.truncate(folder.a, LONG)
    yield "half A is in use, and goes on past its records", folder.run(), SERVED, b"8\n"
    folder.anew()
    folder.run(options=["--snapshot-every", "1"])
    os.truncate(folder.a, LONG)
    yield "half A is open, older, and long", folder.run(text=SET.replace(b"8", b"9")), Answer(0, b"9\n9\n", b""), b"9\n"
    want(os.path.getsize(folder.a) == LONG, "half A was cut")
    for half in (folder.a, folder.b):
        folder.anew()
        size = os.path.getsize(half)
        os.truncate(half, TOO_LONG)
        got = folder.run()
        os.truncate(half, size)
        yield "a half is longer than one may be", got, FAULT, b"7\n"
    folder.anew()
    with open(folder.b, "wb") as file:
        file.write(LATER + (10).to_bytes(4, "big"))
    got = folder.run()
    os.truncate(folder.b, 0)
    yield "half B is open, and ends before its text", got, DAMAGED, b"7\n"
    folder.anew()
    with open(folder.a, "rb") as file:
        held = file.read()
    with open(folder.b, "wb") as file:
        file.write(held[:3] + bytes(8) + held[11:])
    got = folder.run()
    os.truncate(folder.b, 0)
    yield "half B is open, of generation 0", got, DAMAGED, b"7\n"


def full_system(folder):
    """A file system of 64 kB: the write that finds no room is told, and each answered form is there."""
    place = folder.room.path("small")
    os.makedirs(place, exist_ok=True)
    system = ctypes.CDLL(None, use_errno=True)
    if system.mount(b"none", place.encode(), b"tmpfs", 0, b"size=64k") != 0:
        print("campaign: folders: no file system can be mounted here", flush=True)
        return
    try:
        path = os.path.join(place, "store")
        got = folder.run(path, text=b"".join(b"(SETF (GET 'A 'B) %d)\n" % number for number in range(1, 3001)))
        count = got.out.count(b"\n")
        want(got.status == 3 and got.err == DEVICE and 0 < count < 3000, "a full file system:", got.status, got.err,
             count)
        found = folder.run(path, text=GET)
        want(found in (Answer(0, b"%d\n" % count, b""), Answer(0, b"%d\n" % (count + 1), b"")), count,
             "answered, and then", found)
        yield "a full file system", FAULT, FAULT, None
    finally:
        system.umount(place.encode())


def run(room):
    """Gives how many folders were tried."""
    folder, count = Folder(room), 0
    os.chdir(room.folder)
    for rows in (other_files, owners, other_names, lengths, *([rights, full_system] if os.geteuid() == 0 else [])):
        for name, got, wanted, after in rows(folder):
            want(got == wanted, name + ":", got)
            found = after and folder.run(text=GET)
            want(not after or found == Answer(0, after, b""), name, "and then", found)
            count += 1
    return count, {"as wanted": count}
