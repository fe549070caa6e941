"""Kills of a process that writes by the library, and two processes that want the same store."""
import os
import random
import signal
import subprocess
import sys
import time

HERE = os.path.dirname(os.path.abspath(__file__))
sys.path.append(os.path.join(os.path.dirname(os.path.dirname(HERE)), "clients", "python", "src"))

from pazturrok import EmbeddedMessageStore, EmbeddedStore, FaultError, MessageStore  # noqa: E402

# Only a program that hangs is waited for so many seconds.
PATIENCE = 600


def write_for_ever(library, folder, number):
    """Sets a property to the next numbers, alone and in groups, and writes each that was answered."""
    store = EmbeddedStore(folder, library)
    while True:
        group = [f"(SETF (GET 'A 'B) {value})" for value in range(number + 1, number + 4)]
        assert store.execute_all(group) == [number + 1, number + 2, number + 3]
        assert store.execute(f"(SETF (GET 'A 'B) {number + 4})") == number + 4
        number += 4
        os.write(1, b"%d\n" % number)
        if number % 2000 == 0:
            store.snapshot()


def feed_for_ever(library, folder):
    """Adds to a counter by messages, alone and in groups, and writes the number of each that was answered: what the
    counter is then."""
    store = EmbeddedMessageStore(folder, library)
    while True:
        before = store.position
        assert store.do_all(["(INCF (GET 'N 'N))"] * 3) == [before + 1, before + 2, before + 3]
        assert store.do("(INCF (GET 'N 'N))") == before + 4
        os.write(1, b"%d\n" % (before + 4))
        if before % 2000 == 0:
            store.snapshot()


def run_messages(built, times):
    """So many kills of who sends messages: what the position says was done, each once, and nothing else. Gives how many
    were answered."""
    folder, dice, position = built.folder(), random.Random(2), 0
    with EmbeddedMessageStore(folder, built.library) as store:
        store.do("(SETF (GET 'N 'N) 1)")
    for turn in range(times):
        command = [sys.executable, "-B", os.path.abspath(__file__), built.library, folder]
        writer = subprocess.Popen(command, stdout=subprocess.PIPE)
        first = writer.stdout.readline()
        time.sleep(dice.random() * 0.05)
        writer.send_signal(signal.SIGKILL)
        told = [first, *writer.stdout.read().split(b"\n")]
        writer.wait()
        answered = int([line for line in told if line.strip()][-1])
        opens = [lambda: EmbeddedMessageStore(folder, built.library)]
        if built.has_program:
            opens.append(lambda: MessageStore(folder, os.path.join(built.code, "program")))
        for opened in opens:
            with opened() as store:
                position, found = store.position, store.ask("(GET 'N 'N)")
            if found != position or position - answered not in (0, 3, 4):
                raise AssertionError(f"kill {turn + 1}: {answered} was answered, the position is {position}, and {found} is there")
    return position


def value_in(library, folder):
    with EmbeddedStore(folder, library) as store:
        found = store.execute("(GET 'A 'B)")
    return found if isinstance(found, int) else 0


def value_by_program(program, folder):
    ran = subprocess.run([program, "run", folder], input=b"(GET 'A 'B)\n", capture_output=True, timeout=PATIENCE)
    return int(ran.stdout) if ran.stdout.strip().isdigit() else 0


def run(built, times):
    """So many kills. Gives their number, and how many forms were answered."""
    folder, dice, last = built.folder(), random.Random(1), 0
    for turn in range(times):
        command = [sys.executable, "-B", os.path.abspath(__file__), built.library, folder, str(last)]
        writer = subprocess.Popen(command, stdout=subprocess.PIPE)
        first = writer.stdout.readline()
        time.sleep(dice.random() * 0.05)
        writer.send_signal(signal.SIGKILL)
        told = [first, *writer.stdout.read().split(b"\n")]
        writer.wait()
        answered = int([line for line in told if line.strip()][-1])
        found = value_in(built.library, folder)
        # the group that was under way is there or not, and the form after it
        if found - answered not in (0, 3, 4):
            raise AssertionError(f"kill {turn + 1}: {answered} was answered, and {found} is there")
        if built.has_program and value_by_program(os.path.join(built.code, "program"), folder) != found:
            raise AssertionError(f"kill {turn + 1}: the program has another value than the library")
        last = found
    return times, last


def two_processes(built):
    """The program has a store, and the library is refused; the library has it, and the program is."""
    folder, program = built.folder(), os.path.join(built.code, "program")
    running = subprocess.Popen([program, "run", folder], stdin=subprocess.PIPE, stdout=subprocess.PIPE)
    running.stdin.write(b"(SETF (GET 'A 'B) 7)\n")
    running.stdin.flush()
    assert running.stdout.readline() == b"7\n"
    try:
        EmbeddedStore(folder, built.library)
    except FaultError as fault:
        assert (fault.number, fault.cause) == (60, "locked by another process"), fault
    else:
        raise AssertionError("the library opened a store that the program has")
    running.stdin.close()
    assert running.stdout.read() == b"" and running.wait() == 0
    running.stdout.close()
    with EmbeddedStore(folder, built.library) as store:
        assert store.execute("(INCF (GET 'A 'B))") == 8
        refused = subprocess.run([program, "run", folder], input=b"1\n", capture_output=True, timeout=PATIENCE)
        assert (refused.returncode, refused.stderr) == (3, b"! 60 DEVICE\n%s: locked by another process\n" % folder.encode()), refused
        assert store.execute("(INCF (GET 'A 'B))") == 9
    assert value_by_program(program, folder) == 9
    return 4


if __name__ == "__main__":
    if len(sys.argv) > 3:
        write_for_ever(sys.argv[1], sys.argv[2], int(sys.argv[3]))
    feed_for_ever(sys.argv[1], sys.argv[2])
