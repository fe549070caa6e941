"""A device that fails beneath a node without etcd, as its program tells it: each part gives what is wrong."""
import os
import subprocess
import sys
import time

from cluster import NODE, Client
from alone import begun, value
from refusals import ADD
from waits import LONG, until
from watched import until_health

FAILS = """#!/bin/sh
# the program, until there is a file with a cause: then it ends as one whose device has failed; with a file `closed` before it is open
[ "$1" = run ] || exec {program} "$@"
echo started >>{room}/starts
tell() {{
    printf '! 60 DEVICE\\n' >&2
    cat {room}/cause >&2
    exit 3
}}
[ ! -e {room}/closed ] || tell
exec 3<&0
{program} "$@" <&3 &
while kill -0 $! 2>/dev/null; do
    if [ -e {room}/cause ]; then
        kill -9 $!
        wait $! 2>/dev/null
        tell
    fi
    sleep 0.05
done
wait $!
"""
BROKEN, FULL = "cannot sync /s/half-a: Input/output error (os error 5)", "cannot write /s/half-b: No space left on device (os error 28)"


def failing(folder, program):
    """A program whose device fails once somebody says so."""
    path = os.path.join(folder, "failing")
    with open(path, "w", encoding="ascii") as file:
        file.write(FAILS.format(program=program, room=folder))
    os.chmod(path, 0o755)
    return path


def fail(folder, cause, name="cause"):
    with open(os.path.join(folder, name + ".new"), "w", encoding="ascii") as file:
        file.write(cause + "\n")
    os.rename(os.path.join(folder, name + ".new"), os.path.join(folder, name))


def starts(folder):
    with open(os.path.join(folder, "starts"), encoding="ascii") as file:
        return len(file.readlines())


def broken(folder, program):
    """After a fault of the device the store is not started again, and the node ends with a status that no unit starts again; neither is one
    that finds the device so as it opens the store."""
    node = begun(folder, failing(folder, program))
    one = node.nodes[0]
    try:
        Client(node.places).request(b"do add", ADD)
        count = starts(folder)
        fail(folder, BROKEN)
        until(lambda: one.child.poll() is not None, "a node ends whose device has failed")
        status, told = one.child.poll(), one.told()
        faults = [] if status == 5 and starts(folder) == count else [f"a device that failed: status {status}, {starts(folder)} starts after {count}"]
        faults += [] if f"60 DEVICE: {BROKEN}" in told and "start the machine anew" in told else [f"a device that failed is told so: {told[-300:]}"]
        fail(folder, "", "closed")
        one.start()
        until(lambda: one.child.poll() is not None, "a node ends whose device has failed")
        faults += [] if one.child.poll() == 5 and starts(folder) == count + 1 else [f"a device that fails at an opening: {one.child.poll()}"]
        os.unlink(os.path.join(folder, "closed"))
        os.unlink(os.path.join(folder, "cause"))
        one.start()
        return faults + ([] if value(node) == "1" else ["what was answered is not there"])
    finally:
        node.end()


def full(folder, program):
    """A store whose disk is full is started again, and the node says meanwhile why it is not well."""
    path = os.path.join(folder, "monitor")
    node = begun(folder, failing(folder, program), options=("--monitor", path))
    try:
        fail(folder, "", "closed")
        fail(folder, FULL)
        until(lambda: f"60 DEVICE: {FULL}" in str(until_health(path, 503)), "the node says that its disk is full")
        status, told = until_health(path, 503)
        faults = [] if f"the store has ended (60 DEVICE: {FULL})" in str(told) else [f"beside a full disk: {status} {told}"]
        os.unlink(os.path.join(folder, "closed"))
        os.unlink(os.path.join(folder, "cause"))
        faults += [] if Client(node.places).request(b"do add", ADD)[1] == "1" else ["the node does not go on when there is room"]
        return faults + ([] if until_health(path, 200)[0] == 200 else ["the node is not well again"])
    finally:
        node.end()


def unmounted(folder, program):
    """With --existing a folder that is there and holds no store, as where a disk is not mounted, is refused, and nothing is made in it."""
    empty = os.path.join(folder, "empty")
    os.mkdir(empty)
    words = [sys.executable, NODE, empty, "--alone", "--existing", "--listen", f"unix:{folder}/socket", "--program", program]
    began = time.monotonic()
    told = subprocess.run(words, capture_output=True, text=True, timeout=LONG, check=False)
    faults = [] if told.returncode == 3 and "there is no store in this folder" in told.stderr else [f"an empty folder: {told.returncode} {told.stderr}"]
    faults += [] if not os.listdir(empty) else [f"in a folder without a store {os.listdir(empty)} is made"]
    return faults + ([] if time.monotonic() - began < LONG / 2 else ["it is not refused at once"])


PARTS = {"device broken": broken, "device full": full, "device unmounted": unmounted}
