"""Builds that fail, run short, are stopped, and go by the schedule, with a prover in the place of the kit's."""
import os
import re
import shutil
import signal
import subprocess

from calls import PLAIN, PROGRAM, called, check, command, is_refused, write

# A rt that proves two crates and fails, each once a file says that it was told of, or after a minute.
FAILING_RT = """#!/bin/sh
[ "$1" = run ] || exit 0
for crate in lisp_object package_sets; do
    echo "crate $crate: modules 3"
    seconds=0
    until [ -e "%(folder)s/$crate" ] || [ "$seconds" -ge 60 ]; do
        sleep 1
        seconds=$((seconds + 1))
    done
done
exit 1
"""


def followed(script, folder):
    """A build whose prover goes on once its last crate was told: the status, and what was told."""
    text, path = "", {**os.environ, "PATH": f"{folder}:{PLAIN}"}
    with subprocess.Popen([script, "build"], stdin=subprocess.DEVNULL, stderr=subprocess.PIPE, text=True, env=path) as running:
        for line in running.stderr:
            text += line
            if found := re.search(r" crates are proved, the last one (\w+)", line):
                write(os.path.join(folder, found[1]), "")
    return running.returncode, text


def failing(script, room):
    """A build that fails: how far it is, and where it ended."""
    folder = command(room, "rt", FAILING_RT % {"folder": os.path.join(room, "commands")})
    status, text = followed(script, folder)
    told = re.findall(r"^pazturrok: (\d) of \d+ crates are proved, the last one (\w+)$", text, re.M)
    check("a build that fails tells how far it is", (status, told), (2, [("1", "lisp_object"), ("2", "package_sets")]))
    check("a build that fails tells where", "what comes after package_sets was not proved (rt ended with status 1)" in text, True)


# What a rt says that ran short, and with which status it ends; and what is told of it.
SHORT = (("rt: lisp_object: the check was killed, most likely for memory", 1, "memory was short while what comes after lisp_object was proved"),
         ("crate package_sets: modules 3", 137, "memory was short while what comes after package_sets was proved"),
         ("error: No space left on device", 1, "the disk was full while what comes after lisp_object was proved"))

# A df that tells of a full disk, and a rt that is stopped in its first call and makes the program in the next one.
FULL_DF = "#!/bin/sh\nprintf 'one\\nroom 100 99 1000 99%% /\\n'\n"
STOPPED_RT = """#!/bin/sh
[ "$1" = run ] || exit 0
[ ! -f "%(folder)s/stopped" ] || exec cp "%(program)s" out/store_program
echo $$ >"%(folder)s/stopped"
echo "crate lisp_object: modules 3"
exec sleep 600
"""


def short(script, room):
    """A build that runs short of memory or disk ends with a sentence, and makes no program."""
    for said, status, told in SHORT:
        rt = f'#!/bin/sh\n[ "$1" = run ] || exit 0\necho "crate lisp_object: modules 3"\necho "{said}"\nexit {status}\n'
        ended, out, err = called(script, "build", PATH=f"{command(room, 'rt', rt)}:{PLAIN}")
        check(f"a build that is short: {said}", (ended, out, told.encode() in err, err.endswith(b"the next call goes on from what is proved\n")), (2, b"", True, True))
    is_refused("a full disk", script, "build", says="takes 3000 MB of disk", PATH=f"{command(room, 'df', FULL_DF)}:{PLAIN}")
    os.remove(os.path.join(room, "commands", "df"))


def interrupted(script, room):
    """A build that is stopped at a terminal ends what it began, and the next one goes on."""
    program = os.path.join(os.path.dirname(script), "crates", "store_program", "out", "store_program")
    folder = command(room, "rt", STOPPED_RT % {"folder": os.path.join(room, "commands"), "program": PROGRAM})
    path = {**os.environ, "PATH": f"{folder}:{PLAIN}"}
    # a shell that runs this check in the background has it ignore the signal, which its children would inherit
    how = {"stdout": subprocess.PIPE, "stderr": subprocess.PIPE, "preexec_fn": lambda: signal.signal(signal.SIGINT, signal.SIG_DFL)}
    running = subprocess.Popen([script, "build"], stdin=subprocess.DEVNULL, start_new_session=True, env=path, **how)
    told = b""
    while b" are proved" not in told and (line := running.stderr.readline()):
        told = line
    with open(os.path.join(folder, "stopped"), encoding="ascii") as file:
        prover = int(file.read())
    os.killpg(running.pid, signal.SIGINT)
    err = running.communicate()[1]
    check("a build that is stopped", (running.returncode, err), (130, b"pazturrok: stopped; the next call goes on from what is proved\n"))
    check("a build that is stopped leaves nothing", (os.path.exists(f"/proc/{prover}"), os.path.exists(program)), (False, False))
    again = called(script, "build", PATH=path["PATH"])
    check("the next build", (again[0], b"proved and built" in again[2], os.path.isfile(program)), (0, True, True))
    os.remove(program)


# A rt that keeps what it proves, and a schedule that plans a minute for each crate and proves them one after the other, each of the first ones once
# the one before it was told of.
KEEPING_RT = """#!/bin/sh
case $1 in
    help) echo '--anew' ;;
    doc) echo "%(folder)s/kit/START-HERE.md" ;;
    ci)
        echo "rt ci $*" >>"%(folder)s/order"
        sed -n 's/^\\([a-z0-9_]*\\)[ :].*/rt: \\1 is kept: nothing of it changed/p' crates.txt
        mkdir -p crates/store_program/out && cp "%(program)s" crates/store_program/out/store_program
        ;;
esac
"""
SCHEDULE = """#!/bin/sh
echo "schedule $*" >>"%(folder)s/order"
number=0
for crate in $(sed -n 's/^\\([a-z0-9_]*\\)[ :].*/\\1/p' crates.txt); do
    number=$((number + 1))
    case $1 in
        --plan) echo "schedule: $crate/proof   0.0 to   $number.0 minutes, 1 jobs, 1.0 GB" ;;
        *)
            echo "rt: $crate proved"
            while [ "$number" -le 3 ] && [ ! -e "%(folder)s/$crate" ]; do sleep 0.1; done
            ;;
    esac
done
"""


def scheduled(script, room):
    """Where the kit keeps what it proved, the crates are proved in the order of checks/schedule, and the verdict is that of `rt ci`."""
    paths = {"folder": os.path.join(room, "commands"), "program": PROGRAM}
    os.makedirs(os.path.join(paths["folder"], "kit"), exist_ok=True)
    folder = command(room, "rt", KEEPING_RT % paths)
    schedule = os.path.join(os.path.dirname(script), "checks", "schedule")
    write(schedule, SCHEDULE % paths, 0o755)
    for name in os.listdir(folder):
        if name not in ("rt", "kit"):
            os.remove(os.path.join(folder, name))
    status, text = followed(script, folder)
    left = [int(minutes) for minutes in re.findall(r"about (\d+) min more\n", text)]
    check("a build by the schedule", (status, len(left), left == sorted(left, reverse=True)), (0, 3, True))
    with open(os.path.join(folder, "order"), encoding="ascii") as file:
        order = [" ".join(line.split()[:2]) for line in file]
    check("the verdict is that of rt ci", order, ["schedule --plan", "schedule", "rt ci"])
    program = os.path.join(os.path.dirname(script), "crates", "store_program", "out", "store_program")
    check("from then on the proved program is started", called(script, "run", os.path.join(room, "scheduled"), stdin=b"(LIST 1)"), (0, b"(1)\n", b""))
    os.remove(program)
    os.remove(os.path.join(os.path.dirname(program), "built_from"))
    shutil.rmtree(os.path.dirname(schedule))


def check_all(script, room):
    failing(script, room)
    short(script, room)
    interrupted(script, room)
    scheduled(script, room)
