"""What is told of how far a compilation is: over machines that are made up."""
import os
import re
import sys
from typing import List, Sequence

from calls import TOP, check

sys.path.append(os.path.join(TOP, "tools"))

from progress import Course, Progress  # noqa: E402  # pylint: disable=wrong-import-position

# What it takes of a processor on a machine that does nothing else.
WORK = 165.0


def followed(paces: Sequence[float], work: float = WORK) -> List[str]:
    """What is told after each second, until so much work is done. After the last of the paces the machine keeps to it."""
    course, told, used = Course(Progress.WHOLE), [], 0.0
    while used < work:
        course.look(float(len(told)), used)
        told.append(course.told())
        used += paces[min(len(told), len(paces) - 1)]
    return told


def seconds(told: Sequence[str], after: str) -> List[int]:
    """The times that are told after a word, in seconds."""
    found = [re.search(after + r" (\d+):(\d\d)", line) for line in told if line]
    return [int(time[1]) * 60 + int(time[2]) for time in found if time]


def check_all() -> None:
    """Checks all of it."""
    for name, paces in (("alone", [1.0]), ("beside others", [0.3]), ("now so, now so", [0.2, 0.5] * 900), ("busier", [1.0] * 60 + [0.05])):
        told = followed(paces)
        had = seconds(told, "has had")
        check(f"what was had never falls {name}", (had == sorted(had), min(had), len(had) == sum(map(bool, told))), (True, 30, True))
        check(f"the whole never changes {name}", set(seconds(told, "of about")), {180})
        check(f"nothing is foretold {name}", [line for line in told if "more" in line or "left" in line], [])
    alone, third = followed([1.0]), followed([1 / 3])
    check("before thirty seconds of a processor", (alone[:30], alone[30] != "", third[:90]), ([""] * 30, True, [""] * 90))
    check("a whole processor", alone[50], "has had 0:50 of about 3:00 minutes of a processor, and gets a whole one")
    check("a third of one", third[151], "has had 0:50 of about 3:00 minutes of a processor, and gets a third of one")
    stopped = followed([0.5] * 80 + [0.0] * 90 + [0.5])
    check("a step that is stopped", stopped[160].endswith("gets next to nothing of one"), True)
    check("work that takes longer", followed([1.0], 240.0)[200], "has had 3:20 minutes, and not the usual 3:00, of a processor, and gets a whole one")
