"""What is asked of the program beside the store that it serves."""

from __future__ import annotations

import asyncio
import os
import re
import tempfile

POSITION = re.compile(rb"position ([0-9]+)")

PROBE = b"by 1 5\nprobe\n"
"""A client goes that was never there: a program that takes messages of clients with a name answers that, and another one takes it for no frame."""

ANSWERED = (0, 1)
"""The statuses of a program that was sent what it takes, or what it takes for no frame."""


async def position_of(program: str, folder: str) -> int | None:
    """The position that an opening of the store would tell; None where that cannot be seen."""
    pipe, nothing = asyncio.subprocess.PIPE, asyncio.subprocess.DEVNULL
    process = await asyncio.create_subprocess_exec(program, "verify", folder, "--existing", stdout=pipe, stderr=nothing)
    told, _ = await process.communicate()
    found = POSITION.search(told)
    return int(found[1]) if found else None


async def takes_named(program: str, folder: str) -> bool:
    """Whether a program takes messages of clients with a name; it serves a store of its own for that. OSError where it cannot."""
    pipe, nothing = asyncio.subprocess.PIPE, asyncio.subprocess.DEVNULL
    status: int | None = None
    # one that was killed has not said so
    while status is None or status < 0:
        with tempfile.TemporaryDirectory(prefix="pazturrok-probe-", dir=folder if os.path.isdir(folder) else None) as room:
            words = (program, "run", os.path.join(room, "store"), "--messages")
            process = await asyncio.create_subprocess_exec(*words, stdin=pipe, stdout=pipe, stderr=nothing)
            told, _ = await process.communicate(PROBE)
            status = process.returncode
    if b"\nby 1 " not in told and status not in ANSWERED:
        raise OSError(f"{program} ended with status {status} over an empty store")
    return b"\nby 1 " in told
