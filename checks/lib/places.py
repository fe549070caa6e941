"""Where what the checks look at is, and how long they wait for it."""

from __future__ import annotations

import os

CHECKS = os.path.dirname(os.path.dirname(os.path.abspath(__file__)))
TOP = os.path.dirname(CHECKS)
CRATES = os.path.join(TOP, "crates")

PROGRAM = os.path.join(CRATES, "store_program", "out", "store_program")
"""The program that the gate built."""
ENGINE = os.path.join(CRATES, "pazturrok_c", "out", "libpazturrok_c.a")
"""The static library that the client for C is made over."""
CLIENT = os.path.join(TOP, "clients", "python", "src")
"""The client for Python."""
SESSIONS = os.path.join(CHECKS, "sessions")
"""The sessions that are worked out by hand."""

MEMORY = "/dev/shm" if os.access("/dev/shm", os.W_OK | os.X_OK) else None
"""A folder in memory for what is thrown away, where there is one."""

# Each program that a check starts tells on standard error why a form was refused, as one that the script starts.
os.environ.setdefault("PAZTURROK_REASONS", "told")

PATIENCE = 600
"""Only a program that hangs is waited for so many seconds."""


def bytes_of(path: str) -> bytes:
    """The bytes of a file."""
    with open(path, "rb") as file:
        return file.read()


def files_of(folder: str) -> dict[str, bytes]:
    """The bytes of each file below a folder, by its name there."""
    paths = [os.path.join(at, name) for at, _, names in os.walk(folder) for name in names]
    return {os.path.relpath(path, folder): bytes_of(path) for path in paths}
