"""What the tests are written with."""

from __future__ import annotations

import contextlib
import os
import subprocess
import sys
import tempfile
import unittest
from collections.abc import Iterator
from typing import Any

import pazturrok.program
from lib.places import CHECKS, PATIENCE, TOP
from pazturrok import RefusedError, Store

PROGRAM = os.environ.get("PAZTURROK_PROGRAM", "pazturrok")
FAKE = os.path.join(CHECKS, "lisp", "fake")
NODE = os.path.join(TOP, "cluster", "pazturrok-node")
OPERATORS = os.path.join(TOP, "lisp", "operators.lisp")

LONG = float(PATIENCE)
"""As many seconds as nothing takes, on a slow machine either."""
pazturrok.program.END_LIMIT = LONG


def said(error: BaseException) -> str:
    """What an error says, without what the program tells of a refusal beside its number: not each program does."""
    reason = getattr(error, "reason", None)
    return str(error).replace(f" ({reason})", "", 1) if isinstance(error, RefusedError) and reason else str(error)


class StoreTest(unittest.TestCase):
    """A test with a folder of its own."""

    def setUp(self) -> None:
        folder = tempfile.TemporaryDirectory(dir=os.environ.get("PAZTURROK_FOLDER"))
        self.addCleanup(folder.cleanup)
        self.folder = folder.name

    def store(self, name: str = "store", **options: Any) -> Store:
        """A store of this name in the folder, which is closed after the test."""
        store = Store(os.path.join(self.folder, name), PROGRAM, **options)
        self.addCleanup(store.close)
        return store

    def make_with_operators(self, name: str) -> None:
        """Makes a store of this name in the folder, which knows the operators."""
        with open(OPERATORS, "rb") as file:
            subprocess.run([PROGRAM, "run", os.path.join(self.folder, name), "--quiet"], stdin=file, check=True, capture_output=True)

    @contextlib.contextmanager
    def node(self) -> Iterator[str]:
        """The place of a node of one machine, over a store that knows the operators."""
        self.make_with_operators("of a node")
        place = f"unix:{self.folder}/socket"
        words = [NODE, os.path.join(self.folder, "of a node"), "--alone", "--listen", place, "--program", PROGRAM]
        with subprocess.Popen([sys.executable, "-B", *words], stderr=subprocess.DEVNULL) as node:
            try:
                yield place
            finally:
                node.terminate()

    @contextlib.contextmanager
    def answering(self, *answers: str, fault: str | None = None, told: dict[int, str] = {}, **options: Any) -> Iterator[Store]:
        """A store whose program gives these answers in turn, as they are, and tells something on standard error before
        some of them; and then nothing, or a fault."""
        with tempfile.TemporaryDirectory(dir=self.folder) as folder:
            files = {str(number): answer for number, answer in enumerate(answers, 1)}
            files.update({f"{number}.told": text for number, text in told.items()})
            if fault is not None:
                files["end"] = fault
            for name, text in files.items():
                with open(os.path.join(folder, name), "wb") as file:
                    file.write(text.encode("latin-1"))
            with Store(folder, FAKE, **options) as store:
                yield store
