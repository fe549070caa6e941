"""The command rt, its compiler for C, and programs of this folder as modules."""

from __future__ import annotations

import importlib.machinery
import importlib.util
import os
import shutil
import subprocess
import sys
from typing import Any


def module(name: str, file: str) -> Any:
    """The program of this file as a module."""
    loader = importlib.machinery.SourceFileLoader(name, file)
    spec = importlib.util.spec_from_loader(name, loader)
    assert spec, file
    made = importlib.util.module_from_spec(spec)
    sys.modules[name] = made
    loader.exec_module(made)
    return made


def command() -> str:
    """The file that the command rt is."""
    found = shutil.which("rt")
    if not found:
        sys.exit("there is no command rt")
    return os.path.realpath(found)


def load_rt() -> Any:
    """The module that the command rt is, the same one at each call."""
    return sys.modules.get("rt") or module("rt", command())


def folder() -> str:
    """The folder of the kit."""
    return os.path.dirname(os.path.dirname(command()))


def shared(source: str, built: str, *words: str, flags: tuple[str, ...] = ()) -> str:
    """The shared library that the kit's own compiler makes of a source in C without headers, with these words to the
    linker after it, in this file."""
    tools, code = os.path.join(folder(), "toolchain", "bin"), os.path.splitext(built)[0] + ".o"
    plain = ["-O2", "-fPIC", "-ffreestanding", "-nostdinc"]
    subprocess.run([os.path.join(tools, "clang"), *plain, "-c", source, "-o", code], check=True)
    subprocess.run([os.path.join(tools, "ld.lld"), "-shared", *flags, code, *words, "-o", built], check=True)
    return built
