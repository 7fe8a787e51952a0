"""Tools and built programs that some tests need, and that may be missing. A test that needs one asks here; the last
lines of `python3 -m tests` name each that wasn't there, with the tests that didn't run."""

import ctypes
import functools
import importlib.util
import os
import re
import shutil
import subprocess
import sys
import unittest
from collections.abc import Callable

from build import program
from tests import browser
from tests.settings import BUILT, NAMED, PATHS

# The scripts of the two programs, which prove and build one that isn't built from the sources as they are.
SCRIPTS = {f"bin/{name}": name for name in PATHS}

# Debian's Python, and what Debian's packages have for it.
SYSTEM = "/usr/bin/python3"
OF_SYSTEM = "/usr/lib/python3/dist-packages"
# The same by its version, which this Python may have, too.
OWN = "/usr/bin/python{}.{}".format(*sys.version_info)


def without_rt(path: str) -> str:
    """A PATH without the folders that have the toolchain's command: where a program isn't built from the sources as
    they are, its script then says so, and proves nothing."""
    return ":".join(
        folder for folder in path.split(":") if not os.path.exists(os.path.join(folder, "rt"))
    )


def has_module(python: str, module: str) -> bool:
    """Whether a Python is there and can import a module."""
    if not shutil.which(python):
        return False
    return subprocess.run([python, "-c", f"import {module}"], capture_output=True).returncode == 0


@functools.cache
def is_built(name: str) -> bool:
    """Whether the program of a name is built from the sources as they are, if the process that began this one hasn't
    found out."""
    known = os.environ.get("TESTS_BUILT")
    return program.is_built(name) if known is None else name in known.split()


@functools.cache
def is_installed(tool: str) -> bool:
    """Whether a tool is there: a command by its name or its path, a module of this Python, or `MODULE of PYTHON`; a
    program that the settings name; or, by its script in bin/, one that is built from the sources as they are.

    This Python takes a module that it lacks from the system's, if that has its version."""
    module, _, python = tool.partition(" of ")
    if python:
        return has_module(python, module)
    if tool in SCRIPTS:
        return is_built(SCRIPTS[tool])
    if tool in BUILT:
        is_from_sources = tool not in PATHS or NAMED[tool] or is_built(tool)
        return os.access(BUILT[tool], os.X_OK) and is_from_sources
    if tool in ("networkx", "matplotlib", "igraph", "pandas", "hypothesis"):
        if importlib.util.find_spec(tool) is None and os.path.exists(OWN):
            sys.path.append(OF_SYSTEM)
        return importlib.util.find_spec(tool) is not None
    find = {"cc": has_compiler, "libseccomp": has_seccomp, "a browser": browser.command}
    return bool(find[tool]() if tool in find else shutil.which(tool))


def has_compiler() -> bool:
    """Whether there is a C compiler with the headers of the C library."""
    arguments = ["cc", "-E", "-include", "stdio.h", "-x", "c", os.devnull]
    return (
        bool(shutil.which("cc")) and not subprocess.run(arguments, capture_output=True).returncode
    )


def has_seccomp() -> bool:
    try:
        return bool(ctypes.CDLL("libseccomp.so.2"))
    except OSError:
        return False


def lack_of(tools: tuple[str, ...]) -> str:
    """What isn't there of some tools, in words."""
    tool = next((tool for tool in tools if not is_installed(tool)), None)
    if tool is None:
        return ""
    is_program = tool in SCRIPTS or tool in BUILT
    return f"{tool} isn't built" if is_program else f"{tool} isn't installed"


def needs(*tools: str) -> Callable:
    """The tests of a class, or a test, are skipped where one of these tools isn't there."""
    lack = lack_of(tools)
    return unittest.skipIf(lack, lack)


def need(test: unittest.TestCase, *tools: str) -> None:
    """Skips the test, or the row of it that runs, where one of these tools isn't there."""
    lack = lack_of(tools)
    if lack:
        test.skipTest(lack)


def not_run(said: str) -> list[tuple[str, str]]:
    """The pairs of what isn't there and a test in what a module said: the test needs it, and was skipped."""
    found = re.findall(r"^skipped (.+?): (.+ isn't (?:installed|built))$", said, re.M)
    return [(lack, test) for test, lack in found]
