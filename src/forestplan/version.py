"""Which forestplan this is: its version, the commit, and the kits of the toolchain for which its sources are.

An installed folder has it in its file VERSION; a tree finds it out."""
import os
import subprocess
import sys

from forestplan import __version__
from forestplan.folders import TOP


def commit() -> str:
    """The commit of this tree, and whether files are changed since."""
    asked = [
        "git",
        "-C",
        TOP,
        "--git-dir",
        ".git",
        "describe",
        "--always",
        "--exclude=*",
        "--abbrev=12",
        "--dirty=, with changes",
    ]
    try:
        done = subprocess.run(asked, stdin=subprocess.DEVNULL, capture_output=True, text=True)
    except OSError:
        return "unknown"
    return done.stdout.strip() or "unknown, since this is no checkout of git"


def version_text() -> str:
    """The three lines."""
    try:
        with open(os.path.join(TOP, "VERSION"), encoding="utf-8") as file:
            return file.read()
    except OSError:
        with open(os.path.join(TOP, "build", "kits.txt"), encoding="utf-8") as kits:
            named = " or ".join(kits.read().split("\n")[:-1])
        return f"forestplan {__version__}\ncommit {commit()}\nkit {named}\n"


def main() -> int:
    sys.stdout.write(version_text())
    return 0
