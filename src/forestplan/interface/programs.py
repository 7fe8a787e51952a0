"""Where the programs are, and how they are called."""
import os
import subprocess
import sys
from collections.abc import Sequence
from typing import NoReturn

from forestplan.folders import PACKAGE, TOP, built
from forestplan.build_hint import how_to_build


def home() -> str:
    """The folder with the programs: what pip has installed below this package, or else the tree or the installed folder
    that the package is in.

    >>> os.path.isdir(os.path.join(home(), "bin"))
    True

    Raises FileNotFoundError if there is none.
    """
    if not os.path.isdir(os.path.join(TOP, "bin")):
        raise FileNotFoundError("there is no folder of forestplan that is installed or built")
    return TOP


def program_path(name: str) -> str:
    """The file of a program. Raises FileNotFoundError if it isn't built."""
    found = built(name)
    if found is None:
        raise FileNotFoundError(f"{name} isn't built in {home()}: {how_to_build(name)}")
    return found


def status_and_outputs(command: Sequence[str], text: str) -> tuple[int, str, str]:
    """The status and both outputs of a process that reads a text."""
    done = subprocess.run(command, input=text.encode("utf-8", "replace"), capture_output=True)
    return (done.returncode, done.stdout.decode(), done.stderr.decode("utf-8", "replace").strip())


def forestlab_outputs(arguments: Sequence[str], text: str) -> tuple[int, str, str]:
    """The same of a command of forestlab."""
    return status_and_outputs([sys.executable, "-S", PACKAGE, *arguments], text)


def command() -> NoReturn:
    """What pip puts on the PATH as forestplan, forestplay and forestlab: the script of this name in place of this
    process."""
    name = os.path.basename(sys.argv[0])
    os.execv(os.path.join(home(), "bin", name), [name, *sys.argv[1:]])
