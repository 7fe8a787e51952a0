"""What the tests of the workshop share."""
import functools
import os
import runpy
import subprocess
import sys
import tempfile
import unittest
from random import Random
from types import SimpleNamespace

from forestplan.workshop.cases import Case, case_network
from forestplan.workshop.options import parsed
from forestplan.workshop.player import CasePlayer
from tests import FORESTLAB, TOP
from tests.cases import Case as Rows
from tests.tools import lack_of

DOOR = [FORESTLAB, "workshop"]
EXAMPLES = os.path.join(TOP, "examples", "workshop")
LIMIT = 120  # seconds; a busy machine is slow
MISTAKES = SimpleNamespace(**runpy.run_path(os.path.join(EXAMPLES, "mistakes.py")))


def python(*path):
    """The command of a node in Python, by its path in the examples."""
    return [sys.executable, "-S", os.path.join(EXAMPLES, *path)]


ROUNDS, ALPHA, GREEDY = (
    python("python", f"{name}_node.py") for name in ("rounds", "alpha", "greedy")
)


def network(name):
    return case_network(name, Random("1"))


def options_of(assignment, *arguments, **options):
    """Options of the command line, and others in their place."""
    found = parsed([assignment, *arguments, *([] if "--" in arguments else ["--", "x"])])
    vars(found).update({"timeout": 20.0} | options)
    return found


def played(assignment, name, *commands, policy="random", seed="1", **options):
    """One run, in this process, with these options of the command line."""
    case = Case(0, network(name) if isinstance(name, str) else name, policy, seed)
    arguments = [word for command in commands for word in ("--", *command)]
    CasePlayer(options_of(assignment, *arguments, **options)).play(case)
    return case


class Played(Rows):
    def wrong_node(self, name, file, *arguments):
        """The command of a node with a mistake."""
        MISTAKES.write(self.folder, [name])
        return [sys.executable, "-S", os.path.join(self.folder, name, file), *arguments]

    def found(self, right, assignment, given, *commands, **more):
        """The row of a run with what is wrong in it, (verdict, node, pulse), or None; returns the finding."""
        finding = played(assignment, given, *commands, **more).finding
        got = finding and (finding.kind, finding.node, finding.pulse)
        text = " ".join([*commands[0][-2:], *map(str, more.values())])
        name = f"{assignment} on {getattr(given, 'name', given)} of {text}"
        self.note(name, got == right, finding and finding.text())
        return finding

    def right(self, *given, **more):
        self.found(None, *given, **more)


def answering(*lines):
    """A node that answers each message with these lines."""
    text = "".join(line + "\n" for line in [*lines, "end"])
    return [
        sys.executable,
        "-S",
        "-c",
        f"import sys\nfor line in sys.stdin:\n    if line == 'end\\n':\n        "
        f"print({text!r}, end='', flush=True)",
    ]


def ending_with(line):
    """A node that is silent, and says this in its last pulse."""
    code = (
        "import sys\nnumber = {'last': 0, 'pulse': 0}\nfor line in sys.stdin:\n    word, *rest = line.split()\n"
        "    if word in number:\n        number[word] = int(rest[0])\n    if word == 'end':\n"
        f"        said = [{line!r}] if number['pulse'] == number['last'] else []\n"
        "        print(*said, 'end', sep='\\n', flush=True)\n"
    )
    return [sys.executable, "-S", "-c", code]


def call(*arguments, **more):
    return subprocess.run(
        [*DOOR, *arguments], capture_output=True, text=True, timeout=LIMIT, **more
    )


@functools.cache
def compiled(source: str) -> list[str]:
    """The command of a program in C or Java. The test, or its row, is skipped where there is no compiler of it."""
    to = tempfile.TemporaryDirectory()
    made.append(to)  # until the tests end
    name, ending = os.path.splitext(os.path.basename(source))
    lack = lack_of(("cc",) if ending == ".c" else ("javac",))
    if lack:
        raise unittest.SkipTest(lack)
    if ending == ".c":
        path = os.path.join(to.name, name)
        subprocess.run(["cc", "-O2", "-Wall", "-Werror", "-o", path, source], check=True)
        return [path]
    subprocess.run(["javac", "-J-XX:+UseSerialGC", "-d", to.name, source], check=True)
    return ["java", "-Xmx64m", "-XX:+UseSerialGC", "-XX:TieredStopAtLevel=1", "-cp", to.name, name]


made: list[tempfile.TemporaryDirectory] = []
C, JAVA = os.path.join(EXAMPLES, "c", "rounds_node.c"), os.path.join(
    EXAMPLES, "java", "AlphaNode.java"
)
