"""What every test has: the case whose rows are counted, its files, and how programs are called."""
import contextlib
import difflib
import functools
import gc
import io
import os
import pprint
import re
import shutil
import subprocess
import sys
import tempfile
import time
import traceback
import unittest
import unittest.mock
from collections.abc import Callable, Iterator
from contextlib import AbstractContextManager
from typing import IO, AnyStr, TypeVar

from forestplan.faults import Fault
from tests import FORESTLAB, TOP
from tests.tools import without_rt

Value = TypeVar("Value")

# With this word in a module, unittest leaves its functions out of the traceback of a failure.
__unittest = True
# No test proves anything, whatever runs it.
os.environ["PATH"] = without_rt(os.environ["PATH"])
# The folder of the tests; what runs them isn't in a folder of it.
OWN = os.path.join(TOP, "tests", "")
# Of what is said of a row that fails: letters of values that are shown whole, letters of a line, and lines.
BRIEF, WIDE, MOST_LINES = 200, 100, 60


def cut(lines: list[str]) -> str:
    """The first lines, and how many more there are."""
    more = [f".. and {len(lines) - MOST_LINES} more lines"] if len(lines) > MOST_LINES else []
    return "\n".join(lines[:MOST_LINES] + more)


def lines_of(value: object) -> list[str]:
    """A value in lines that aren't long: a text as it stands, and anything else as Python writes it."""
    text = value if isinstance(value, str) else pprint.pformat(value, width=WIDE)
    lines = text.split("\n")
    return [line[at : at + WIDE] for line in lines for at in range(0, len(line) or 1, WIDE)]


def difference(got: object, wanted: object) -> str:
    """What is expected and what is found; of long values the lines in which they differ."""
    if len(repr(wanted)) + len(repr(got)) <= BRIEF:
        return f"expected {wanted!r}\nbut got  {got!r}"
    names = ("expected", "got")
    lines = difflib.unified_diff(lines_of(wanted), lines_of(got), *names, lineterm="", n=1)
    return cut(list(lines)) or f"expected a {type(wanted)}, got a {type(got)}"


def places() -> str:
    """Where in a folder of tests/ the row is, as a traceback has it, which of a row of `Case` ends before it."""
    stack = traceback.extract_stack()
    own = [at for at in stack if os.sep in at.filename.removeprefix(OWN) != at.filename]
    return "".join(traceback.format_list(own)).rstrip()


@contextlib.contextmanager
def working_in(folder: str) -> Iterator[None]:
    """What `contextlib.chdir` is from Python 3.11 on."""
    before = os.getcwd()
    os.chdir(folder)
    try:
        yield
    finally:
        os.chdir(before)


class Contexts(unittest.TestCase):
    """What `unittest` has from Python 3.11 on."""

    if sys.version_info < (3, 11):

        def enterContext(self, context: AbstractContextManager[Value]) -> Value:
            entered = context.__enter__()
            self.addCleanup(context.__exit__, None, None, None)
            return entered

        @classmethod
        def enterClassContext(cls, context: AbstractContextManager[Value]) -> Value:
            entered = context.__enter__()
            cls.addClassCleanup(context.__exit__, None, None, None)
            return entered


class Case(Contexts):
    """A test is one row, or has rows: each is a `subTest`, and one that fails doesn't stop those after it."""

    # Whether a row that is good isn't counted.
    is_one_row = False

    def row(self, name: object, is_good: bool, say: Callable[[], str]) -> None:
        """A row, and what is said if it isn't good."""
        if is_good and self.is_one_row:
            return
        with self.subTest(name):
            if not is_good:
                self.fail(f"{name}\n{places()}\n{say()}")

    def note(self, name: object, good: object, what: object = "") -> None:
        """A row: whether it is good, and what is said if it isn't."""
        self.row(name, bool(good), lambda: cut(lines_of(what)))

    def same(self, name: object, got: object, wanted: object) -> None:
        """A row: what is found is what it has to be."""
        self.row(name, bool(got == wanted), lambda: difference(got, wanted))

    def refusal(self, name: object, done: tuple, status: int, said: object) -> None:
        """The row of a refusal: nothing is written, and this is said. `done` is the status and both outputs."""
        is_good = done[0] == status and not done[1] and said in done[2]
        wanted = f"expected status {status}, no output, and words with {said!r}"
        self.row(name, is_good, lambda: cut([wanted, *lines_of(done)]))

    @functools.cached_property
    def folder(self) -> str:
        """A folder of the test."""
        return self.enterContext(tempfile.TemporaryDirectory())

    def file(self, name, data, mode="wb"):
        """The path of a file in that folder, or elsewhere, with these bytes or this text; `ab` adds to its end."""
        path = os.path.join(self.folder, name)
        os.makedirs(os.path.dirname(path), exist_ok=True)
        with open(path, mode) as file:
            file.write(data if isinstance(data, bytes) else data.encode())
        return path


class FolderCase(Case):
    """A test whose folder is one for all tests of its class."""

    of_class: str

    @classmethod
    def setUpClass(cls) -> None:
        cls.of_class = cls.enterClassContext(tempfile.TemporaryDirectory())

    @functools.cached_property
    def folder(self) -> str:
        return self.of_class


class FilesCase(Case):
    """A test over many files is one row. If it fails, what is wrong with each file is a row."""

    is_one_row = True


def copied(tree, *parts):
    """Copies files and folders of the repository to another place."""
    os.makedirs(tree)
    for part in parts:
        path, to = os.path.join(TOP, part), os.path.join(tree, part)
        if os.path.isdir(path):
            shutil.copytree(path, to, symlinks=True, ignore=shutil.ignore_patterns("__pycache__"))
        else:
            shutil.copy(path, to)


def text(lines):
    """Bytes of a text in which '|' is a line feed."""
    return lines.replace("|", "\n").encode("latin-1")


def contents(*parts):
    """The bytes of a file, by its path in the repository or by a whole one."""
    with open(os.path.join(TOP, *parts), "rb") as file:
        return file.read()


def text_in(*parts):
    return contents(*parts).decode()


def examples():
    """The networks of examples/ by their names."""
    names = sorted(os.listdir(os.path.join(TOP, "examples")))
    return {name.removesuffix(".col"): example(name) for name in names if name.endswith(".col")}


def example(name):
    """The bytes of a file of examples/; a network may be named without its ending."""
    return contents("examples", name if "." in name else f"{name}.col")


def found_in(pattern: str, text: str, flags: int = 0) -> re.Match[str]:
    """Where a text has a pattern first; a text that hasn't fails the test."""
    found = re.search(pattern, text, flags)
    if found is None:
        raise AssertionError(f"there is no {pattern!r} in {text[:1000]!r}")
    return found


def written_by(process: subprocess.Popen[AnyStr]) -> IO[AnyStr]:
    """What a process writes to a pipe."""
    assert process.stdout is not None
    return process.stdout


def complaints_of(process: subprocess.Popen[AnyStr]) -> IO[AnyStr]:
    """What a process writes to a pipe on standard error."""
    assert process.stderr is not None
    return process.stderr


def remove(path: str) -> None:
    """Removes a file, if it is there."""
    with contextlib.suppress(FileNotFoundError):
        os.remove(path)


def tool_at(name: str) -> str:
    """Where a command is that has to be there."""
    path = shutil.which(name)
    if path is None:
        raise AssertionError(f"there is no {name}")
    return path


def called(path, *arguments, data=b"", limit=300, **streams):
    """The status and both outputs of a program with this standard input; a stream may be another one."""
    line = [path, *(word if isinstance(word, bytes) else str(word) for word in arguments)]
    given = {"input": data} if "stdin" not in streams else {}
    streams = {"stdout": subprocess.PIPE, "stderr": subprocess.PIPE} | streams
    done = subprocess.run(line, timeout=limit, **given, **streams)
    return done.returncode, done.stdout, done.stderr


def wait_until(what, limit, moment=0.02):
    """Whether it comes true before the limit."""
    end = time.monotonic() + limit
    while not what():
        if time.monotonic() > end:
            return False
        time.sleep(moment)
    return True


def is_running(process: int | str) -> bool:
    """Whether a process is there and hasn't ended. Where nobody collects it, as in a container whose first process is a
    test, it stays as a zombie."""
    try:
        return text_in(f"/proc/{process}/stat").rpartition(")")[2].split()[0] not in ("Z", "X")
    except (FileNotFoundError, ProcessLookupError):
        return False


def forestlab(*arguments, **more):
    """The same of a command of forestlab."""
    return called(FORESTLAB, *arguments, **more)


def said_by(*arguments, **more):
    """The same as texts."""
    status, out, errors = forestlab(*arguments, **more)
    return status, out.decode(), errors.decode()


def in_process(name, main, *arguments, data=b""):
    """The same of a command of forestlab, whose `main` is called in this process; how a process ends is for
    tests/programs/test_endings.py."""
    written, complained = io.BytesIO(), io.BytesIO()
    given, out, errors = (
        io.TextIOWrapper(raw, "utf-8", write_through=True)
        for raw in (io.BytesIO(data), written, complained)
    )
    is_collecting = gc.isenabled()
    with (
        unittest.mock.patch("sys.stdin", given),
        contextlib.redirect_stdout(out),
        contextlib.redirect_stderr(errors),
    ):
        try:
            status = main(list(map(str, arguments)))
        except SystemExit as ended:
            status = ended.code
        except (Fault, OSError) as why:
            status = 1
            said = f"{why.filename}: {why.strerror}" if isinstance(why, OSError) else why
            print(f"{name}: {said}", file=sys.stderr)
        finally:
            (gc.enable if is_collecting else gc.disable)()
    return status, written.getvalue(), complained.getvalue()
