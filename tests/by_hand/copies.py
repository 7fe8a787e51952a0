"""Copies of the tree, in which Python may be changed and tests run (tests/by_hand/mutants.py).

Each call is a process in a namespace of its own, since what is changed may end any process that it sees."""
import contextlib
import dataclasses
import faulthandler
import json
import os
import shutil
import subprocess
import sys
import threading
import unittest
from collections import defaultdict
from collections.abc import Iterator, Mapping
from dataclasses import dataclass
from typing import Any

from tests import TOP
from tests.by_hand.changes import Change
from tests.settings import BUILT, NAMED

# A change may loop without an end, so a test ends once it and what it has started have taken so many seconds of
# processors, and after so many seconds: so many, and for each second of processors that it is known to take so many
# more, up to a most. A test of which nothing is known yet may take so many, or else it is asked after all others.
BUSY, BUSY_MORE, MOST_BUSY, UNKNOWN_BUSY = 5, 5, 60, 10
LONG, LONG_MORE, LONGEST = 30, 30, 300
# How often it is looked at, in seconds.
MOMENT = 0.5
# The time of the first file that is written, which an archive can keep.
FIRST_TIME = 1_000_000_000
# What a copy doesn't need.
LEFT_OUT = shutil.ignore_patterns(".git", "out", "__pycache__", "shared")
# This stands at the end of INIT, and so in each process that imports the package: it writes the file and first line of
# each function into a pipe when the function is first entered. The line of a module is 0. It needs no right to write
# files, but in a sandbox that hides the pipe nothing is seen. For a test of which this is known the pipe isn't there.
INIT = "src/forestplan/__init__.py"
WATCH = """
def _watch(path):
    import os, sys, threading
    seen = {{}}
    def note(frame, *_):
        code = frame.f_code
        if id(code) in seen:
            return
        seen[id(code)] = code
        _, is_own, file = code.co_filename.rpartition("/forestplan/")
        if is_own:
            line = 0 if code.co_name == "<module>" else code.co_firstlineno
            try:
                to = os.open(path, os.O_WRONLY)
                os.write(to, f"src/forestplan/{{file}}:{{line}}\\n".encode())
                os.close(to)
            except OSError:
                pass
    frame = sys._getframe()
    while frame:
        note(frame)
        frame = frame.f_back
    if os.path.exists(path):
        threading.settrace(note)
        sys.settrace(note)
    return seen, note
_watched = _watch({path!r})
"""
# A process sees only itself and what it starts, and all of them end with it.
ALONE = ("unshare", "--pid", "--fork", "--kill-child", "--mount-proc")


@dataclass
class Row:
    """What came out of a test, the seconds of processors that it took, and the functions that it was seen to enter."""

    name: str
    busy: float
    is_good: bool
    is_skipped: bool
    entered: frozenset[str] = frozenset()
    # Its process ended before it did.
    is_ended: bool = False


class Copy:
    """A copy of the tree in a room, with what is compiled and what is left over of its own."""

    def __init__(self, room: str):
        self.tree, self.rows, self.tmp, self.compiled, self.entered = (
            os.path.join(room, name) for name in ("tree", "rows", "tmp", "compiled", "entered")
        )
        self.written = FIRST_TIME
        # What is changed, as it was before.
        self.before: dict[str, bytes] = {}
        shutil.copytree(TOP, self.tree, symlinks=True, ignore=LEFT_OUT)
        self.put_programs()
        os.mkfifo(self.entered)
        os.chmod(self.entered, 0o666)
        with open(os.path.join(self.tree, INIT), "ab") as file:
            file.write(WATCH.format(path=self.entered).encode())

    def put_programs(self) -> None:
        """The programs that the settings name, as if they were built from the sources."""
        for name in filter(NAMED.get, NAMED):
            to = os.path.join(self.tree, "crates", name, "out", name)
            os.makedirs(os.path.dirname(to))
            shutil.copy(BUILT[name], to)
            arguments = [sys.executable, "build", "program"]
            said = subprocess.check_output(
                [*arguments, "--sources", name], cwd=self.tree, text=True
            )
            subprocess.run(
                [*arguments, "--made-from", said.strip(), name], cwd=self.tree, check=True
            )

    def write(self, file: str, data: bytes) -> None:
        """Writes a file, each time with another time, so that what was compiled of it is compiled again."""
        path = os.path.join(self.tree, file)
        with open(path, "wb") as to:
            to.write(data)
        self.written += 1
        os.utime(path, (self.written, self.written))

    def change(self, change: Change) -> None:
        with open(os.path.join(self.tree, change.file), "rb") as file:
            data = self.before[change.file] = file.read()
        self.write(change.file, change.applied(data))

    def restore(self) -> None:
        """Puts everything back as it was."""
        for file, data in self.before.items():
            self.write(file, data)
        self.before.clear()

    def called(
        self, names: list[str], seconds: float, known: Mapping[str, float]
    ) -> tuple[list[Row], bool]:
        """The rows of tests up to the first that fails, and whether that is where the time was up: none begins after
        so many seconds of processors. What known tests enter, by the seconds that each takes, isn't watched.
        """
        asked = {"names": names, "seconds": seconds, "rows": self.rows, "pipe": self.entered}
        asked["known"] = {name: known[name] for name in names if name in known}
        for folder in (self.tmp, self.compiled):
            os.makedirs(folder, exist_ok=True)
            os.chmod(folder, 0o1777)
        # Whether the programs are built needn't be found out again.
        is_built = {"TESTS_BUILT": " ".join(filter(NAMED.get, NAMED))}
        own = {"TMPDIR": self.tmp, "PYTHONPYCACHEPREFIX": self.compiled} | is_built
        with open(self.rows, "w", encoding="utf-8"):
            pass
        process = subprocess.Popen(
            [*ALONE, sys.executable, "-m", "tests.by_hand.copies"],
            cwd=self.tree,
            env=os.environ | own,
            stdin=subprocess.PIPE,
            stdout=subprocess.DEVNULL,
            stderr=subprocess.DEVNULL,
            start_new_session=True,
        )
        if os.path.exists(f"{self.entered}.off"):
            os.rename(f"{self.entered}.off", self.entered)
        # It is open for both ways, so it has no end before the empty line.
        pipe = os.open(self.entered, os.O_RDWR)
        with open(pipe, "rb") as lines:
            said: list[bytes] = []
            reader = threading.Thread(target=lambda: said.extend(iter(lines.readline, b"\n")))
            reader.start()
            try:
                process.communicate(json.dumps(asked).encode())
            finally:
                process.kill()
                process.wait()
                os.write(pipe, b"\n")
                reader.join()
                shutil.rmtree(self.tmp, ignore_errors=True)
        return self.rows_of(names, by_test(said))

    def rows_of(self, names: list[str], entered: dict[str, set[str]]) -> tuple[list[Row], bool]:
        """The rows that were written, and one of a test that ended its process; and whether the time was up."""
        with open(self.rows, encoding="utf-8") as file:
            rows = [json.loads(line) for line in file if line.endswith("\n")]
        found = [Row(**row, entered=frozenset(entered[row["name"]])) for row in rows if row]
        at = len(found)
        if {} not in rows and at < len(names) and all(row.is_good for row in found):
            found.append(Row(names[at], 0, False, False, frozenset(entered[names[at]]), True))
        return found, {} in rows


def by_test(lines: list[bytes]) -> dict[str, set[str]]:
    """The functions by the test that enters them: its name stands before them, after a `=`."""
    found: dict[str, set[str]] = defaultdict(set)
    name = ""
    for line in (line.decode().strip() for line in lines):
        if line.startswith("="):
            name = line[1:]
        else:
            found[name].add(line)
    return found


# In the process of a copy.


def tests_in(suite: unittest.TestSuite) -> Iterator[unittest.TestCase]:
    """The tests of a suite, and of those in it."""
    for test in suite:
        if isinstance(test, unittest.TestSuite):
            yield from tests_in(test)
        elif isinstance(test, unittest.TestCase):
            yield test


def processor_seconds() -> float:
    """Of this process and of those that it has waited for."""
    return sum(os.times()[:4])


def seconds_of_all() -> float:
    """The seconds of processors of all processes that are seen here, with those that they have waited for."""
    ticks = 0
    for name in filter(str.isdecimal, os.listdir("/proc")):
        with contextlib.suppress(OSError):
            with open(f"/proc/{name}/stat", "rb") as file:
                ticks += sum(map(int, file.read().rpartition(b")")[2].split()[11:15]))
    return ticks / os.sysconf("SC_CLK_TCK")


def end_after(most: float, is_over: threading.Event) -> None:
    """Ends this process, and with it all that it has started, if these take so many seconds of processors."""
    begin = seconds_of_all()
    while not is_over.wait(MOMENT):
        if seconds_of_all() - begin > most:
            os._exit(1)


def row_of(name: str, seconds: float | None) -> Row:
    """Runs a test, which takes so many seconds if that is known, up to its first row that fails."""
    most = UNKNOWN_BUSY if seconds is None else min(MOST_BUSY, BUSY + BUSY_MORE * seconds)
    longest = LONGEST if seconds is None else min(LONGEST, LONG + LONG_MORE * seconds)
    faulthandler.dump_traceback_later(longest, exit=True)
    is_over = threading.Event()
    threading.Thread(target=end_after, args=(most, is_over), daemon=True).start()
    busy, result = processor_seconds(), unittest.TestResult()
    result.failfast = True
    unittest.defaultTestLoader.loadTestsFromNames([f"tests.{name}"]).run(result)
    is_over.set()
    is_skipped = result.testsRun == 0 or bool(result.skipped)
    return Row(name, processor_seconds() - busy, result.wasSuccessful(), is_skipped)


def watch(pipe: str, is_on: bool) -> None:
    """Whether it is watched what this process enters, and those that begin."""
    names = f"{pipe}.off", pipe
    if os.path.exists(pipe) != is_on:
        os.rename(names[not is_on], names[is_on])
    seen, note = getattr(sys.modules.get("forestplan"), "_watched", ({}, None))
    # What this process has entered before is entered again.
    seen.clear()
    hook: Any = note if is_on else None
    threading.settrace(hook)
    sys.settrace(hook)


def run(names: list[str], seconds: float, rows: str, pipe: str, known: dict[str, float]) -> None:
    """Runs tests, and writes a row for each, up to the first that fails, and an empty one if the time is up. The names
    of those that aren't known go into the pipe, too."""
    with open(rows, "a", encoding="utf-8") as file:
        for name in names:
            watch(pipe, name not in known)
            if name not in known:
                with open(pipe, "w", encoding="utf-8") as to:
                    to.write(f"={name}\n")
            row = dataclasses.asdict(row_of(name, known.get(name)))
            del row["entered"]
            file.write(json.dumps(row) + "\n")
            file.flush()
            if not row["is_good"]:
                return
            if processor_seconds() > seconds:
                file.write("{}\n")
                return


if __name__ == "__main__":
    run(**json.load(sys.stdin))
