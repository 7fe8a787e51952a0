"""Tests of what runs the tests: what a failure prints, what is counted, and what happens without the built programs."""
import contextlib
import io
import os
import sys
import unittest

from tests import TOP
from tests.cases import MOST_LINES, Case, FilesCase, called
from tests.running import Rows


def failing() -> Case:
    """A test with a row that is good, and one of each kind that isn't."""

    class Samples(Case):
        def runTest(self) -> None:
            self.same("equal", 1, 1)
            self.same("short", [1, 2], [1, 3])
            self.same("long", list(range(0, 4000, 2)), list(range(0, 4000, 3)))
            self.same("a line feed", "a" * 300 + "\n", "a" * 300)
            self.note("noted", False, "why")
            self.refusal("refused", (0, b"out", b""), 1, b"no")

    return Samples()


def over_files(wrong: str) -> FilesCase:
    """A test over three files, of which one may be wrong."""

    class Files(FilesCase):
        def runTest(self) -> None:
            for name in ("a", "b", "c"):
                self.note(name, name != wrong, f"it is {wrong}")

    return Files()


def outcome(*tests: unittest.TestCase) -> tuple[int, int, str]:
    """How many rows passed and failed, and what is printed."""
    said = io.StringIO()
    with contextlib.redirect_stdout(said):
        result = Rows()
        unittest.TestSuite(tests).run(result)
        result.tell()
    return result.passed, result.failed, said.getvalue()


class Running(Case):
    def test_a_failure(self) -> None:
        """It has the row, the file and the line, what was expected, and the difference; a long one is cut."""
        passed, failed, said = outcome(failing())
        self.same("rows", (passed, failed), (1, 5))
        parts = dict(
            zip(("short", "long", "a line feed", "noted", "refused"), said.split("FAIL: ")[1:])
        )
        with open(__file__, encoding="utf-8") as file:
            lines = file.read().split("\n")
        for name, part in parts.items():
            at = next(at for at, line in enumerate(lines, 1) if f'("{name}"' in line)
            self.note(f"{name}: its line", f'{__file__}", line {at}, in runTest' in part, part)
        self.note(
            "expected", "expected [1, 3]\nbut got  [1, 2]\n" in parts["short"], parts["short"]
        )
        long = parts["long"]
        self.note("a difference", "- 3,\n" in long and "+ 2,\n" in long, long)
        self.note("it is cut", " more lines\n" in long and long.count("\n") < MOST_LINES + 20, long)
        self.note("a line feed", "\n+\n" in parts["a line feed"], parts["a line feed"])
        self.note("why", "\nwhy\n" in parts["noted"], parts["noted"])
        self.note("the refusal", "expected status 1" in parts["refused"], parts["refused"])

    def test_files(self) -> None:
        """A test over many files is one row; if it fails, so is each file that is wrong."""
        self.same("good", outcome(over_files("none")), (1, 0, ""))
        passed, failed, said = outcome(over_files("b"))
        self.same("one is wrong", (passed, failed), (0, 1))
        self.note("it is named", "[b]" in said and "it is b" in said, said)

    def test_without_programs(self) -> None:
        """What needs one is named and didn't run, and nothing fails; with --built nothing runs."""
        there = dict(os.environ, TESTS_PLAN="/nowhere/plan", TESTS_PLAY="/nowhere/play")
        arguments = [sys.executable, "-m", "tests", "programs.test_events", "programs.test_codes"]
        status, out, _ = called(*arguments, cwd=TOP, env=there)
        lines = out.decode().splitlines()
        lack = "isn't built, and these tests didn't run:"
        self.same(
            "what didn't run",
            [line for line in lines if lack in line],
            [
                f"forestplan {lack} programs.test_codes.Faults.test_what_the_programs_report",
                f"forestplay {lack} programs.test_events.Events.test_worked",
            ],
        )
        self.note("the rest is good", status == 0 and lines[-1].endswith(" passed, 0 failed"), out)
        done = called(*arguments, "--built", cwd=TOP, env=there)
        self.refusal("--built", done, 2, b"not built from these sources: forestplan, forestplay")
