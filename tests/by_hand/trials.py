"""Tries changes of src/forestplan/ in copies of the tree (tests/by_hand/copies.py), some at a time, each by the tests
that enter its function (tests/by_hand/entered.py)."""
import math
import os
import queue
import time
import unittest
from collections import defaultdict
from collections.abc import Callable
from concurrent.futures import ThreadPoolExecutor
from dataclasses import dataclass
from typing import TypeVar

from tests import TOP
from tests.by_hand.changes import Change
from tests.by_hand.copies import Copy, tests_in
from tests.by_hand.entered import TOO_LONG, Entered, function_of

Value = TypeVar("Value")

# The folders whose tests are asked, and what of pages/ needs no browser.
FOLDERS = ("programs", "pictures", "workshop")
WITHOUT_BROWSER = (
    *("index", "studio_lessons.Judged", "studio_lessons.Table", "studio_opening.Modules"),
    *("published.Folder", "studio_sentences"),
)


@dataclass(frozen=True)
class Outcome:
    """What came of a change: the test that noticed it, if one did; how many tests were asked, and whether all were; the
    seconds of processors; and whether a test enters its function."""

    by: str
    tests: int
    is_whole: bool
    seconds: float
    is_entered: bool


def tests_by_module() -> list[list[str]]:
    """The names of the tests that are asked, of a module each."""
    found = defaultdict(list)
    for folder in (*FOLDERS, "pages"):
        path = os.path.join(TOP, "tests", folder)
        for test in tests_in(unittest.TestLoader().discover(path, "test_*.py", TOP)):
            name = test.id().removeprefix("tests.")
            of_pages = name.removeprefix("pages.test_")
            if folder != "pages" or any(
                f"{of_pages}.".startswith(f"{own}.") for own in WITHOUT_BROWSER
            ):
                found[".".join(name.split(".")[:2])].append(name)
    return list(found.values())


class Trial:
    """Tries changes until a time, each by tests that take so many seconds of processors."""

    def __init__(self, room: str, jobs: int, until: float, seconds: float, entered: Entered):
        self.until, self.seconds, self.entered = until, seconds, entered
        self.free: queue.Queue[Copy] = queue.Queue()
        self.jobs = jobs
        for number in range(jobs):
            self.free.put(Copy(os.path.join(room, str(number))))
        # The tests that fail without a change.
        self.bad: set[str] = set()

    def run(self, changes: list[Change], tell: Callable[[Change, Outcome], None]) -> None:
        self.in_copies(
            changes, lambda own, change: tell(change, self.outcome(own, change)), self.until
        )

    def in_copies(
        self, values: list[Value], used: Callable[[Copy, Value], None], until: float = math.inf
    ) -> None:
        """Uses each value in a copy that is free, some at a time, and begins none after a time."""
        is_over = False

        def taken(value: Value) -> None:
            if not is_over and time.monotonic() < until:
                own = self.free.get()
                try:
                    used(own, value)
                finally:
                    self.free.put(own)

        with ThreadPoolExecutor(self.jobs) as pool:
            try:
                list(pool.map(taken, values))
            except BaseException:
                is_over = True
                pool.shutdown(wait=False, cancel_futures=True)
                raise
            finally:
                self.entered.save()

    def learn(self, tell: Callable[[str], None]) -> None:
        """Runs the tests that aren't known as the tree is, to see what each enters and how long it takes, and tells
        which fail: a change isn't tried by those."""

        def learned(own: Copy, names: list[str]) -> None:
            while names:
                rows, _ = own.called(names, math.inf, {})
                self.entered.keep([row for row in rows if row.is_good])
                if not rows[-1].is_good and not self.entered.keep_long(rows[-1]):
                    tell(rows[-1].name)
                names = names[len(rows) :]

        known = self.entered.functions
        unknown = [[name for name in names if name not in known] for names in tests_by_module()]
        self.in_copies(list(filter(None, unknown)), learned)

    def asked(self, change: Change) -> tuple[list[str], bool]:
        """The tests that enter the function of a change, the shortest first. Where none was seen to, those that enter
        its module, since a sandbox shows nothing of what is entered in it; and whether one was.
        """
        known, function = self.entered.seconds, function_of(change)
        names = [name for name in known if self.entered.enters(name, function)]
        others = [name for name in known if self.entered.enters(name, f"{change.file}:0")]
        asked = [name for name in names or others if name not in self.bad]
        return sorted(asked, key=known.__getitem__), bool(names)

    def outcome(self, own: Copy, change: Change) -> Outcome:
        """What notices a change: a test that fails with it, twice, and not without it."""
        spent, count = 0.0, 0
        names, is_entered = self.asked(change)
        while names and spent < self.seconds:
            own.change(change)
            try:
                rows, is_late = own.called(names, self.seconds - spent, self.entered.seconds)
            finally:
                own.restore()
            spent += sum(row.busy for row in rows)
            count += len(rows)
            good = sum(row.is_good for row in rows)
            if is_late or good == len(names):
                return Outcome("", count, not is_late, spent, is_entered)
            if self.is_sure(own, change, names[good]):
                return Outcome(names[good], count, True, spent, True)
            names = names[good + 1 :]
        return Outcome("", count, not names, spent, is_entered)

    def is_sure(self, own: Copy, change: Change, name: str) -> bool:
        """Whether a test that failed fails again, and one of which that isn't known is good without the change. On a
        machine that does other things a test may fail because it waits for a time, and notices nothing.
        """
        if self.entered.seconds[name] == TOO_LONG and not self.is_good(own, name):
            self.bad.add(name)
            return False
        own.change(change)
        try:
            return not self.is_good(own, name)
        finally:
            own.restore()

    def is_good(self, own: Copy, name: str) -> bool:
        """Whether a test is good in a copy."""
        rows, _ = own.called([name], math.inf, self.entered.seconds)
        return rows[0].is_good
