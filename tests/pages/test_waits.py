"""Checks which calls docs/claim/PROMISES.md says may not return, against the bounds of all functions of crates/.

The type of a function that may wait for other threads says so by the bound `Wait`. A function that is given a closure
returns only if the closure does, whatever its own bounds are.
"""
import re

from tests.cases import FilesCase, found_in, text_in
from tests.pages.statements import Function, functions
from tests.pages.test_pages import named_clauses

PAGE = "docs/claim/PROMISES.md"


def bounds_of(function: Function) -> set[str]:
    """The words of its head, and of the block that it is in."""
    return set(re.findall(r"\w+", function.owner + function.head))


class Waits(FilesCase):
    def listed(self, title: str) -> set[str]:
        """The functions that a paragraph of the page names."""
        said = found_in(rf"^- \*\*{title}\*\*(.*?)(?=^- \*\*|^#|\Z)", text_in(PAGE), re.M | re.S)[1]
        return {path for path, _ in named_clauses(said)}

    def test_calls_that_may_wait(self) -> None:
        every = functions()
        public = {one.path for one in every if one.public and "Wait" in bounds_of(one)}
        self.note("there are calls that may wait", len(public) > 20, public)
        self.same("calls that may not return", self.listed("Calls that may not return"), public)
        # What implements a function of a trait may do what the trait allows.
        names = {path.split("::")[-1] for path in public}
        for one in every:
            if "Wait" in bounds_of(one) and " for " in one.owner:
                self.note(f"{one.path} implements one of them", one.name in names, names)

    def test_calls_of_closures(self) -> None:
        found = {
            one.path
            for one in functions()
            if one.public and {"Fn", "FnMut", "FnOnce"} & bounds_of(one)
            if "Wait" not in bounds_of(one)
        }
        self.same(
            "calls that are given a closure", self.listed("Calls that are given a closure"), found
        )
