"""Which tests enter which function of src/forestplan/, in any process that they start, as is seen while they run: so a
change needs only the tests that enter its function (tests/by_hand/trials.py)."""
import ast
import json
import os

from tests import TOP
from tests.by_hand.changes import Change
from tests.by_hand.copies import Row


# The seconds of a test that takes too long.
TOO_LONG = 100.0


def function_of(change: Change) -> str:
    """The function whose body a change is in, as WATCH of copies.py writes it; its module, if that is in none."""
    with open(os.path.join(TOP, change.file), "rb") as file:
        tree = ast.parse(file.read())
    begin = 0
    # Those that are inside come after those around.
    for node in ast.walk(tree):
        if isinstance(node, ast.FunctionDef):
            if node.body[0].lineno <= change.line <= (node.end_lineno or 0):
                begin = min(part.lineno for part in (node, *node.decorator_list))
    return f"{change.file}:{begin}"


class Entered:
    """By test, its seconds of processors and the functions that it enters; kept in a file, if one is named."""

    def __init__(self, path: str | None):
        self.path = path
        self.seconds: dict[str, float] = {}
        self.functions: dict[str, list[str]] = {}
        if path and os.path.exists(path):
            with open(path, encoding="utf-8") as file:
                self.seconds, self.functions = json.load(file)

    def save(self) -> None:
        if self.path:
            with open(self.path, "w", encoding="utf-8") as to:
                json.dump([self.seconds, self.functions], to)

    def keep(self, rows: list[Row]) -> None:
        """Keeps what tests that were good have entered."""
        for row in rows:
            if not row.is_skipped:
                self.seconds[row.name], self.functions[row.name] = row.busy, sorted(row.entered)

    def keep_long(self, row: Row) -> bool:
        """Whether a test took too long: what it has entered so far is kept."""
        if not row.is_ended:
            return False
        self.seconds[row.name] = TOO_LONG
        self.functions[row.name] = sorted(row.entered)
        return True

    def enters(self, name: str, function: str) -> bool:
        """Whether a test enters a function, or one of a module. What a module does as it is imported is seen only of
        the first test of a process that imports it.
        """
        file, _, line = function.rpartition(":")
        entered = self.functions[name]
        return (
            function in entered
            or line == "0"
            and any(one.startswith(f"{file}:") for one in entered)
        )
