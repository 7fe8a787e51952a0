"""Changes of one place of a Python text, as a mistake would make them: a comparison turned, a number moved by one, a
returned value replaced, a line left out. tests/by_hand/mutants.py makes and tries them."""
import ast
import re
from collections.abc import Iterator
from dataclasses import dataclass

PAIRS = (
    *((ast.Eq, ast.NotEq), (ast.Lt, ast.GtE), (ast.Gt, ast.LtE)),
    *((ast.Is, ast.IsNot), (ast.In, ast.NotIn)),
)
TURNED = {one: other for pair in PAIRS for one, other in (pair, pair[::-1])}
# Values that nobody could call right or wrong: names and options of coordinates, sizes, colours and seconds.
LOOKS = re.compile(
    r"(?i)(^|_)(left|top|right|bottom|width|height|wide|high|gap|margin|size|font|colou?r|hue|fill|stroke|radius|dash"
    r"|opacity|x|y|x1|x2|y1|y2|dx|dy|r|room|scale|over|row|column|seconds|timeout|interval|poll_interval|moment|moments"
    r"|look|look_at_files|grace|sleep|limit|until|bold|ink|paper|spot|places?|level)$"
)
# Modules that draw: there a number counts only where it is an index, or is counted or compared with.
DRAWING = re.compile(r"src/forestplan/(pictures/|studio/drawn)")
COUNTING = {"range", "islice", "enumerate", "window_of"}
# Of a function with such a hint, what is returned instead of a value.
BY_HINT = {"bool": "not ({})", "int": "({}) + 1", "float": "({}) + 1"}
EMPTY = {"list": "[]", "dict": "{}", "set": "set()", "tuple": "()", "Iterator": "iter(())"}


@dataclass(frozen=True)
class Change:
    """A place of a file, as bytes from one to another, and what is put there."""

    file: str
    line: int
    begin: int
    end: int
    new: str
    # The lines of the place as they are, and as they become.
    before: str
    after: str

    @property
    def name(self) -> str:
        """It says what is changed, whatever line that stands in."""
        return f"{self.file}: `{self.before}` becomes `{self.after}`"

    @property
    def place(self) -> str:
        return f"{self.file}:{self.line}"

    def applied(self, data: bytes) -> bytes:
        return data[: self.begin] + self.new.encode() + data[self.end :]


def changed(file: str, data: bytes, line: int, begin: int, end: int, new: str) -> Change:
    """What puts a text in a place of a file, with the lines around it."""
    first, last = data.rfind(b"\n", 0, begin) + 1, data.find(b"\n", end)
    before, old, after = (
        part.decode() for part in (data[first:begin], data[begin:end], data[end:last])
    )
    lines = (" ".join(text.split()) for text in (before + old + after, before + new + after))
    return Change(file, line, begin, end, new, *lines)


def package_of(file: str) -> str:
    """`networks` of src/forestplan/networks/search_order.py; a module of no package is of `forestplan`."""
    folders = file.split("/")[2:-1]
    return folders[0] if folders else "forestplan"


class Changes(ast.NodeVisitor):
    """The changes of a file, in the order of its text. Sentences and constants of looks stay as they are."""

    def __init__(self, file: str, data: bytes):
        self.file, self.data = file, data
        self.starts = [0]
        for line in data.splitlines(keepends=True):
            self.starts.append(self.starts[-1] + len(line))
        self.found: list[Change] = []
        # The hint of the function around, whether a number there counts, and whether the place is of looks.
        self.hint = ""
        self.draws = bool(DRAWING.search(file))
        self.counts = not self.draws
        self.looks = False

    def add(self, node: ast.expr, new: str) -> None:
        if ast.unparse(ast.parse(new)) == ast.unparse(node):
            return
        begin = self.starts[node.lineno - 1] + node.col_offset
        end = self.starts[(node.end_lineno or node.lineno) - 1] + (node.end_col_offset or 0)
        self.found.append(changed(self.file, self.data, node.lineno, begin, end, new))

    def inside(self, node: ast.AST, counts: bool | None = None, looks: bool | None = None) -> None:
        """What is within a node, where numbers count or not, or are of looks."""
        before = self.counts, self.looks
        self.counts = self.counts if counts is None else counts
        self.looks = self.looks if looks is None else looks
        self.generic_visit(node)
        self.counts, self.looks = before

    def visit_FunctionDef(self, node: ast.FunctionDef) -> None:
        before, self.hint = self.hint, ast.unparse(node.returns) if node.returns else ""
        self.generic_visit(node)
        self.hint = before

    def visit_JoinedStr(self, node: ast.JoinedStr) -> None:
        """A sentence."""

    def visit_Assert(self, node: ast.Assert) -> None:
        """It says what holds anyway."""

    def visit_AnnAssign(self, node: ast.AnnAssign) -> None:
        if node.value:
            self.assigned([node.target], node.value)

    def visit_Assign(self, node: ast.Assign) -> None:
        self.assigned(node.targets, node.value)

    def assigned(self, targets: list[ast.expr], value: ast.expr) -> None:
        names = [ast.unparse(name) for target in targets for name in parts_of(target)]
        before = self.looks
        self.looks = self.looks or any(LOOKS.search(name.rpartition(".")[2]) for name in names)
        self.visit(value)
        self.looks = before

    def visit_keyword(self, node: ast.keyword) -> None:
        self.inside(node, looks=self.looks or bool(LOOKS.search(node.arg or "")))

    def visit_Call(self, node: ast.Call) -> None:
        name = ast.unparse(node.func).rpartition(".")[2]
        self.inside(node, self.counts or name in COUNTING, self.looks or bool(LOOKS.search(name)))

    def visit_BinOp(self, node: ast.BinOp) -> None:
        """In a drawing, what is added to a size is one."""
        self.inside(node, looks=self.looks or self.is_of_looks(node.left, node.right))

    def visit_Subscript(self, node: ast.Subscript) -> None:
        self.visit(node.value)
        before, self.counts = self.counts, True
        self.visit(node.slice)
        self.counts = before

    def visit_Compare(self, node: ast.Compare) -> None:
        if len(node.ops) == 1 and type(node.ops[0]) in TURNED:
            turned = ast.Compare(node.left, [TURNED[type(node.ops[0])]()], node.comparators)
            self.add(node, f"({ast.unparse(turned)})")
        looks = self.is_of_looks(node.left, *node.comparators)
        self.inside(node, counts=True, looks=self.looks or looks)

    def is_of_looks(self, *sides: ast.expr) -> bool:
        """Whether one of these is a size, in a module that draws."""
        names = (ast.unparse(side).rpartition(".")[2] for side in sides)
        return self.draws and any(map(LOOKS.search, names))

    def visit_Constant(self, node: ast.Constant) -> None:
        if type(node.value) is int and self.counts and not self.looks:
            self.add(node, f"{node.value + 1}")
            self.add(node, f"({node.value - 1})")

    def visit_Return(self, node: ast.Return) -> None:
        if node.value is not None and not is_sentence(node.value):
            self.add(node.value, instead_of(ast.unparse(node.value), node.value, self.hint))
        self.generic_visit(node)


def parts_of(target: ast.expr) -> list[ast.expr]:
    """The names of the left side of an assignment."""
    return target.elts if isinstance(target, ast.Tuple) else [target]


def is_sentence(value: ast.expr) -> bool:
    is_text = isinstance(value, ast.Constant) and isinstance(value.value, str)
    return is_text or isinstance(value, ast.JoinedStr)


def instead_of(text: str, value: ast.expr, hint: str) -> str:
    """What is returned instead of a value, by the hint of its function, or by what it is."""
    kind = hint.partition("[")[0]
    if kind in BY_HINT:
        return BY_HINT[kind].format(text)
    if kind in EMPTY:
        return EMPTY[kind]
    if isinstance(value, (ast.Compare, ast.BoolOp)) or text.startswith("not "):
        return f"not ({text})"
    if isinstance(value, ast.Constant) and value.value is None:
        return "0"
    return "None"


def changes_of(file: str, data: bytes) -> list[Change]:
    """All changes of a file."""
    visitor = Changes(file, data)
    visitor.visit(ast.parse(data))
    return visitor.found


def lines_left_out(node: ast.AST) -> Iterator[tuple[str, int, ast.AST]]:
    """(field, place, part) of each line of a function, a branch or a loop that can be left out."""
    if isinstance(node, (ast.FunctionDef, ast.If, ast.For, ast.While)):
        for field in ("body", "orelse"):
            for at, line in enumerate(getattr(node, field, [])):
                if not isinstance(line, ast.Expr) or isinstance(line.value, ast.Call):
                    yield field, at, ast.Pass()
