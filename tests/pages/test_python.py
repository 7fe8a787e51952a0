"""Checks the Python files by their text: the formatter, the linter and the checker of hints find
nothing, and no place is above the limits that the linter doesn't have.

- `black`, `flake8` and `mypy` have their settings in pyproject.toml and .flake8.
- A function has a complexity of at most 12: one, and one more for each branch, loop, condition,
  handler and further operand of `and` and `or`. A condition has at most four parts.
- No conditional expression is inside another one or inside an f-string, no comprehension has three
  loops, no text is multiplied by a truth, and nothing is changed inside a comprehension.
- A word is imported from the module that defines it.
- In the packages that are read as definitions, and those that read texts, each function that another
  module may call, and each method of a dataclass, has a hint for each parameter and its result."""

import ast
import pathlib
import subprocess

from tests import TOP
from tests.cases import FilesCase
from tests.tools import need

FOLDERS = ("src", "build", "tests", "bench", "examples")
HINTED = ("network.py", "definitions/", "transcripts/", "networks/", "schedules/")
# Here a statement gives one value to one name; in one line are swaps, whose values need the old ones, and these, which
# belong together: a node and its neighbour, what is across and what is up, the sides of a room, its width and height,
# and where something begins and ends.
ONE_A_LINE = ("src/", "build/")
TOGETHER = {
    *(
        "v w",
        "x y",
        "xs ys",
        "north east",
        "dx dy",
        "ex ey",
        "x1 y1",
        "x2 y2",
        "x1 x2",
        "across up",
        "across down",
    ),
    *(
        "left top",
        "left right",
        "top bottom",
        "right down",
        "left top right bottom",
        "x1 y1 x2 y2",
        "x1 y1 y2",
    ),
    *(
        "wide high",
        "width height",
        "self.width self.height",
        "columns rows",
        "begin end",
        "first last",
    ),
    *("tip_x tip_y", "end_x end_y", "back_x back_y", "PILL_WIDE PILL_HIGH", "WIDE HIGH"),
}
MOST_WAYS, MOST_PARTS, MOST_LOOPS = 12, 4, 2

FUNCTIONS = (ast.FunctionDef, ast.AsyncFunctionDef)
COMPREHENSIONS = (ast.ListComp, ast.SetComp, ast.DictComp, ast.GeneratorExp)
BRANCHES = (
    *(ast.If, ast.IfExp, ast.For, ast.While, ast.ExceptHandler),
    *(ast.comprehension, ast.Assert, ast.match_case),
)
# Methods that change what they are called on.
CHANGING = {"add", "append", "clear", "discard", "extend", "insert", "pop", "remove", "update"}


def files():
    """Each Python file, by its path from the top."""
    top = pathlib.Path(TOP)
    return [
        str(path.relative_to(top))
        for folder in FOLDERS
        for path in sorted((top / folder).rglob("*.py"))
    ]


def ways(function):
    """The cyclomatic complexity of a function's own body; functions inside of it count alone."""
    count, todo = 1, list(function.body)
    while todo:
        node = todo.pop()
        if isinstance(node, (*FUNCTIONS, ast.ClassDef)):
            continue
        if isinstance(node, BRANCHES):
            count += 1
        if isinstance(node, ast.comprehension):
            count += len(node.ifs)
        if isinstance(node, ast.BoolOp):
            count += len(node.values) - 1
        todo += ast.iter_child_nodes(node)
    return count


def parts(node):
    """How many operands an expression of `and`, `or` and `not` has in all."""
    if isinstance(node, ast.BoolOp):
        return sum(map(parts, node.values))
    if isinstance(node, ast.UnaryOp) and isinstance(node.op, ast.Not):
        return parts(node.operand)
    return 1


def has_inside(node, kind):
    return any(isinstance(below, kind) for below in ast.walk(node) if below is not node)


def is_text(node):
    return isinstance(node, ast.Constant) and isinstance(node.value, str)


def is_truth(node):
    if isinstance(node, ast.Call):
        return getattr(node.func, "id", "") in ("bool", "isinstance")
    is_negation = isinstance(node, ast.UnaryOp) and isinstance(node.op, ast.Not)
    return is_negation or isinstance(node, (ast.Compare, ast.BoolOp))


def is_text_times_truth(node):
    if not isinstance(node, ast.BinOp) or not isinstance(node.op, ast.Mult):
        return False
    sides = (node.left, node.right)
    return any(map(is_text, sides)) and any(map(is_truth, sides))


def is_change(node):
    return isinstance(node, ast.Call) and getattr(node.func, "attr", "") in CHANGING


def wrong_at(node):
    """What is above a limit at a place."""
    if isinstance(node, FUNCTIONS) and ways(node) > MOST_WAYS:
        yield f"complexity {ways(node)} of {node.name}"
    if isinstance(node, ast.BoolOp) and parts(node) > MOST_PARTS:
        yield f"a condition of {parts(node)} parts"
    if isinstance(node, (ast.IfExp, ast.FormattedValue)) and has_inside(node, ast.IfExp):
        yield "a conditional expression inside another or an f-string"
    if isinstance(node, COMPREHENSIONS) and len(node.generators) > MOST_LOOPS:
        yield f"a comprehension of {len(node.generators)} loops"
    if isinstance(node, COMPREHENSIONS) and any(map(is_change, ast.walk(node))):
        yield "a change inside a comprehension"
    if is_text_times_truth(node):
        yield "a text times a truth"


def names_of(tree):
    """The words that a module defines at its top, with those that it imports: (own, imported)."""
    own, imported = set(), set()
    for node in tree.body:
        if isinstance(node, (*FUNCTIONS, ast.ClassDef)):
            own.add(node.name)
        elif isinstance(node, ast.ImportFrom):
            imported |= {alias.asname or alias.name for alias in node.names}
        else:
            own |= set(assigned_in(node))
    return own, imported


def assigned_in(tree):
    """The names that are given a value somewhere in a tree."""
    for node in ast.walk(tree):
        if isinstance(node, ast.Name) and isinstance(node.ctx, ast.Store):
            yield node.id


def imports_of(tree):
    """(module, word) of each word that is imported from a module."""
    for node in ast.walk(tree):
        if isinstance(node, ast.ImportFrom) and node.module:
            for alias in node.names:
                yield node.module, alias.name


def hinted_of(tree):
    """The functions of a module that have to have hints."""
    for node in tree.body:
        if isinstance(node, FUNCTIONS):
            yield node
        elif isinstance(node, ast.ClassDef) and "dataclass" in map(called, node.decorator_list):
            yield from (inner for inner in node.body if isinstance(inner, FUNCTIONS))


def is_several(node):
    """Whether a statement gives several values to as many names, none of which a later value needs."""
    if not isinstance(node, ast.Assign) or not isinstance(node.value, ast.Tuple):
        return False
    if not isinstance(node.targets[0], ast.Tuple):
        return False
    names = [ast.unparse(name) for name in node.targets[0].elts]
    read = [{ast.unparse(part) for part in ast.walk(value)} for value in node.value.elts]
    needs = any(name in later for at, name in enumerate(names) for later in read[at + 1 :])
    return not needs and " ".join(names) not in TOGETHER


def called(decorator):
    return getattr(getattr(decorator, "func", decorator), "id", "")


def without_hint(function):
    """The parameters without a hint, and `return` if it has none for its result."""
    given = function.args
    parameters = [*given.posonlyargs, *given.args, *given.kwonlyargs]
    lacks = [one.arg for one in parameters if not one.annotation and one.arg not in ("self", "cls")]
    return lacks + ([] if function.returns else ["return"])


class Python(FilesCase):
    def run_clean(self, *arguments):
        need(self, arguments[0])
        done = subprocess.run(arguments, cwd=TOP, capture_output=True, text=True)
        self.note(" ".join(arguments), done.returncode == 0, done.stdout + done.stderr)

    def test_layout(self):
        self.run_clean("black", "--check", "--quiet", "--diff", ".")

    def test_linter(self):
        self.run_clean("flake8")

    def test_hints(self):
        self.run_clean("mypy", "--no-incremental")

    def test_hinted(self):
        for file in files():
            if file.removeprefix("src/forestplan/").startswith(HINTED):
                functions = hinted_of(ast.parse(pathlib.Path(TOP, file).read_text()))
                lacks = {one.name: without_hint(one) for one in functions}
                found = {name: what for name, what in lacks.items() if what}
                self.same(f"{file}: functions that lack hints", found, {})

    def test_limits(self):
        for file in files():
            tree = ast.parse(pathlib.Path(TOP, file).read_text())
            places = [
                f"{file}:{node.lineno}: {what}"
                for node in ast.walk(tree)
                for what in wrong_at(node)
            ]
            self.same(file, places, [])

    def test_one_assignment_a_line(self):
        for file in files():
            if file.startswith(ONE_A_LINE):
                tree = ast.parse(pathlib.Path(TOP, file).read_text())
                places = [f"{file}:{node.lineno}" for node in ast.walk(tree) if is_several(node)]
                self.same(f"{file}: several values in one line", places, [])

    def test_imports(self):
        trees = {
            file.removeprefix("src/")
            .removesuffix(".py")
            .removesuffix("/__init__")
            .replace("/", "."): ast.parse(pathlib.Path(TOP, file).read_text())
            for file in files()
        }
        names = {module: names_of(tree) for module, tree in trees.items()}
        for module, tree in trees.items():
            detours = [
                f"{word} from {origin}"
                for origin, word in imports_of(tree)
                if origin in names
                and word in names[origin][1] - names[origin][0]
                and f"{origin}.{word}" not in names
            ]
            self.same(f"{module}: words by a detour", detours, [])
