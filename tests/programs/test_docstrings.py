"""The docstrings of src/forestplan/: each example is run, each module stands in the map of its package, and in a
package that is used as a library each function that other modules import has an example."""
import ast
import doctest
import importlib
import pathlib
import re

from tests import TOP
from tests.cases import FilesCase

# Those that `help("forestplan")` names, in the order in which they import each other; the last one is the whole.
ALL_PACKAGES = (
    *(
        "forestplan.definitions",
        "forestplan.networks",
        "forestplan.transcripts",
        "forestplan.schedules",
        "forestplan.pictures",
    ),
    *("forestplan.interface", "forestplan.workshop", "forestplan.studio", "forestplan"),
)
# Those whose functions each have an example.
PACKAGES = ("forestplan.networks",)
# Its examples call the built programs; test_in_python.py runs them.
OF_PROGRAMS = {"forestplan.interface.calls"}
# A line of a map: a module or a package, and what it has.
MAPPED = re.compile(r"^    (\w+)  +\S", re.M)
# What the command line is made of: it adds options to a parser, writes, or calls networkx, and the tests of the
# commands call it.
OF_COMMANDS = {
    *("add_form", "add_stated", "channels_asked", "command_line", "facts", "from_graph6", "main"),
    "warnings",
}


def modules_of(package: str) -> list[str]:
    paths = pathlib.Path(TOP, "src", *package.split(".")).glob("*.py")
    return [f"{package}.{path.stem}" for path in sorted(paths) if not path.stem.startswith("__")]


def is_shown(module: str) -> bool:
    """Whether a module's text has an example."""
    path = pathlib.Path(TOP, "src", *module.split("."))
    file = path / "__init__.py" if path.is_dir() else path.with_suffix(".py")
    return ">>> " in file.read_text(encoding="utf-8")


def imported() -> set[tuple[str, str]]:
    """(module, name) of what a module of src/forestplan/ imports from another one."""
    found = set()
    for path in pathlib.Path(TOP, "src").rglob("*.py"):
        for node in ast.walk(ast.parse(path.read_text(encoding="utf-8"))):
            if isinstance(node, ast.ImportFrom):
                found |= {(node.module or "", alias.name) for alias in node.names}
    return found


def without_example(module: str, names: set[str]) -> list[str]:
    """The functions of these names in a module whose docstring has no example."""
    path = pathlib.Path(TOP, "src", *module.split(".")).with_suffix(".py")
    return [
        f"{module}.{node.name}"
        for node in ast.parse(path.read_text(encoding="utf-8")).body
        if isinstance(node, ast.FunctionDef)
        and node.name in names - OF_COMMANDS
        and ">>>" not in (ast.get_docstring(node) or "")
    ]


class Docstrings(FilesCase):
    def test_examples(self) -> None:
        for package in ALL_PACKAGES:
            for module in filter(is_shown, {package, *modules_of(package)} - OF_PROGRAMS):
                done = doctest.testmod(importlib.import_module(module))
                self.same(f"examples of {module} that fail", done.failed, 0)

    def test_each_package_has_one(self) -> None:
        """A stranger who asks for help on a package finds something to type."""
        for package in ALL_PACKAGES:
            self.note(package, is_shown(package), "has no example")

    def test_maps(self) -> None:
        """The docstring of a package has a line for each of its modules, and `forestplan` for each of its packages."""
        for package in ALL_PACKAGES:
            mapped = MAPPED.findall(importlib.import_module(package).__doc__ or "")
            parts = [module.rpartition(".")[2] for module in modules_of(package)]
            if package == "forestplan":
                parts += [
                    other.rpartition(".")[2] for other in ALL_PACKAGES if other != "forestplan"
                ]
            self.same(f"what the map of {package} has", sorted(mapped), sorted(parts))

    def test_each_has_one(self) -> None:
        known = imported()
        for package in PACKAGES:
            lacking = [
                name
                for module in modules_of(package)
                for name in without_example(module, {own for at, own in known if at == module})
            ]
            self.same(f"{package}: functions without an example", lacking, [])
