"""Functions and classes of src/forestplan/ that have one name in several modules: each is in a list with its reason."""
import ast
import collections
import pathlib
import pprint
import re

from tests import TOP
from tests.cases import Case

OF_LIBRARY = "that of `import forestplan` has a user's own nodes, and a name that `__all__` fixes"
# In how many modules each of them is defined, and why it may be.
SEVERAL = {
    "main": (14, "what a command begins with: takes its words and returns its status"),
    "command_line": (10, "the parser of a command's words, which the help texts are made from"),
    "Entry": (2, OF_LIBRARY),
    "Message": (2, f"{OF_LIBRARY}; here it has sender and receiver, there it is what a link holds"),
    "Pulse": (2, OF_LIBRARY),
}
# What a function of a common name takes and returns, wherever it is defined.
COMMON = {
    "main": {"(arguments: list[str]) -> int", "() -> int"},
    "command_line": {"() -> ArgumentParser", "() -> argparse.ArgumentParser", "() -> Parser"},
}
# The files that may speak of a vertex: they read or write lines and options of the proved programs, or name such lines.
OF_VERTICES = {
    "networks/codes.py": "the one place that makes a node of a vertex",
    "networks/command_line.py": "the help text has such a line",
    "networks/network.py": "the fault has such a line",
    "networks/verdicts.py": "reads such lines",
    "pictures/picture.py": "the option --vertex",
    "studio/judges.py": "makes verdicts as the programs do",
    "studio/recording.py": "makes verdicts as the programs do",
}


def defined() -> dict[str, set[str]]:
    """The modules of each name of a function or a class at the top of a module."""
    found = collections.defaultdict(set)
    for path in pathlib.Path(TOP, "src").rglob("*.py"):
        for node in ast.parse(path.read_text(encoding="utf-8")).body:
            if isinstance(node, (ast.FunctionDef, ast.AsyncFunctionDef, ast.ClassDef)):
                # Forms of one function of functools.singledispatch are called `_`.
                if node.name == "_":
                    continue
                found[node.name].add(str(path.relative_to(TOP)))
    return found


class Names(Case):
    def test_one_name_for_one_thing(self) -> None:
        found = defined()
        counts = {name: len(modules) for name, modules in found.items() if len(modules) > 1}
        several = {name: count for name, (count, _) in SEVERAL.items()}
        new = {name: found[name] for name in counts if counts[name] > several.get(name, 1)}
        self.note("a name that another module has, too", not new, pprint.pformat(new))
        gone = {name: count for name, count in several.items() if counts.get(name, 1) < count}
        self.same("what is in the list is there", gone, {})

    def test_a_common_name_has_a_common_type(self) -> None:
        for path in pathlib.Path(TOP, "src").rglob("*.py"):
            for node in ast.parse(path.read_text(encoding="utf-8")).body:
                if isinstance(node, ast.FunctionDef) and node.name in COMMON and node.returns:
                    typed = f"({ast.unparse(node.args)}) -> {ast.unparse(node.returns)}"
                    self.note(f"{path.name}: {node.name}", typed in COMMON[node.name], typed)

    def test_a_vertex_is_a_node(self) -> None:
        """Python and JavaScript say node; lines, options and text formats of the proved programs keep their word."""
        folder = pathlib.Path(TOP, "src", "forestplan")
        found = {
            str(path.relative_to(folder))
            for ending in ("py", "js", "ts", "html")
            for path in folder.rglob(f"*.{ending}")
            if re.search(r"(?i)vert(ex|ices)", path.read_text(encoding="utf-8"))
        }
        self.same("files that speak of a vertex", found, {*OF_VERTICES})
