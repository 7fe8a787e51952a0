"""Where the checkers of types are told to look away, and why: each `Any`, `cast` and `type: ignore` of Python, and each
`any` and `@ts-expect-error` of the pages' JavaScript. The list is whole, and it is to get shorter."""
import ast
import pathlib
import re

from tests import TOP
from tests.cases import FilesCase

FOLDERS = ("src", "build", "tests")
OPEN = ("Any", "cast")
# By the file: how many places it has, and the reason.
LOOSE = {
    "src/forestplan/networks/networkx_graph.py": (
        1,
        "what networkx keeps of a node, which has no hints",
    ),
    "src/forestplan/pictures/page/marks.js": (
        1,
        "which element has a name is said by the page, not by the browser",
    ),
    "src/forestplan/pictures/picture.py": (1, "the network of a picture that may have none"),
    "src/forestplan/interface/answers.py": (3, "a text or a property; a class of matplotlib"),
    "src/forestplan/interface/calls.py": (1, "a plan has nodes of any kind"),
    "src/forestplan/interface/graphs.py": (
        3,
        "a graph of networkx, igraph or a dictionary, with nodes of any kind",
    ),
    "src/forestplan/interface/sites.py": (2, "places have names of any kind"),
    "src/forestplan/studio/connections.py": (
        2,
        "an address and a place for bytes, as sockets have them",
    ),
    "src/forestplan/studio/page/address.js": (1, "the values of an address, each of its own type"),
    "src/forestplan/studio/page/draw.js": (
        1,
        "fields and menus, which the browser's types keep apart",
    ),
    "src/forestplan/studio/page/recorded.js": (1, "each call asks with fields of its own"),
    "src/forestplan/studio/page/recorded_address.js": (
        1,
        "the values of an address, each of its own type",
    ),
    "src/forestplan/studio/server.py": (2, "a request and an address, as socketserver has them"),
    "tests/by_hand/copies.py": (1, "a hook that a started process has, or none"),
    "tests/by_hand/same_bytes.py": (2, "which user runs a program, as subprocess takes it"),
    "tests/pages/test_published.py": (
        4,
        "recorded answers of all kinds; an example is always read, so it has a network",
    ),
    "tests/pages/test_reads.py": (1, "one method stands for three of a visitor"),
}


def loose_in_python(text: str) -> list[str]:
    """The words of a module by which a type is left open: as names, as `typing.Any` or imported by another name, and
    in hints that are written as texts."""
    found = []
    for node in ast.walk(ast.parse(text)):
        match node:
            case ast.Name(id=name) | ast.Attribute(attr=name) if name in OPEN:
                found.append(name)
            case ast.alias(name=name, asname=str()) if name in OPEN:
                found.append(name)
            case ast.AnnAssign(annotation=hint) | ast.arg(annotation=hint) | ast.FunctionDef(
                returns=hint
            ):
                found += names_in_text_of(hint)
    return [*found, *re.findall(r"# type:\s*ignore\b", text)]


def names_in_text_of(hint: ast.expr | None) -> list[str]:
    """The same words of the texts in a hint."""
    texts = (
        [node.value for node in ast.walk(hint) if isinstance(node, ast.Constant)] if hint else []
    )
    words = [word for text in texts if isinstance(text, str) for word in re.findall(r"\w+", text)]
    return [word for word in words if word in OPEN]


def loose_in_javascript(text: str) -> list[str]:
    comments = re.findall(r"/\*\*.*?\*/", text, re.S)
    return [
        *re.findall(r"@ts-expect-error", text),
        *(word for comment in comments for word in re.findall(r"\bany\b", comment)),
    ]


def loose_in_types(text: str) -> list[str]:
    code = re.sub(r"//.*", "", text)
    return re.findall(r"@ts-expect-error|: any\b|<any\b|\bany\[\]", code)


FINDERS = {".py": loose_in_python, ".js": loose_in_javascript, ".ts": loose_in_types}


class Loose(FilesCase):
    def test_found(self) -> None:
        """However it is written, an open type is found."""
        for text, count in (
            ("from typing import Any\nx: Any = 1", 1),
            ("import typing\nx: typing.Any = 1", 1),
            ("import typing as t\nx = t.cast(int, 1)", 1),
            ("from typing import Any as Other\nx: Other = 1", 1),
            ('def f(x: "list[Any]") -> "Any": ...', 2),
            ('x: "list[int]" = [] # type:{} ignore'.format(""), 1),
            ('x: object = "Any"', 0),
        ):
            self.same(text, len(loose_in_python(text)), count)

    def test_all_are_listed(self) -> None:
        found = {}
        for folder in FOLDERS:
            for path in sorted(pathlib.Path(TOP, folder).rglob("*.*")):
                if path.suffix in FINDERS:
                    count = len(FINDERS[path.suffix](path.read_text(encoding="utf-8")))
                    if count:
                        found[str(path.relative_to(TOP))] = count
        self.same("places", found, {file: count for file, (count, _) in LOOSE.items()})
