"""What the packages of src/forestplan/ offer to a Python prompt: the names of their `__all__`. Each is a function, a
class or a value that `help` on the package shows, and each function and class says in its docstring what it does, what
goes in, what it raises, and has an example that test_docstrings.py runs."""
import ast
import dataclasses
import enum
import importlib
import inspect
import pathlib
import pydoc
import re
import subprocess
import sys
import textwrap
from collections.abc import Callable, Iterator
from dataclasses import replace
from types import FunctionType, ModuleType

from forestplan import pictures, schedules
from forestplan.definitions.matching import MATCHING
from forestplan.definitions.nodes import COLOURING
from forestplan.network import Network
from tests import TOP
from tests.cases import Case

# By the package, what it offers.
PUBLIC = {
    "networks": (
        "KINDS Network NetworkKind clashes complete dimacs_text disk grid most_payloads network_at path queen "
        "random_network read_network read_plan renumbered ring smaller star tree"
    ),
    "definitions": (
        "ColouringRounds Entry Event Kind Message NetState PROGRAMS Payload Program RoundsNode ack "
        "alpha_start last_pulse plan_text program_at rounds_text safe synchronous_pulses "
        "synchronous_run"
    ),
    "transcripts": (
        "Clock Head JudgedRun WrongEntry json_lines as_rounds as_shiviz entries_of entry_text transcript_in_order "
        "line_of transcript_read whole_run"
    ),
    "schedules": (
        "AlphaSpace Extent POLICIES Policy Step Stepwise events_of extent_of played ruled "
        "text_of_run"
    ),
    "pictures": "KINDS PictureKind channel_hue drawing",
    "workshop": "Case CasePlayer Finding cases_of forms_of own_data parsed",
}
# Of `import forestplan` itself, whose names test_in_python.py lists; the notebook has the examples of what needs the
# proved programs.
OF_PROGRAMS = {"check", "plan", "rounds", "transcript"}
# What a class has without having written it.
GIVEN = set(dir(object)) | set(dir(enum.Enum)) | set(dir(tuple)) | set(dir(Exception)) | {"args"}


def public(package: str) -> Iterator[tuple[str, object]]:
    """(name, what it is) of what a package offers."""
    module = importlib.import_module(f"forestplan.{package}" if package else "forestplan")
    for name in module.__all__:
        yield name, getattr(module, name)


def things() -> Iterator[tuple[str, object]]:
    """The same of the functions and classes of all packages."""
    for package in ("", *PUBLIC):
        for name, what in public(package):
            if inspect.isroutine(what) or inspect.isclass(what):
                yield f"{package}.{name}".lstrip("."), what


def parameters(what: object) -> list[str]:
    """What a caller gives to a function, or to a class that isn't a list of words."""
    if inspect.isclass(what) and issubclass(what, (enum.Enum, Exception)):
        return []
    if getattr(what, "_is_protocol", False):
        return []
    if dataclasses.is_dataclass(what):
        return [field.name for field in dataclasses.fields(what) if field.init]
    if inspect.isclass(what) and issubclass(what, (dict, list)) and "__init__" not in vars(what):
        return []
    assert callable(what)
    return list(inspect.signature(what).parameters)


def own_methods(what: type) -> Iterator[tuple[str, object]]:
    """The public methods and properties that a class has from this repository."""
    for name, member in inspect.getmembers(what):
        is_work = inspect.isroutine(member) or isinstance(member, property)
        of = getattr(member, "fget", member)
        if name.startswith("_") or name in GIVEN or not is_work:
            continue
        if str(getattr(of, "__module__", "")).startswith("forestplan"):
            yield name, member


def raises(what: FunctionType) -> bool:
    """Whether a function raises something itself."""
    tree = ast.parse(textwrap.dedent(inspect.getsource(what)))
    return any(isinstance(node, ast.Raise) for node in ast.walk(tree))


def if_checked(module: ModuleType) -> Iterator[ast.ImportFrom]:
    """The imports of a module that are for checkers of types alone."""
    for of in ast.parse(inspect.getsource(module)).body:
        if isinstance(of, ast.If):
            yield from (node for node in of.body if isinstance(node, ast.ImportFrom))


def pairs_of(node: ast.ImportFrom) -> list[tuple[str, str]]:
    """(module, name) of what is imported."""
    return [(node.module or "", alias.name) for alias in node.names]


EDGES = [(1, 2), (2, 3)]
# Identifiers and bars that `Network` refuses, and the words that say why.
NO_NETWORKS: tuple[tuple[dict[int, int], dict[int, list[int]], str], ...] = (
    ({1: 9, 3: 9}, {}, "nodes 1 and 3 have one identifier"),
    ({1: 2}, {}, "nodes 1 and 2 have one identifier"),
    ({1: -5}, {}, "isn't from 0"),
    ({1: 2**128}, {}, "isn't from 0"),
    ({7: 9}, {}, "no node 7"),
    ({}, {7: [2]}, "no node 7"),
    ({}, {1: [4, 0]}, "channel 0"),
)


class Refused(Case):
    """What nearly fits is refused, and not taken for something else."""

    def raised(self, name: str, kind: type[Exception], what: str, do: Callable[[], object]) -> None:
        with self.subTest(name), self.assertRaisesRegex(kind, re.escape(what)):
            do()

    def test_networks(self) -> None:
        for given, bars, what in NO_NETWORKS:
            self.raised(f"{given} {bars}", ValueError, what, lambda: Network(3, EDGES, given, bars))
        same = replace(Network(3, EDGES), given_identifiers={1: 2, 2: 1})
        self.same("exchanged identifiers", same.identifiers, {1: 2, 2: 1, 3: 3})

    def test_rules(self) -> None:
        """A rule that isn't there, one of another kind of run, and a text instead of a list."""
        net = Network(3, EDGES)
        for without in (["nonsense"], ["digit"], ["safes", "nonsense"], "safes", "fifo"):
            for do in (
                lambda: schedules.AlphaSpace(net, without=without),
                lambda: schedules.Stepwise(net, without=without),
            ):
                self.raised(f"a run without {without}", ValueError, "the rules are safes", do)
        for without in (["nonsense"], ["safes"], "digit"):
            self.raised(
                f"rounds without {without}",
                ValueError,
                "the rules are digit",
                lambda: schedules.ruled(COLOURING, net, without),
            )
        self.raised(
            "rounds of matching",
            ValueError,
            "the rules are partner",
            lambda: schedules.ruled(MATCHING, net, ["digit"]),
        )

    def test_options(self) -> None:
        for kind, option in (("why", "node"), ("broken", "without")):
            net = Network(3, EDGES)
            self.raised(kind, TypeError, f"'{option}'", lambda: pictures.drawing(kind, net))

    def test_a_plan_in_bytes(self) -> None:
        net, plan = Network(2, [(1, 2)]), "plan\n1 2\n2 1\n"
        drawn = pictures.drawing("plan", net, plan.encode())
        self.same("as of a text", drawn, pictures.drawing("plan", net, plan))


class Public(Case):
    def test_lists(self) -> None:
        for package, names in PUBLIC.items():
            module = importlib.import_module(f"forestplan.{package}")
            self.same(f"what {package} offers", sorted(module.__all__), sorted(names.split()))
            self.same(f"what dir shows of {package}", sorted(dir(module)), sorted(names.split()))

    def test_found(self) -> None:
        """A name is found in a process that has imported nothing else, and isn't the name of a module, which would
        take its place."""
        for package in PUBLIC:
            folder = pathlib.Path(TOP, "src", "forestplan", package)
            modules = {path.stem for path in folder.glob("*.py")}
            self.same(f"{package}: names of modules", modules & set(dict(public(package))), set())
            code = f"import forestplan; [getattr(forestplan.{package}, n) for n in dir(forestplan.{package})]"
            done = subprocess.run(
                [sys.executable, "-c", code],
                cwd=TOP,
                env={"PYTHONPATH": str(pathlib.Path(TOP, "src"))},
                capture_output=True,
                text=True,
            )
            self.same(f"{package} at a prompt", (done.returncode, done.stderr), (0, ""))

    def test_seen_by_checkers(self) -> None:
        """What a checker of types reads as a package's names is what is found when it runs."""
        for package in PUBLIC:
            module = importlib.import_module(f"forestplan.{package}")
            read = {pair for of in if_checked(module) for pair in pairs_of(of)}
            found = {(of, name) for of, names in module.MODULES.items() for name in names.split()}
            self.same(f"imports of {package}", found, read)

    def test_help(self) -> None:
        """Help on a package shows what it offers."""
        for package in PUBLIC:
            module = importlib.import_module(f"forestplan.{package}")
            page = pydoc.plain(pydoc.render_doc(module))
            for name, what in public(package):
                self.note(f"{package}.{name}", name in page, "isn't in the help of its package")

    def test_docstrings(self) -> None:
        for name, what in things():
            text = inspect.getdoc(what) or ""
            first, _, more = text.partition("\n\n")
            self.note(name, first.rstrip().endswith((".", ":")), "doesn't begin with a sentence")
            if name not in OF_PROGRAMS:
                self.note(name, ">>> " in text, "has no example")
            unsaid = [of for of in parameters(what) if not re.search(rf"\b{of}\b", text)]
            self.same(f"parameters of which the docstring of {name} says nothing", unsaid, [])
            if inspect.isfunction(what) and raises(what):
                self.note(name, re.search(r"\b[Rr]aises\b", text), "doesn't say what it raises")

    def test_methods(self) -> None:
        for name, what in things():
            if inspect.isclass(what):
                bare = [own for own, member in own_methods(what) if not inspect.getdoc(member)]
                self.same(f"methods of {name} without a docstring", bare, [])
