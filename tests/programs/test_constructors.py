"""A constructor of src/forestplan/ is cheap: it plays no rounds, searches nothing, reads no file and starts no process.
What does is a method, or a function that is named by what comes out."""
import ast
import pathlib
from dataclasses import replace

from forestplan.definitions.leader import LEADER
from forestplan.definitions.nodes import Colouring
from forestplan.definitions.matching import MATCHING
from forestplan.definitions.program import Program, RoundsNode
from forestplan.definitions.rounds import ColouringRounds
from forestplan.network import Network
from forestplan.schedules.alpha_space import AlphaSpace
from forestplan.schedules.ruled_rounds import RuledRounds, RuledSequel
from tests import TOP
from tests.cases import FilesCase, unittest

# What plays, searches, reads or starts.
WORK = {
    *("synchronous_run", "synchronous_pulses", "synchronous_rounds", "program_rounds", "pulses_of"),
    *("search", "work_out", "record", "played", "explore", "step"),
    *("open", "read", "bytes_at", "text_at", "run", "Popen", "called", "TemporaryFile", "exec"),
}
# What is work and done by a constructor all the same, by the function that does it, with the reason.
DONE = {
    "check_repeats": "of a user's own file: one that can't be run is refused before anything is",
    "check_reactions": "the same of nodes that react to messages",
    "defined_in_file": "a node of a user's own file has the variables of a file of its own, so it runs the file",
}
EDGE = Network(2, [(1, 2)])
Function = ast.FunctionDef | ast.AsyncFunctionDef


def names_in(call: ast.Call) -> set[str]:
    """The name of what is called; of a method it comes after a dot. What is searched by a pattern is no work."""
    match call.func:
        case ast.Name(id=name):
            return {name}
        case ast.Attribute(value=ast.Name(id=of)) if of == "re" or of.isupper():
            return set()
        case ast.Attribute(attr=name):
            return {"." + name}
    return set()


def calls_of(function: Function) -> set[str]:
    """What a function calls, by name, and what it has called by another one. What it was given is not known."""
    parts = list(ast.walk(function))
    own = {one.arg for one in parts if isinstance(one, ast.arg)}
    own |= {one.id for one in parts if isinstance(one, ast.Name) and isinstance(one.ctx, ast.Store)}
    called = [one for one in parts if isinstance(one, ast.Call)]
    found = {one.id for call in called for one in call.args if isinstance(one, ast.Name)}
    return found.union(*map(names_in, called)) - own


def methods_of(of: ast.ClassDef) -> dict[str, Function]:
    return {
        own.name: own for own in of.body if isinstance(own, (ast.FunctionDef, ast.AsyncFunctionDef))
    }


def begun_in(of: ast.ClassDef) -> set[str]:
    """What the constructor of a class calls, itself or by methods of the class."""
    methods = methods_of(of)
    found: set[str] = set()
    left = ["__init__", "__post_init__"]
    seen = set(left)
    while left:
        name = left.pop()
        calls = calls_of(methods[name]) if name in methods else set()
        found |= calls
        own = {call[1:] for call in calls if call.startswith(".")} & set(methods) - seen
        seen |= own
        left += own
    return found


def asked(net: Network, v: int) -> RoundsNode:
    raise AssertionError(f"node {v} of {net.nodes} is asked")


def work_below(name: str, calls: dict[str, set[str]]) -> list[str]:
    """From a constructor or a function the calls that lead to work, the work last; nothing if none does."""
    ways = [[name]]
    seen = {name}
    while ways:
        way = ways.pop()
        for call in calls[way[-1]]:
            if call.lstrip(".") in WORK:
                return [*way, call]
            if call in calls and call not in seen and call not in DONE:
                seen.add(call)
                ways.append([*way, call])
    return []


class Constructors(FilesCase):
    def test_written(self) -> None:
        """No constructor leads to work, by whatever functions and other constructors. A name has one module."""
        classes: dict[str, set[str]] = {}
        functions: dict[str, set[str]] = {}
        for path in sorted(pathlib.Path(TOP, "src").rglob("*.py")):
            tree = ast.parse(path.read_text(encoding="utf-8"))
            functions |= {
                of.name: calls_of(of) for of in tree.body if isinstance(of, ast.FunctionDef)
            }
            classes |= {
                of.name: begun_in(of) for of in ast.walk(tree) if isinstance(of, ast.ClassDef)
            }
        self.assertGreater(len([name for name in classes if classes[name]]), 80, "constructors")
        for name in classes:
            self.same(f"work in {name}", work_below(name, functions | classes), [])
        for name in DONE:
            self.note(name, work_below(name, functions | classes), "does no work, so take it out")

    def test_no_node_is_asked(self) -> None:
        """Rounds and schedules can be made of nodes that fail: they are asked only once something is."""
        for program in (LEADER, MATCHING):
            broken: Program = replace(program, node=asked)
            space = AlphaSpace(EDGE, program=broken)
            with self.assertRaisesRegex(AssertionError, "node 1 of 2 is asked"):
                space.search()
        with unittest.mock.patch.object(Colouring, "greet", side_effect=AssertionError("greets")):
            rounds = ColouringRounds(EDGE)
            with self.assertRaisesRegex(AssertionError, "greets"):
                rounds.merged[1]
        self.same("plan without rules", RuledRounds(EDGE, ()).plan, None)
        with unittest.mock.patch(
            "forestplan.schedules.ruled_rounds.synchronous_run", side_effect=AssertionError("runs")
        ):
            sequel = RuledSequel(EDGE, (), MATCHING)
            with self.assertRaisesRegex(AssertionError, "runs"):
                sequel.sentence()
