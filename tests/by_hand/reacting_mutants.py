"""Changes the samples without rounds at one place each, and explores them: python3 -m tests.by_hand.reacting_mutants
[COUNT [SEED]].

The changes are drawn by a seed: a statement is left out, a comparison or a number is another one, `and` is `or`, True
is False. Each changed file is explored on two, three and four nodes. It has to be refused in one line, or to have a
list of events, or to be called right, or to be too large; and none may end with a traceback or without end. Of a
network with too many states, runs by a seed are played. What is called right on all networks is printed with its
change, for a reader to judge. The last lines say how many are found on how many nodes."""

import ast
import copy
import os
import random
import sys
import tempfile
import time
from collections import Counter
from collections.abc import Iterator

from forestplan.schedules import explore
from tests import TOP
from tests.cases import in_process

# A ring in which two nodes have only lesser neighbours.
MIXED = "mixed4"
MIXED_TEXT = "p edge 4 4\ne 1 2\ne 2 3\ne 3 4\ne 4 1\ni 1 3\ni 2 1\ni 3 4\ni 4 2\n"
# The networks of two, three and four nodes; a ring has three at least.
NETWORKS = {
    "echo": ("two", "triangle", "ring4"),
    "ring_leader": ("ring3", MIXED),
    "ring_phases": ("ring3", MIXED),
    "exclusion": ("two", "triangle", "complete4"),
    "async_layers": ("two", "triangle", "ring4", "complete4"),
    "snapshot": ("two", "triangle", "ring4"),
    "alpha": ("two", "path3", "star4"),
}
LIMIT, RUNS = "20000", "60"
OTHERS = {
    ast.Eq: ast.NotEq,
    ast.NotEq: ast.Eq,
    ast.Lt: ast.LtE,
    ast.LtE: ast.Lt,
    ast.Gt: ast.GtE,
    ast.GtE: ast.Gt,
    ast.Is: ast.IsNot,
    ast.IsNot: ast.Is,
}
# What only says what is right isn't changed.
JUDGES = ("right", "always", "distances", "result")


def changes_of(tree: ast.Module) -> Iterator[tuple[str, ast.Module]]:
    """Each change of a file, in words, and the file with it."""
    for at, node in enumerate(places_of(tree)):
        changed = copy.deepcopy(tree)
        place = places_of(changed)[at]
        before = ast.unparse(node)
        if isinstance(place, ast.stmt):
            leave_out(changed, place)
            yield f"line {node.lineno}: without `{before.splitlines()[0]}`", changed
            continue
        change(place)
        yield f"line {node.lineno}: `{ast.unparse(place)}` for `{before}`", changed


def places_of(tree: ast.Module) -> list:
    functions = [
        it for it in tree.body if isinstance(it, ast.FunctionDef) and it.name not in JUDGES
    ]
    return [node for function in functions for node in ast.walk(function) if may_change(node)]


def may_change(node: ast.AST) -> bool:
    match node:
        case ast.Expr(ast.Constant()):
            return False
        case ast.Assign() | ast.AugAssign() | ast.Expr() | ast.Return() | ast.If() | ast.BoolOp():
            return True
        case ast.Compare():
            return type(node.ops[0]) in OTHERS
        case ast.Constant():
            return isinstance(node.value, int)
    return False


def leave_out(tree: ast.Module, place: ast.stmt) -> None:
    for node in ast.walk(tree):
        for name in ("body", "orelse"):
            body = getattr(node, name, None)
            if isinstance(body, list) and place in body:
                body[body.index(place)] = ast.copy_location(ast.Pass(), place)


def change(place: ast.expr) -> None:
    if isinstance(place, ast.Compare):
        place.ops[0] = OTHERS[type(place.ops[0])]()
    elif isinstance(place, ast.BoolOp):
        place.op = ast.Or() if isinstance(place.op, ast.And) else ast.And()
    elif isinstance(place, ast.Constant):
        place.value = not place.value if isinstance(place.value, bool) else place.value + 1


def verdict_of(path: str, network: str, *options: str) -> str:
    """What `explore` says of a changed file: refused, list, right, large; or what may not be."""
    name = os.path.join(os.path.dirname(path), f"{MIXED}.col") if network == MIXED else network
    arguments = ("explore", explore.main, name, "--program", path, "--limit", LIMIT, *options)
    status, out, errors = in_process(*arguments)
    said = out.decode() + errors.decode()
    if "Traceback" in said:
        return f"traceback: {said[-300:]}"
    first = said.split("\n")[0]
    if status == 0:
        return "right, and never ends" if "never end" in said else "right"
    if "there are more than" in first:
        return f"{verdict_of(path, network, '--runs', RUNS)} in runs"
    if first.startswith("broken "):
        return "list"
    return "refused" if status == 1 and said.count("\n") == 1 else f"unclear: {said[:300]}"


def main() -> None:
    count = int(sys.argv[1]) if len(sys.argv) > 1 else 200
    chance = random.Random(sys.argv[2] if len(sys.argv) > 2 else "1")
    every = []
    for name in NETWORKS:
        with open(
            os.path.join(TOP, "examples", "algorithms", f"{name}.py"), encoding="utf-8"
        ) as file:
            every += [(name, *found) for found in changes_of(ast.parse(file.read()))]
    drawn = chance.sample(every, min(count, len(every)))
    first_found: Counter[str] = Counter()
    with tempfile.TemporaryDirectory() as folder:
        with open(os.path.join(folder, f"{MIXED}.col"), "w", encoding="utf-8") as file:
            file.write(MIXED_TEXT)
        for name, what, tree in drawn:
            path = os.path.join(folder, f"{name}.py")
            with open(path, "w", encoding="utf-8") as file:
                file.write(ast.unparse(tree))
            found = {}
            for network in NETWORKS[name]:
                begun = time.monotonic()
                found[network] = verdict_of(path, network)
                if time.monotonic() - begun > 120:
                    print(f"SLOW {name}, {what}: {network}", flush=True)
                if found[network].split()[0] in ("list", "refused"):
                    break
            last = found[network]
            if last.split()[0] in ("list", "refused"):
                first_found[f"{last} on {network}"] += 1
            else:
                first_found[last.split(":")[0]] += 1
                print(f"{name}, {what}: {found}", flush=True)
    print(f"{len(drawn)} changes of {len(every)}")
    for said, number in sorted(first_found.items()):
        print(f"  {said}: {number}")


if __name__ == "__main__":
    main()
