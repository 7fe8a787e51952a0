"""Changes the Python of the repository in one place at a time, as a mistake would (tests/by_hand/changes.py), and sees
whether that is noticed.

  python3 -m tests.by_hand.mutants nodes

  The right nodes of the workshop, minutes with the built programs: a change that no command of the pages shows is
  played in many runs, and printed. There it has to be right, too.

  python3 -m tests.by_hand.mutants package [--seed 2026] [--count 300] [--package NAME ..] [--jobs 2] [--seconds 30]
    [--minutes 600] [--named FILE] [--entered FILE]

  src/forestplan/: so many changes by chance, as many of each package as its share of lines, some at a time. First
  each test that needs no browser is run once as the tree is, to see what it enters (tests/by_hand/entered.py): that
  takes minutes, and is kept in the second FILE for a later run on the same sources. Then each change is made in a copy
  of the tree, where the tests that enter its function run, the shortest first, up to the first that fails twice and
  was good without the change (tests/by_hand/trials.py); they may take so many seconds of processors. After so many
  minutes no change is begun. Tests that need the built programs run if TESTS_PLAN and TESTS_PLAY name them. It needs
  root, or another user who may make namespaces of processes. Each change is printed with the test that noticed it, and
  last how many were noticed, survived and are equal, by package: those that are equal stand in
  tests/by_hand/equal.txt, each as it is printed, with the reason in the next line, and aren't tried. One that survived
  may be noticed by a test that wasn't asked, if not all were: write their lines to the first FILE, and try these alone
  with more seconds.

  python3 -m tests.by_hand.mutants package --list

  The changes that it would try."""
import argparse
import ast
import copy
import os
import random
import shutil
import signal
import sys
import tempfile
import time
from collections import Counter, defaultdict
from collections.abc import Iterator

from tests import TOP
from tests.by_hand.changes import TURNED, Change, changes_of, lines_left_out, package_of
from tests.by_hand.entered import Entered
from tests.by_hand.trials import Outcome, Trial

EQUAL = os.path.join(TOP, "tests", "by_hand", "equal.txt")


# The changes of src/forestplan/.


def files_of_package() -> list[str]:
    """The modules of src/forestplan/, by their paths."""
    found = []
    for at, _, names in os.walk(os.path.join(TOP, "src", "forestplan")):
        found += [os.path.relpath(os.path.join(at, name), TOP) for name in names]
    return sorted(file for file in found if file.endswith(".py"))


def shares(lines: dict[str, int], count: int) -> dict[str, int]:
    """How many of each package, by its share of the lines; what is left over goes to the largest remainders."""
    whole = sum(lines.values())
    found = {package: count * own // whole for package, own in lines.items()}
    by_rest = sorted(lines, key=lambda package: (-(count * lines[package] % whole), package))
    for package in by_rest[: count - sum(found.values())]:
        found[package] += 1
    return found


def all_changes() -> tuple[Counter[str], dict[str, list[Change]]]:
    """The lines of each package, and all of its changes."""
    lines: Counter[str] = Counter()
    changes: dict[str, list[Change]] = defaultdict(list)
    for file in files_of_package():
        with open(os.path.join(TOP, file), "rb") as text:
            data = text.read()
        lines[package_of(file)] += data.count(b"\n")
        changes[package_of(file)] += changes_of(file, data)
    return lines, changes


def names_of_all() -> set[str]:
    """The names of all changes of these sources."""
    _, changes = all_changes()
    return {change.name for of_package in changes.values() for change in of_package}


def drawn(seed: str, count: int, packages: list[str]) -> list[Change]:
    """The changes to be tried, in an order by chance: what is tried first is a fair sample, too."""
    lines, changes = all_changes()
    found = [
        change
        for package, share in shares(lines, count).items()
        if not packages or package in packages
        for change in random.Random(f"{seed} {package}").sample(
            changes[package], min(share, len(changes[package]))
        )
    ]
    random.Random(seed).shuffle(found)
    return found


def lines_of(path: str) -> set[str]:
    """The changes that a file names, each in a line; lines that begin with blanks say why."""
    with open(path, encoding="utf-8") as file:
        return {line for line in file.read().splitlines() if not line.startswith(" ")}


def asked_for(given: argparse.Namespace) -> list[Change]:
    """The changes that are drawn, or those of them that a file names."""
    changes = drawn(given.seed, given.count, given.package)
    if given.named:
        named = lines_of(given.named)
        changes = [change for change in changes if change.name in named]
    return changes


def try_package(given: argparse.Namespace) -> None:
    """Tries the changes, and prints what came out."""
    until = time.monotonic() + 60 * given.minutes
    changes, known = asked_for(given), lines_of(EQUAL)
    found: dict[str, Counter[str]] = defaultdict(Counter)

    def tell(change: Change, kind: str, how: str) -> None:
        found[package_of(change.file)][kind] += 1
        print(f"{kind} {change.place}{how}\n{change.name}", flush=True)

    def tried(change: Change, outcome: Outcome) -> None:
        which = f"all {outcome.tests}" if outcome.is_whole else f"{outcome.tests}"
        how = f"by {outcome.by}" if outcome.by else f"{which} tests in {outcome.seconds:.1f} s"
        how += "" if outcome.is_entered else ", and none was seen to enter it"
        tell(change, "noticed" if outcome.by else "survived", f", {how}")

    for change in changes:
        if change.name in known:
            tell(change, "equal", "")
    for name in sorted(known - names_of_all()):
        print(f"listed as equal, and no change of these sources: {name}")
    with tempfile.TemporaryDirectory(prefix="mutants-") as room:
        os.chmod(room, 0o755)
        trial = Trial(room, given.jobs, until, given.seconds, Entered(given.entered))
        trial.learn(lambda name: print(f"not asked, since it fails without a change: {name}"))
        trial.run([change for change in changes if change.name not in known], tried)
    whole = sum(found.values(), Counter[str]())
    print(f"seed {given.seed}: {whole.total()} of {len(changes)} changes were tried")
    for package, kinds in sorted(found.items()):
        print(f"{package}: {words_of(kinds)}")
    print(f"all: {words_of(whole)}")


def words_of(found: Counter[str]) -> str:
    counts = ", ".join(f"{found[kind]} {kind}" for kind in ("noticed", "survived", "equal"))
    others = found["noticed"] + found["survived"]
    return f"{counts}; {found['noticed'] / max(1, others):.0%} of those that aren't equal"


# The right nodes of the workshop.

# By a typical mistake, which says how it is tried, the file and its classes; all of them if none is named.
PLACES: dict[str, tuple[str, tuple[str, ...]]] = {
    "drop_all": ("colouring", ()),
    "acks_any": ("alpha_node", ()),
    "layers_last": ("programs", ("Layers",)),
    "matching_turn": ("programs", ("Matching",)),
    "set_beside": ("programs", ("Sequel", "IndependentSet")),
    "anew_last": ("programs", ("Recolouring",)),
}


def changes_in(node: ast.AST) -> Iterator[tuple[str, int | None, object]]:
    """What is put for each part of a node that is changed: (field, place in its list, part)."""
    if isinstance(node, ast.Compare):
        yield "ops", 0, TURNED[type(node.ops[0])]()
    if isinstance(node, ast.Constant) and type(node.value) is int:
        yield "value", None, node.value + 1
        yield "value", None, node.value - 1
    yield from lines_left_out(node)


def mutants(right: str, file: str, classes: tuple[str, ...]) -> Iterator[tuple[str, str]]:
    """By a name with its line, the texts that differ in one place."""
    with open(os.path.join(right, f"{file}.py"), encoding="utf-8") as text:
        tree = ast.parse(text.read())
    for part, top in enumerate(tree.body):
        if not isinstance(top, (ast.ClassDef, ast.FunctionDef)):
            continue
        if classes and top.name not in classes:
            continue
        for number, node in enumerate(ast.walk(top)):
            for field, at, new in changes_in(node):
                other = copy.deepcopy(tree)
                changed = list(ast.walk(other.body[part]))[number]
                if at is None:
                    setattr(changed, field, new)
                else:
                    getattr(changed, field)[at] = new
                yield f"{file} line {node.lineno}: {field} {at} {new}", ast.unparse(other)


def try_nodes() -> None:
    """Tries each change of the right nodes."""
    from tests.workshop.base import EXAMPLES, call
    from tests.workshop.test_nodes import RESERVED, tried

    right = os.path.join(EXAMPLES, "python")
    for name, (file, classes) in PLACES.items():
        kind, program, arguments = tried(name)
        of = ["--program", *program] if program else []
        for mutant, text in mutants(right, file, classes):
            with tempfile.TemporaryDirectory() as folder:
                shutil.copytree(right, folder, dirs_exist_ok=True)
                with open(os.path.join(folder, f"{file}.py"), "w", encoding="utf-8") as to:
                    to.write(text)
                path = os.path.join(folder, f"{kind}_node.py")
                node = ["--one-process", "--first", "--timeout", "2", "--", *RESERVED]
                node += [sys.executable, "-S", path, *program]
                if call(kind, *arguments, *node).returncode == 0:
                    is_right = call(kind, "--runs", "60", *of, *node).returncode == 0
                    print("right" if is_right else "WRONG IN MANY RUNS", mutant, flush=True)


def main() -> None:
    parser = argparse.ArgumentParser(
        prog="mutants", description=__doc__, formatter_class=argparse.RawDescriptionHelpFormatter
    )
    parser.add_argument("what", choices=("nodes", "package"))
    parser.add_argument("--seed", default="2026")
    parser.add_argument("--count", type=int, default=300)
    parser.add_argument("--package", action="append", default=[])
    parser.add_argument("--jobs", type=int, default=2)
    parser.add_argument("--seconds", type=float, default=30)
    parser.add_argument("--minutes", type=float, default=600)
    parser.add_argument("--named", metavar="FILE")
    parser.add_argument("--entered", metavar="FILE")
    parser.add_argument("--list", action="store_true")
    given = parser.parse_args()
    # What is ended ends what it has started.
    signal.signal(signal.SIGTERM, lambda *_: sys.exit(143))
    if given.what == "package" and given.list:
        print("\n".join(f"{change.place} {change.name}" for change in asked_for(given)))
    elif given.what == "package":
        try_package(given)
    else:
        try_nodes()


if __name__ == "__main__":
    main()
