"""Runs the tests of the built programs, of the Python package and of the pages.

Each module of tests/ is a process of its own, and they run side by side. What failed
is printed module by module, and last 'N passed, M failed' over all of them, in rows:
a test has one or many.

NAME is a module, a class or a test as --list prints them; one part of such a name, as
a folder, a module or a class; or a word of a test's name. `test_` may be left out of it.
Without NAME all tests run.

The programs are those that `rt ci`, or ./forestplan and forestplay, have built; without
one, or without a tool, the tests that need it don't run, and are named before the count.
What is in tests/by_hand/ has to be called by hand."""
import argparse
import contextlib
import os
import re
import signal
import subprocess
import sys
import tempfile
import unittest
from collections import defaultdict
from collections.abc import Iterator
from concurrent.futures import Future, ThreadPoolExecutor

from tests import TOP
from tests.settings import BUILT, MORE_HELP, PATHS
from tests.tools import is_built, is_installed, not_run

# The modules that take longest, which begin first.
LONGEST = (
    "programs.test_own_algorithms",
    "programs.test_sequels",
    "programs.test_hostile",
    "programs.test_schedules",
)


def options():
    parser = argparse.ArgumentParser(
        prog="tests",
        usage="python3 -m tests [NAME ..] [options]",
        description=__doc__,
        epilog=MORE_HELP,
        formatter_class=argparse.RawDescriptionHelpFormatter,
    )
    parser.add_argument("names", metavar="NAME", nargs="*")
    parser.add_argument(
        "--list", action="store_true", help="print the names of the tests, and run none"
    )
    parser.add_argument(
        "--built", action="store_true", help="run none, unless the programs are built"
    )
    parser.add_argument(
        "-j",
        "--jobs",
        metavar="N",
        type=int,
        default=len(os.sched_getaffinity(0)),
        help="how many modules run at a time; as many as there are processors by default",
    )
    return parser


def is_named(name, test):
    """Whether a name of the command line means a test, which is named MODULE.CLASS.test_x. The prefix `test_` of
    modules and methods may be left out."""
    for begin in ("tests/", "tests."):
        name = name.removeprefix(begin)
    name = name.removesuffix(".py").rstrip("/").replace("/", ".").replace("test_", "")
    test = test.replace("test_", "")
    return f".{name}." in f".{test}." or name in test.split(".")[-1]


def names_of(suite: unittest.TestSuite) -> Iterator[str]:
    """The names of the tests that unittest has found. A module that can't be read is one: its process says so."""
    for test in suite:
        if isinstance(test, unittest.TestSuite):
            yield from names_of(test)
        else:
            yield test.id().partition("tests.")[2]


def chosen_tests(names: list[str], parser: argparse.ArgumentParser) -> dict[str, list[str]]:
    """The names of the tests to run, by module."""
    found, tests = defaultdict(list), os.path.join(TOP, "tests")
    for test in names_of(unittest.defaultTestLoader.discover(tests, "test_*.py", TOP)):
        if not names or any(is_named(name, test) for name in names):
            found[".".join(test.split(".")[:2])].append(test)
    for name in names:
        if not any(is_named(name, test) for tests in found.values() for test in tests):
            parser.error(f"no test has the name {name}; --list prints the names")
    return found


def end_all_of(process):
    """Ends what a module's process has started, and itself."""
    with contextlib.suppress(ProcessLookupError):
        os.killpg(process.pid, signal.SIGKILL)


def run_module(module, tests, folder, running):
    """The status of a module's process, and what it said, which it writes to a file."""
    with open(os.path.join(folder, module), "wb+") as file:
        process = subprocess.Popen(
            [sys.executable, "-m", "tests.running", *tests],
            stdin=subprocess.DEVNULL,
            stdout=file,
            stderr=subprocess.STDOUT,
            cwd=TOP,
            start_new_session=True,
        )
        running.append(process)
        status = process.wait()
        end_all_of(process)
        file.seek(0)
        return status, file.read().decode("utf-8", "replace")


def report(module, status, said):
    """Prints what a module said, and returns how many rows passed and failed: a process that ends otherwise than with
    its count has failed once."""
    print(f"{module}:\n{said}", end="" if said.endswith("\n") or not said else "\n")
    last = re.search(r"^(\d+) passed, (\d+) failed\n\Z", said, re.M)
    passed, failed = map(int, last.groups()) if last else (0, 0)
    if (status != 0) != (failed > 0) or not last:
        count = "" if last else " and without its count"
        print(f"FAIL: {module}: it ended with status {status}{count}")
        failed += 1
    sys.stdout.flush()
    return passed, failed


def report_missing(tests):
    """Prints each tool that isn't installed, or program that isn't built, with the tests that didn't run without it:
    the last lines before the count."""
    by_lack = defaultdict(set)
    for lack, test in tests:
        by_lack[lack].add(test)
    for lack, names in sorted(by_lack.items()):
        print(f"{lack}, and these tests didn't run: {', '.join(sorted(names))}")


def run_all(chosen, jobs, folder):
    """The sums over all modules, which are reported in their order."""
    order = sorted(chosen, key=lambda module: module not in LONGEST)
    running: list[Future] = []
    sums = [0, 0]
    skipped = []
    with ThreadPoolExecutor(jobs) as pool:
        done = {
            module: pool.submit(run_module, module, chosen[module], folder, running)
            for module in order
        }
        try:
            for module in chosen:
                status, said = done[module].result()
                sums = [a + b for a, b in zip(sums, report(module, status, said))]
                skipped += [(lack, f"{module}.{test}") for lack, test in not_run(said)]
        except BaseException:
            pool.shutdown(wait=False, cancel_futures=True)
            for process in running:
                end_all_of(process)
            raise
    report_missing(skipped)
    return sums


def main():
    signal.signal(signal.SIGTERM, lambda *_: sys.exit(143))
    # Under nohup it is ignored, and so it would be by what is tested.
    signal.signal(signal.SIGHUP, signal.SIG_DFL)
    # Python keeps what it compiles apart from the tree, and for all processes, since each of them reads the same.
    with tempfile.TemporaryDirectory(prefix="tests-") as folder:
        os.environ.pop("PYTHONDONTWRITEBYTECODE", None)
        sys.dont_write_bytecode = False
        sys.pycache_prefix = os.environ.setdefault(
            "PYTHONPYCACHEPREFIX", os.path.join(folder, "compiled")
        )
        parser = options()
        given = parser.parse_args()
        chosen = chosen_tests(given.names, parser)
        if given.list:
            print("\n".join(test for tests in chosen.values() for test in tests))
            return 0
        missing = [name for name in BUILT if not is_installed(name)] if given.built else []
        if missing:
            print(f"tests: not built from these sources: {', '.join(missing)}", file=sys.stderr)
            return 2
        # The processes of the modules needn't look again.
        os.environ["TESTS_BUILT"] = " ".join(filter(is_built, PATHS))
        passed, failed = run_all(chosen, max(1, given.jobs), folder)
    print(f"{passed} passed, {failed} failed")
    return 1 if failed else 0


if __name__ == "__main__":
    try:
        sys.exit(main())
    except KeyboardInterrupt:
        print("tests: interrupted", file=sys.stderr)
        sys.exit(130)
