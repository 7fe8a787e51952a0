"""Tests of the first call of a program, which proves and builds it: of the script `forestplan`, build/program.py and
build/gate.py.

They run in a tree of three crates, over a command `rt` that proves nothing: it says what `rt ci` says, and its program
prints a line."""
import contextlib
import os
import re
import signal
import subprocess
import sys
import tempfile

from forestplan.workshop import class_files
from tests import SOURCES, TOP
from tests.cases import Case, called, copied, text_in, wait_until
from tests.tools import without_rt

# Seconds; a busy machine is slow.
LIMIT = 300
KITS = text_in("build", "kits.txt").splitlines()

# In place of the toolchain's command. A crate whose source has the word `wrong` isn't proved, one with `kept` is known
# already, and one with `slow` isn't proved before a minute has passed, or the file `go` is there. Ctrl-C doesn't end it
# at once, as `rt` waits for its provers.
RT = """#!/usr/bin/env python3
import os
import signal
import sys
import time

CACHE = os.environ["XDG_CACHE_HOME"]


class Crate:
    def __init__(self, folder, root, known):
        self.folder, self.name = folder, os.path.basename(folder)
        self.rlib = f"{folder}/out/rlib/{self.name}.rlib"

    def stamp(self):
        with open(f"{self.folder}/src/lib.rt") as text:
            return text.read()


def say(*lines):
    print(*lines, sep="\\n", flush=True)


def prove(name, source):
    if "kept" in source:
        say(f"rt: {name} is kept: an earlier run on this machine proved the same files over the same libraries")
        return True
    end = time.monotonic() + 61
    say(f"== {name}")
    while "slow" in source and time.monotonic() < end and not os.path.exists(f"{CACHE}/go"):
        time.sleep(0.05)
    if "wrong" in source:
        say(f"fn {name}::f: not proved", f"rt: {name} NOT PROVED")
        return False
    say("logic=proved", f"rt: {name} proved")
    return True


def make(name, source):
    made = f"crates/{name}/out/" + (name if name == "forestplan" else f"rlib/{name}.rlib/format")
    os.makedirs(os.path.dirname(made))
    with open(made, "w") as file:
        file.write("#!/bin/sh\\necho \\"$@\\"; cat\\n" if name == "forestplan" else source)
    os.chmod(made, 0o755)


def ci():
    signal.signal(signal.SIGINT, signal.SIG_IGN)
    with open("HANDLES") as text:
        if text.read() != "Handles allowed: none.\\n":
            say("rt: HANDLES is one line", "0 passed, 1 failed")
            return 2
    with open("crates.txt") as text:
        below = [line.split(":")[0] for line in text]
    if sys.argv[1:] != ["ci"] or os.listdir(".git") or sorted(below) != sorted(os.listdir("crates")):
        raise SystemExit("no repository of these crates alone")
    failed = []
    for name in below:
        source = Crate(f"crates/{name}", "", {}).stamp()
        if not prove(name, source):
            failed.append(name)
            break
        make(name, source)
        folder = f"crates/{name}/must-fail"
        for edit in sorted(os.listdir(folder)) if os.path.isdir(folder) else ():
            with open(f"{folder}/{edit}") as text:
                said = text.read()
            say(f"rt: must-fail {name}/{edit}: {said}")
            failed += [edit] * said.startswith("NOT")
    say(f"{len(below)} passed, {len(failed)} failed")
    return 1 if failed else 0


if sys.argv[1:] == ["--help"]:
    # A kit that keeps what is proved can prove it again; the file `older` makes it one that keeps nothing.
    say("  rt ci    the gate" + ("" if os.path.exists(f"{CACHE}/older") else "; --anew proves all again"))
    raise SystemExit
raise SystemExit(ci())
"""
CRATES = (
    "# below\nlower:\nmiddle: lower\n\n# not of the program\naside: lower\n\nforestplan: middle\n"
)


def write(path, text, mode=0o644):
    class_files.write_file(path, text)
    os.chmod(path, mode)


class Tree:
    """A tree with three crates of a program, one that isn't of it, and a command `rt`."""

    def __init__(self, folder):
        self.top, self.cache = (os.path.join(folder, name) for name in ("tree", "cache"))
        copied(self.top, "forestplan", "build", "src")
        self.write("HANDLES", "Handles allowed: none.\n")
        self.write("crates.txt", CRATES)
        for crate in ("lower", "middle", "aside", "forestplan"):
            self.source(crate, "kept" if crate == "lower" else "fine")
            self.write(f"crates/{crate}/must-fail/bug.edit", "NOT REFUSED: an edit of the gate")
            self.write(f"crates/{crate}/out/old", "")
        self.program = os.path.join(self.top, "crates", "forestplan", "out", "forestplan")
        kit = os.path.join(folder, "kits", "rattle")
        self.kit = os.path.join(kit, "KIT-ID")
        write(os.path.join(kit, "bin", "rt"), RT, 0o755)
        write(self.kit, KITS[0])
        self.environment = dict(
            os.environ, PATH=f"{kit}/bin:{os.environ['PATH']}", XDG_CACHE_HOME=self.cache
        )

    def write(self, path, text):
        write(os.path.join(self.top, path), text)

    def source(self, crate, text):
        self.write(f"crates/{crate}/src/lib.rt", f"//! {text}\n")

    def run(self, *arguments, given=""):
        """The status and both outputs of words that are called at the top."""
        return called(
            *arguments, data=given, limit=LIMIT, text=True, cwd=self.top, env=self.environment
        )

    def call(self, *arguments, given=""):
        return self.run("./forestplan", *arguments, given=given)

    def build(self, *arguments):
        return self.run(sys.executable, "-S", "build", *arguments)

    @contextlib.contextmanager
    def begun(self):
        """A call of the program's script, and what gives what it has said. All that it has started ends with it."""
        with tempfile.TemporaryFile("w+") as errors, subprocess.Popen(
            ["./forestplan", "plan"],
            stdin=subprocess.DEVNULL,
            stdout=errors,
            stderr=errors,
            cwd=self.top,
            env=self.environment,
            start_new_session=True,
        ) as started:
            try:
                yield started, lambda: os.pread(errors.fileno(), 10_000, 0).decode()
            finally:
                with contextlib.suppress(ProcessLookupError):
                    os.killpg(started.pid, signal.SIGKILL)

    def at_work(self):
        """The provers that are in the user's cache."""
        found = []
        for process in filter(str.isdigit, os.listdir("/proc")):
            with contextlib.suppress(OSError):
                if os.readlink(f"/proc/{process}/cwd").startswith(os.path.realpath(self.cache)):
                    found.append(process)
        return found

    def log(self):
        return text_in(self.top, "out", "build", "forestplan.log")

    def cached(self, name):
        return os.path.join(self.cache, name)


class FirstRun(Case):
    def setUp(self):
        # A shell has what it runs in the background ignore SIGINT, and what is started from there would, too.
        self.addCleanup(
            signal.signal, signal.SIGINT, signal.signal(signal.SIGINT, signal.default_int_handler)
        )

    def test_calls(self):
        tree = Tree(self.folder)
        self.run_unbuilt(tree)
        self.run_first(tree)
        self.run_failures(tree)
        self.run_stopped(tree)
        self.run_wrong_bodies(tree)
        self.run_alone(tree)
        self.run_kits(tree)

    def run_unbuilt(self, tree):
        """Before anything is built help is the stored text, and Python refuses a program that isn't built, and draws
        rounds, and a plan that it says isn't the program's."""
        for script, arguments, name in (
            (f"{tree.top}/forestplan", ["--help"], "forestplan"),
            (f"{tree.top}/forestplan", ["plan", "-h"], "forestplan-plan"),
            (f"{TOP}/try", ["rounds", "--help"], "forestplay-rounds"),
        ):
            wanted = text_in("src", "forestplan", "help", f"{name}.txt")
            self.same(f"{script} {arguments}", tree.run(script, *arguments), (0, wanted, ""))
        for line in (
            "./forestplan plain --help >/dev/full",
            "./forestplan plain --help >&-",
            "ulimit -f 0; ./forestplan plain --help >a_file",
            "set -o pipefail; (sleep 1; exec ./forestplan plain --help) | exec true",
        ):
            done = tree.run("bash", "-c", line)
            self.same(line, done, (4, "", "forestplan: stream\n"))
        tree.source("forestplay", "")
        for kind, status, is_drawn, said in (
            ("rounds", 0, True, ""),
            ("plan", 0, True, "picture: forestplan isn't built, so "),
            ("run", 1, False, "picture: forestplan isn't built: a first call of it"),
        ):
            arguments = [sys.executable, "-S", "src/forestplan", "picture", kind, "-"]
            done = tree.run(*arguments, given="p edge 2 1\ne 1 2\n")
            good = (done[0], done[1].startswith("<svg ")) == (status, is_drawn)
            self.note(
                f"picture {kind} where nothing is built",
                good and done[2].startswith(said) and bool(done[2]) == bool(said),
                done,
            )
        self.note("nothing is built by these", not os.path.exists(tree.program))

    def run_first(self, tree):
        status, out, err = tree.call("plain", "x", given="input\n")
        self.note(
            "what the program prints", (status, out) == (0, "plain x\ninput\n"), (status, out)
        )
        self.note(
            "what there is meanwhile",
            re.search(r"\A.*\n.*bin/forestlab studio.*\./try .*\n", err),
            err,
        )
        self.note(
            "a line of progress",
            re.search(
                r"^forestplan: 3 of 3 crates proved, \d+ s, the last one forestplan\n"
                r"forestplan: 3 crates proved in \d+ s\n\Z",
                err,
                re.M,
            ),
            err,
        )
        self.note(
            "the log", "== middle\nlogic=proved\nrt: middle proved\n" in tree.log(), tree.log()
        )
        self.note(
            "the gate's edits are left to the gate", "must-fail" not in tree.log(), tree.log()
        )
        for what, path, text in (
            ("a second call", "crates/forestplan/out/old", ""),
            ("a crate of tests", "crates/some_checks/src/lib.rt", "tests"),
            ("another crate", "crates/aside/src/lib.rt", "changed"),
            ("a line of it, be it wrong", "crates.txt", f"{CRATES}mine: nothing\n"),
        ):
            tree.write(path, text)
            self.same(
                f"{what} builds nothing", tree.call("plan", given="again"), (0, "plan\nagain", "")
            )
        tree.write("crates.txt", CRATES)
        tree.source("middle", "changed")
        got = tree.call("plan")
        self.note(
            "a changed source is proved",
            got[:2] == (0, "plan\n") and "== middle" in tree.log(),
            tree.log(),
        )
        write(tree.program, "#!/bin/sh\necho another\n", 0o755)
        self.same(
            "a program that nobody vouches for is built anew", tree.call("plan")[:2], (0, "plan\n")
        )
        self.same(
            "no room is left",
            sorted(os.listdir(os.path.join(tree.cache, "forestplan"))),
            ["room.lock"],
        )

    def run_failures(self, tree):
        for crate in ("middle", "forestplan"):
            tree.source(crate, "wrong")
            status, out, err = tree.call("plan")
            self.note(
                f"{crate}, which isn't proved",
                status == 70
                and not out
                and all(
                    said in err
                    for said in (
                        f"the crate {crate} isn't proved",
                        f"  fn {crate}::f: not proved\n",
                        "out/build/forestplan.log",
                        "forestplan: it could not be built",
                    )
                ),
                (status, out, err),
            )
            tree.source(crate, "fine once more")
            self.same(f"{crate} is mended", tree.call("plan")[:2], (0, "plan\n"))
        tree.source("middle", "to be refused")
        tree.write("HANDLES", "all")
        status, out, err = tree.call("plan")
        self.note(
            "a repository that is refused",
            status == 70
            and not out
            and "rt ci ended with status 2" in err
            and "  rt: HANDLES is one line\n" in err,
            (status, out, err),
        )
        tree.write("HANDLES", "Handles allowed: none.\n")

    def run_stopped(self, tree):
        """A call that is stopped keeps what is proved, and leaves nothing at work; a second one waits meanwhile."""

        def is_in_middle():
            # Before that a shim of `python3` may be at work, too.
            return tree.at_work() and "== middle" in tree.log()

        tree.source("middle", "slow")
        for number, status in ((signal.SIGINT, 130), (signal.SIGTERM, -15), (signal.SIGKILL, -9)):
            with tree.begun() as (first, said):
                self.note(f"at work until {number.name}", wait_until(is_in_middle, LIMIT), said())
                if number == signal.SIGINT:
                    with tree.begun() as (second, heard):
                        waits = wait_until(lambda: "waiting for its end" in heard(), LIMIT)
                        self.note("a second call waits", waits, heard())
                        os.killpg(second.pid, number)
                        self.same("and is stopped", second.wait(LIMIT), status)
                os.killpg(first.pid, number)
                self.same(f"the status by {number.name}", first.wait(LIMIT), status)
                keeps = number == signal.SIGINT
                goes_on = (
                    "the next call goes on from here" if keeps else "the next call may begin again"
                )
                self.note(
                    f"what it says at {number.name}",
                    number == signal.SIGKILL or wait_until(lambda: goes_on in said(), LIMIT),
                    said(),
                )
                # From now on the kit is one that keeps nothing.
                write(os.path.join(tree.cache, "older"), "")
            self.note(
                f"nothing goes on after {number.name}",
                wait_until(lambda: not tree.at_work(), LIMIT),
                said,
            )
        # If the script alone is killed, the prover goes on, and the next call waits for it. Both name it.
        with tree.begun() as (killed, said):
            self.note("at work once more", wait_until(is_in_middle, LIMIT), said())
            prover = tree.at_work()[0]
            parent = int(text_in(f"/proc/{prover}/stat").rpartition(")")[2].split()[1])
            os.kill(parent, signal.SIGKILL)
            killed.wait(LIMIT)
            named = f"process {prover}, which `kill {prover}` ends"
            self.note("what a killed call leaves", f"goes on as {named}\n" in said(), said())
            with tree.begun() as (after, heard):
                waits = wait_until(lambda: f"{named}; waiting for its end" in heard(), LIMIT)
                self.note("the next call waits", waits and tree.at_work(), heard())
                os.kill(int(prover), signal.SIGTERM)
                ends = wait_until(lambda: prover not in tree.at_work(), LIMIT)
                self.note("what was named ends", ends, tree.at_work())
                write(tree.cached("go"), "")
                self.same("and the next call goes on", after.wait(LIMIT), 0)

    def run_wrong_bodies(self, tree):
        """Edits are tried in the place of the gate's, and each is counted by what `rt ci` says of it."""
        weak = "refused, as it must be (only because a proof file names what the edit took away)"
        answers = "refused, as it must be: ./proofs/f/Answers.antt:9:48: error: `returns`: "
        by_hand = f"{answers}as printed, the two types first differ"
        for edits, wanted, status in (
            (
                {"one": "refused, as it must be"},
                ["1 refused, 0 of them WEAK, 0 PROVED, 0 not run"],
                0,
            ),
            (
                {"two": weak},
                [
                    f"WEAK crates/middle/wrong-bodies/two.edit{weak.removeprefix('refused')}",
                    "2 refused, 1 of them WEAK, 0 PROVED, 0 not run",
                ],
                3,
            ),
            (
                {"two": by_hand},
                [
                    f"WEAK crates/middle/wrong-bodies/two.edit{by_hand.removeprefix('refused')}",
                    "2 refused, 1 of them WEAK, 0 PROVED, 0 not run",
                ],
                3,
            ),
            (
                {"two": f"{by_hand}\nclause: ok"},
                ["2 refused, 0 of them WEAK, 0 PROVED, 0 not run"],
                0,
            ),
            (
                {"two": f"{answers}`search`: no proof of `2 ≡ 3`"},
                ["2 refused, 0 of them WEAK, 0 PROVED, 0 not run"],
                0,
            ),
            (
                {"two": "NOT REFUSED: still proved", "three": "BAD EDIT: no text"},
                [
                    "BAD EDIT crates/middle/wrong-bodies/three.edit: no text",
                    "PROVED crates/middle/wrong-bodies/two.edit: still proved",
                    "1 refused, 0 of them WEAK, 1 PROVED, 1 not run",
                ],
                1,
            ),
        ):
            for name, said in edits.items():
                tree.write(f"crates/middle/wrong-bodies/{name}.edit", said)
            done = tree.build("wrong-bodies", "middle")
            self.note(
                f"wrong bodies {edits}", (done[0], done[1].splitlines()) == (status, wanted), done
            )
        tree.source("lower", "wrong")
        done = tree.build("wrong-bodies", "middle/one")
        self.note(
            "a crate below that isn't proved",
            done[0] == 1
            and "lower isn't proved" in done[2]
            and done[1].endswith("\n0 refused, 0 of them WEAK, 0 PROVED, 1 not run\n"),
            done,
        )
        tree.source("lower", "fine")

    def run_alone(self, tree):
        """A build without a run."""
        tree.source("middle", "built alone")
        before = os.stat(tree.program).st_ino
        for arguments, status, is_new in (
            (["--ask"], 1, False),
            ([], 0, True),
            (["--ask"], 0, True),
        ):
            done = tree.build("program", *arguments, "forestplan")
            good = (*done[:2], os.stat(tree.program).st_ino != before) == (status, "", is_new)
            self.note(f"build program {arguments}, which doesn't run it", good, done)

    def run_kits(self, tree):
        """Nothing is said of a kit that fits. Another kit, or a command that says none, is named before proofs begin;
        without a command nothing begins."""
        self.note("several kits fit", len(KITS) == len(set(KITS)) > 1, KITS)
        for kit in KITS:
            write(tree.kit, f"{kit}\n")
            tree.source("lower", kit)
            status, out, err = tree.call("plan")
            self.note(
                f"{kit} fits", (status, out) == (0, "plan\n") and "sources are for" not in err, err
            )
        write(tree.kit, "rattle-kit-99z logic 0\n")
        for kit in ("rattle-kit-99z logic 0", "no kit that says its name"):
            tree.source("lower", kit)
            status, out, err = tree.call("plan")
            self.same("another kit is tried", (status, out), (0, "plan\n"))
            self.note(
                "both kits are named",
                f"for {' or '.join(KITS)}, and rt is of {kit}" in err.split(" crates proved")[0],
                err,
            )
            with contextlib.suppress(FileNotFoundError):
                os.remove(tree.kit)
        tree.source("lower", "by no command")
        tree.environment["PATH"] = without_rt(tree.environment["PATH"])
        status, out, err = tree.call("plan")
        self.note(
            "no command",
            (status, out) == (70, "")
            and f"rt is not on the PATH; one of these kits is needed: {', '.join(KITS)}\n" in err,
            err,
        )
        self.note(
            "what it would take isn't said then",
            "minutes" not in err and "Traceback" not in err,
            err,
        )
        status, out, err = tree.run(os.path.join(TOP, "try"), "plan")
        self.note(
            "try without a command",
            (status, out) == (70, "")
            and f"one of these kits is needed: {', '.join(KITS)}\n" in err,
            err,
        )

    def test_watch(self):
        """A line of a run now and then, until it ends; of another process, or none, nothing."""
        script = (
            f"import sys; sys.path.insert(0, {SOURCES!r}); "
            "from forestplan import progress; progress.MOMENTS = [0.1, 0.2, 60]; "
            "sys.exit(progress.main(sys.argv[1:]))"
        )
        line = (
            'sleep "$3" <"$0" & "$1" -c "$2" $! forestplan plan 2>&1 | '
            '{ read -r first; kill $!; echo "$first"; exec cat; }'
        )
        network = os.path.join(TOP, "examples", "triangle.col")
        done = called(
            "bash",
            "-c",
            line,
            network,
            sys.executable,
            script,
            LIMIT,
            data="",
            limit=LIMIT,
            cwd=TOP,
            text=True,
        )
        shape = r"(forestplan: \d+ s, 0 s of processor time(, of about 0 s for 284 wires)?\n)+"
        self.note(
            "lines of a run", (done[0], done[2]) == (0, "") and re.fullmatch(shape, done[1]), done
        )
