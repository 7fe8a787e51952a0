"""What a graded program sees of the disk: the folders that a PATH needs, worked out by hand, and all examples of the
workshop, which start in the container. It needs no built program."""

import os
import subprocess
import sys
from unittest import mock

from forestplan.workshop import grade, visible_files
from forestplan.workshop.compiling import compiled as compiled_in
from forestplan.workshop.findings import NoAnswer
from forestplan.workshop.guard import Limits
from forestplan.workshop.processes import start_program
from forestplan.workshop.sandbox import USERS, Sandbox
from forestplan.workshop.visible_files import copies_in, on_the_path
from tests import SOURCES
from tests.cases import Case, contents
from tests.tools import need
from tests.workshop.base import EXAMPLES, compiled
from tests.workshop.contained import Contained, got, program, started

FIRST = "identifier 7\ndegree 1\nnodes 2\ndelta 1\nbars 0\nforests 1\nlast 18\nbarred 0"
# By its assignment, each example: its file, and the command in the folder of the submission.
NODES = (
    ("rounds", "python/rounds_node.py", ["python3", "rounds_node.py"]),
    ("alpha", "python/alpha_node.py", ["python3", "alpha_node.py"]),
    ("open", "python/greedy_node.py", ["python3", "greedy_node.py"]),
    ("rounds", "c/rounds_node.c", ["./rounds_node"]),
    ("alpha", "java/AlphaNode.java", ["java", "AlphaNode.java"]),
    ("rounds", "skeletons/node.py", ["python3", "node.py"]),
    ("rounds", "skeletons/rounds_node.c", ["./rounds_node"]),
    ("alpha", "skeletons/alpha_node.c", ["./alpha_node"]),
    ("rounds", "skeletons/RoundsNode.java", ["java", "RoundsNode.java"]),
    ("alpha", "skeletons/AlphaNode.java", ["java", "AlphaNode.java"]),
)
OTHERS = {
    "node own.js": "require('readline').createInterface({input: process.stdin}).on('line', line => {\n"
    "    if (line === 'end') process.stdout.write(require('os').cpus().length > 0 ? 'end\\n' : 'none\\n')})\n",
    "perl own.pl": '$| = 1;\nwhile (<STDIN>) { print \'end\', "\\n" if $_ eq "end\\n" }\n',
    "sh own.sh": 'while read -r line; do [ "$line" = end ] && echo end; done\n',
    "ruby own.rb": "STDOUT.sync = true\nSTDIN.each_line { |line| puts 'end' if line == \"end\\n\" }\n",
}


class Starts(Contained):
    user = USERS[-6]

    def first_answer(self, command: list[str], assignment: str) -> list[str] | str:
        guard, _ = self.guards()
        process = start_program(command, Limits(60, 2048, 1), guard, guard.tasks())
        try:
            process.send([f"workshop 1 {assignment}", *FIRST.split("\n")])
            return process.receive()
        except NoAnswer as fault:
            return f"{fault.kind}: {fault.message}"
        finally:
            process.stop(0)

    def copied(self, path: str) -> None:
        """An example with what lies beside it, compiled if it is in C."""
        folder, _, name = path.partition("/")
        for other in os.listdir(os.path.join(EXAMPLES, folder)):
            if other.endswith(".py") or other == name:
                self.file(os.path.join(self.copy, other), contents(EXAMPLES, folder, other))
        if name.endswith(".c"):
            (made,) = compiled(os.path.join(EXAMPLES, path))
            to = self.file(os.path.join(self.copy, name.removesuffix(".c")), contents(made))
            os.chmod(to, 0o755)

    def test_each_example(self) -> None:
        """The first answer of a node without a clock, with one, and of an algorithm of its own."""
        greets = {"rounds": ["put 0 hello 7"], "alpha": ["put 0 payload 0 hello 7"]}
        for assignment, path, command in NODES:
            with self.subTest(path):
                if path.endswith(".java"):
                    need(self, "javac")
                self.copied(path)
                if path.endswith(".java"):
                    command = compiled_in(command, self.copy, self.guards()[0])
                    self.same(f"{path}: compiled", command[-1], os.path.basename(path)[:-5])
                found = self.first_answer(command, assignment)
                wanted = greets.get(assignment, found if isinstance(found, list) else [])
                self.same(f"{path}: {assignment}", found, wanted)

    def test_java_without_a_compiler(self) -> None:
        """The source itself is run, with a heap of the size that Java takes of two gibibytes, a quarter; and what Java
        says of its options is on no report."""
        need(self, "javac")
        source = (
            "public class Heap { public static void main(String[] words) {\n"
            "  Runtime here = Runtime.getRuntime();\n"
            '  System.out.println(here.maxMemory() >> 20); System.out.println("end"); System.out.flush();\n'
            '  throw new RuntimeException(System.getProperty("user.home")); } }\n'
        )
        self.file(os.path.join(self.copy, "Heap.java"), source)
        for _ in range(3):
            found = self.first_answer(["java", "Heap.java"], "rounds")
            # Of 512 the serial collector, which Java takes if it sees one processor, leaves out a space of its own.
            self.note("megabytes", found in (["512"], ["494"]), found)
        self.file(os.path.join(self.copy, "Heap.java"), source.replace("end", "ends"))
        found = self.first_answer(["java", "Heap.java"], "rounds")
        self.note("a report", "RuntimeException: /tmp" in found, found)
        self.note("no options", "JAVA_TOOL_OPTIONS" not in found, found)

    def test_other_languages(self) -> None:
        for command, text in OTHERS.items():
            name, file = command.split()
            with self.subTest(name):
                need(self, name)
                self.file(os.path.join(self.copy, file), text)
                self.same(name, self.first_answer([name, file], "rounds"), [])

    def test_a_folder_that_is_shown(self) -> None:
        """And a closed folder in it is empty."""
        shown = os.path.join(self.folder, "shown")
        self.file(os.path.join(shown, "data"), "x")
        self.file(os.path.join(shown, "closed", "data"), "x")
        self.file(os.path.join(shown, "closed", "open", "data"), "x")
        attacks = {
            name: f"open({os.path.join(shown, name.replace('_', '/'), 'data')!r}).read()"
            for name in (".", "closed", "closed_open")
        }
        attacks["shown"] = attacks.pop(".")
        closed = os.path.join(shown, "closed")
        if os.geteuid() == 0:
            subprocess.run(["chown", "-R", f"{self.user}:{self.user}", self.copy], check=True)
        guard = Sandbox(self.copy, [closed], [shown, os.path.join(closed, "open")], self.user)
        found = got(started(guard, program(attacks)).communicate(timeout=60)[1])
        wanted = {"shown": "'x'", "closed": "FileNotFoundError", "closed_open": "'x'"}
        self.same("found", found, wanted)

    def test_a_copy_behind_a_link(self) -> None:
        """A package of Debian puts this program into /usr/lib, and /lib is a link to that: it is empty by both paths.
        Here the program is another folder that such a system has."""
        if not (os.path.islink("/lib") and os.path.isdir("/usr/lib/apt")):
            self.skipTest("a link /lib to a folder with apt isn't installed")
        with mock.patch.object(visible_files, "OWN_NAME", "apt"):
            self.same("copies", copies_in(["/lib", "/usr/lib"]), ["/usr/lib/apt"])
            guard, _ = self.guards()
            attacks = {
                name: f"__import__('os').listdir({path!r})"
                for name, path in {"link": "/lib/apt", "folder": "/usr/lib/apt"}.items()
            }
            found = got(started(guard, program(attacks)).communicate(timeout=60)[1])
        self.same("found", found, {"link": "[]", "folder": "[]"})


class Paths(Case):
    """By hand."""

    def made(self, *files: str) -> str:
        home = os.path.realpath(self.folder)
        for path in files:
            self.file(os.path.join(home, path), "")
        return home

    def shown(self, path: str, home: str, closed: tuple[str, ...] = ()) -> list[str]:
        named = ":".join(os.path.join(home, part) for part in path.split(":"))
        shut = tuple(os.path.join(home, one) for one in closed)
        found = on_the_path(f"{named}:relative/bin::.", shut, (home, os.path.join(home, ".local")))
        return sorted(os.path.relpath(one, home) for one in found)

    def test_folders_of_languages(self) -> None:
        home = self.made(
            *("node/v20/bin/node", "node/v20/lib/x", "node/v20/notes"),
            *("go/bin/go", "go/pkg/tool/x", "go/src/fmt", "go/VERSION", "go/test/x"),
            *("jdk/bin/java", "jdk/conf/x", "jdk/lib/x", "jdk/release", "jdk/demo/x"),
            *("course/bin/tool", "course/src/solution", "course/etc/x", "course/VERSION"),
            *("venv/bin/python3", "venv/lib/x", "venv/pyvenv.cfg"),
            *("dotnet/dotnet", "dotnet/sdk/x"),
        )
        path = "node/v20/bin:go/bin:jdk/bin:course/bin:venv/bin:dotnet:nowhere/bin"
        wanted = """course/bin dotnet go/VERSION go/bin go/pkg go/src jdk/bin jdk/conf jdk/lib jdk/release
        node/v20/bin node/v20/lib venv/bin venv/lib venv/pyvenv.cfg"""
        self.same("shown", self.shown(path, home), wanted.split())

    def test_links(self) -> None:
        """A folder to which a link of the PATH leads, in one step or several, is shown, and what it needs."""
        home = self.made("tools/node/bin/node", "tools/node/lib/x", "tools/other/bin/x", "bin/own")
        os.symlink(os.path.join(home, "tools/node"), os.path.join(home, "tools/current"))
        os.symlink("../tools/current/bin/node", os.path.join(home, "bin/node"))
        os.symlink("../tools/nothing/bin/x", os.path.join(home, "bin/broken"))
        self.same(
            "shown",
            self.shown("bin", home),
            ["bin", "tools/current/bin", "tools/current/lib", "tools/node/bin", "tools/node/lib"],
        )

    def test_shims(self) -> None:
        home = self.made(".pyenv/shims/python3", ".pyenv/libexec/pyenv", ".pyenv/versions/x/y")
        os.symlink(
            "../libexec/pyenv",
            self.file(".pyenv/bin/x", "") and os.path.join(home, ".pyenv/bin/pyenv"),
        )
        found = self.shown(".pyenv/shims:.pyenv/bin", home)
        wanted = [f".pyenv/{name}" for name in ("bin", "libexec", "shims", "versions")]
        self.same("shown", found, wanted)

    def test_what_is_closed(self) -> None:
        """Of a home and its .local only the folder of programs, and nothing but scripts of a copy of this program, even
        if a PATH or a link there leads to it; what lies in a closed folder or has one in it isn't shown.
        """
        home = self.made(
            *("bin/x", "lib/secret", ".local/bin/y", ".local/share/keys"),
            *(
                "copy/bin/forestlab",
                "copy/lib/solution",
                "copy/examples/workshop/python/rounds_node.py",
            ),
            *("old/forestplan", "old/src/forestplan/workshop/grade.py"),
            *("subs/anna/bin/x", "work/bin/x", "work/lib/closed/x"),
        )
        os.symlink("../copy/bin/forestlab", os.path.join(home, "bin/forestlab"))
        path = ".:bin:.local/bin:copy/bin:copy:old:subs/anna/bin:work/bin"
        found = self.shown(path, home, ("subs", "work/lib/closed"))
        self.same("shown", found, [".local/bin", "bin", "copy/bin", "work/bin"])

    def test_installed_copies(self) -> None:
        home = self.made("lib/forestplan/x", "share/other/x")
        folders = [os.path.join(home, name) for name in ("lib", "share", "nothing")]
        self.same("found", copies_in(folders), [os.path.join(home, "lib/forestplan")])

    def test_what_an_option_shows(self) -> None:
        """A folder that is there, and neither has submissions in it nor lies among them."""
        home = self.made("subs/anna/x", "data/x")
        line = grade.command_line()
        closed = [os.path.join(home, "subs")]
        data = os.path.join(home, "data")
        self.same("data", grade.readable_folder(line, data, closed), data)
        for path, sentence in (
            (home, f"would show {closed[0]}, or is in it"),
            (os.path.join(home, "subs", "anna"), f"would show {closed[0]}, or is in it"),
            (os.path.join(home, "data", "x"), "there is no such folder"),
        ):
            done = subprocess.run(
                [
                    sys.executable,
                    "-m",
                    "forestplan",
                    "workshop",
                    "grade",
                    closed[0],
                    "--show",
                    path,
                ],
                capture_output=True,
                text=True,
                env={**os.environ, "PYTHONPATH": SOURCES},
            )
            self.same(f"{path}: status", (done.returncode, done.stdout), (2, ""))
            self.note(path, sentence in done.stderr, done.stderr)
