"""What is submitted tries to get points that it hasn't earned, by another way than from within its programs
(sandbox.py): by the folder in which grading is called, by the words of a command, by what it prints, by its files."""
import os
import shutil
import subprocess
from random import Random

from forestplan.workshop.cases import case_network
from forestplan.workshop.submissions import part_of
from tests.cases import text_in, working_in
from tests.tools import need, needs
from tests.workshop.base import ALPHA, JAVA, call
from tests.workshop.submitted import RIGHT, Submitted
from tests.workshop.test_forgers import FORGED

THIEF = "import os\nopen({loot!r}, 'w').write('x')\nraise SystemExit\n"
# The names of modules that a command of forestlab imports, and of programs that it starts.
MODULES = (
    "argparse",
    "forestplan",
    "json",
    "resource",
    "secrets",
    "shutil",
    "subprocess",
    "tempfile",
)
PROGRAMS = ("bwrap", "chmod", "chown", "javac", "rm", "forestplan", "forestplay")


class Attacks(Submitted):
    def setUp(self):
        need(self, "bwrap")
        super().setUp()
        self.here = os.path.join(self.folder, "here")
        self.loot = os.path.join(self.folder, "loot")
        os.makedirs(self.here)

    def test_a_name_means_the_example_in_each_folder(self):
        """Whatever a class has in its folder; with `./` it is the file."""
        names = {"two": 2, "path3": 3, "random6": 6, "most4": 4}
        for name in names:
            self.file(os.path.join(self.here, name), "p edge 1 0\n")
        self.enterContext(working_in(self.here))
        for name, nodes in names.items():
            self.same(name, case_network(name, Random(1)).nodes, nodes)
            self.same(f"./{name}", case_network(f"./{name}", Random(1)).nodes, 1)

    @needs("bin/forestplan", "bin/forestplay")
    def test_modules_and_programs_of_the_working_folder(self):
        """Nothing that is there is imported or started, even if the PATH has a folder `.`."""
        thief = THIEF.format(loot=self.loot)
        for name in MODULES:
            self.file(os.path.join(self.here, f"{name}.py"), thief)
        for name in PROGRAMS:
            path = self.file(os.path.join(self.here, name), f"#!/usr/bin/env python3\n{thief}")
            os.chmod(path, 0o755)
        shutil.copytree(RIGHT, os.path.join(self.subs, "anna"))
        path = f".::{os.environ['PATH']}"
        found = self.graded(cwd=self.here, env={**os.environ, "PATH": path})
        self.same("points", found["anna"]["in_all"], "80")
        self.same("the thief ran", os.path.exists(self.loot), False)

    def why_not(self, student):
        return part_of(student, os.path.join(self.subs, student), "alpha").remark()

    def test_words_of_a_command(self):
        """They name nothing outside of the folder, whoever reads them."""
        sentence = "files are named as they are in the folder itself"
        for number, command in enumerate(
            (
                f"java -cp . AlphaNode {JAVA}",
                f"python3 {ALPHA[-1]}",
                "java @words AlphaNode",
                "python3 ../ben/alpha_node.py",
                "python3 ..",
                "./sub/../../ben/alpha_node",
                "/bin/cat",
                "python3 --with=/etc/passwd alpha_node.py",
                "python3 .//alpha_node.py",
            )
        ):
            self.submit(f"anna{number}", commands=f"alpha: {command}\n")
            self.note(
                command, sentence in self.why_not(f"anna{number}"), self.why_not(f"anna{number}")
            )
        for command in ("./alpha_node --fast", "python3 -O alpha_node.py", "java AlphaNode.java"):
            self.submit("ben", commands=f"alpha: {command}\n")
            self.same(command, self.why_not("ben"), "")

    def test_files_of_a_submission(self):
        """Those that a copy would read elsewhere, or that would fill the disk, are refused."""
        self.submit("ben", commands="alpha: python3 alpha_node.py\n")
        link = self.submit("anna", alpha_node_py="x")
        os.symlink(os.path.join(self.subs, "ben", "commands"), os.path.join(link, "commands"))
        self.same("a link", self.why_not("anna"), "`commands` is a link")
        holes = self.submit("cleo", alpha_node_py="x")
        with open(os.path.join(holes, "big"), "wb") as file:
            file.truncate(1 << 40)
        many = self.submit("dora", alpha_node_py="x")
        for number in range(1000):
            open(os.path.join(many, str(number)), "wb").close()
        deep = self.submit("eve", alpha_node_py="x")
        subprocess.run(["mkdir", "-p", os.path.join(deep, "d/" * 70)], check=True)
        for student, sentence in (
            ("cleo", "megabytes"),
            ("dora", "1,000 files"),
            ("eve", "too deep"),
        ):
            self.note(student, sentence in self.why_not(student), self.why_not(student))

    @needs("bin/forestplan", "bin/forestplay")
    def test_verdicts_that_a_program_prints(self):
        """To each file that it has open, and with letters that a terminal obeys."""
        said = f"{FORGED}\n\x1b[2Janna 100/100 40 120/120 40 50/50 10 90\n"
        writes = (
            f"import os\nfor number in range(256):\n    try:\n        os.write(number, {said!r}.encode())\n"
            "    except OSError:\n        pass\n"
        )
        self.submit("anna", rounds_node_py=writes, open_node_py=writes)
        done = call("grade", self.subs, "--runs", "2", "--reports", os.path.join(self.folder, "to"))
        self.assertNotIn("\x1b", done.stdout + done.stderr)
        self.assertRegex(done.stdout, r"(?m)^anna +0/2 +0 +- +0 +0/2 +0 +0  rounds: ended;")
        self.assertNotIn("\x1b", text_in(self.folder, "to", "anna.txt"))
