"""Tests of `python3 build install`, with the programs as they are built in this tree.

What is installed has to run from another folder, through symbolic links, and from a copy of the folder; its manual
pages have to be the help texts, which src/forestplan/help/ has."""
import gzip
import os
import re
import resource
import signal
import subprocess
import sys

from build import completion
from tests import TOP
from tests.cases import FolderCase, called, contents, copied, text, wait_until
from tests.commands import APART, COMMANDS, PROGRAMS
from tests.commands import SCRIPTS as OF_BIN
from tests.pages.test_pages import PAGES, lines_of
from tests.tools import need, needs

# Seconds; a busy machine takes long for the many calls of help that the manual pages are made of.
LIMIT = 600
NAMES = [*PROGRAMS, "forestlab"]
LICENCES = (b"LICENSE-APACHE", b"LICENSE-MIT", b"LICENSE-THIRD-PARTY")
# Stored pictures that version 0.5 drew, of kinds that there are no more.
OF_NO_KIND = {"petersen-automaton.svg", "petersen-tally.svg", "four_cycle-forests.svg"}
BUILD = [sys.executable, "-B", os.path.join(TOP, "build")]
# As a user has it: what Python compiles isn't kept elsewhere.
OWN = {name: word for name, word in os.environ.items() if not name.startswith("PYTHON")}
ENVIRONMENT = OWN | {"COLUMNS": "80"}


def run(arguments, data=b"", most=None, **more):
    """The status and both outputs of a call, of which each file may be so large at most."""
    if most:
        more["preexec_fn"] = lambda: resource.setrlimit(resource.RLIMIT_FSIZE, (most, most))
    return called(*arguments, data=data, limit=LIMIT, **{"env": ENVIRONMENT} | more)


def all_of(folder):
    """What each file of a folder says, and its folders."""
    return {
        at: {name: contents(os.path.join(at, name)) for name in names}
        for at, _, names in os.walk(folder)
    }


def lines_of_page(text):
    """The lines of a manual page that are printed unchanged, block by block, under its headings."""
    blocks = re.findall(r'^\.SH "?([^"\n]*)"?\n\.nf\n(.*?)^\.fi\n', text, re.M | re.S)
    return {
        title: re.sub(r"^\\&", "", block, flags=re.M).replace("\\-", "-").replace("\\e", "\\")
        for title, block in blocks
    }


def shown_commands(lines):
    """(line number, command, lines shown under it), of each command in an indented block."""
    for number, line in enumerate(lines):
        found = re.match(r"^( {4}.*?)\$ (.+)$", line)
        if not found:
            continue
        column, shown = len(found.group(1)), []
        for below in lines[number + 1 :]:
            if not below.startswith("    ") or "$ " in below:
                break
            shown.append(re.split(r"(?<=\S) {2,}", below[column:].rstrip())[0])
        yield number + 1, re.split(r" {2,}", found.group(2))[0], shown


def listed_commands(lines):
    """(line number, command) of each command in a list: an indented line of commands alone, some blanks apart. What
    calls a program, reads a file or writes a folder of the reader's own, and what doesn't end, is left out.
    """
    for number, line in enumerate(lines, 1):
        if re.match(r" {4}forest(lab|plan|play) ", line):
            for command in re.split(r" {2,}", line.strip()):
                is_own = re.search(r" -- |~/|\b(pairs\.csv|submissions)\b|lab studio$", command)
                if command.startswith("forestlab ") and not is_own:
                    yield number, command


class Install(FolderCase):
    # Another folder, and the installed one.
    elsewhere: str
    target: str
    # The script that installs.
    script: list[str]

    @classmethod
    def setUpClass(cls):
        super().setUpClass()
        cls.elsewhere, cls.target = (
            os.path.join(cls.of_class, name) for name in ("else where", "my plans")
        )
        os.mkdir(cls.elsewhere)
        cls.script = [*BUILD, "install"]
        run([*cls.script, os.path.join("..", "my plans")], cwd=cls.elsewhere)

    def line(self, command):
        path = f"{os.path.join(self.target, 'bin')}:{ENVIRONMENT['PATH']}"
        return called(
            "bash", "-c", command, limit=LIMIT, cwd=self.target, env=ENVIRONMENT | {"PATH": path}
        )

    @needs("bin/forestplan", "bin/forestplay")
    def test_pages(self):
        """Each command of the pages prints in the folder what is under it, in the same columns, or is refused so. Only
        README's begins with `./`."""
        count = 0
        for page in PAGES:
            for number, command, shown in shown_commands(lines_of(page)):
                count += 1
                done = self.line(command.removeprefix("./"))
                wanted = "".join(line + "\n" for line in shown).encode()
                is_broken = wanted.startswith(b"broken ") and " | " not in command
                good = [
                    (int(is_broken), wanted, b""),
                    *((status, b"", wanted) for status in (1, 3) if wanted),
                ]
                self.note(f"{page}:{number} {command}", done in good, done)
        self.note("commands of the pages", count > 60, count)

    @needs("bin/forestplan", "bin/forestplay")
    def test_listed_commands(self):
        """Each command in a list ends well."""
        count = 0
        for page in PAGES:
            for number, command in listed_commands(lines_of(page)):
                count += 1
                done = self.line(command.partition(" > ")[0])
                self.note(f"{page}:{number} {command}", done[::2] == (0, b"") and done[1], done)
        self.note("commands in lists", count > 8, count)

    @needs("bin/forestplan", "bin/forestplay")
    def test_pictures_drawn_anew(self):
        """The script of the stored pictures draws all of them, and each as it is stored."""
        folder = os.path.join(self.target, "docs", "pictures")
        stored = all_of(folder)
        drawn = re.findall(
            r"-o docs/pictures/(\S+)$", contents(os.path.join(folder, "draw.sh")).decode(), re.M
        )
        pictures = {name for name in os.listdir(folder) if re.search(r"\.(svg|html)$", name)}
        self.same("stored pictures without a command", pictures - {*drawn}, OF_NO_KIND)
        for name in drawn:
            os.remove(os.path.join(folder, name))
        done = self.line("sh docs/pictures/draw.sh")
        self.note("docs/pictures/draw.sh", done[0] == 0 and all_of(folder) == stored, done)

    @needs("bin/forestplan", "bin/forestplay")
    def test_copy(self):
        """Each program and script of a copy of the folder, called through links from elsewhere, without the
        toolchain, where the folder itself is away."""
        copy, links, away = (os.path.join(self.folder, name) for name in ("copy", "links", "away"))
        subprocess.run(["cp", "-r", self.target, copy], check=True)
        os.makedirs(os.path.join(links, "bin"))
        for name in NAMES:
            os.symlink(os.path.join(copy, "bin", name), os.path.join(links, "bin", name))
        os.rename(self.target, away)
        self.addCleanup(os.rename, away, self.target)

        def call(*arguments, given=b""):
            return run(
                [os.path.join(links, "bin", arguments[0]), *arguments[1:]],
                given,
                cwd=self.elsewhere,
            )

        for it in COMMANDS:
            got = call(it.program, *it.line, given=text(it.data))
            self.same(f"{it.program} {it.name}", got, (0, text(it.answer), b""))
        own = self.file(os.path.join(self.elsewhere, "net.col"), text(APART))
        for script in OF_BIN:
            line = (own if word == "FILE" else word for word in script.line)
            got = call(*line, given=text(script.data))
            is_answered = re.fullmatch(script.answer, got[1].decode())
            self.note(script.name, got[::2] == (0, b"") and is_answered, got)

    @needs("bin/forestplan", "bin/forestplay")
    def test_manual(self):
        """A page for each of the three, with the help of each of its commands."""
        pages, there = os.path.join(self.target, "share", "man", "man1"), os.path.join(
            self.target, "bin"
        )
        for name in NAMES:
            page = contents(os.path.join(pages, f"{name}.1")).decode()
            blocks = {
                name if title == "DESCRIPTION" else title.lower(): said
                for title, said in lines_of_page(page).items()
            }
            wanted = {
                " ".join(arguments): said for arguments, said, _ in completion.helps(there, name)
            }
            self.same(f"the manual page of {name}", blocks, wanted)
            purpose = re.search(rf"^\.SH NAME\n{name} \\- [a-z][^\n]*[a-z]$", page, re.M)
            self.note(f"the purpose of {name}", purpose, page)
            with self.subTest(f"groff sets the page of {name}"):
                need(self, "groff")
                got = run(["groff", "-man", "-Tutf8", "-ww", os.path.join(pages, f"{name}.1")])
                self.assertEqual(got[::2], (0, b""), got)

    def test_refused(self):
        """A folder that has something, this tree and what is in it among them, stays as it is."""
        file = self.file(os.path.join(self.folder, "clash", "lib"), b"")
        clash, new = os.path.dirname(file), os.path.join(self.folder, "new")
        refused: tuple[tuple[str, ...], ...] = (
            (),
            (self.folder, self.folder),
            ("--all",),
            (new, "--prefix", "/usr"),
            (new, "--destdir", self.folder),
            (new, "--python", "lib"),
            ("--prefix", new, "--python", "/lib"),
            ("--prefix", clash),
            (clash,),
            (TOP,),
            (os.path.join(TOP, "docs", "new"),),
        )
        for arguments in refused:
            self.refusal(
                f"install {arguments}", run([*self.script, *arguments]), 2, b"install: error: "
            )
        self.same("what was there", os.listdir(clash), ["lib"])

    @needs("bin/forestplan", "bin/forestplay")
    def test_below_a_file(self):
        file = self.file(os.path.join(self.folder, "a file"), b"")
        got = run([*self.script, os.path.join(file, "below")])
        is_said = re.fullmatch(rb"install: [^\n]+\n", got[2])
        self.note("install below a file", got[:2] == (1, b"") and is_said, got)

    @needs("bin/forestplan", "bin/forestplay")
    def test_nothing_half(self):
        """A full disk and a signal leave nothing."""
        room = os.path.join(self.folder, "room")
        os.mkdir(room)
        new = os.path.join(room, "new")
        got = run([*self.script, new], most=200_000)  # The programs are larger.
        self.note("no room", got[:2] == (1, b"") and got[2].count(b"\n") == 1, got)
        self.same("what is left", os.listdir(room), [])
        with subprocess.Popen([*self.script, new], stderr=subprocess.DEVNULL) as started:
            wait_until(lambda: os.listdir(room) or started.poll() is not None, LIMIT, 0.001)
            started.terminate()
            self.same("the status", started.wait(LIMIT), 128 + signal.SIGTERM)
        self.same("what a signal leaves", os.listdir(room), [])

    @needs("bin/forestplan", "bin/forestplay")
    def test_limit(self):
        """Where a file may not grow the output can't be written, and little stack is too little memory: a line, and no
        death. So are few files."""
        for limit, said in (
            ("-f 0", "forestplan: stream"),
            ("-s 96", "forestplan: memory: stack size is limited to .*"),
            ("-n 4", ".*: Too many open files"),
        ):
            arguments = ["bash", "-c", f"ulimit {limit}; exec bin/forestplan plain"]
            with open(os.path.join(self.folder, "plan"), "wb") as plan:
                got = run(arguments, b"p edge 1 0\n", stdout=plan, cwd=self.target)
            good = got[0] == 4 and re.fullmatch(said + "\n", got[2].decode())
            self.note(f"ulimit {limit}", good, got)

    @needs("bin/forestplan", "bin/forestplay")
    def test_prefix(self):
        """What a package has: all where a system looks for it, whatever the umask is, called by links."""
        room = os.path.join(self.folder, "package")
        packages = "lib/python3/dist-packages"
        arguments = ["--prefix", "/usr", "--destdir", room, "--python", packages]
        done = run([*self.script, *arguments], umask=0o077)
        self.note("install --prefix", done[:2] == (0, b""), done)
        self.readme_of(self.target)
        there, share = os.path.join(room, "usr"), os.path.join(room, "usr", "share")
        pages = [f"{name}.1.gz" for name in NAMES]
        for folder, names in (
            ("bin", NAMES),
            ("share/man/man1", pages),
            ("share/bash-completion/completions", NAMES),
            ("share/zsh/site-functions", ["_forestlab"]),
            ("share", ["bash-completion", "doc", "man", "zsh"]),
        ):
            self.same(folder, {*os.listdir(os.path.join(there, folder))}, {*names})
        for name in pages:
            page = gzip.decompress(contents(share, "man", "man1", name))
            self.same(name, page, contents(self.target, "share", "man", "man1", name[:-3]))
        self.readme_of(os.path.join(share, "doc", "forestplan"))
        for arguments, data in (
            (["forestlab", "network", "tell", "two"], b""),
            (["forestplay", "rounds"], b"p edge 1 0\n"),
        ):
            got = run(
                [os.path.join(there, "bin", arguments[0]), *arguments[1:]], data, cwd=self.elsewhere
            )
            self.note(f"{arguments} by a link", got[::2] == (0, b""), got)
        env = ENVIRONMENT | {"PYTHONPATH": os.path.join(there, packages)}
        code = "import forestplan as it; print(it.plan({1: []}), it.home())"
        got = run([sys.executable, "-B", "-c", code], cwd=self.elsewhere, env=env)
        self.same("Python", got, (0, f"{{1: 1}} {there}/lib/forestplan\n".encode(), b""))
        # All may read what is there, and run what is a program or a script; Python has left nothing that it compiled.
        wrong = "-name __pycache__ -o -type d ! -perm 755 -o -type f ! -perm 644 ! -perm 755"
        self.same("modes", run(["bash", "-c", f"find . {wrong}"], cwd=room), (0, b"", b""))
        done = run(["find", room, "-type", "f", "-perm", "755"])
        begin = {contents(path)[:2] for path in done[1].decode().splitlines()}
        self.same("what may be run", begin, {b"#!", b"\x7fE"})
        need(self, "strip")
        for name in PROGRAMS:
            symbols = b".symtab" in contents(there, "lib", "forestplan", "lib", name)
            self.note(f"{name} has no names of functions", not symbols)

    @needs("bin/forestplan", "bin/forestplay")
    def test_python(self):
        """`pip install` of the folder has Python import the package, which finds its programs by itself, and puts the
        commands on the PATH."""
        for way in ("an environment", "a folder", "one user", "all users"):
            with self.subTest(way):
                self.installed_by_pip(way, os.path.join(self.folder, way))

    def installed_by_pip(self, way, room):
        """A way to call pip, in which what it installs comes into a room."""
        system, inside = ["/usr/bin/python3"], f"{room}/bin/python"
        alone = ["bwrap", "--dev-bind", "/", "/", "--bind", room, "/usr/local", *system]
        ways: dict[str, tuple[list[str], list[str], dict[str, str]]] = {
            "an environment": ([inside], [], {}),
            "a folder": ([sys.executable], ["--target", room], {"PYTHONPATH": room}),
            "one user": (system, ["--user"], {"PYTHONUSERBASE": room}),
            "all users": (alone, [], {}),
        }
        python, arguments, settings = ways[way]
        os.mkdir(room)
        if inside in python:
            run([sys.executable, "-m", "venv", "--without-pip", "--system-site-packages", room])
        need(self, python[0])
        pip = [*python, "-m", "pip"]
        if run([*pip, "--version"])[0]:
            self.skipTest(f"pip of {python[-1]} isn't installed")
        of_pip = ("PIP_NO_INDEX", "PIP_NO_COMPILE", "PIP_BREAK_SYSTEM_PACKAGES")
        env = ENVIRONMENT | settings | dict.fromkeys(of_pip, "1")
        got = run([*pip, "install", *arguments, self.target], env=env)
        self.assertEqual(got[0], 0, got)
        code = (
            "import importlib.metadata as it, forestplan; plan = forestplan.plan({1: [2], 2: []}); "
            "print(dict(plan), plan.colours()[1], '<svg' in plan._repr_svg_(), "
            "forestplan.sites({1: (0, 0)}, 1), *it.metadata('forestplan').get_all('License-File')); "
            "forestplan.check({1: []}, {})"
        )
        got = run([*python, "-c", code], cwd=self.elsewhere, env=env)
        wanted = b"{1: 1, 2: 2} #0072B2 True {1: []} " + b" ".join(LICENCES) + b"\n"
        self.assertEqual(got[:2], (1, wanted), got)
        self.assertIn(b"forestplan.Refused: C1, a fault of a plan: 1 has no line", got[2])
        command = [*python[:-1], os.path.join(room, "bin", "forestplan"), "plain"]
        got = run(command, b"p edge 1 0\n", cwd=self.elsewhere, env=env)
        self.assertEqual(got, (0, b"plan\n1 1\n", b""))

    def test_editable(self):
        """`pip install -e` of a tree has Python import the package where it is, and puts the commands on the PATH. A
        tree that isn't installed so is refused, with what to call."""
        tree, room = (os.path.join(self.folder, name) for name in ("its tree", "its environment"))
        copied(tree, "bin", "build", "src", "pyproject.toml", *map(bytes.decode, LICENCES))
        system = "/usr/bin/python3"
        need(self, system)
        run([system, "-m", "venv", "--without-pip", "--system-site-packages", room])
        pip = [f"{room}/bin/python", "-m", "pip"]
        if run([*pip, "--version"])[0]:
            self.skipTest(f"pip of {system} isn't installed")
        env = ENVIRONMENT | {"PIP_NO_INDEX": "1"}
        got = run([*pip, "install", "-e", tree], env=env)
        self.assertEqual(got[0], 0, got)
        code = "import forestplan as it; print(it.sites({1: (0, 0)}, 1), it.home())"
        got = run([f"{room}/bin/python", "-B", "-c", code], cwd=self.elsewhere, env=env)
        self.same("Python", got, (0, f"{{1: []}} {tree}\n".encode(), b""))
        got = run([f"{room}/bin/forestlab", "network", "ring", "3"], cwd=self.elsewhere, env=env)
        self.note("forestlab", got[::2] == (0, b"") and b"p edge 3 3\n" in got[1], got)
        got = run([*pip, "install", tree], env=env)
        self.note("without -e", got[0] == 1 and b"build install DIR" in got[2], got)

    def test_unbuilt(self):
        """From a tree that isn't built from its sources, without the toolchain, nothing is installed."""
        tree, target = os.path.join(self.folder, "a tree"), os.path.join(self.folder, "target")
        copied(tree, "forestplan", "crates.txt", "bin", "build", "src")
        got = run([sys.executable, os.path.join(tree, "build"), "install", target])
        self.refusal("install from a tree that isn't built", got, 70, b"not on the PATH")
        self.note("nothing is installed then", not os.path.exists(target), got)

    @needs("bin/forestplan", "bin/forestplay")
    def test_contents(self):
        """What says which forestplan it is, the texts of the licences and pages, and a sum of each file."""
        version = contents(os.path.join(self.target, "VERSION")).decode()
        lines = r"forestplan \d+\.\d+\.\d+\ncommit [^\n]+\nkit rattle-kit-[^\n]+\n(built where rt is of [^\n]+\n)?"
        self.note("VERSION", re.fullmatch(lines, version), version)
        for arguments in (*([name] for name in NAMES), ["forestlab", "network"]):
            got = run([os.path.join(self.target, "bin", arguments[0]), *arguments[1:], "--version"])
            self.same(f"{arguments} --version", got, (0, version.encode(), b""))
        sums = contents(os.path.join(self.target, "SHA256SUMS")).decode()
        self.note(
            "the programs have sums", all(f"  lib/{name}\n" in sums for name in PROGRAMS), sums
        )
        self.same(
            "each sum is its file's",
            run(["sha256sum", "-c", "--quiet", "SHA256SUMS"], cwd=self.target)[0],
            0,
        )

    def readme_of(self, folder):
        """README in a folder has the links of the repository's, and names nothing that it alone has."""
        there = contents(folder, "README.md").decode()
        links = {link.partition("#")[0] for link in re.findall(r"\]\(([^#)][^)]*)\)", there)}
        lost = {link for link in links if not os.path.isfile(os.path.join(folder, link))}
        self.note("each page that it links is there", len(links) > 10 and not lost, lost)
        alone = re.findall(r"\./\w+|(?<!\.)\brt\b|wrong-bodies", there)
        self.same("what is of the repository alone", alone, [])
