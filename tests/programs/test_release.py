"""Tests of `python3 build release`, and of the note of the gate by which it says what vouches for the programs.

They run in a repository of two crates, whose programs are files of this system, and over a command `rt` that proves
nothing: it says what `rt ci` says. What is installed from a release in a bare system, and whether a second build of the
programs has the same bytes, is tried by hand: tests/by_hand/bare_release.py and same_bytes.py."""
import gzip
import hashlib
import io
import os
import re
import shutil
import subprocess
import sys
import tarfile
import zipfile

from build.crate_lists import PROGRAMS, lines_of, listed, with_below
from tests.cases import Case, called, contents, copied, text_in, tool_at
from tests.programs.test_first_run import KITS, write
from tests.tools import need

LIMIT = 600
CRATES = "low:\nforestplan: low\nforestplay: low\n"
# What `rt ci` does here: it builds the programs, and says what the file `said` at the top has.
RT = """\
#!/bin/sh
for name in forestplan forestplay; do
  mkdir -p "crates/$name/out" && cp "crates/$name/made" "crates/$name/out/$name"
done
cat said
"""
PASSED = "rt: low proved\n12 passed, 0 failed\n"
OF_GIT = ["-c", "user.name=A", "-c", "user.email=a@example.org", "-c", "init.defaultBranch=main"]
# What a release has, as its parts are called, and what its archives have to have.
NAMES = (
    "forestplan-{0}-x86_64-linux-gnu.tar.gz",
    "forestplan_{1}_amd64.deb",
    "forestplan-{0}-py3-none-linux_x86_64.whl",
)
EACH_HAS = ("lib/forestplan", "lib/forestplay", "bin/forestlab", "examples/triangle.col")


def sum_of(data):
    return hashlib.sha256(data).hexdigest()


def git(top, *words):
    done = subprocess.run(["git", *OF_GIT, *words], cwd=top, check=True, capture_output=True)
    return done.stdout.decode().strip()


def text_of_member(archive, path):
    """The bytes of a file in an archive; none if it isn't there."""
    if path not in archive.getnames():
        return b""
    file = archive.extractfile(path)
    return file.read() if file else b""


def member(package, name):
    """A member of an archive of Debian's form, which deb(5) describes."""
    at = package.index(f"{name:<16}".encode())
    size = int(package[at + 48 : at + 58])
    return package[at + 60 : at + 60 + size]


class Release(Case):
    def setUp(self):
        need(self, "git")
        self.kit = os.path.join(self.folder, "kits", "rattle")
        write(os.path.join(self.kit, "bin", "rt"), RT, 0o755)
        write(os.path.join(self.kit, "KIT-ID"), KITS[0])
        self.top = os.path.join(self.folder, "a tree")
        copied(
            self.top,
            *("test", "build", "src", "bin", "docs", "examples", ".gitignore", "pyproject.toml"),
            *("README.md", "CHANGELOG.md", "LICENSE-MIT", "LICENSE-APACHE", "LICENSE-THIRD-PARTY"),
        )
        write(os.path.join(self.top, "HANDLES"), "Handles allowed: none.\n")
        write(os.path.join(self.top, "crates.txt"), CRATES)
        for name in ("low", "forestplan", "forestplay"):
            write(os.path.join(self.top, "crates", name, "src", "lib.rt"), f"//! {name}\n")
        for name, tool in (("forestplan", "true"), ("forestplay", "false")):
            shutil.copy(tool_at(tool), os.path.join(self.top, "crates", name, "made"))
        write(os.path.join(self.top, "said"), PASSED)
        git(self.top, "init", "--quiet")
        self.commit("2026-11-30T10:20:30+00:00")

    def commit(self, date):
        git(self.top, "add", "--all")
        environment = os.environ | {"GIT_AUTHOR_DATE": date, "GIT_COMMITTER_DATE": date}
        line = ["git", *OF_GIT, "commit", "--quiet", "--message", "A change"]
        subprocess.run(line, cwd=self.top, check=True, env=environment)

    def called_at(self, top, *line, **more):
        environment = dict(os.environ, PATH=f"{self.kit}/bin:{os.environ['PATH']}")
        environment.pop("SOURCE_DATE_EPOCH", None)
        environment |= more.pop("environment", {})
        return called(*line, limit=LIMIT, cwd=top, env=environment, text=True, data="", **more)

    def release(self, to, *options, top=None, **more):
        top = top or self.top
        line = [sys.executable, "-S", os.path.join(top, "build"), "release", "--to", to, *options]
        return self.called_at(top, *line, **more)

    def gate(self, top=None):
        """Has ./test run the gate. The tests that would follow it aren't in this tree."""
        return self.called_at(top or self.top, "./test")

    def refused(self, name, said, *options):
        to = os.path.join(self.folder, "refused")
        done = self.release(to, *options)
        self.refusal(name, done, 70, said)
        self.note(f"{name}: nothing is written", not os.path.exists(to))

    def test_proved(self):
        """After a gate that has passed two clones, in two folders, in two time zones, with two masks of modes, write
        the same archives. They say which gate it was, and whatever is changed then is refused."""
        self.refused("no gate", "no gate has passed here")
        self.gate()
        second = os.path.join(self.folder, "further", "below", "another tree")
        git(self.folder, "clone", "--quiet", self.top, second)
        self.gate(second)
        folders = [os.path.join(self.folder, name) for name in ("one", "two")]
        for top, to, umask, zone in (
            (self.top, folders[0], 0o022, "UTC"),
            (second, folders[1], 0o077, "Asia/Kolkata"),
        ):
            environment = {"TZ": zone, "PYTHONHASHSEED": str(umask)}
            done = self.release(to, top=top, umask=umask, environment=environment)
            self.same(f"release --to {to}", (done[0], done[1]), (0, ""))
        files = [{name: contents(to, name) for name in os.listdir(to)} for to in folders]
        for name in files[0]:
            self.note(f"{name} is the same", files[0][name] == files[1].get(name))
        self.check_files(files[0], "0.6.0", "0.6.0")
        self.check_proof(files[0]["PROOF.txt"].decode(), files[0])
        self.check_changes()

    def check_files(self, files, number, of_debian):
        archives = [name.format(number, of_debian) for name in NAMES]
        others = {"SHA256SUMS", "PROOF.txt"} | ({"gate.log.gz"} if number == "0.6.0" else set())
        self.same("files", {*files}, {*archives, *others})
        lines = files["SHA256SUMS"].decode().splitlines()
        wanted = {f"{sum_of(data)}  {name}" for name, data in files.items() if name != "SHA256SUMS"}
        self.same("SHA256SUMS", {*lines}, wanted)
        tar, package, wheel = (files[name] for name in archives)
        data = gzip.decompress(member(package, "data.tar.gz"))
        within = f"forestplan-{number}-x86_64-linux-gnu/"
        self.check_archive("tarball", gzip.decompress(tar), within, number)
        self.check_archive("package", data, "./usr/lib/forestplan/", number)
        self.check_wheel(wheel, number)
        self.check_package(package, of_debian)

    def check_archive(self, name, data, within, number):
        """An archive has all that it should, sorted, owned by root, with two modes; and the programs as they were."""
        with tarfile.open(fileobj=io.BytesIO(data)) as archive:
            self.same(f"{name}: owners", {(one.uid, one.gid) for one in archive}, {(0, 0)})
            paths = archive.getnames()
            self.same(f"{name}: sorted", paths, sorted(paths))
            modes = {one.mode for one in archive if not one.issym()}
            self.same(f"{name}: modes", modes, {0o755, 0o644})
            wanted = {*EACH_HAS, "LICENSE-THIRD-PARTY", "docs/learn/TUTORIAL.md"}
            lack = {one for one in wanted if within + one not in paths}
            self.same(f"{name}: what it lacks", lack, set())
            for one in ("forestplan", "forestplay"):
                made = contents(self.top, "crates", one, "made")
                self.note(f"{name}: {one}", text_of_member(archive, f"{within}lib/{one}") == made)
            said = text_of_member(archive, f"{within}VERSION").decode()
            self.note(f"{name}: VERSION", said.startswith(f"forestplan {number}\n"), said)

    def check_wheel(self, wheel, number):
        with zipfile.ZipFile(io.BytesIO(wheel)) as archive:
            names = archive.namelist()
        info = f"forestplan-{number}.dist-info/LICENSE-THIRD-PARTY"
        for one in (*(f"forestplan/installed/{one}" for one in EACH_HAS), info):
            self.note(f"wheel: {one}", one in names)

    def check_package(self, package, of_debian):
        control = gzip.decompress(member(package, "control.tar.gz"))
        with tarfile.open(fileobj=io.BytesIO(control)) as archive:
            said = text_of_member(archive, "./control").decode()
        self.note("control", f"\nVersion: {of_debian}\nArchitecture: amd64\n" in said, said)
        if shutil.which("dpkg-deb"):
            path = self.file("a package.deb", package)
            done = called("dpkg-deb", "--field", path, "Package")
            self.same("dpkg-deb reads it", done, (0, b"forestplan\n", b""))

    def check_proof(self, proof, files):
        """What PROOF.txt says of the gate is so."""
        log = gzip.decompress(files["gate.log.gz"])
        self.same("the gate's log", log.decode(), PASSED)
        for said in (
            "forestplan 0.6.0\n",
            f"commit {git(self.top, 'rev-parse', 'HEAD')}\n",
            f"kit {KITS[0]}\n",
            "the gate's last line: 12 passed, 0 failed\n",
            f"sha256 {sum_of(log)} (gate.log.gz",
            *(
                f"lib/{name}: sha256 {sum_of(contents(self.top, 'crates', name, 'made'))}\n"
                for name in ("forestplan", "forestplay")
            ),
            "made for Linux on x86_64, with the GNU C library 2.",
        ):
            self.note(f"PROOF.txt: {said}", said in proof, proof)
        commands = re.findall(r": (\w{32}) \(python3 (build [^)]+)\)", proof)
        self.same("sums of sources", len(commands), 3)
        for found, command in commands:
            done = self.called_at(self.top, sys.executable, *command.split())
            self.same(f"PROOF.txt: {command}", done, (0, f"{found}\n", ""))

    def check_changes(self):
        """No gate is claimed that wasn't run on these sources and programs."""
        program = os.path.join(self.top, "crates", "forestplay", "out", "forestplay")
        whole = contents(program)
        self.file(program, whole + b"\0")
        self.refused("another program", "forestplay isn't the program that the gate has built")
        self.file(program, whole)
        page = os.path.join(self.top, "docs", "MEASUREMENTS.md")
        text = contents(page)
        self.file(page, text + b"more\n")
        self.refused("a page is changed", "files are changed since the commit")
        self.file(page, text)
        log = os.path.join(self.top, "out", "gate", "log")
        self.file(log, "another\n12 passed, 0 failed\n")
        self.refused("another log", "the gate's log isn't the one of the note")
        self.file(log, PASSED)
        source = os.path.join(self.top, "crates", "low", "src", "lib.rt")
        self.file(source, "//! changed\n")
        self.commit("2026-11-30T10:20:31+00:00")
        self.refused("a crate is changed", "the crates have changed since the gate passed")

    def test_failed_gate(self):
        """Of a gate that hasn't passed no note is taken."""
        for said in ("11 passed, 1 failed\n", "0 passed, 0 failed\n", "ended by a signal\n"):
            write(os.path.join(self.top, "said"), f"rt: low proved\n{said}")
            self.gate()
            self.refused(f"after {said}", "no gate has passed here")

    def test_unproved(self):
        """Programs for which nothing vouches are released only by an option, and all names say so."""
        room = os.path.join(self.folder, "programs")
        os.mkdir(room)
        for name in ("forestplan", "forestplay"):
            self.refused("no program", "there is no file", "--unproved", room)
            shutil.copy(os.path.join(self.top, "crates", name, "made"), os.path.join(room, name))
        to = os.path.join(self.folder, "unproved")
        done = self.release(to, "--unproved", room)
        self.same("release --unproved", (done[0], done[1]), (0, ""))
        files = {name: contents(to, name) for name in os.listdir(to)}
        self.check_files(files, "0.6.0+unproved", "0.6.0~unproved")
        proof = files["PROOF.txt"].decode()
        self.note("PROOF.txt", proof.startswith("UNPROVED: no gate vouches"), proof)
        self.note("it claims no gate", "gate's" not in proof and "kit" not in proof, proof)
        self.file(os.path.join(room, "forestplay"), "#!/bin/sh\n")
        self.refused("a script", "isn't one of Linux", "--unproved", room)
        for arguments in ((), ("--to", to), ("--to", os.path.join(self.top, "docs", "new"))):
            line = [sys.executable, "-S", os.path.join(self.top, "build"), "release", *arguments]
            done = self.called_at(self.top, *line)
            self.refusal(f"release {arguments}", done, 2, "release: error: ")


class Licences(Case):
    def test_each_library(self):
        """LICENSE-THIRD-PARTY names each library of the kit that a crate of the two programs names, and its texts are
        the kit's, if the kit is here."""
        text = text_in("LICENSE-THIRD-PARTY")
        lines, own = lines_of(), listed()
        named = set()
        for crate in with_below(PROGRAMS, own):
            words = lines[crate].partition("#")[0].partition(":")[2].split()
            named |= {word for word in words if word not in own}
        for name in sorted(named):
            self.note(name, re.search(rf"^{name}: a port of |\b{name}\b", text, re.M))
        self.note("libraries of the kit", len(named) > 5, named)
        ports = re.findall(r"^(\w+): a port of ", text, re.M)
        for name in ports:
            for end in ("LICENSE-MIT", "LICENSE"):
                path = os.path.join("/opt/rattle/rattle", name, end)
                if os.path.isfile(path):
                    wanted = " ".join(text_in(path).split())
                    self.note(f"{name}: the kit's text", wanted in " ".join(text.split()))
                    break
        self.note("ports", len(ports) > 5, ports)
