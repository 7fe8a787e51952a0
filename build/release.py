"""Writes what a class or a distribution takes: both programs with the pages, the examples and the Python package, as a
tarball, a package of Debian and a wheel, with their sums and with what vouches for the programs.

The archives' bytes depend on the commit, the programs and the versions of Python and zlib, and on nothing else. So
whoever builds the same programs can make them again, and compare."""
import hashlib
import importlib.util
import os
import platform
import re
import shutil
import subprocess
import sys
import tempfile
import zlib
from collections.abc import Mapping
from dataclasses import dataclass

from build import archives, gate_record, install, program
from build.crate_lists import PROGRAMS, TOP
from forestplan import __version__, version
from forestplan.parsers import parser_of
from forestplan.workshop.class_files import is_free, make_folder, write_file, write_sums

# The status if nothing vouches for the programs.
NOT_PROVED = 70
# By the number that an ELF file has for its processor: what Linux calls it, and Debian.
MACHINES = {62: ("x86_64", "amd64"), 183: ("aarch64", "arm64")}
PYTHON = "lib/python3/dist-packages"

HELP = """\
Writes a release into a folder: a tarball, a package of Debian and a wheel, each with
both programs, the Python package, the examples and the licences, and the first two
with the pages; SHA256SUMS; PROOF.txt, which says what vouches for the programs; and
the log of the gate. Nobody needs the toolchain to install one of them.

It takes the programs that ./test has built, and refuses unless the gate that ./test
ran has passed on these sources, and no file is changed since the commit.
"""

MORE_HELP = """\
The archives depend on the commit, on the programs, and on the versions of Python and
zlib, which PROOF.txt names. The time of all files is SOURCE_DATE_EPOCH, or the
commit's. With --unproved, VERSION, PROOF.txt and the names of the archives say so.

DIR is a folder that isn't there yet, or is empty.

Status: 0 done, 1 the folder can't be written, 2 the command line is refused, 70
nothing vouches for the programs.

Example:
  python3 build release --to ~/release
  cd ~/release && sha256sum -c SHA256SUMS
"""


class Refused(Exception):
    """Why no release is written."""


@dataclass(frozen=True)
class Systems:
    """For which systems a program is made."""

    machine: str
    of_debian: str
    glibc: str

    def sentence(self) -> str:
        return f"Linux on {self.machine}, with the GNU C library {self.glibc} or later"


@dataclass(frozen=True)
class Release:
    """What is released: by `record`, or, without one, unproved."""

    record: gate_record.Record | None
    # The files of the programs by their names.
    programs: Mapping[str, str]
    commit: str
    time: int

    @property
    def number(self) -> str:
        return __version__ if self.record else f"{__version__}+unproved"

    def version_text(self) -> str:
        lines = version.version_text().split("\n")[1:-1]
        more = (
            f"built by {self.record.kit}"
            if self.record
            else "unproved: nothing vouches for these programs"
        )
        return "\n".join([f"forestplan {self.number}", *lines, more, ""])

    def systems(self) -> Systems:
        found = {systems_of(contents(path)) for path in self.programs.values()}
        newest = max(found, key=lambda one: number_of(one.glibc))
        if any(one.machine != newest.machine for one in found):
            raise Refused("the two programs are of different processors")
        return newest

    def proof(self) -> str:
        """The text of PROOF.txt."""
        rows = [f"forestplan {self.number}", f"commit {self.commit}"]
        rows += [
            f"sources of {name}: {program.sources_of(name)} (python3 build program --sources {name})"
            for name in PROGRAMS
        ]
        rows += [f"lib/{name}: sha256 {sum_at(path)}" for name, path in self.programs.items()]
        if self.record:
            rows += [
                f"kit {self.record.kit}",
                f"sources of all crates: {self.record.sources} (python3 build gate-record --sources)",
                f"the gate's last line: {self.record.last}",
                f"the gate's log: sha256 {self.record.log} (gate.log.gz has it)",
            ]
        else:
            rows.insert(0, "UNPROVED: no gate vouches for these programs.")
        rows += [
            f"made for {self.systems().sentence()}",
            f"packed by Python {platform.python_version()} and zlib {zlib.ZLIB_RUNTIME_VERSION}",
            f"time of all files: {self.time} (seconds since 1970)",
            "",
        ]
        return "\n".join(rows)

    def copy_programs(self, folder: str) -> None:
        """Copies them as they were built, so that their sums are those of a second build."""
        for name, path in self.programs.items():
            shutil.copy(path, os.path.join(folder, name))
            os.chmod(os.path.join(folder, name), 0o755)

    def write(self, room: str) -> None:
        """Writes all into a folder that isn't there."""
        os.makedirs(room)
        systems = self.systems()

        def with_systems(section: str) -> str:
            return section.replace("need no toolchain", f"are for {systems.sentence()}")

        name = f"forestplan-{self.number}-{systems.machine}-linux-gnu"
        with tempfile.TemporaryDirectory() as work:
            folder = os.path.join(work, name)
            install.make(
                folder, with_systems(install.SECTION), self.copy_programs, self.version_text()
            )
            packed = archives.compressed(archives.tar(folder, name, self.time))
            write_bytes(os.path.join(room, f"{name}.tar.gz"), packed)
            write_wheel(folder, room, self.time)
            root = os.path.join(work, "root")
            write_file(
                os.path.join(folder, "README.md"),
                install.readme(with_systems(install.SECTION_OF_SYSTEM)),
            )
            install.lay_out(folder, os.path.join(root, "usr"), PYTHON)
            # By `~` Debian takes an unproved one for older than the proved one of this number.
            number = self.number.replace("+", "~")
            package = archives.debian_package(control(number, systems, root), root, self.time)
            write_bytes(os.path.join(room, f"forestplan_{number}_{systems.of_debian}.deb"), package)
        write_file(os.path.join(room, "PROOF.txt"), self.proof())
        if self.record:
            log = archives.compressed(contents(gate_record.log_at()))
            write_bytes(os.path.join(room, "gate.log.gz"), log)
        write_sums(room)


def contents(path: str) -> bytes:
    with open(path, "rb") as file:
        return file.read()


def write_bytes(path: str, data: bytes) -> None:
    with open(path, "wb") as file:
        file.write(data)


def sum_at(path: str) -> str:
    return hashlib.sha256(contents(path)).hexdigest()


def number_of(number: str) -> list[int]:
    """A version in an order, as 2.34 after 2.4."""
    return [int(part) for part in number.split(".")]


def systems_of(data: bytes) -> Systems:
    """For which systems an ELF file is made: its processor, and which version of the C library it asks for."""
    machine = int.from_bytes(data[18:20], "little")
    asked = re.findall(rb"\0GLIBC_(\d+(?:\.\d+)+)(?=\0)", data)
    if data[:4] != b"\x7fELF" or machine not in MACHINES or not asked:
        raise Refused(
            "a program isn't one of Linux, x86_64 or aarch64, that uses the GNU C library"
        )
    return Systems(*MACHINES[machine], max((one.decode() for one in asked), key=number_of))


def control(number: str, systems: Systems, root: str) -> dict[str, str]:
    """What a package of Debian says of itself."""
    paths = [os.path.join(root, path) for path in archives.inside(root)]
    size = sum(os.path.getsize(path) for path in paths if not os.path.islink(path))
    return {
        "Package": "forestplan",
        "Version": number,
        "Architecture": systems.of_debian,
        "Maintainer": "The forestplan authors <forestplan@invalid>",
        "Installed-Size": str(-(-size // 1024)),
        "Depends": f"bash, libc6 (>= {systems.glibc}), python3 (>= 3.10)",
        "Recommends": "bubblewrap, libseccomp2",
        "Section": "science",
        "Priority": "optional",
        "Description": "channel plans of interference graphs, by proved programs\n"
        " Transmitters need channels, and neighbours must not share one. The two programs\n"
        " find channels by message passing, and play and judge runs; the studio shows them.",
    }


def write_wheel(folder: str, to: str, time: int) -> None:
    """Has the package of an installed folder write its wheel, as pip does, of this time."""
    path = os.path.join(folder, "src", "wheel_of_folder.py")
    spec = importlib.util.spec_from_file_location("wheel_of_release", path)
    assert spec is not None and spec.loader is not None
    module = importlib.util.module_from_spec(spec)
    before = os.environ.get("SOURCE_DATE_EPOCH")
    is_writing = sys.dont_write_bytecode
    sys.dont_write_bytecode = True
    os.environ["SOURCE_DATE_EPOCH"] = str(time)
    try:
        spec.loader.exec_module(module)
        module.build_wheel(to)
    finally:
        sys.dont_write_bytecode = is_writing
        if before is None:
            del os.environ["SOURCE_DATE_EPOCH"]
        else:
            os.environ["SOURCE_DATE_EPOCH"] = before


def said_by_git(*words: str) -> str:
    """What git says of this tree, or nothing where it is no checkout."""
    line = ["git", "-C", TOP, "--git-dir", ".git", *words]
    try:
        done = subprocess.run(line, stdin=subprocess.DEVNULL, capture_output=True, text=True)
    except OSError:
        return ""
    return done.stdout.strip() if done.returncode == 0 else ""


def time_of_files() -> int:
    """The time that all files of a release have."""
    time = os.environ.get("SOURCE_DATE_EPOCH") or said_by_git("log", "-1", "--format=%ct")
    if not time.isdecimal():
        raise Refused("this is no checkout of git, so SOURCE_DATE_EPOCH has to say the files' time")
    return int(time)


def proved_release() -> Release:
    """The release of the programs that the gate has built; refused if nothing vouches for them."""
    record = gate_record.read()
    why = gate_record.refusal(record)
    if why:
        raise Refused(f"{why}; run ./test, or say --unproved")
    commit = said_by_git("rev-parse", "HEAD")
    if not commit or said_by_git("status", "--porcelain"):
        raise Refused("files are changed since the commit, so nobody could make this release again")
    programs = {name: program.program_at(name) for name in PROGRAMS}
    return Release(record, programs, commit, time_of_files())


def unproved_release(folder: str) -> Release:
    """The release of two programs of a folder, for which nothing vouches."""
    programs = {name: os.path.join(folder, name) for name in PROGRAMS}
    for path in programs.values():
        if not os.path.isfile(path):
            raise Refused(f"there is no file {path}")
    return Release(None, programs, version.commit(), time_of_files())


def main() -> int:
    parser = parser_of("release", "--to DIR [--unproved FOLDER]", HELP, MORE_HELP, "python3 build")
    parser.add_argument("--to", metavar="DIR", required=True, help="the folder that is made")
    parser.add_argument(
        "--unproved",
        metavar="FOLDER",
        help="take the programs forestplan and forestplay of this folder, for which nothing vouches",
    )
    given = parser.parse_args()
    folder = os.path.abspath(given.to)
    inside = os.path.relpath(os.path.realpath(folder), os.path.realpath(TOP))
    if inside.split(os.sep)[0] in install.FOLDERS:
        parser.error("the folder can't be inside of what is packed")
    if not is_free(folder):
        parser.error(f"{folder} is there already")
    os.umask(0o022)
    try:
        release = unproved_release(given.unproved) if given.unproved else proved_release()
        make_folder(folder, release.write)
    except Refused as why:
        print(f"release: {why}", file=sys.stderr)
        return NOT_PROVED
    except (OSError, shutil.Error, subprocess.CalledProcessError) as failed:
        print(f"release: {folder}: {failed}", file=sys.stderr)
        return 1
    print(f"release: {folder} has it", file=sys.stderr)
    return 0
