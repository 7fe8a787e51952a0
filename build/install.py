"""Copies the built programs and the scripts into a folder, from where they run without this tree and its toolchain."""
import os
import re
import shutil
import subprocess
import sys
from collections.abc import Callable

from build import kit, program
from build.completion import COMMANDS, completion, manual
from build.crate_lists import PROGRAMS, TOP
from forestplan import version
from forestplan.parsers import parser_of
from forestplan.workshop.class_files import (
    is_free,
    make_folder,
    write_file,
    write_scripts,
    write_sums,
)

# What is copied, each at the path that it has here.
FOLDERS = ("examples", "docs", "src")
FILES = (
    "CHANGELOG.md",
    "LICENSE-MIT",
    "LICENSE-APACHE",
    "LICENSE-THIRD-PARTY",
    "bin/forestlab",
    "pyproject.toml",
)
# Where shells look for what completes words, below share/.
OF_SHELLS = ("bash-completion/completions/forestlab", "zsh/site-functions/_forestlab")

HELP = """\
Copies forestplan and what belongs to it into a folder, so that it runs there
without the toolchain and without this tree.

The folder gets the layout of this tree: in bin/ forestlab and the scripts that run the
two programs of lib/, their modules, the examples, a README of what is there, the pages and
lessons, the licences; in share/ a manual page for each of the three, and what completes
their words in bash and zsh. With its bin/ on the PATH the lessons' commands work in it as
they do here. VERSION says what it was made from, and SHA256SUMS has a sum of each file:
sha256sum -c SHA256SUMS. The programs need the C library alone, the scripts bash and
Python 3.10 or later. One such folder serves every machine of the same kind: copy it with cp -r or
tar. After `pip install DIR` Python can import forestplan.

With --prefix this folder is PREFIX/lib/forestplan, and what a system looks for is where
it looks: bin, share/doc, share/man/man1, share/bash-completion/completions and
share/zsh/site-functions. With --destdir all of it is written below D in place of /, for a
package; then `cp -a D/. /` has it in place. With --python the system's Python can import
forestplan: FOLDER, below PREFIX, gets a link to the package.

Programs that aren't built from these sources are proved and built first. That takes
the minutes that README.md says, and needs the toolchain's command rt.
"""

MORE_HELP = """\
DIR, or PREFIX in D, is a folder that isn't there yet, or is empty; so remove an earlier
one. If it can't be written to the end, as on a full disk, nothing of it is left. All may
read what is installed, whatever the umask is. If there is the command strip, the programs
are without the names of their functions.

Status: 0 done, 1 the folder can't be written, 2 the command line is refused; if the
programs can't be built, what `forestplan` ends with.

Example:
  python3 build install ~/forestplan
  cd ~/forestplan
  forestplan plain < examples/triangle.col

  python3 build install --prefix /usr --destdir package --python lib/python3/dist-packages
"""

# In place of README's section on the first call and the tests, up to the table of the commands.
SECTION = """\
## In this folder

    PATH=$PWD/bin:$PATH
    forestplan plan < examples/triangle.col     # prints the plan

The programs need no toolchain; `forestlab` needs bash and Python 3.10 or later. With `bin/` on the PATH the commands
work anywhere, and `man` finds their pages. `source share/bash-completion/completions/forestlab` lets bash and zsh
complete their words. VERSION says from which commit the folder was made, and SHA256SUMS has a sum of each file. What a
page says of `crates/`, `bench/`, `tests/`, the toolchain and `python3 build` is about the repository of that commit.

"""
# The same, if the folder is lib/forestplan below a prefix.
SECTION_OF_SYSTEM = """\
## On this system

    forestplan plan < examples/triangle.col     # prints the plan

The programs need no toolchain; `forestlab` needs bash and Python 3.10 or later. `man` has pages of the three
commands, bash and zsh complete their words, and `forestplan --version` says from which commit they were made. What a
page says of `crates/`, `bench/`, `tests/`, the toolchain and `python3 build` is about the repository of that commit.

"""


# What README says of the toolchain: a paragraph, and the last column of its first table.
OF_THE_KIT = re.compile(r"^To build the programs you need the kit.*?\n\n", re.M | re.S)
NEEDS_THE_KIT = re.compile(r"^([^|\n]*\|[^|\n]*)\|[^|\n]*$", re.M)
# Its links to what only the repository has.
OF_THE_REPOSITORY = r"\[([^\]]+)\]\((?:crates/[^)]+|CONTRIBUTING\.md)\)"


def readme(section: str) -> str:
    """The text of README as it is in a folder: with the commands that the folder has, as they are called."""
    with open(os.path.join(TOP, "README.md"), encoding="utf-8") as file:
        text = file.read()
    text = re.sub(r"^## Commands\n.*?(?=^Command \| )", section, text, flags=re.M | re.S)
    text = NEEDS_THE_KIT.sub(lambda row: row[1].rstrip(), OF_THE_KIT.sub("", text))
    return re.sub(OF_THE_REPOSITORY, r"\1", text)


def copy_built(folder: str) -> None:
    """Copies the programs that this tree has built, without the names of their functions."""
    for name in PROGRAMS:
        to = shutil.copy(program.program_at(name), folder)
        if shutil.which("strip"):
            subprocess.run(["strip", to], check=True)


def version_here() -> str:
    """What VERSION says of this tree. The sources name several kits, so it says which one is here."""
    return version.version_text() + (
        f"built where rt is of {kit.found()}\n" if kit.command() else ""
    )


def make(
    room: str,
    section: str = SECTION,
    copy_programs: Callable[[str], None] = copy_built,
    version_text: str | None = None,
) -> None:
    """Makes all that is installed in an empty folder."""
    os.makedirs(os.path.join(room, "lib"))
    copy_programs(os.path.join(room, "lib"))
    for folder in FOLDERS:
        shutil.copytree(
            os.path.join(TOP, folder),
            os.path.join(room, folder),
            ignore=shutil.ignore_patterns("__pycache__"),
        )
    write_scripts(room)
    for path in FILES:
        shutil.copy(os.path.join(TOP, path), os.path.join(room, path))
    write_file(os.path.join(room, "README.md"), readme(section))
    share = os.path.join(room, "share")
    commands = os.path.join(room, "bin")
    for name in COMMANDS:
        write_file(os.path.join(share, "man", "man1", f"{name}.1"), manual(commands, name))
    for path in OF_SHELLS:
        write_file(os.path.join(share, path), completion(commands))
    write_file(os.path.join(room, "VERSION"), version_text or version_here())
    write_sums(room)
    subprocess.run(["chmod", "-R", "u=rwX,go=rX", room], check=True)


def make_below(room: str, python: str) -> None:
    """Makes all that is installed below a prefix, in an empty folder, with a folder of Python's, if it is named."""
    make(f"{room}.folder", SECTION_OF_SYSTEM)
    lay_out(f"{room}.folder", room, python)


def lay_out(made: str, room: str, python: str) -> None:
    """Lays out a folder that is made as it is below a prefix, in another folder that is new."""
    os.makedirs(room)
    subprocess.run([os.path.join(TOP, "build", "below.sh"), made, room, python], check=True)


def main() -> int:
    parser = parser_of(
        "install",
        "DIR | --prefix PREFIX [--destdir D] [--python FOLDER]",
        HELP,
        MORE_HELP,
        "python3 build",
    )
    parser.add_argument("dir", metavar="DIR", nargs="?", help="the folder that is made")
    parser.add_argument("--prefix", help="the folder in which a system has bin, lib and share")
    parser.add_argument("--destdir", metavar="D", default="", help="what comes before PREFIX")
    parser.add_argument(
        "--python", metavar="FOLDER", default="", help="where Python has packages, below PREFIX"
    )
    given = parser.parse_args()
    if (given.dir is None) == (given.prefix is None) or given.dir and given.destdir + given.python:
        parser.error("either DIR or --prefix is wanted")
    if os.path.isabs(given.python):
        parser.error("the folder of --python is below PREFIX, as lib/python3/dist-packages")
    folder = os.path.abspath(given.dir or given.destdir + os.path.abspath(given.prefix))
    inside = os.path.relpath(os.path.realpath(folder), os.path.realpath(TOP))
    if inside.split(os.sep)[0] in FOLDERS:
        parser.error("the folder can't be inside of what is copied")
    if not is_free(folder):
        parser.error(f"{folder} is there already")
    status = program.built(PROGRAMS)
    if status:
        return status
    os.umask(0o022)

    def fill(room: str) -> None:
        if given.dir:
            make(room)
        else:
            make_below(room, given.python)

    try:
        make_folder(folder, fill)
    except (OSError, shutil.Error, subprocess.CalledProcessError) as failed:
        why = failed.args[0][0][2] if isinstance(failed, shutil.Error) else failed
        print(f"install: {folder}: {why}", file=sys.stderr)
        return 1
    print(
        f"install: {folder} has all; with {folder}/bin on the PATH the commands work anywhere, and man finds their "
        "pages",
        file=sys.stderr,
    )
    return 0
