"""The folder of a class: what students may see. The slow definitions, and all that is written with them, are solutions
of the assignment; so are the right nodes. `workshop class DIR` makes it from an installed folder or a built tree."""
import hashlib
import os
import re
import shutil
import tempfile
from collections.abc import Callable, Collection, Iterator

from forestplan import version
from forestplan.build_hint import FIRST
from forestplan.folders import PACKAGE, TOP
from forestplan.parsers import parser_of
from forestplan.process_exit import held
from forestplan.proved_programs import SCRIPT, program_file

# Files and whole folders, each at the path that it has here; a folder means all files below it.
COPIED = (
    "LICENSE-MIT",
    "LICENSE-APACHE",
    "LICENSE-THIRD-PARTY",
    "bin/forestlab",
    "docs/learn/TUTORIAL.md",
    *(f"docs/learn/LESSON_{number}.md" for number in range(1, 9)),
    "docs/learn/BY_HAND.md",
    "docs/learn/ANSWERS.md",
    "docs/learn/GALLERY.md",
    "docs/learn/OWN_NETWORK.md",
    "docs/learn/PROTOCOL.md",
    "docs/learn/WORKSHOP.md",
    "docs/pictures",
    "examples",
    "src/forestplan/__init__.py",
    "src/forestplan/_python.py",
    "src/forestplan/__main__.py",
    "src/forestplan/process_exit.py",
    "src/forestplan/launcher.sh",
    "src/forestplan/definitions/__init__.py",
    "src/forestplan/definitions/events.py",
    "src/forestplan/folders.py",
    "src/forestplan/help",
    "src/forestplan/limits.py",
    "src/forestplan/network.py",
    "src/forestplan/processors.py",
    "src/forestplan/proved_programs.py",
    "src/forestplan/public_names.py",
    "src/forestplan/build_hint.py",
    "src/forestplan/progress.py",
    "src/forestplan/interface",
    "src/forestplan/py.typed",
    "src/forestplan/version.py",
    "src/forestplan/files.py",
    "src/forestplan/parsers.py",
    "src/forestplan/wording.py",
    "src/forestplan/fault_codes.py",
    "src/forestplan/faults.py",
    "src/forestplan/sentences.py",
    "src/forestplan/networks",
    "src/forestplan/workshop",
    "src/forestplan/schedules/__init__.py",
    "src/forestplan/schedules/policies.py",
    "src/forestplan/transcripts/__init__.py",
    "src/forestplan/transcripts/fields.py",
    "src/forestplan/transcripts/proved_judge.py",
    "src/forestplan/transcripts/rules.py",
)
# Of these folders, what stays with the teacher.
LEFT_OUT = (
    "examples/workshop/python",
    "examples/workshop/c",
    "examples/workshop/java",
    "examples/workshop/mistakes.py",
    "examples/algorithms",
)
README = """\
# A class with forestplan

Transmitters find channels by talking with their neighbours alone. Here you learn how, and write one yourself.

- [TUTORIAL](docs/learn/TUTORIAL.md): the algorithm in eight lessons, with commands to try; begin there.
- [WORKSHOP](docs/learn/WORKSHOP.md): write the program of one node, in any language; [PROTOCOL](docs/learn/PROTOCOL.md)
  is how it talks, and `examples/workshop/skeletons` has programs to begin with.
- [OWN_NETWORK](docs/learn/OWN_NETWORK.md): channels for a network of your own.
- [GALLERY](docs/learn/GALLERY.md): what goes wrong if a rule is left out.

Put the folder's `bin` on the PATH once, by `PATH=$PWD/bin:$PATH`, and then type commands, as
`forestlab workshop rounds two -- python3 my_node.py`. A command that isn't in this folder says so; your teacher's
folder has it.
"""


def place_here(path: str) -> str:
    """The file or folder here that a class gets at a path. pip has this package elsewhere than a tree has it."""
    inner = path.removeprefix("src/forestplan/")
    return os.path.join(TOP, path) if inner == path else os.path.join(PACKAGE, inner)


def class_files() -> Iterator[str]:
    """The paths of all files that are copied; the programs themselves come besides."""
    for path in COPIED:
        source = place_here(path)
        if os.path.isfile(source):
            yield path
        for folder, _, names in sorted(os.walk(source)):
            for name in sorted(names):
                found = path + os.path.join(folder, name).removeprefix(source)
                if not is_left_out(found) and not found.endswith(".pyc"):
                    yield found


def is_left_out(path: str) -> bool:
    """Whether a path stays with the teacher: it is in LEFT_OUT, or is below a folder of it."""
    return any(f"{path}/".startswith(f"{left}/") for left in LEFT_OUT)


LINK = re.compile(r"(?<!!)\[([^]]+)\]\(([^)#\s]+)(?:#[^)\s]*)?\)")


def page_for_a_class(text: str, path: str, paths: Collection[str]) -> str:
    """A page without its links to what isn't copied; their words stay."""

    def linked(link: re.Match[str]) -> str:
        found = os.path.normpath(os.path.join(os.path.dirname(path), link[2]))
        is_there = ":" in link[2] or any(f"{other}/".startswith(f"{found}/") for other in paths)
        return link[0] if is_there else link[1]

    return LINK.sub(linked, text)


def write_scripts(room: str) -> None:
    """The scripts that run the programs."""
    for name in FIRST:
        write_file(os.path.join(room, "bin", name), SCRIPT)
        os.chmod(os.path.join(room, "bin", name), 0o755)


def write_file(path: str, text: str) -> None:
    os.makedirs(os.path.dirname(path), exist_ok=True)
    with open(path, "w", encoding="utf-8") as file:
        file.write(text)


def write_sums(room: str) -> None:
    """Writes a sum of each file of a folder, in the form that `sha256sum -c` reads."""
    paths = [os.path.join(at, name) for at, _, names in os.walk(room) for name in names]
    lines = ""
    for path in sorted(paths):
        with open(path, "rb") as file:
            found = hashlib.sha256(file.read()).hexdigest()
        lines += f"{found}  {os.path.relpath(path, room)}\n"
    write_file(os.path.join(room, "SHA256SUMS"), lines)


def is_free(folder: str) -> bool:
    """Whether a folder isn't there yet, or is empty."""
    return not os.path.exists(folder) or os.path.isdir(folder) and not os.listdir(folder)


def make_folder(folder: str, make: Callable[[str], None]) -> None:
    """Has such a folder made beside its place, and moved there once it is whole, so that nothing half is left."""
    above = os.path.dirname(folder)
    os.makedirs(above, exist_ok=True)
    # A signal between the making of the room and its being known would leave it.
    with held():
        kept = tempfile.TemporaryDirectory(prefix=".new-", dir=above)
    with kept as room:
        made = os.path.join(room, "made")
        make(made)
        os.rename(made, folder)


HELP = """\
Makes the folder of a class: the programs, the workshop, the pages and examples for
students, without the right nodes, the definitions, the commands that are written with
them, and the answers.

DIR is a folder that isn't there yet, or is empty. Pack it as you like, as by
tar czf class.tar.gz DIR.
"""


EXAMPLE = """\
Example:
  forestlab workshop class ~/class
"""


def main(arguments: list[str]) -> int:
    line = parser_of("workshop class", "DIR", HELP, EXAMPLE)
    line.add_argument("dir", metavar="DIR", help="the folder that is made")
    folder = os.path.abspath(line.parse_args(arguments).dir)
    if not is_free(folder):
        line.error(f"{folder} is there already")
    make_folder(folder, copy_class)
    print(f"{folder} is for students")
    return 0


def copy_class(room: str) -> None:
    """Makes the folder from this one; what an installed folder has in share/ is copied. Its pages lose their links to
    pages that a class doesn't get."""
    found = {os.path.join("lib", name): program_file(name) for name in FIRST}
    found |= {path: place_here(path) for path in class_files()}
    for at, _, names in os.walk(os.path.join(TOP, "share")):
        found |= {
            os.path.relpath(os.path.join(at, name), TOP): os.path.join(at, name) for name in names
        }
    for path, source in found.items():
        os.makedirs(os.path.join(room, os.path.dirname(path)), exist_ok=True)
        shutil.copy(source, os.path.join(room, path))
        if path.endswith(".md"):
            with open(source, encoding="utf-8") as file:
                write_file(os.path.join(room, path), page_for_a_class(file.read(), path, found))
    write_scripts(room)
    write_file(os.path.join(room, "README.md"), README)
    write_file(os.path.join(room, "VERSION"), version.version_text())
    write_sums(room)
