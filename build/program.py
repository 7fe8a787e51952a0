"""Proves and builds a program, if it isn't built from the sources as they are now; the script `forestplan` calls it.

Beside a program is a note of what it was made from: a sum of the program, and one of its sources. The toolchain is no
part of it. So a copy of a built tree is as good as the tree, and a program stays built where there is another toolchain
or none. The script asks for a look only if a file is newer than the note."""
import contextlib
import os
import shutil
import sys
import time
from collections.abc import Iterable

from build import gate, kit
from build.crate_lists import PROGRAMS, TOP
from forestplan.parsers import parser_of

# The status if a program can't be built.
NOT_BUILT = 70

HELP = """\
Proves and builds programs that aren't built from the sources as they are now. Standard
error shows how far that is. The scripts of these names do the same before they run one.
"""

MORE_HELP = """\
Status: 0 done, 1 with --ask, if it isn't built, 2 the command line is refused, 70 it
can't be built, 130 after Ctrl-C.

Example:
  python3 build program forestplan forestplay
"""


def program_at(name: str, top: str = TOP) -> str:
    return os.path.join(top, "crates", name, "out", name)


def sources_of(name: str, top: str = TOP) -> str:
    """The sum of what a program is made from in a repository: its crates, and their lines of crates.txt."""
    return kit.sums([name], top)[name]


def note_of(name: str, sources: str) -> str:
    """What the note says, of the program as it is."""
    with open(program_at(name), "rb") as program:
        return f"{kit.sum_of(program.read())}\n{sources}\n"


def write_note(name: str, sources: str, since: float) -> None:
    """Writes the note, of the time since which nobody has looked at the sources: what is changed later is newer. It is
    written apart and then renamed, so that a second call meets no half of it; where it can't be written, the next call
    looks at all again."""
    note = f"{program_at(name)}.made-from"
    with contextlib.suppress(OSError):
        with open(f"{note}.{os.getpid()}", "w", encoding="ascii") as file:
            file.write(note_of(name, sources))
        os.utime(file.name, (since, since))
        os.replace(file.name, note)


def take_note(name: str, sources: str) -> None:
    """Takes note that the program was made from sources of this sum, if they still are so."""
    since = time.time()
    if sources_of(name) == sources:
        write_note(name, sources, since)


def is_built(name: str) -> bool:
    """Whether the program is there and was made from the sources as they are now. The note is then written again, so
    that it is newer than all of them."""
    since = time.time()
    sources = sources_of(name)
    try:
        with open(f"{program_at(name)}.made-from", encoding="ascii") as note:
            is_so = note.read() == note_of(name, sources) and os.access(program_at(name), os.X_OK)
    except OSError:
        return False
    if is_so:
        write_note(name, sources, since)
    return is_so


def put(name: str, room: str) -> None:
    """Puts a program into place that was proved in a room, and a note beside it, if the sources are still those."""
    to = program_at(name)
    os.makedirs(os.path.dirname(to), exist_ok=True)
    shutil.copy(program_at(name, room), f"{to}.new")
    os.replace(f"{to}.new", to)
    take_note(name, sources_of(name, room))


def build(name: str) -> int:
    """Proves and builds a program, and returns the status."""
    print(f"{name}: not built from these sources yet", file=sys.stderr)
    if not kit.is_there(name):
        return NOT_BUILT
    print(
        f"{name}: it is proved and built now, once: 15 minutes or more on four free processors, twice as long on two; "
        "meanwhile `bin/forestlab studio` shows runs in a browser, and `./try COMMAND` answers unproved",
        file=sys.stderr,
        flush=True,
    )
    if gate.run(name, [name], take=lambda room: put(name, room)) is not None:
        return 0
    print(f"{name}: it could not be built; the lines above say why", file=sys.stderr)
    return NOT_BUILT


def built(names: Iterable[str]) -> int:
    """Builds those of these programs that aren't built, one after the other, and returns the first status that isn't
    0."""
    return next(filter(None, (build(name) for name in names if not is_built(name))), 0)


def main() -> int:
    parser = parser_of(
        "program", "[--ask | --sources | --made-from SUM] NAME ..", HELP, MORE_HELP, "python3 build"
    )
    what = parser.add_mutually_exclusive_group()
    what.add_argument(
        "--ask", action="store_true", help="build nothing; the status says whether all are built"
    )
    what.add_argument(
        "--sources", action="store_true", help="build nothing; print a sum of each one's sources"
    )
    what.add_argument(
        "--made-from",
        metavar="SUM",
        help="take note that they were made from sources of this sum, if "
        "that is still theirs, as ./test does after the gate",
    )
    parser.add_argument(
        "names", nargs="+", metavar="NAME", choices=PROGRAMS, help=" or ".join(PROGRAMS)
    )
    given = parser.parse_args()
    if given.ask:
        return 0 if all(map(is_built, given.names)) else 1
    if given.sources:
        print(*map(sources_of, given.names), sep="\n")
        return 0
    if given.made_from is not None:
        for name in given.names:
            take_note(name, given.made_from)
        return 0
    return built(given.names)
