"""What is kept of the gate that `./test` ran: its log, and a note of what it was run on and what it built.

A release says by it which gate has passed. The note vouches for these sources alone: after any change of a crate, or of
a program, it vouches for nothing."""
import dataclasses
import hashlib
import json
import os
import re
import sys

from build import kit, program
from build.crate_lists import PROGRAMS, TOP, listed
from forestplan.parsers import parser_of

# The line of a gate that counts, and of one that has passed.
COUNT = re.compile(r"^\d+ passed, \d+ failed$", re.M)
PASSED = re.compile(r"[1-9]\d* passed, 0 failed")
HELP = """\
Takes note of a gate that has passed: what it was run on, what it has built, and its
log. `./test` calls it, and `python3 build release` reads it.
"""
MORE_HELP = """\
Status: 0 done, 1 the gate hasn't passed or the sources have changed meanwhile, 2 the
command line is refused.

Example:
  python3 build gate-record --sources
"""


@dataclasses.dataclass(frozen=True)
class Record:
    """What one gate was run on, and what came of it. All sums of files are by SHA-256."""

    kit: str
    # The sum of all crates and their lines of crates.txt.
    sources: str
    # The last line of the log that counts, as "86 passed, 0 failed".
    last: str
    log: str
    # The sums of the programs by their names.
    programs: dict[str, str]


def folder(top: str = TOP) -> str:
    return os.path.join(top, "out", "gate")


def log_at() -> str:
    return os.path.join(folder(), "log")


def note_at() -> str:
    return os.path.join(folder(), "record.json")


def sources() -> str:
    """The sum of what all crates are proved from."""
    of_crates = kit.sums(listed())
    return kit.sum_of(*(f"{name} {of_crates[name]}".encode() for name in sorted(of_crates)))


def sum_of_file(path: str) -> str:
    with open(path, "rb") as file:
        return hashlib.sha256(file.read()).hexdigest()


def last_line(log: bytes) -> str:
    """The last line that counts."""
    found = COUNT.findall(log.decode("utf-8", "replace"))
    return str(found[-1]) if found else "none"


def keep(log: str, were: str) -> str:
    """Takes note of a gate by its log and the sum that the sources had before it. Returns why it isn't taken, or ""."""
    with open(log, "rb") as file:
        said = file.read()
    last = last_line(said)
    if not PASSED.fullmatch(last):
        return f"the gate hasn't passed: its last count is {last!r}"
    if sources() != were:
        return "the sources have changed since the gate began"
    built = {name: sum_of_file(program.program_at(name)) for name in PROGRAMS}
    os.makedirs(folder(), exist_ok=True)
    with open(log_at(), "wb") as to:
        to.write(said)
    record = Record(kit.found(), were, last, hashlib.sha256(said).hexdigest(), built)
    with open(note_at(), "w", encoding="utf-8") as note:
        json.dump(dataclasses.asdict(record), note, indent=1)
    return ""


def read() -> Record | None:
    """The note, if there is one that can be read."""
    try:
        with open(note_at(), encoding="utf-8") as note:
            return Record(**json.load(note))
    except (OSError, ValueError, TypeError):
        return None


def refusal(record: Record | None) -> str:
    """Why a note doesn't vouch for the programs and sources as they are now, or "" if it does."""
    if record is None:
        return "no gate has passed here that ./test has taken note of"
    if record.sources != sources():
        return "the crates have changed since the gate passed"
    for name in PROGRAMS:
        path = program.program_at(name)
        if not os.path.isfile(path) or record.programs.get(name) != sum_of_file(path):
            return f"{name} isn't the program that the gate has built"
    if not os.path.isfile(log_at()) or sum_of_file(log_at()) != record.log:
        return "the gate's log isn't the one of the note"
    return ""


def main() -> int:
    parser = parser_of(
        "gate-record", "--sources | --keep LOG --of SUM", HELP, MORE_HELP, "python3 build"
    )
    parser.add_argument("--sources", action="store_true", help="print a sum of all crates")
    parser.add_argument("--keep", metavar="LOG", help="what the gate has said")
    parser.add_argument("--of", metavar="SUM", help="what --sources has printed before the gate")
    given = parser.parse_args()
    if given.sources == bool(given.keep) or bool(given.keep) != bool(given.of):
        parser.error("either --sources is wanted, or --keep with --of")
    if given.sources:
        print(sources())
        return 0
    why = keep(given.keep, given.of)
    if why:
        print(f"gate-record: {why}", file=sys.stderr)
    return 1 if why else 0
