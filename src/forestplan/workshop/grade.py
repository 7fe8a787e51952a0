"""Grades submissions: all parts are played with the same seed, and a table, an object for a program, or a text for each
student says what is found."""
import argparse
import json
import os
import secrets
import subprocess
import sys
import tempfile

from forestplan.fault_codes import Code
from forestplan.faults import Fault
from forestplan.folders import PACKAGE, TOP
from forestplan.parsers import count, parser_of
from forestplan.schedules.policies import POLICIES
from forestplan.wording import as_text
from forestplan.workshop.leftovers import shut
from forestplan.workshop.options import add_limits, seconds
from forestplan.workshop.parts import AGAIN, play_again, play_all, sandbox_of
from forestplan.workshop.report import aligned
from forestplan.workshop.right_rounds import ask
from forestplan.workshop.sandbox import USERS
from forestplan.workshop.submissions import (
    EACH,
    POINTS,
    RUNS,
    RUNS_EACH,
    Part,
    clean,
    submissions_of,
)
from forestplan.workshop.visible_files import meets

SECONDS = 600
EDITION = 1

HELP = f"""\
Grades all submissions of a folder: each folder in it is a student's. The program of an
assignment is the file rounds_node, alpha_node or open_node in it: python3 runs one that
ends in .py, node .js, java .java (once it is compiled), and what may be executed is
run as it is. Or a file `commands` says how, in lines as `alpha: ./mine --fast`, whose
words name files of the folder itself, without `/`, `@` and `..`.

rounds has {POINTS['rounds']} points times the share of its {RUNS['rounds']} runs that are right,
rounded down; alpha {EACH} for each of the {len(POLICIES)} policies of which all {RUNS_EACH} runs
are right; open {POINTS['open']} if all its {RUNS['open']} plans are right. A part that wasn't answered in time,
or has no result, is played once more, by itself, and the better result counts. All
these repeated parts together have {AGAIN} times the seconds of --seconds.

Each node runs in a container of its own, which bubblewrap makes (`apt install
bubblewrap`): it reads the system's programs and libraries, what is on your PATH, what
--show names, and the submission. Nothing else of the disk is there, and nothing of other
processes or the network. It begins in /tmp, where links lead to its files. It can write
only there and in /dev/shm, at most 256 and 16 megabytes, which count as its memory. If
you are root, each submission runs as a user of its own.
"""
MORE_HELP = """\
After `--` come words that are put before each command, as those of a container, in which
{} is the folder of the copy. Programs then aren't guarded from here.

Status: 0 all are graded, 1 one has no result, 2 the command line is refused, or the judge
can't be run.

Examples:
  forestlab workshop grade submissions
  forestlab workshop grade submissions --reports reports --json > points.json
  forestlab workshop grade submissions -- \\
      docker run -i --rm --network none -v {}:/a -w /a python:3
"""


def grade_table(submissions: dict[str, list[Part]]) -> list[str]:
    rows = [["", *(name for a in RUNS for name in (a, "points")), "in all"]]
    remarks = [""]
    for student, own in submissions.items():
        cells = [word for part in own for word in (part.counts(), str(part.points))]
        rows.append([clean(student), *cells, in_all(own)])
        said = [
            f"{part.assignment}: {part.remark()}"
            for part in own
            if part.points < POINTS[part.assignment]
        ]
        remarks.append(clean("; ".join(said)))
    return [f"{line}  {remark}".rstrip() for line, remark in zip(aligned(rows), remarks)]


def in_all(own: list[Part]) -> str:
    """The sum; with a mark if something that was submitted has no result."""
    mark = "?" if any(part.lacks_a_result() for part in own) else ""
    return f"{sum(part.points for part in own)}{mark}"


def part_as_json(part: Part) -> dict[str, object]:
    """What is found of an assignment, as a program gets it."""
    row: dict[str, object] = {"command": part.command}
    if part.result:
        row["points"] = part.points
        row["runs"] = part.result["runs"]
        row["right"] = part.result["right"]
        row["seconds"] = part.result["seconds"]
        row["cases"] = part.result["cases"]
    else:
        row["points"] = None
        row.update(part.found)
    return row


def as_one(submissions: dict[str, list[Part]], seed: str) -> dict[str, object]:
    """For a program. `grade` is the edition of this form."""
    return {
        "grade": EDITION,
        "seed": seed,
        "submissions": [
            {"student": student, "in_all": in_all(own)}
            | {part.assignment: part_as_json(part) for part in own}
            for student, own in submissions.items()
        ],
    }


def write_reports(submissions: dict[str, list[Part]], folder: str) -> None:
    """A text for each student."""
    os.makedirs(folder, exist_ok=True)
    for student, own in submissions.items():
        lines = [
            line
            for part in own
            for line in (
                f"{part.assignment}: {part.points} of {POINTS[part.assignment]} points",
                *part.found.get("report", [part.remark()]),
                "",
            )
        ]
        try:
            with open(
                os.path.join(folder, f"{student}.txt"), "w", encoding="utf-8", errors="replace"
            ) as file:
                file.write(as_text(lines))
        except OSError as why:
            print(
                f"grade: the report of {clean(student)} can't be written: {why.strerror}",
                file=sys.stderr,
            )


def remove(room: str) -> None:
    """Removes the room, whatever is in it: folders that are too deep for Python, or shut."""
    for command in (["chmod", "-R", "u+rwX"], ["rm", "-rf"]):
        subprocess.run([*command, room], stdin=subprocess.DEVNULL, capture_output=True)


def command_line() -> argparse.ArgumentParser:
    parser = parser_of("workshop grade", "FOLDER [options] [-- WORDS ..]", HELP, MORE_HELP)
    parser.add_argument("folder", metavar="FOLDER", help="has a folder for each student")
    parser.add_argument(
        "--seed", metavar="S", help="of the runs; without it a random one, which is printed"
    )
    parser.add_argument(
        "--runs", type=count, metavar="N", help="of each assignment, to try it; default: as above"
    )
    parser.add_argument(
        "--jobs",
        type=count,
        default=len(os.sched_getaffinity(0)),
        metavar="N",
        help="how many are played at a time; default: the number of processors",
    )
    parser.add_argument(
        "--seconds",
        type=seconds,
        default=SECONDS,
        metavar="S",
        help=f"for all runs of an assignment of one submission; default: {SECONDS}",
    )
    add_limits(parser)
    parser.add_argument(
        "--show",
        metavar="DIR",
        action="append",
        default=[],
        help="a folder that programs may read, too; more than once for several",
    )
    parser.add_argument(
        "--reports", metavar="DIR", help="write what each student gets to read, DIR/STUDENT.txt"
    )
    parser.add_argument("--json", action="store_true", help="print the result for a program")
    return parser


def readable_folder(line: argparse.ArgumentParser, path: str, closed: list[str]) -> str:
    """A folder that programs may read, too."""
    if not os.path.isdir(path):
        line.error(f"--show {path}: there is no such folder")
    for other in closed:
        if meets(path, other):
            line.error(f"--show {path} would show {other}, or is in it")
    return os.path.realpath(path)


def main(arguments: list[str]) -> int:
    at = arguments.index("--") if "--" in arguments else len(arguments)
    line = command_line()
    given = line.parse_args(arguments[:at])
    given.before = arguments[at + 1 :]
    given.folder = os.path.realpath(given.folder)
    given.seed = given.seed or secrets.token_hex(4)
    given.show = [readable_folder(line, path, [given.folder, TOP, PACKAGE]) for path in given.show]
    submissions = submissions_of(given.folder)
    given.users = {student: USERS[at % len(USERS)] for at, student in enumerate(submissions)}
    status, _, why = ask("forestplan", "plain", "p edge 0 0\n")
    if status:
        raise Fault(Code.PLAIN_ENDS, status=status, why=why)
    shut()
    # No program is looked for in the folder in which the command is called.
    os.environ["PATH"] = ":".join(filter(os.path.isabs, os.environ.get("PATH", "").split(":")))
    room = tempfile.mkdtemp(prefix="grade-")
    try:
        os.chmod(room, 0o711)
        if not given.before:
            # Refuses a system on which no submission could be played.
            empty = os.path.join(room, "empty")
            os.mkdir(empty, 0o755)
            sandbox_of(empty, given, room, USERS[0]).try_out()
        grade(submissions, given, room)
    finally:
        remove(room)
    return 1 if any(part.lacks_a_result() for own in submissions.values() for part in own) else 0


def grade(submissions: dict[str, list[Part]], given: argparse.Namespace, room: str) -> None:
    """Plays all parts, and says what is found."""
    parts = [part for own in submissions.values() for part in own]
    play_all([part for part in parts if part.command], given, given.jobs, room)
    again = [part for part in parts if part.is_in_doubt()]
    if again:
        most = min(len(again), AGAIN) * given.seconds / 60
        sentence = (
            f"{len(again)} of {len(parts)} are played once more, alone: {most:.0f} minutes at most"
        )
        print(f"grade: {sentence}", file=sys.stderr, flush=True)
    play_again(again, given, room)
    if given.json:
        print(json.dumps(as_one(submissions, given.seed)), flush=True)
    else:
        print("\n".join([*grade_table(submissions), "", f"seed {given.seed}"]), flush=True)
    if given.reports:
        write_reports(submissions, given.reports)
