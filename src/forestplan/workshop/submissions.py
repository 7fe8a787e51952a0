"""What is submitted: each folder is a student's, and has the programs of the assignments; and the points of each."""
import os
import re
import shlex
import stat
from dataclasses import dataclass, field
from typing import TypedDict

from forestplan.fault_codes import Code
from forestplan.faults import Fault, InText
from forestplan.schedules.policies import POLICIES
from forestplan.workshop.protocol import start_of_output

# Of each assignment how many runs are played, and the most points. For another scale change these lines.
RUNS = {"rounds": 100, "alpha": 120, "open": 50}
POINTS = {"rounds": 40, "alpha": 40, "open": 10}
EACH = POINTS["alpha"] // len(POLICIES)
RUNS_EACH = RUNS["alpha"] // len(POLICIES)
# The names of its program without the ending, and what runs a file that has one.
STEMS = {
    "rounds": ("rounds_node", "RoundsNode"),
    "alpha": ("alpha_node", "AlphaNode"),
    "open": ("open_node", "OpenNode", "own_node", "OwnNode"),
}
RUNNERS = {".py": "python3", ".js": "node", ".java": "java", ".pl": "perl", ".rb": "ruby"}
MOST_BYTES = 16 << 20
MOST_FILES = 1000
DEEPEST = 64
# What is in no word of `commands`.
OUTSIDE = re.compile(r"/|@|\.\.")


class PlayedCase(TypedDict):
    """What is used here of a run, as the workshop prints it for a program."""

    verdict: str
    policy: str


class Result(TypedDict):
    """What is used here of an assignment's runs, as the workshop prints it for a program."""

    runs: int
    right: int
    seconds: float
    cases: list[PlayedCase]


class Graded(TypedDict, total=False):
    """What is found of an assignment: its result, with a report for people, and whether a signal has ended the program
    in the case that is reported; or why there is no result."""

    result: Result
    report: list[str]
    by_signal: bool
    why: str


@dataclass
class Part:
    """An assignment of a student's folder: its command, or none; and what is found of it."""

    student: str
    folder: str
    assignment: str
    command: list[str] = field(default_factory=list)
    found: Graded = field(default_factory=lambda: Graded())

    @property
    def result(self) -> Result | None:
        return self.found.get("result")

    @property
    def points(self) -> int:
        if not self.result:
            return 0
        cases = self.result["cases"]
        most = POINTS[self.assignment]
        right = sum(case["verdict"] == "right" for case in cases)
        if self.assignment == "rounds":
            return most * right // len(cases)
        if self.assignment == "alpha":
            policies = {case["policy"] for case in cases}
            wrong = {case["policy"] for case in cases if case["verdict"] != "right"}
            return most * len(policies - wrong) // len(policies)
        return most * (right == len(cases))

    def remark(self) -> str:
        """The verdicts of wrong runs, or why there is no result."""
        verdicts = {case["verdict"] for case in self.result["cases"]} if self.result else set()
        return self.found.get("why") or ", ".join(sorted(verdicts - {"right"}))

    def counts(self) -> str:
        if self.result:
            return f"{self.result['right']}/{self.result['runs']}"
        return "?" if self.command else "-"

    def lacks_a_result(self) -> bool:
        return bool(self.command) and not self.result

    def is_in_doubt(self) -> bool:
        """Whether another's program or a busy machine may be the reason: an answer was late, or a signal ended it."""
        if not self.result:
            return self.lacks_a_result()
        is_late = any(case["verdict"] in ("silent", "late") for case in self.result["cases"])
        return is_late or self.found.get("by_signal", False)


def submissions_of(folder: str) -> dict[str, list[Part]]:
    """The assignments of each student."""
    try:
        students = sorted(entry.name for entry in os.scandir(folder) if entry.is_dir())
    except OSError as why:
        raise Fault(Code.FOLDER_NOT_READ, InText(folder), why=why.strerror) from None
    if not students:
        raise Fault(Code.NO_SUBMISSION, folder=folder)
    return {
        name: [part_of(name, os.path.join(folder, name), assignment) for assignment in RUNS]
        for name in students
    }


def part_of(student: str, folder: str, assignment: str) -> Part:
    try:
        if os.path.islink(folder):
            raise Fault(Code.FOLDER_IS_A_LINK)
        command = program_command(folder, assignment)
        if not command:
            raise Fault(Code.NO_PROGRAM_OF_ASSIGNMENT)
        check_folder(folder)
        return Part(student, folder, assignment, command)
    except (Fault, OSError) as why:
        return Part(student, folder, assignment, found={"why": str(why)})


def program_command(folder: str, assignment: str) -> list[str]:
    """How the program of an assignment is run in its folder; empty if there is none."""
    if os.path.isfile(os.path.join(folder, "commands")):
        return said_command(folder, assignment)
    names = [name for name in sorted(os.listdir(folder)) if is_program(folder, name, assignment)]
    ways = [way for name in names if (way := way_to_run(folder, name))]
    if len(ways) > 1:
        raise Fault(Code.SEVERAL_PROGRAMS, names=" and ".join(way[-1] for way in ways))
    if names and not ways:
        raise Fault(Code.PROGRAM_CANT_BE_RUN, name=names[0])
    return ways[0] if ways else []


def said_command(folder: str, assignment: str) -> list[str]:
    """The command that the file `commands` says. Its words name programs, options and files of the folder itself."""
    path = os.path.join(folder, "commands")
    if os.path.islink(path):
        raise Fault(Code.COMMANDS_IS_A_LINK)
    with open(path, encoding="utf-8", errors="replace") as file:
        lines = [line.partition(":") for line in file.read(1 << 16).splitlines()]
    try:
        said = [shlex.split(command) for name, _, command in lines if name.strip() == assignment]
    except ValueError as why:
        raise Fault(Code.COMMANDS_NOT_READ, why=why) from None
    command = said[0] if said else []
    if "--" in command:
        raise Fault(Code.SEVERAL_COMMANDS)
    for word in command:
        if OUTSIDE.search(word.removeprefix("./")):
            raise Fault(Code.OUTSIDE_OF_FOLDER, word=clean(word))
    return command


def is_program(folder: str, name: str, assignment: str) -> bool:
    stem, _ = os.path.splitext(name)
    return stem in STEMS[assignment] and os.path.isfile(os.path.join(folder, name))


def way_to_run(folder: str, name: str) -> list[str]:
    _, ending = os.path.splitext(name)
    if ending in RUNNERS:
        return [RUNNERS[ending], name]
    return [f"./{name}"] if os.access(os.path.join(folder, name), os.X_OK) else []


def check_folder(folder: str) -> None:
    """Refuses a folder that can't be copied. Of files their holes count, which a copy would fill."""
    size = 0
    paths = [(folder, 0)]
    for path, depth in paths:
        info = os.lstat(path)
        size += info.st_size
        if size > MOST_BYTES or len(paths) > MOST_FILES or depth > DEEPEST:
            raise Fault(Code.FOLDER_TOO_LARGE, megabytes=MOST_BYTES >> 20, files=MOST_FILES)
        if stat.S_ISDIR(info.st_mode):
            paths += [(os.path.join(path, name), depth + 1) for name in os.listdir(path)]
        elif not stat.S_ISREG(info.st_mode) and not stat.S_ISLNK(info.st_mode):
            name = clean(os.path.basename(path))
            raise Fault(Code.PIPE_IN_FOLDER, name=name)


def clean(text: str) -> str:
    """Words of a student, as they may be printed in one line."""
    return start_of_output(text, 200)[1:-1]
