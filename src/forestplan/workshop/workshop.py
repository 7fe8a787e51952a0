"""The command `workshop`: plays the runs, and reports them. It keeps a case, so that anybody can repeat the verdict
without the workshop, and draws it."""
import json
import os
import shlex
import subprocess
import sys
import tempfile
from argparse import Namespace

from forestplan.faults import Fault
from forestplan.folders import PACKAGE, TOP
from forestplan.networks.texts import plain_text
from forestplan.workshop import class_files, grade
from forestplan.workshop.cases import Case, cases_of
from forestplan.workshop.leftovers import shut
from forestplan.workshop.options import parsed
from forestplan.workshop.player import CasePlayer
from forestplan.workshop.report import report_json, described, report
from forestplan.workshop.right_rounds import program_option

OTHERS = {"grade": grade.main, "class": class_files.main}
DOOR = os.path.join(TOP, "bin")
# By what a run keeps, the commands that give the verdict again.
REPEAT = {
    "run.transcript": [
        "cat {at}/network.col {at}/run.transcript | {door}/forestplay replay{words}",
        "{door}/forestlab transcript check {at}/network.col {at}/run.transcript{words}",
    ],
    "plan": ["cat {at}/network.col {at}/plan | {door}/forestplan check"],
    "said.puts": [
        "{door}/forestplay rounds{words} < {at}/network.col | grep ' put ' > {at}/right.puts",
        "diff {at}/said.puts {at}/right.puts",
    ],
}


def main(arguments: list[str]) -> int:
    """A network that can't be read has status 1, as in every command; what else keeps it from a verdict, another."""
    other = OTHERS.get(arguments[0]) if arguments else None
    if other is None:
        options = parsed(arguments)
        cases = cases_of(options)
    try:
        return other(arguments[1:]) if other else run_cases(options, cases)
    except (Fault, OSError) as why:
        print(f"workshop: {why}", file=sys.stderr)
        return 2


def run_cases(options: Namespace, cases: list[Case]) -> int:
    shut()
    cases, shown, seconds = CasePlayer(options, is_shown=True).played(cases)
    case = shown or cases[-1]
    if options.keep:
        keep(case, options.keep, options.program)
    if options.json:
        print(json.dumps(report_json(options, cases, shown, seconds)), flush=True)
    else:
        print("\n".join(report(cases, shown, seconds)), flush=True)
    if options.picture and (why := draw_wrong_run(case, options.picture, options.program)):
        print(f"workshop: there is no picture: {why}", file=sys.stderr)
    return 1 if shown else 0


def keep(case: Case, folder: str, program: str) -> None:
    """Writes network, run and verdict into a folder, and with them the commands that repeat it, for the folder in which
    the workshop was called. The folder of a class has no `forestlab transcript`."""
    os.makedirs(folder, exist_ok=True)
    given = {
        "at": shlex.quote(folder),
        "door": shlex.quote(min(os.path.relpath(DOOR), DOOR, key=len)),
        "words": "".join(f" {word}" for word in program_option(program)),
    }
    commands = [
        f"  {command.format(**given)}"
        for command in REPEAT[case.played_run.kept]
        if "transcript check" not in command
        or os.path.exists(os.path.join(PACKAGE, "transcripts", "judge.py"))
    ]
    lines = described(case) if case.finding else [f"case   {case.number}: right"]
    lines += ["", "The same without the workshop:", *commands, ""]
    for name, text in {
        "network.col": plain_text(case.network),
        case.played_run.kept: case.played_run.text(),
        "verdict.txt": "\n".join(lines),
    }.items():
        with open(os.path.join(folder, name), "w", encoding="utf-8") as file:
            file.write(text)


def draw_wrong_run(case: Case, file: str, program: str) -> str | None:
    """Draws a run without a clock, up to what is wrong; returns what went wrong with that."""
    found = case.finding
    last = found.pulse if found else 3
    stopped = ["--stopped", str(found.node)] if found and found.entry is None else []
    with tempfile.TemporaryDirectory() as folder:
        keep(case, folder, program)
        done = subprocess.run(
            [
                os.path.join(DOOR, "forestlab"),
                "picture",
                "run",
                os.path.join(folder, "network.col"),
                "--transcript",
                os.path.join(folder, case.played_run.kept),
                "--wrong",
                "--pulses",
                f"{max(0, last - 1)}..{last}",
                "-o",
                file,
                *stopped,
                *program_option(program),
            ],
            capture_output=True,
            text=True,
        )
        return done.stderr.strip().replace(folder, "the run") if done.returncode else None
