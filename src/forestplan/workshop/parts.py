"""Plays the parts of submissions, several at a time, each in a process and a folder of its own."""
import argparse
import contextlib
import json
import multiprocessing
import os
import shutil
import signal
import subprocess
import sys
import tempfile
import time
from multiprocessing.context import ForkProcess
from multiprocessing.connection import Connection, wait

from forestplan.faults import Fault
from forestplan.folders import PACKAGE, TOP
from forestplan.process_exit import held
from forestplan.workshop.cases import cases_of
from forestplan.workshop.compiling import compiled
from forestplan.workshop.guard import Guard, Unguarded
from forestplan.workshop.leftovers import PARENT_DEATH_SIGNAL, control, end_all, shut
from forestplan.workshop.options import parsed
from forestplan.workshop.player import CasePlayer
from forestplan.workshop.report import report_json, report
from forestplan.workshop.sandbox import Sandbox
from forestplan.workshop.submissions import RUNS, Graded, Part, clean
from forestplan.workshop.visible_files import on_the_path

GRACE = 60  # seconds beside those of --seconds, in which a part ends
# All second plays together take at most so many times the seconds of one part.
AGAIN = 3
FORK = multiprocessing.get_context("fork")


def sandbox_of(folder: str, given: argparse.Namespace, room: str, user: int) -> Sandbox:
    """The container of what is in a folder of the room."""
    home = os.path.realpath(os.path.expanduser("~"))
    closed = (given.folder, TOP, PACKAGE, room)
    needed = on_the_path(os.environ.get("PATH", ""), closed, (home, os.path.join(home, ".local")))
    return Sandbox(folder, [*closed, home], [*needed, *given.show], user)


def play(part: Part, given: argparse.Namespace, room: str) -> dict[str, object]:
    """What is found of a part, in a copy of its folder: an `Graded` before it is written as JSON."""
    place = tempfile.mkdtemp(dir=room)
    copy = os.path.join(place, "submission")
    shutil.copytree(part.folder, copy, symlinks=True)
    guard: Guard = Unguarded()
    if given.before:
        command = [*(word.replace("{}", copy) for word in given.before), *part.command]
    else:
        guard = sandbox_of(copy, given, room, given.users[part.student])
        if guard.user is not None:
            subprocess.run(["chown", "-hR", f"{guard.user}:{guard.user}", place], check=True)
        command = compiled(part.command, copy, guard)
    limits = ["--timeout", str(given.timeout), "--memory", str(given.memory)]
    runs = ["--runs", str(given.runs or RUNS[part.assignment]), "--seed", given.seed]
    options = parsed([part.assignment, *runs, *limits, "--", *command])
    try:
        found = CasePlayer(options, guard, time.monotonic() + given.seconds).played(
            cases_of(options)
        )
    except Fault as why:
        return {"why": str(why)}
    _, shown, _ = found
    is_by_signal = shown is not None and shown.wrong.is_by_signal
    return {
        "result": report_json(options, *found),
        "report": report(*found),
        "by_signal": is_by_signal,
    }


def grade_part(part: Part, given: argparse.Namespace, room: str, to: Connection) -> None:
    """In the process itself: its status is 0 if it has said what there is to say."""
    status = 2  # ended from outside, or a mistake of the workshop's own
    try:
        os.setpgid(0, 0)  # so that Ctrl-C ends the one that grades, which ends this one
        signal.pthread_sigmask(signal.SIG_SETMASK, ())
        shut()
        control(PARENT_DEATH_SIGNAL, signal.SIGTERM)
        to.send_bytes(json.dumps(play(part, given, room)).encode())
        status = 0
    except (shutil.Error, OSError, Fault) as why:
        say_of_part(part, clean(str(why)))
        status = 1
    finally:
        os._exit(status)  # nothing else leaves this process


def say_of_part(part: Part, text: str) -> None:
    line = f"grade: {clean(part.student)} {part.assignment}: {text}"
    print(line, file=sys.stderr, flush=True)


def play_all(parts: list[Part], given: argparse.Namespace, jobs: int, room: str) -> None:
    """Plays parts, so many at a time."""
    waiting = parts[::-1]
    running: dict[Connection, tuple[Part, ForkProcess, float]] = {}
    try:
        while waiting or running:
            while waiting and len(running) < jobs:
                part = waiting.pop()
                pipe, to = FORK.Pipe(duplex=False)
                process = FORK.Process(target=grade_part, args=(part, given, room, to))
                with held():
                    process.start()
                    running[pipe] = part, process, time.monotonic() + given.seconds + GRACE
                to.close()
            ready = wait(list(running), 1.0)
            for pipe, (part, process, until) in list(running.items()):
                if pipe in ready or time.monotonic() > until:
                    del running[pipe]
                    part.found = finished(process, pipe)
                    end_all([other.pid for _, other, _ in running.values()])
                    say_of_part(part, clean(f"{part.counts()} {part.remark()}".strip()))
    finally:
        with held():
            for _, process, _ in running.values():
                process.terminate()
            for _, process, _ in running.values():
                process.join(3)  # a moment to end its programs
            end_all()


def finished(process: ForkProcess, pipe: Connection) -> Graded:
    """What a process has found: only what it says itself and ends well on is a result."""
    said = b""
    if not pipe.poll():  # its time is over
        process.kill()
    with contextlib.suppress(EOFError, OSError):
        said = pipe.recv_bytes()
    process.join()
    if process.exitcode == 0:
        found: Graded = json.loads(said)
        return found
    ending = f"status {process.exitcode}"
    if process.exitcode and process.exitcode < 0:
        ending = signal.Signals(-process.exitcode).name
    return {"why": f"no result: its process ended with {ending}"}


def play_again(parts: list[Part], given: argparse.Namespace, room: str) -> None:
    """Plays parts once more, one after the other: each has an equal share of the time that is left, and the better of
    both results counts."""
    until = time.monotonic() + AGAIN * given.seconds
    for at, part in enumerate(parts):
        first = part.found
        share = (until - time.monotonic()) / (len(parts) - at)
        less = {"seconds": max(1.0, min(given.seconds, share))}
        play_all([part], argparse.Namespace(**vars(given) | less), 1, room)
        if runs_right(first) > runs_right(part.found):
            part.found = first


def runs_right(found: Graded) -> int:
    """How many runs were right; fewer than none without a result."""
    return found["result"]["right"] if "result" in found else -1
