"""Has the gate's command, `rt ci`, prove some crates and those below them: what a program is built from, and what wrong
bodies are tried over.

Where a kit has `rt ci NAME`, this works on a copy, and removes it with all that is built there. So the copy is made
here, in the user's cache (`$XDG_CACHE_HOME`, else `~/.cache`): a repository of only these crates, without their
must-fail edits, on which no proof depends. Kit 13f keeps what passes, in a folder next to itself, crate by crate: so a
call that was interrupted goes on where it was, another checkout proves nothing again, and the gate takes over what a
first call has proved. Kit 13b keeps nothing, so each call proves all its crates; `kit.keeps_proofs` says which it is.
"""
import contextlib
import fcntl
import os
import re
import shutil
import subprocess
import sys
import time
from collections.abc import Callable, Iterator, Mapping
from typing import TextIO

from build import kit
from build.crate_lists import TOP, copy, listed, with_below
from forestplan.wording import duration

# What `rt ci` isn't given of a crate: what was built of it, and edits.
LEFT_OUT = ("out", "must-fail", "wrong-bodies")
PROVED = re.compile(r"^rt: (\w+) (?:proved$|is kept: )", re.M)
NOT_PROVED = re.compile(r"^rt: (\w+)(?:: its tests are)? NOT PROVED.*$", re.M)
# What a call that is stopped says of the next one.
KEPT = "what is proved is kept, so the next call goes on from here"
NOT_KEPT = "this kit doesn't say that it keeps what is proved, so the next call may begin again"


def is_taken(lock: TextIO) -> bool:
    """Takes the lock, unless another call has it."""
    try:
        fcntl.flock(lock, fcntl.LOCK_EX | fcntl.LOCK_NB)
    except BlockingIOError:
        return False
    return True


def take_note(lock: TextIO, process: str = "") -> None:
    """Writes the number of the process that proves, for the script and for calls that wait."""
    lock.truncate(0)
    lock.write(process)
    lock.flush()


def who_proves(lock: TextIO) -> str:
    lock.seek(0)
    process = lock.read()
    return f", process {process}, which `kill {process}` ends" if process else ""


@contextlib.contextmanager
def new_room(name: str) -> Iterator[tuple[str, TextIO]]:
    """A place for a folder in the user's cache, and the lock on it: another call waits until this one ends."""
    room = kit.in_cache("room")
    os.makedirs(os.path.dirname(room), mode=0o700, exist_ok=True)
    with open(f"{room}.lock", "a+", encoding="ascii") as lock:
        if not is_taken(lock):
            tell(name, f"another call is proving already{who_proves(lock)}; waiting for its end")
            # In one call that waits, a signal that came just before it would wait, too.
            while not is_taken(lock):
                time.sleep(0.2)
        take_note(lock)
        shutil.rmtree(room, ignore_errors=True)
        try:
            yield room, lock
        finally:
            shutil.rmtree(room, ignore_errors=True)


def followed(name: str, rt: subprocess.Popen[bytes], log: str, total: int, start: float) -> str:
    """What `rt ci` has said when it ends, or when a crate isn't proved. Meanwhile standard error gets a line when one
    is."""
    said = ""
    count = -1
    with open(log, encoding="utf-8", errors="replace") as text:
        while True:
            has_ended = rt.poll() is not None
            said += text.read()
            proved = PROVED.findall(said)
            if len(proved) > count:
                count = len(proved)
                last = f", the last one {proved[-1]}" if proved else ""
                tell(name, f"{count} of {total} crates proved, {since(start)}{last}")
            if has_ended or NOT_PROVED.search(said):
                return said
            time.sleep(0.5)


def tell(name: str, what: str) -> None:
    print(f"{name}: {what}", file=sys.stderr, flush=True)


def since(start: float) -> str:
    return duration(time.monotonic() - start)


def tell_failure(name: str, status: int, said: str, log: str) -> None:
    found = NOT_PROVED.search(said)
    what = f"the crate {found[1]} isn't proved" if found else f"rt ci ended with status {status}"
    tell(name, f"{what}; the last lines of {os.path.relpath(log, TOP)} are:")
    for line in said[: found.end() if found else None].splitlines()[-12:]:
        print(f"  {line}", file=sys.stderr)


def run(
    name: str,
    crates: list[str],
    edits: Mapping[str, list[str]] | None = None,
    take: Callable[[str], None] | None = None,
) -> str | None:
    """Has these crates proved with those below them, and these edits of each tried, and calls `take` with the folder in
    which all is built. Returns what `rt ci` said, or None if a crate isn't proved, which standard error says then.
    """
    wanted = with_below(crates, listed())
    edits = edits or {}
    log = os.path.join(TOP, "out", "build", f"{name}.log")
    start = time.monotonic()
    os.makedirs(os.path.dirname(log), exist_ok=True)
    try:
        with new_room(name) as (room, lock):
            copy(wanted, room, LEFT_OUT)
            os.mkdir(os.path.join(room, ".git"))
            for crate, paths in edits.items():
                os.mkdir(os.path.join(room, "crates", crate, "must-fail"))
                for path in paths:
                    shutil.copy(path, os.path.join(room, "crates", crate, "must-fail"))
            # If this process is killed, `rt` goes on, and the lock with it.
            with open(log, "wb") as to, subprocess.Popen(
                [kit.command() or "rt", "ci"],
                cwd=room,
                stdin=subprocess.DEVNULL,
                stdout=to,
                stderr=subprocess.STDOUT,
                pass_fds=[lock.fileno()],
            ) as rt:
                try:
                    take_note(lock, str(rt.pid))
                    said = followed(name, rt, log, len(wanted), start)
                finally:
                    # All that it has started ends with it.
                    rt.kill()
                    take_note(lock)
            if NOT_PROVED.search(said) or rt.returncode not in ((0, 1) if edits else (0,)):
                tell_failure(name, rt.returncode, said, log)
                return None
            if take:
                take(room)
    except (KeyboardInterrupt, SystemExit):
        goes_on = KEPT if kit.keeps_proofs() else NOT_KEPT
        tell(name, f"stopped after {since(start)}; {goes_on}")
        raise
    tell(name, f"{len(wanted)} crates proved in {since(start)}")
    return said
