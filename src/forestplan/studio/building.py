"""The proof and the build of the programs, begun by a button of the page and never by itself. The server's own process
starts them, so they go on when the page is closed, and end with the server."""
import contextlib
import os
import shutil
import signal
import subprocess
import sys
import time

from forestplan.fault_codes import Code
from forestplan.faults import Fault
from forestplan.folders import TOP, built
from forestplan.studio.answers import Build
from forestplan.studio.call_progress import Tell
from forestplan.studio.messages import BuildCall, BuiltCall
from forestplan.studio.session import Session

PROGRAMS = ("forestplan", "forestplay")
# Of the log its last bytes are looked at.
MOST_SHOWN = 1 << 14
# What builds those of them that it names, if they aren't built.
BUILD = [sys.executable, "-S", os.path.join(TOP, "build"), "program"]
# What a process that answers asks of the server's own.
WANTED = signal.SIGUSR1


def are_built() -> bool:
    """Whether both programs are built from the sources as they are now, or this is an installed folder, which has
    them."""
    if not os.path.exists(os.path.join(TOP, "forestplan")):
        return True
    return all(
        built(name) is not None
        and not subprocess.run([*BUILD, "--ask", name], stdin=subprocess.DEVNULL).returncode
        for name in PROGRAMS
    )


class Building:
    """The build in the server's own process; what it says is in a file."""

    def __init__(self, folder: str, session: Session) -> None:
        self.session = session
        self.process: subprocess.Popen[bytes] | None = None
        self.is_wanted = False
        self.log = os.path.join(folder, "build.log")
        session.log = self.log
        signal.signal(WANTED, self.want)

    def want(self, *_: object) -> None:
        self.is_wanted = True

    def look(self) -> None:
        """Begins what is wanted, and takes note of what is done. Called again and again."""
        if self.is_wanted and self.process is None and not self.session.is_proved:
            with open(self.log, "w", encoding="utf-8") as log:
                self.process = subprocess.Popen(
                    [*BUILD, *PROGRAMS],
                    stdin=subprocess.DEVNULL,
                    stdout=log,
                    stderr=log,
                    start_new_session=True,
                )
        self.is_wanted = False
        if self.process and self.process.poll() is not None:
            self.session.is_proved = self.process.returncode == 0 and are_built()
            with open(self.log, "a", encoding="utf-8") as log:
                log.write(
                    "the programs are proved and built\n"
                    if self.session.is_proved
                    else "ended: it isn't built\n"
                )
            self.process = None

    def end(self) -> None:
        if self.process is None:
            return
        for number in (signal.SIGTERM, signal.SIGKILL):
            with contextlib.suppress(ProcessLookupError):
                os.killpg(self.process.pid, number)
            with contextlib.suppress(subprocess.TimeoutExpired):
                self.process.wait(10)
                return


def answer_build(_call: BuildCall, session: Session, _tell: Tell) -> Build:
    """Asks for the build, and waits until it has begun."""
    log = session.log
    if shutil.which("rt") is None:
        raise Fault(Code.NO_RT)
    if log is None:
        raise Fault(Code.NOTHING_BUILT)
    if build_so_far(session).ended:
        os.unlink(log)
    os.kill(os.getppid(), WANTED)
    while not os.path.exists(log):
        time.sleep(0.1)
    return build_so_far(session)


def answer_built(_call: BuiltCall, session: Session, _tell: Tell) -> Build:
    return build_so_far(session)


def build_so_far(session: Session) -> Build:
    """How far the build is, in its own words."""
    if session.log is None:
        return Build(session.is_proved, [], False)
    try:
        with open(session.log, "rb") as log:
            begun = os.stat(log.fileno())
            log.seek(max(0, begun.st_size - MOST_SHOWN))
            lines = log.read(MOST_SHOWN).decode("utf-8", "replace").splitlines()
    except OSError:
        return Build(session.is_proved, [], False)
    ended = lines[-1:] in (["the programs are proved and built"], ["ended: it isn't built"])
    return Build(
        proved=session.is_proved,
        lines=lines[-12:] or ["it begins"],
        ended=ended,
        quiet=time.time() - begun.st_mtime,
    )
