"""What a student's program may use, and as whom it runs: a program that the workshop plays runs as whoever calls the
workshop, with limits, and ends with it. What is graded has more than that around it: sandbox.py."""
import contextlib
import os
import resource
import signal
import time
from collections.abc import Callable, Collection
from typing import TypedDict

from forestplan.workshop.findings import NoAnswer
from forestplan.workshop.leftovers import (
    PARENT_DEATH_SIGNAL,
    Running,
    processes_below,
    children,
    control,
    processes,
)
from forestplan.workshop.memory import memory_of

PROCESSOR_SECONDS = 600  # so that an endless loop ends even if the workshop itself is killed
OPEN_FILES = 256
MEGABYTE = 1 << 20
WRITTEN_IN_ALL = 256 * MEGABYTE  # by all programs of a run
# Processes and threads of a run, and more for each program.
CHILDREN = 256
CHILDREN_EACH = 64
LOOK = 0.5  # seconds between two looks at what programs take
# And at least so many times the seconds of a look, up to so many.
LOOK_SHARE = 10
MOST_LOOK = 2.0
NAMES = ("HOME", "LANG", "PATH", "TMPDIR")


class Limits:
    """Of a number of programs, which share what may be written: `timeout`, in seconds, of an answer; `memory` in bytes;
    `written`, the bytes of each file that a program writes, its standard error too; `children`, how many processes and
    threads all programs of a run may have. `over` is the time at which all runs end."""

    def __init__(
        self, timeout: float, megabytes: int, programs: int, over: float = float("inf")
    ) -> None:
        self.timeout = timeout
        self.memory = megabytes * MEGABYTE
        self.over = over
        self.written = max(MEGABYTE, min(16 * MEGABYTE, WRITTEN_IN_ALL // max(1, programs)))
        self.children = CHILDREN + CHILDREN_EACH * programs


class Start(TypedDict, total=False):
    """What `Popen` is told of a program, by the names of its parameters."""

    cwd: str | None
    env: dict[str, str]
    start_new_session: bool
    preexec_fn: Callable[[], None]
    user: int
    group: int
    extra_groups: list[int]
    pass_fds: Collection[int]


def limit(limits: Limits, tasks: int) -> None:
    """Sets them for this process and what it starts. Memory is what it can write to, since some languages reserve far
    more than they use. Processes are counted with those that the user has already, `tasks`; of root none is counted.
    """
    rules = {
        resource.RLIMIT_FSIZE: limits.written,
        resource.RLIMIT_CPU: PROCESSOR_SECONDS,
        resource.RLIMIT_DATA: limits.memory,
        resource.RLIMIT_NOFILE: OPEN_FILES,
        resource.RLIMIT_CORE: 0,
        resource.RLIMIT_NPROC: tasks + limits.children,
    }
    for what, most in rules.items():
        hard = resource.getrlimit(what)[1]
        most = most if hard == resource.RLIM_INFINITY else min(most, hard)
        resource.setrlimit(what, (most, most))


class Guard:
    """How the programs of a run are started, and what is looked at while they run. `programs` are their processes. This
    one keeps them from nothing but the workshop's own memory."""

    place: str | None = None  # the folder in which they are started; None is where the workshop is
    user: int | None = None  # the number of the user that they are; None is who calls the workshop

    def __init__(self) -> None:
        self.programs: set[int] = set()
        self.faults: dict[int, NoAnswer] = {}
        self.next_look = 0.0

    def arguments(self, command: list[str]) -> list[str]:
        """What is started for a command."""
        return command

    def environment(self) -> dict[str, str]:
        """Few names, so that a program that is right here is right elsewhere."""
        return {name: os.environ[name] for name in NAMES if name in os.environ}

    def start(self, limits: Limits, tasks: int) -> Start:
        """What `Popen` is told of a program; it ends with this process."""
        workshop = os.getpid()

        def enter() -> None:
            signal.pthread_sigmask(signal.SIG_SETMASK, ())
            # Before the limits: as many files as the workshop has open are open here, too, and may be more than those.
            self.enter()
            limit(limits, tasks)
            control(PARENT_DEATH_SIGNAL, signal.SIGKILL)
            if os.getppid() != workshop:
                os._exit(1)

        told: Start = {
            "cwd": self.place,
            "env": self.environment(),
            "start_new_session": True,
            "preexec_fn": enter,
        }
        if self.user is not None:
            told["user"] = self.user
            told["group"] = self.user
            told["extra_groups"] = []
        return told

    def enter(self) -> None:
        """What a process does besides before it becomes the program."""

    def look(self, program: int, memory: int) -> None:
        """Raises a fault if a program takes too much, with all that it has started. Now and then all programs are
        looked at, whichever of them is asked, so that none is unseen as long as another answers."""
        if time.monotonic() >= self.next_look:
            self.look_at_all(memory)
        if program in self.faults:
            raise self.faults[program]

    def look_at_all(self, memory: int) -> None:
        """Ends each program that takes too much, with all that it has started."""
        begun = time.monotonic()
        tree = children()
        away = list(processes_below(os.getpid(), tree, self.programs))
        for program in self.programs - self.faults.keys():
            own = [process for process in tree.get(os.getpid(), ()) if process.number == program]
            family = [*own, *processes_below(program, tree)]
            running = [process for process in [*family, *away] if not process.is_over]
            try:
                self.check(running, memory)
            except NoAnswer as fault:
                self.faults[program] = fault
                end_family(family)
        seconds = time.monotonic() - begun
        self.next_look = begun + seconds + max(LOOK, min(MOST_LOOK, LOOK_SHARE * seconds))

    def leave(self, program: int) -> None:
        """A program has ended, and its number is free."""
        self.programs.discard(program)
        self.faults.pop(program, None)

    def check(self, running: list[Running], memory: int) -> None:
        """Raises a fault if the processes of one program take too much."""
        if memory_of(running) > memory:
            raise NoAnswer("flood", f"it takes more than {memory >> 20} megabytes of memory")

    def tasks(self) -> int:
        """How many processes and threads the programs' user has now."""
        user = os.geteuid() if self.user is None else self.user
        return (
            sum(process.threads for process in processes() if process.user == user) if user else 0
        )


def end_family(family: list[Running]) -> None:
    for process in family:
        with contextlib.suppress(ProcessLookupError, PermissionError):
            os.kill(process.number, signal.SIGKILL)


class Unguarded(Guard):
    """For a container's own command, which guards by itself: it gets the whole environment, and isn't looked at."""

    def environment(self) -> dict[str, str]:
        return dict(os.environ)

    def check(self, running: list[Running], memory: int) -> None:
        pass
