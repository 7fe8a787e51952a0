"""The processes of this machine, as /proc has them, and how those that a run leaves behind are ended."""
import contextlib
import ctypes
import os
import resource
import signal
from dataclasses import dataclass
from collections.abc import Collection, Iterator

# Numbers of Linux, the same on all machines.
PARENT_DEATH_SIGNAL = 1
DUMPABLE = 4
SUBREAPER = 36
IS_SUBREAPER = 37
SYSTEM = ctypes.CDLL(None, use_errno=True)


def control(what: int, value: int, more: int = 0) -> None:
    """Sets one of these of this process."""
    if SYSTEM.prctl(what, *map(ctypes.c_ulong, (value, more, 0, 0))) < 0:
        raise OSError(ctypes.get_errno(), os.strerror(ctypes.get_errno()))


def shut() -> None:
    """Other programs of the same user don't read or trace this process; it gets what its programs leave behind; and it
    may open as many files as the system allows: three for each program."""
    control(DUMPABLE, 0)
    control(SUBREAPER, 1)
    most = resource.getrlimit(resource.RLIMIT_NOFILE)[1]
    resource.setrlimit(resource.RLIMIT_NOFILE, (most, most))


def is_reaper() -> bool:
    """Whether this process gets what its programs leave behind."""
    said = ctypes.c_int(0)
    control(IS_SUBREAPER, ctypes.addressof(said))
    return bool(said)


@dataclass
class Running:
    """A process of this machine; `memory` in bytes."""

    number: int
    parent: int
    user: int
    threads: int
    memory: int
    is_over: bool


def processes() -> Iterator[Running]:
    for name in filter(str.isdecimal, os.listdir("/proc")):
        with contextlib.suppress(OSError):
            with open(f"/proc/{name}/stat", "rb") as file:
                fields = file.read().rpartition(b") ")[2].split()
                user = os.fstat(file.fileno()).st_uid
            yield Running(
                number=int(name),
                parent=int(fields[1]),
                user=user,
                threads=int(fields[17]),
                memory=int(fields[21]) * resource.getpagesize(),
                is_over=fields[0] in (b"Z", b"X"),
            )


def below_this(kept: Collection[int | None] = ()) -> Iterator[Running]:
    """All processes below this one, but those that are kept with what is below them."""
    return processes_below(os.getpid(), children(), kept)


def children() -> dict[int, list[Running]]:
    """The processes of this machine by the number of the one that has them."""
    found: dict[int, list[Running]] = {}
    for process in processes():
        found.setdefault(process.parent, []).append(process)
    return found


def processes_below(
    top: int, tree: dict[int, list[Running]], kept: Collection[int | None] = ()
) -> Iterator[Running]:
    """All processes below one, but those that are kept with what is below them."""
    more = [process for process in tree.get(top, ()) if process.number not in kept]
    for process in more:
        yield process
        more += tree.get(process.number, ())


def end_all(kept: Collection[int | None] = ()) -> None:
    """Ends and collects all processes below this one. What is stopped starts no more, so all are stopped before one is
    killed."""
    stopped: set[int] = set()
    while found := list(below_this(kept)):
        running = {process.number for process in found if not process.is_over}
        to_stop = running - stopped
        for number in to_stop or running:
            with contextlib.suppress(ProcessLookupError, PermissionError):
                os.kill(number, signal.SIGSTOP if to_stop else signal.SIGKILL)
        stopped |= to_stop
        for process in found:
            if process.is_over and process.parent == os.getpid():
                with contextlib.suppress(ChildProcessError):
                    os.waitpid(process.number, os.WNOHANG)
