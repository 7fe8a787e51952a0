"""How a command that is written in Python ends: with one line in place of a traceback, whatever happens.

What was given may be wrong; a closed or full output, too little memory and Ctrl-C are no faults of the command. A
reader that has gone away is no fault at all."""
import atexit
import contextlib
import ctypes
import os
import signal
import sys
import traceback
from collections.abc import Callable, Iterator
from types import FrameType
from typing import NoReturn

from forestplan.fault_codes import Code
from forestplan.faults import Fault

# What ends a command so that nothing is left of it and of what it runs.
STOPS = (signal.SIGINT, signal.SIGTERM, signal.SIGHUP)
# Of prctl(2): the signal that a process gets when its parent ends.
PR_SET_PDEATHSIG = 1
# Imports a command: what it returns runs it, and returns the status.
Load = Callable[[], Callable[[], int]]


def stop(number: int, _: FrameType | None) -> NoReturn:
    signal.signal(number, signal.SIG_IGN)  # a second one doesn't disturb how the command ends
    if number == signal.SIGINT:
        raise KeyboardInterrupt
    sys.exit(128 + number)


@contextlib.contextmanager
def held() -> Iterator[None]:
    """Signals that end a command wait for the end of this block. A process that is started in it has to let them in
    again."""
    before = signal.pthread_sigmask(signal.SIG_BLOCK, STOPS)
    try:
        yield
    finally:
        signal.pthread_sigmask(signal.SIG_SETMASK, before)


def run_command(name: str, load: Load) -> int:
    """Runs the command that `load` imports, a function that returns its status, and returns the status to end with."""
    for number in STOPS:
        if (
            signal.getsignal(number) != signal.SIG_IGN
        ):  # as `nohup` has it, and a shell in the background
            signal.signal(number, stop)
    try:
        # The script that started this has kept Ctrl-C waiting (launcher.sh).
        signal.pthread_sigmask(signal.SIG_UNBLOCK, {signal.SIGINT})
        try:
            return load()()
        finally:
            sys.stdout.flush()
    except BrokenPipeError:
        status = 0
        message = ""
    except KeyboardInterrupt:
        status = 130
        message = "interrupted"
    except (Fault, MemoryError) as why:
        status = 1
        message = str(why) or "out of memory"
    except OSError as why:
        where = why.filename or "the output can't be written"
        status = 1
        message = f"{where}: {why.strerror or why}"
    except Exception as why:
        at = traceback.extract_tb(why.__traceback__)[-1]
        status = 70
        message = (
            f"a fault of this command itself, please report it: {type(why).__name__}: "
            f"{' '.join(str(why).split())} ({os.path.basename(at.filename)} line {at.lineno})"
        )
    # Standard output gets nothing more.
    os.dup2(os.open(os.devnull, os.O_WRONLY), 1)
    sys.stderr.write(message and f"{name}: {message}\n")
    return status


def run_apart(name: str, load: Load) -> int:
    """The same in a process of its own, for a command that calls a file of the user's: whatever the file does, this
    process returns the status."""
    reader, writer = os.pipe()
    child = os.fork()
    if child == 0:
        ctypes.CDLL(None).prctl(PR_SET_PDEATHSIG, signal.SIGKILL)
        for number in STOPS:
            signal.signal(number, signal.SIG_IGN)
        # Nothing else that ends the process gets here.
        atexit.register(os.write, writer, b".")
        return run_command(name, load)
    os.close(writer)
    return run_command(name, lambda: lambda: status_of(child, reader))


def status_of(child: int, reader: int) -> int:
    """The status of a command that runs in a process of its own; if this one is ended, that one is first."""
    try:
        _, ended = os.waitpid(child, 0)
    except BaseException:
        os.kill(child, signal.SIGKILL)
        os.waitpid(child, 0)
        raise
    if not os.read(reader, 1):
        if os.WIFSIGNALED(ended) and os.WTERMSIG(ended) == signal.SIGALRM:
            raise Fault(Code.CALL_NOT_ENDED)
        if os.WIFSIGNALED(ended):
            raise Fault(Code.ENDED_BY_SIGNAL, signal=os.WTERMSIG(ended))
        raise Fault(Code.ENDED_BY_ITSELF)
    return os.waitstatus_to_exitcode(ended)
