"""The limits of a call of the studio, which a link has, too, that `studio --links` judges: each is worked out by a
process of its own."""
import contextlib
import ctypes
import gc
import json
import os
import resource
import select
import signal
import sys
import time
import traceback
from collections.abc import Callable
from dataclasses import asdict, dataclass
from typing import Literal

from forestplan.faults import Fault
from forestplan.process_exit import PR_SET_PDEATHSIG, STOPS, held

# Seconds of the clock, seconds of processor time, and bytes.
SECONDS = 120
PROCESSOR_SECONDS = 110
MEMORY = 2 << 30
# Bytes of an outcome that a process of its own may write.
MOST_SAID = 1 << 20
TOO_LATE = f"it took more than {SECONDS} seconds, so it was ended"
TOO_MUCH = "it took too much memory, so it was ended"


@dataclass(frozen=True)
class Outcome:
    """What something gives, or in words why it gives nothing: it was refused, it reached a limit, or the studio itself
    has a fault."""

    kind: Literal["answer", "refusal", "limit", "fault"]
    answer: object = None
    wrong: str = ""


def outcome(work: Callable[[], object]) -> Outcome:
    try:
        return Outcome("answer", work())
    except Fault as why:
        return Outcome("refusal", wrong=str(why))
    except MemoryError:
        return Outcome("limit", wrong=TOO_MUCH)
    except Exception as why:  # noqa: BLE001
        at = traceback.extract_tb(why.__traceback__)[-1]
        said = f"{type(why).__name__}: {why} ({os.path.basename(at.filename)} line {at.lineno})"
        return Outcome("fault", wrong=f"a fault of the studio itself: {said}")


def limit_process() -> None:
    """Gives this process its limits, and a group of its own, with which all ends that it starts."""
    os.setpgid(0, 0)
    signal.signal(signal.SIGINT, signal.SIG_IGN)
    signal.pthread_sigmask(signal.SIG_UNBLOCK, {signal.SIGINT})
    gc.disable()
    # What pictures note for a terminal is for nobody here; and files can't grow any more.
    sys.stderr = open(os.devnull, "w", encoding="utf-8")
    for what, most in (
        (resource.RLIMIT_AS, MEMORY),
        (resource.RLIMIT_CPU, PROCESSOR_SECONDS),
        (resource.RLIMIT_FSIZE, 0),
        (resource.RLIMIT_CORE, 0),
    ):
        resource.setrlimit(what, (most, most))


def apart(work: Callable[[], str]) -> Outcome:
    """The outcome of what a process of its own works out, within the limits."""
    reader, writer = os.pipe()
    with held():
        child = os.fork()
        if child == 0:
            os.close(reader)
            work_and_end(work, writer)
    os.close(writer)
    try:
        said = all_of(reader, time.monotonic() + SECONDS)
    finally:
        os.close(reader)
        end_group(child)
    return said


def work_and_end(work: Callable[[], str], writer: int) -> None:
    """In the process of its own: nothing of it gets back to what has called it."""
    try:
        ctypes.CDLL(None).prctl(PR_SET_PDEATHSIG, signal.SIGKILL)
        limit_process()
        for number in STOPS:
            signal.signal(number, signal.SIG_DFL if number != signal.SIGINT else signal.SIG_IGN)
        signal.pthread_sigmask(signal.SIG_UNBLOCK, STOPS)
        os.write(writer, json.dumps(asdict(outcome(work))).encode())
    finally:
        os._exit(0)


def all_of(reader: int, until: float) -> Outcome:
    """What comes from the process before it ends, or the time is up."""
    said = b""
    while len(said) <= MOST_SAID:
        left = until - time.monotonic()
        if left <= 0 or not select.select([reader], [], [], left)[0]:
            return Outcome("limit", wrong=TOO_LATE)
        part = os.read(reader, 1 << 16)
        if not part:
            break
        said += part
    try:
        return Outcome(**json.loads(said))
    except ValueError:
        return Outcome("limit", wrong="it took too much time or memory, so it was ended")


def end_group(child: int) -> None:
    """Ends the process, with all that it has started, if it hasn't ended yet."""
    for kill in (os.killpg, os.kill):
        with contextlib.suppress(ProcessLookupError, PermissionError):
            kill(child, signal.SIGKILL)
    os.waitpid(child, 0)
