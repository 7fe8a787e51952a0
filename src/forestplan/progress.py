"""What the script `forestplan` shows of a run of minutes on a terminal: how long it has taken, and how much processor
time, of about how much that a run of as many messages takes. The program itself says nothing before it ends, so this
reads /proc; it writes whole lines, since one that is rewritten would garble a plan on the same terminal."""
import os
import stat
import sys
import time
from itertools import chain, count

from forestplan.faults import Fault
from forestplan.files import MOST_BYTES, bytes_in
from forestplan.networks.description import RunSize, processor_seconds
from forestplan.networks.network_text import network_in_bytes
from forestplan.wording import duration

# Seconds after which a line is written, and then every half hour.
MOMENTS = chain((10, 30, 60, 120, 300, 600, 1200), count(1800, 1800))


def process_fields(process: int) -> list[str] | None:
    """What the system says of a process after its name, or None once it has ended."""
    try:
        with open(f"/proc/{process}/stat", encoding="utf-8", errors="replace") as file:
            fields = file.read().rpartition(")")[2].split()
    except OSError:
        return None
    return None if fields[0] in ("Z", "X") else fields


def time_expected(process: int, command: str) -> str:
    """About how much processor time a run takes, if its input is a file that can be read once more; or nothing."""
    try:
        with open(f"/proc/{process}/fd/0", "rb") as file:
            if not stat.S_ISREG(os.fstat(file.fileno()).st_mode):
                return ""
            data = bytes_in(file, MOST_BYTES)
        if data is None:
            return ""
        run = RunSize(network_in_bytes(data))
        return f", of about {duration(processor_seconds(run, command))} for {run.wires:,} wires"
    except (OSError, Fault, MemoryError):
        return ""


def main(arguments: list[str]) -> int:
    """Watches a process until it ends: PROCESS NAME COMMAND."""
    process = int(arguments[0])
    name = arguments[1]
    command = arguments[2]
    start = time.monotonic()
    reckons = None
    for moment in MOMENTS:
        while process_fields(process) and time.monotonic() - start < moment:
            time.sleep(0.5)
        reckons = time_expected(process, command) if reckons is None else reckons
        fields = process_fields(process)
        if fields is None:
            return 0
        took = duration(time.monotonic() - start)
        used = duration((int(fields[11]) + int(fields[12])) / os.sysconf("SC_CLK_TCK"))
        print(f"{name}: {took}, {used} of processor time{reckons}", file=sys.stderr, flush=True)
    return 0
