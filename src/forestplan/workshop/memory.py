"""How much memory programs take, with all that they have started: what is their own, and what they share, which counts
once, whoever has it."""

import contextlib
import os
import re
import stat
from collections.abc import Iterable, Iterator

from forestplan.workshop.findings import NoAnswer
from forestplan.workshop.leftovers import Running

SHARED = re.compile(rb"(?m)^RssShmem:\s+([0-9]+) kB$")
# Of a line of /proc/PID/maps that can be written to and is shared: where it begins and ends, its place in the file, the
# device and the number of the file, and its name.
MAPPED = re.compile(
    rb"(?m)^([0-9a-f]+)-([0-9a-f]+) .{3}s ([0-9a-f]+) ([0-9a-f]+):([0-9a-f]+) ([0-9]+) +(.*)$"
)
# Names of memory that no folder has; and the folder whose files are memory.
UNNAMED = (b"/dev/zero (deleted)", b"/memfd:", b"/SYSV", b"/dev/shm/")

# The most that one side of a connection or a pipe holds in memory, however much is in it now.
MOST_IN_SOCKET = 425_984
MOST_IN_PIPE = 1 << 16

# Of a file of /proc on a process: about 10,000 mappings, of which Java has some hundred.
MOST_BYTES = 1 << 20

File = tuple[int, int]


def memory_of(running: Iterable[Running]) -> int:
    """The bytes that processes take together, but for files that a folder has. What the system holds for them in
    connections and pipes can't be read, and counts as the most that it may be."""
    own = 0
    files = dict[File, int]()
    for process in running:
        own += max(0, process.memory - shared(process.number))
        for file, size in [*open_files(process.number), *mapped(process.number)]:
            files[file] = max(size, files.get(file, 0))
    return own + sum(files.values())


def process_file(number: int, name: str) -> bytes:
    """A file of a process in /proc; nothing if it has ended meanwhile. A long list of mappings takes the system's
    memory, and hides what comes after it."""
    try:
        with open(f"/proc/{number}/{name}", "rb") as file:
            found = file.read(MOST_BYTES + 1)
    except OSError:
        return b""
    if len(found) > MOST_BYTES:
        raise NoAnswer(
            "flood",
            f"a process of it has more than {MOST_BYTES >> 20} megabyte of /proc/PID/{name}",
        )
    return found


def shared(number: int) -> int:
    """The bytes of a process's memory that it may share, as far as it has touched them."""
    found = SHARED.search(process_file(number, "status"))
    return 1024 * int(found[1]) if found else 0


def open_files(number: int) -> Iterator[tuple[File, int]]:
    """The files that a process has open and that no folder has, connections and pipes too, with what each takes."""
    with contextlib.suppress(OSError):  # it has ended meanwhile
        for entry in os.scandir(f"/proc/{number}/fd"):
            with contextlib.suppress(OSError):
                file = entry.stat()
                yield (file.st_dev, file.st_ino), size_of(file)


def size_of(file: os.stat_result) -> int:
    """What an open file takes of memory."""
    if stat.S_ISSOCK(file.st_mode):
        return MOST_IN_SOCKET
    if stat.S_ISFIFO(file.st_mode):
        return MOST_IN_PIPE
    return 512 * file.st_blocks if stat.S_ISREG(file.st_mode) and not file.st_nlink else 0


def mapped(number: int) -> Iterator[tuple[File, int]]:
    """The memory that a process may share, each with its whole size: what nobody has touched lately is there, too."""
    for found in MAPPED.finditer(process_file(number, "maps")):
        if found[7].startswith(UNNAMED):
            begin, end, place, major, minor = (int(word, 16) for word in found.groups()[:5])
            yield (os.makedev(major, minor), int(found[6])), place + end - begin
