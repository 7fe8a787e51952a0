"""The container in which a submission is graded: bubblewrap (`bwrap`), with namespaces of its own for users, processes,
messages, the host's name and the network, and a list of what is in it.

- A program sees the system's programs and libraries, what is on the PATH, a few files of /etc, and its submission, and
  can't write there (visible_files.py). /proc has itself and its children alone; three files of it that languages read
  say the same on each machine, but for the number of processors.
- It writes into rooms in memory alone, its HOME and TMPDIR (/tmp) and /dev/shm, of a stated size; nothing of them is
  there once it has ended, and its limit of memory counts them. It begins in /tmp, which has a link to each entry of its
  folder.
- It makes the calls of a list (calls.py), none of 32 bits, and no sockets but to itself and its children.
- All that it has started ends with it, and it ends with the process that plays it.

Two nodes of a run share no file that they can write to, no message and no lock, and see no count of the whole machine,
such as how many threads it has. What remains are covert channels, which nothing here closes: how busy processors,
memory and disks are and what is in their caches; numbers that the kernel deals out to all programs in turn, such as
those of pipes; and limits that all programs of one user share (processes, waiting signals, bytes in pipes)."""

import contextlib
import fcntl
import os
import subprocess
from collections.abc import Iterable
from functools import cached_property

from forestplan.fault_codes import Code
from forestplan.faults import Fault
from forestplan.workshop import visible_files
from forestplan.workshop.calls import filters_of_calls
from forestplan.workshop.findings import NoAnswer
from forestplan.workshop.guard import MEGABYTE, Guard, Limits, Start
from forestplan.workshop.leftovers import Running
from forestplan.workshop.memory import memory_of

ROOM = "/tmp"
SHARED = "/dev/shm"
ROOMS = (ROOM, SHARED)
ROOM_BYTES = 256 * MEGABYTE
SHARED_BYTES = 16 * MEGABYTE
MOST_FILES = 10_000
ALONE = ("--unshare-all", "--unshare-user", "--disable-userns", "--die-with-parent")
NAME = ("--hostname", "submission")
# What the programs of submissions are if root grades: each submission another of the numbers that nobody has.
USERS = range(61184, 65520)
# How much memory a machine has by what its files say there, and for Java, which else asks by a call that is refused.
# Java also writes how it does into a file with a lock, which is refused, and would say so in an answer.
KILOBYTES = 2 << 20
FOR_JAVA = f"-XX:MaxRAM={KILOBYTES}k -XX:-UsePerfData"
INSTEAD = (
    "run it in a container that may make namespaces, as one of `docker run --privileged`, or put a container's "
    "words after `--` (`forestlab workshop grade --help`)"
)


class Sandbox(Guard):
    """`folder` has what was submitted, `hidden` are folders that are empty for its programs wherever they would be
    seen, and `needed` what is seen besides the system's folders. `user` is the number of the user that its programs
    are if root grades. `files` are the open files that bubblewrap reads."""

    place = "/"

    def __init__(
        self, folder: str, hidden: Iterable[str], needed: Iterable[str], user: int
    ) -> None:
        super().__init__()
        self.folder = folder
        self.hidden = list(hidden)
        self.needed = list(needed)
        self.user = user if os.geteuid() == 0 else None
        self.files: list[int] = []

    @cached_property
    def words_before(self) -> list[str]:
        """bubblewrap and what it is told, which is written once. It lies in a file, since a program may read how the
        first process of its container was called."""
        told = "\0".join([*self.container(), ""])
        return ["bwrap", "--args", self.text(told.encode())]

    def container(self) -> list[str]:
        """What bubblewrap is told of the container."""
        arguments = [*ALONE, *NAME]
        for calls in filters_of_calls():
            arguments += ["--add-seccomp-fd", self.text(calls)]
        arguments += ["--dev", "/dev", "--proc", "/proc", *self.told()]
        arguments += ["--size", str(ROOM_BYTES), "--tmpfs", ROOM]
        # The submission becomes its user's own once it is copied.
        shown = [*filter(self.reaches, [*visible_files.system(), *self.needed]), self.folder]
        closed = {os.path.realpath(path) for path in self.hidden} - {ROOM}
        empty = [*filter(os.path.isdir, closed), *visible_files.copies_in(shown)]
        arguments += words_of_files(shown, {path for path in empty if self.reaches(path)})
        return [*arguments, "--size", str(SHARED_BYTES), "--tmpfs", SHARED, "--chdir", ROOM]

    def text(self, data: bytes) -> str:
        """The number of an open file that bubblewrap reads, and nobody changes."""
        number = os.memfd_create("words", os.MFD_CLOEXEC | os.MFD_ALLOW_SEALING)
        os.write(number, data)
        fcntl.fcntl(number, fcntl.F_ADD_SEALS, fcntl.F_SEAL_WRITE | fcntl.F_SEAL_GROW)
        self.files.append(number)
        return str(number)

    def told(self) -> list[str]:
        """/proc without what it says of the machine, and who the program's user is. Each file and folder is covered."""
        arguments: list[str] = ["--tmpfs", "/dev/pts", "--remount-ro", "/dev/pts"]
        texts = {path: text.encode() for path, text in self.texts().items()}
        for path in visible_files.covered_in_proc():
            if path in texts:
                continue
            if os.path.isdir(path):
                arguments += ["--tmpfs", path, "--remount-ro", path]
            else:
                arguments += ["--ro-bind", "/dev/null", path]
        for path, data in texts.items():
            arguments += ["--perms", "0444", "--ro-bind-data", self.text(data), path]
        return arguments

    def texts(self) -> dict[str, str]:
        """Files that some languages read as they start: Java and JavaScript how many processors there are and how much
        memory, Java and Perl where the user's home is."""
        numbers = range(len(os.sched_getaffinity(0)))
        user = os.geteuid() if self.user is None else self.user
        group = os.getegid() if self.user is None else self.user
        sizes = ("MemTotal", "MemFree", "MemAvailable")
        return {
            "/etc/passwd": f"student:x:{user}:{group}::{ROOM}:/bin/sh\n",
            "/proc/meminfo": "".join(f"{name}: {KILOBYTES} kB\n" for name in sizes),
            "/proc/cpuinfo": "".join(f"processor\t: {number}\n\n" for number in numbers),
            "/proc/stat": "".join(
                f"cpu{number} 0 0 0 0 0 0 0 0 0 0\n" for number in ("", *numbers)
            ),
        }

    def reaches(self, path: str) -> bool:
        """Whether the programs' user may pass all folders above a path; what it can't reach can't be shown to it."""
        return visible_files.reaches(path, self.user)

    def arguments(self, command: list[str]) -> list[str]:
        """The command in a container of its own, with a link to each entry of the folder."""
        links = []
        for name in os.listdir(self.folder):
            links += ["--symlink", os.path.join(self.folder, name), os.path.join(ROOM, name)]
        return [*self.words_before, *links, "--", *command]

    def environment(self) -> dict[str, str]:
        return super().environment() | {"HOME": ROOM, "TMPDIR": ROOM, "JAVA_TOOL_OPTIONS": FOR_JAVA}

    def start(self, limits: Limits, tasks: int) -> Start:
        told = super().start(limits, tasks)
        # They are there once the words are written.
        told["pass_fds"] = self.files if self.words_before else ()
        return told

    def enter(self) -> None:
        """Each container reads the open files from their beginning, whatever another has read."""
        for number in self.files:
            again = os.open(f"/proc/self/fd/{number}", os.O_RDONLY)
            os.dup2(again, number)
            os.close(again)

    def check(self, running: list[Running], memory: int) -> None:
        rooms = rooms_of(running)
        if sum(room.f_files - room.f_ffree for room in rooms) > MOST_FILES:
            raise NoAnswer("flood", f"it wrote more than {MOST_FILES} files")
        written = sum((room.f_blocks - room.f_bfree) * room.f_frsize for room in rooms)
        if memory_of(running) + written > memory:
            raise NoAnswer("flood", f"it takes more than {memory >> 20} megabytes of memory")

    def try_out(self) -> None:
        """Refuses a system on which nothing can be started so."""
        try:
            done = subprocess.run(
                self.arguments(["true"]),
                capture_output=True,
                text=True,
                **self.start(Limits(1, 2048, 1), self.tasks()),
            )
        # The second one comes if it is in no folder of the PATH that the programs' user can enter.
        except (FileNotFoundError, PermissionError):
            raise Fault(Code.NO_BUBBLEWRAP, instead=INSTEAD) from None
        if done.returncode:
            raise Fault(Code.BUBBLEWRAP_REFUSES, why=done.stderr.strip(), instead=INSTEAD)


def words_of_files(shown: list[str], empty: set[str]) -> list[str]:
    """What is seen, and what of that is empty; what is further in comes later, and is on top. A folder is shut once all
    below it is made."""
    arguments = []
    covers = {path for path in empty if visible_files.is_path_below(path, shown)}
    for path in sorted({*shown, *covers}):
        if path in covers:
            arguments += ["--tmpfs", path]
        elif visible_files.deepest(path, covers) >= visible_files.deepest(path, shown):
            arguments += shown_as(path)
    for path in (*sorted(covers), "/dev", "/"):
        arguments += ["--remount-ro", path]
    return arguments


def shown_as(path: str) -> list[str]:
    """The words for a file or a folder that is seen. Of the system's folders some are links to others."""
    if visible_files.is_link_of_system(path):
        return ["--symlink", os.readlink(path), path]
    return ["--ro-bind", path, path]


def rooms_of(running: list[Running]) -> list[os.statvfs_result]:
    """What is in the rooms of a program. bubblewrap's own process has none, and all others have the same."""
    found: dict[int, os.statvfs_result] = {}
    for process in running:
        for room in ROOMS:
            path = f"/proc/{process.number}/root{room}"
            with contextlib.suppress(OSError):  # it has ended meanwhile
                device = os.stat(path).st_dev
                if device != os.stat(room).st_dev and device not in found:
                    found[device] = os.statvfs(path)
    return list(found.values())
