"""Memory that programs take and that isn't plain to see: files in the container's rooms, children, memory that is
shared, kept by nobody, or on its way. Each program gets its answers where nothing is looked at. It needs no built
program."""

import time

from forestplan.workshop.findings import NoAnswer
from forestplan.workshop.guard import Guard, Limits, Unguarded
from forestplan.workshop.processes import exit_of, start_program
from forestplan.workshop.sandbox import USERS
from tests.workshop.contained import Contained, program

MEGABYTES = 100
FLOOD = f"flood: it takes more than {MEGABYTES} megabytes of memory"
UNKNOWN_CALL = "Errno 38"
MAPPINGS = "flood: a process of it has more than 1 megabyte of /proc/PID/maps"
PULSES = 4
# A node that takes something at its start or after its first answer, and answers each message after some seconds.
ANSWERS = """\
import mmap
{begin}
count = 0
for line in sys.stdin:
    if line == 'end\\n':
        time.sleep({seconds})
        print('end', flush=True)
        count += 1
        if count == 1:
            {after_first}
"""
FILL = "os.write(file, bytes(15 << 20))\n"
TAKE = (
    "    if os.fork() == 0:\n        kept = bytearray(os.urandom(1 << 20)) * 80\n        time.sleep(60)\n"
    "        os._exit(0)\n"
)
# What a node does at its start, and what is found: that it takes too much, or that the call isn't there.
AT_START = {
    "files in /tmp": (
        f"for number in range(16):\n    file = os.open(str(number), os.O_CREAT | os.O_RDWR)\n    {FILL}"
        "    os.close(file)\n",
        FLOOD,
    ),
    "files that have lost their names": (
        f"for number in range(12):\n    file = os.open('/tmp', os.O_TMPFILE | os.O_RDWR)\n    {FILL}",
        FLOOD,
    ),
    "files that are on their way": (
        "ends = socket.socketpair()\nfor number in range(12):\n"
        f"    file = os.open('/tmp', os.O_TMPFILE | os.O_RDWR)\n    {FILL}"
        "    socket.send_fds(ends[0], [b'x'], [file])\n    os.close(file)\n",
        FLOOD,
    ),
    "memory files that are on their way": (
        f"ends = socket.socketpair()\nfor number in range(12):\n    file = os.memfd_create('')\n    {FILL}"
        "    socket.send_fds(ends[0], [b'x'], [file])\n    os.close(file)\n",
        UNKNOWN_CALL,
    ),
    "memory files": (
        f"files = [os.memfd_create('') for _ in range(12)]\nfor file in files:\n    {FILL}",
        UNKNOWN_CALL,
    ),
    "segments that nobody has": (
        "SYSTEM.shmat.restype = ctypes.c_void_p\nfor _ in range(3):\n"
        "    segment = SYSTEM.shmget(0, 50 << 20, 0o1600)\n    call(segment)\n"
        "    at = SYSTEM.shmat(segment, None, 0)\n    ctypes.memset(at, 1, 50 << 20)\n"
        "    SYSTEM.shmdt(ctypes.c_void_p(at))\n",
        UNKNOWN_CALL,
    ),
    "shared memory that is put aside": (
        "all = []\nfor _ in range(3):\n    all.append(mmap.mmap(-1, 50 << 20))\n    all[-1].write(bytes(50 << 20))\n"
        "    all[-1].madvise(mmap.MADV_DONTNEED)\n",
        FLOOD,
    ),
    "shared memory that a child keeps": (
        "shared = mmap.mmap(-1, 150 << 20)\nif os.fork() == 0:\n    time.sleep(60)\n    os._exit(0)\n"
        "for _ in range(150):\n    shared.write(bytes(1 << 20))\nshared.close()\n",
        FLOOD,
    ),
    "messages that nobody reads": (
        "for _ in range(3):\n    if os.fork() == 0:\n"
        "        for pair in [socket.socketpair() for _ in range(100)]:\n"
        "            for end in pair:\n                end.setblocking(False)\n                try:\n"
        "                    while end.send(bytes(1 << 16)):\n                        pass\n"
        "                except BlockingIOError:\n                    pass\n"
        "            globals().setdefault('all', []).append(pair)\n        time.sleep(60)\n        os._exit(0)\n",
        FLOOD,
    ),
    "many mappings, and memory behind them": (
        "area = mmap.mmap(-1, 20_000 * 4096)\n"
        "at = ctypes.addressof(ctypes.c_char.from_buffer(area))\n"
        "for page in range(0, 20_000, 2):\n"
        "    SYSTEM.mprotect(ctypes.c_void_p(at + page * 4096), ctypes.c_size_t(4096), 1)\n",
        MAPPINGS,
    ),
    "children": (f"for _ in range(3):\n{TAKE}", FLOOD),
}


def node(begin: str = "", after_first: str = "pass", seconds: float = 0.7) -> list[str]:
    after_first = after_first.replace("\n", "\n            ")
    return program({}, ANSWERS.format(begin=begin, after_first=after_first, seconds=seconds))


class Memory(Contained):
    user = USERS[-5]

    def found(self, guard: Guard, *commands: list[str], pulses: int = PULSES) -> str:
        """What is found of nodes that are asked all at once, pulse by pulse: that they answer, or the first fault."""
        limits = Limits(20, MEGABYTES, len(commands))
        nodes = [start_program(command, limits, guard, guard.tasks()) for command in commands]
        try:
            for _ in range(pulses):
                for one in nodes:
                    one.send(["pulse"])
                for one in nodes:
                    one.receive()
            return "answers"
        except NoAnswer as fault:
            return f"{fault.kind}: {fault.message}"
        finally:
            for one in nodes:
                one.stop(0)

    def unlooked(self) -> Guard:
        guard = Unguarded()
        guard.place = self.copy
        return guard

    def test_what_a_program_takes(self) -> None:
        for name, (begin, arguments) in AT_START.items():
            within, _ = self.guards()
            found = self.found(within, node(begin))
            self.note(name, arguments in found, found)
            self.same(f"{name}: an attack", self.found(self.unlooked(), node(begin)), "answers")

    def test_what_a_program_takes_without_a_container(self) -> None:
        """Where the workshop only plays, the same is counted, but for files that a folder has."""
        for name in ("memory files", "shared memory that is put aside", "children"):
            _, without = self.guards()
            found = self.found(without, node(AT_START[name][0]))
            self.note(name, FLOOD in found, found)

    def test_what_is_within_its_limit(self) -> None:
        """Files that are taken away again, memory that two processes share, and some connections."""
        for name, begin in {
            "files that are removed": "for _ in range(12):\n    file = open('/tmp/x', 'wb')\n"
            "    file.write(bytes(15 << 20))\n    file.close()\n    os.remove('/tmp/x')\n",
            "shared by two": "shared = mmap.mmap(-1, 40 << 20)\nshared.write(bytes(40 << 20))\n"
            "if os.fork() == 0:\n    sum(shared[::4096])\n    time.sleep(60)\n",
            "connections": "pairs = [socket.socketpair() for _ in range(20)]\n",
        }.items():
            within, _ = self.guards()
            self.same(name, self.found(within, node(begin)), "answers")

    def test_who_answers_first_hides_nobody(self) -> None:
        """The first of two nodes answers late, and the other takes more after its first answer."""
        slow, grows = node(seconds=0.6), node("", f"for _ in range(4):\n{TAKE}".rstrip(), 0.0)
        within, _ = self.guards()
        begun = time.monotonic()
        found = self.found(within, slow, grows, pulses=10)
        self.same("a fault", found, FLOOD)
        self.note("soon", time.monotonic() - begun < 8, f"{time.monotonic() - begun:.1f} s")
        self.same("an attack", self.found(self.unlooked(), slow, grows, pulses=3), "answers")

    def test_it_ends_at_once(self) -> None:
        """A node that takes too much is ended while another is waited for."""
        within, _ = self.guards()
        limits = Limits(20, MEGABYTES, 2)
        begin = f"for _ in range(3):\n{TAKE}"
        slow, grows = (
            start_program(command, limits, within, 0)
            for command in (node(seconds=4.0), node(begin))
        )
        try:
            slow.send(["pulse"])
            grows.send(["pulse"])
            slow.receive()
            self.note("ended", exit_of(grows.process.pid, 0) is not None, "it runs")
            with self.assertRaises(NoAnswer) as fault:
                grows.receive()
            self.same("named", f"{fault.exception.kind}: {fault.exception.message}", FLOOD)
        finally:
            for one in (slow, grows):
                one.stop(0)
