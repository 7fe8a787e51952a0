"""The list of calls that a graded program may make, as a filter for each kind of machine: the filter is run here, with
numbers of calls from the kernel's own tables. It needs no built program."""

import errno
import fcntl
import mmap
import operator
import struct
from unittest import mock

from forestplan.faults import Fault
from forestplan.workshop import calls, grade
from forestplan.workshop.calls import filters_of_calls
from tests.cases import Case
from tests.tools import need
from tests.workshop.submitted import ZERO

ALLOWED, REFUSED = 0x7FFF0000, 0x50000
NO_CALL, NO_RIGHT = REFUSED | errno.ENOSYS, REFUSED | errno.EPERM
# By machine: the number by which the kernel calls it (linux/audit.h), and some of its calls (its table of calls).
MACHINES = {
    "x86_64": (
        0xC000003E,
        {
            "openat": 257,
            "socket": 41,
            "fcntl": 72,
            "flock": 73,
            "sysinfo": 99,
            "madvise": 28,
            "statfs": 137,
        },
    ),
    "aarch64": (
        0xC00000B7,
        {
            "openat": 56,
            "socket": 198,
            "fcntl": 25,
            "flock": 32,
            "sysinfo": 179,
            "madvise": 233,
            "statfs": 43,
        },
    ),
    "riscv64": (
        0xC00000F3,
        {
            "openat": 56,
            "socket": 198,
            "fcntl": 25,
            "flock": 32,
            "sysinfo": 179,
            "madvise": 233,
            "statfs": 43,
        },
    ),
    "ppc64le": (
        0xC0000015,
        {
            "openat": 286,
            "socket": 326,
            "fcntl": 55,
            "flock": 143,
            "sysinfo": 116,
            "madvise": 205,
            "statfs": 99,
        }
        | {"socketcall": 102},
    ),
    "x86": (
        0x40000003,
        {
            "openat": 295,
            "socket": 359,
            "fcntl": 55,
            "flock": 143,
            "sysinfo": 116,
            "madvise": 219,
            "statfs": 99,
        }
        | {"socketcall": 102},
    ),
    "arm": (
        0x40000028,
        {
            "openat": 322,
            "socket": 281,
            "fcntl": 55,
            "flock": 143,
            "sysinfo": 116,
            "madvise": 220,
            "statfs": 99,
        },
    ),
}
# The same on all of them.
RING, KEYS_OF_X86_64, GETPID_OF_X32 = 425, 250, 0x40000000 + 39
IPV4, LOCAL, VSOCK = 2, 1, 40
# Set in the number of a machine whose words have 64 bits.
OF_64_BITS = 0x80000000
# What programs need of `fcntl` and `madvise`, by the names that Python has for the kernel's numbers.
COMMANDS = "DUPFD GETFD SETFD GETFL SETFL SETOWN GETOWN DUPFD_CLOEXEC GETPIPE_SZ"
ADVICE = "NORMAL RANDOM SEQUENTIAL WILLNEED DONTNEED FREE DONTFORK DOFORK HUGEPAGE NOHUGEPAGE DONTDUMP DODUMP"
ROWS = (
    *(("fcntl", (3, getattr(fcntl, f"F_{name}")), ALLOWED) for name in COMMANDS.split()),
    *(("madvise", (0, 1, getattr(mmap, f"MADV_{name}")), ALLOWED) for name in ADVICE.split()),
    ("openat", (), ALLOWED),
    ("socket", (LOCAL,), ALLOWED),
    ("socket", (IPV4,), NO_CALL),
    ("socket", (VSOCK,), NO_CALL),
    ("socket", (LOCAL | 1 << 32,), NO_CALL),
    ("fcntl", (3, 6), NO_CALL),
    ("fcntl", (3, 1031), NO_CALL),
    ("madvise", (0, 1, 21), NO_CALL),
    ("flock", (), NO_CALL),
    ("sysinfo", (), NO_CALL),
    ("statfs", (), NO_CALL),
)


# Steps that go on in one place or another, by their codes.
COMPARES = {0x15: operator.eq, 0x25: operator.gt, 0x35: operator.ge}


def answer(
    programs: tuple[bytes, ...], machine: int, number: int, arguments: tuple[int, ...] = ()
) -> int:
    """What the filters say of a call together: what one refuses is refused."""
    found = [answer_of(program, machine, number, arguments) for program in programs]
    return min(found, key=lambda said: said == ALLOWED)


def answer_of(program: bytes, machine: int, number: int, arguments: tuple[int, ...]) -> int:
    """What a filter says of a call: a machine of its own for the few steps that such filters have."""
    given = struct.pack("<IIQ6Q", number, machine, 0, *arguments, *[0] * (6 - len(arguments)))
    steps = list(struct.iter_unpack("<HBBI", program))
    at, value = 0, 0
    while True:
        code, if_so, if_not, word = steps[at]
        at += 1
        if code == 0x06:
            return word
        if code == 0x20:
            (value,) = struct.unpack_from("<I", given, word)
        elif code == 0x54:
            value &= word
        elif code == 0x05:
            at += word
        else:
            at += if_so if COMPARES[code](value, word) else if_not


class Calls(Case):
    def setUp(self) -> None:
        need(self, "libseccomp")

    def test_each_machine(self) -> None:
        for name, (machine, numbers) in MACHINES.items():
            filters = filters_of_calls(name)
            for call, arguments, wanted in ROWS:
                if max(arguments, default=0) >> 32 and not machine & OF_64_BITS:
                    continue
                found = answer(filters, machine, numbers[call], arguments)
                self.same(f"{name}: {call}{arguments}", hex(found), hex(wanted))
            if "socketcall" in numbers:
                found = answer(filters, machine, numbers["socketcall"], (1,))
                self.same(f"{name}: all of sockets", found, NO_CALL)
            self.same(f"{name}: a ring", answer(filters, machine, RING), NO_CALL)
            self.same(f"{name}: another machine", answer(filters, machine ^ 1, 0), NO_RIGHT)

    def test_calls_of_32_bits(self) -> None:
        machine, _ = MACHINES["x86_64"]
        filters = filters_of_calls("x86_64")
        self.same("keys", answer(filters, machine, KEYS_OF_X86_64), NO_CALL)
        self.same("x32", answer(filters, machine, GETPID_OF_X32), NO_RIGHT)
        self.same("i386", answer(filters, 0x40000003, 20), NO_RIGHT)

    def test_names(self) -> None:
        """Each is one of the kernel's, on some machine; a library that is older may lack the newest."""
        library = calls.library()
        machines = [library.seccomp_arch_resolve_name(name.encode()) for name in MACHINES]

        def is_known(name: str) -> bool:
            found = (
                library.seccomp_syscall_resolve_name_arch(at, name.encode()) for at in machines
            )
            return any(number != calls.UNKNOWN for number in found)

        unknown = {name for name in calls.CALLS if not is_known(name)}
        self.note("unknown", unknown <= {"mseal", "riscv_hwprobe", "swapcontext"}, unknown)
        self.same("each once", len(calls.CALLS), len(set(calls.CALLS)))

    def test_where_the_library_isnt_there(self) -> None:
        """One sentence that names the package, and nothing is graded."""
        self.file("submissions/anna/open_node.py", ZERO)
        filters_of_calls.cache_clear()
        self.addCleanup(filters_of_calls.cache_clear)
        with (
            mock.patch.object(calls, "LIBRARY", "libnothing.so.2"),
            mock.patch.object(grade, "ask", lambda *_: (0, "", "")),
            mock.patch.object(grade, "shut", lambda: None),
            mock.patch.object(grade, "grade", mock.Mock(side_effect=AssertionError)),
            mock.patch.dict("os.environ", TMPDIR=self.folder),
            self.assertRaises(Fault) as why,
        ):
            grade.main([f"{self.folder}/submissions"])
        self.assertRegex(str(why.exception), "libseccomp isn't here: `apt install libseccomp2`")
        self.same("lines", len(str(why.exception).splitlines()), 1)

    def test_a_library_that_fails(self) -> None:
        with self.assertRaisesRegex(Fault, "can't write the list of calls: Invalid argument"):
            calls.Filter(mock.Mock(), 0, "").check(-errno.EINVAL)
