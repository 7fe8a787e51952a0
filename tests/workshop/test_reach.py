"""What a graded program could learn of the machine and of other nodes, beside the files of test_sandbox.py: another
copy of the right nodes, tables and numbers of the kernel, calls past the filter. Each attack runs inside the container
and outside, and has to get through outside. It needs no built program."""

import os
import shutil
import subprocess

from forestplan.workshop.guard import Guard
from forestplan.workshop.sandbox import USERS
from tests.cases import remove
from tests.workshop.contained import NODE, REFUSED, RIGHT, Contained, done, got, program, started
from tests.workshop.test_misbehaving import MARK

# What an attack gets where the kernel has no such call or family: there it is none.
HASNT = "'hasnt'"
BEGIN = """\
import contextlib, errno, glob, mmap, runpy
areas = []
LACKS = (errno.EAFNOSUPPORT, errno.ESOCKTNOSUPPORT, errno.EPROTONOSUPPORT, errno.ENOSYS)
def lacking(code):
    if code in LACKS:
        return 'hasnt'
    raise OSError(code, '')
def opened(family, kind=socket.SOCK_DGRAM):
    try:
        socket.socket(family, kind).close()
    except OSError as why:
        return lacking(why.errno)
def number(call, *words):
    found = call(*words)
    return lacking(ctypes.get_errno()) if found < 0 else found
def words_of_all():
    found = []
    for name in filter(str.isdigit, os.listdir('/proc')):
        with contextlib.suppress(OSError):
            found.append(open(f'/proc/{name}/cmdline').read())
    return found
def last_read(path):
    before = os.stat(path).st_atime
    open(path).read()
    return [after for after in [os.stat(path).st_atime] if after != before][0]
def mapped(path):
    area = mmap.mmap(os.open(path, os.O_RDONLY), 0, mmap.MAP_PRIVATE)
    areas.append(area)
    return ctypes.c_void_p(ctypes.addressof(ctypes.c_char.from_buffer(area))), ctypes.c_size_t(1)
def cached(path):
    open(path, 'rb').read(1)
    return os.preadv(os.open(path, os.O_RDONLY), [bytearray(1)], 0, os.RWF_NOWAIT)
"""
# Those that were known; `{away}` is a second copy of this program, with the right nodes.
KNOWN = {
    "tables_of_system": "os.listdir('/sys')[0]",
    "network_cards": "os.listdir('/sys/class/net')[0]",
    "groups": "os.listdir('/sys/fs/cgroup')[0]",
    "host": "opened(socket.AF_VSOCK, socket.SOCK_STREAM)",
    "load": "open('/proc/loadavg').read(1)",
}
# What such an attack gets outside, too, where a bare system lacks what it tries.
NEEDED = {
    "hosts": ("FileNotFoundError", "/etc/hosts"),
    "cached": ("OSError", "a file system that says what is cached"),
}
COPIES = {
    "copy": "open('{away}/examples/workshop/python/{node}').read(1)",
    "copy_by_search": "open(glob.glob('/*/*{mark}/**/{node}', recursive=True)[0]).read(1)",
    "copy_runs": "runpy.run_path('{away}/examples/workshop/python/colouring.py').keys() and 1",
    "installed": "open('{installed}').read(1)",
}
# Nobody listed these.
OWN = {
    # How many threads the machine has, as /proc/loadavg says it, and how much memory is free, by the page.
    "threads": "call(SYSTEM.sysinfo(ctypes.create_string_buffer(512)))",
    # What a node writes to standard error lies on a disk: another reads how many blocks of it are free.
    "free_blocks": "os.statvfs('/usr').f_bfree",
    # Numbers of the whole machine that a node changes by opening files, waiting, or taking memory.
    "open_files": "open('/proc/sys/fs/file-nr').read(1)",
    "waiting": "open('/proc/sys/fs/aio-nr').read(1)",
    "interrupts": "open('/proc/interrupts').read(1)",
    "pages": "open('/proc/vmstat').read(1)",
    "time": "open('/proc/stat').read().split('intr')[1][1]",
    # Terminals are counted over all containers.
    "terminals": "os.openpty()[0]",
    # How the first process of the container was called: with the paths of other submissions.
    "words_of_grading": "[words for words in words_of_all() if {backwards!r}[::-1] in words][0] and 1",
    # A ring makes calls that no filter sees.
    "ring": "number(SYSTEM.syscall, 425, 4, ctypes.create_string_buffer(120))",
    # Who opens a file of the system, by another call than the one that was refused.
    "watch_of_all": "number(SYSTEM.fanotify_init, 0x200, 0)",
    # Whether another has read a page of a file that all have, and when.
    "cached": "cached('/usr/bin/env')",
    "last_read": "last_read({own!r})",
    "resident": "number(SYSTEM.mincore, *mapped({own!r}), ctypes.create_string_buffer(1))",
    "taken_out": "number(SYSTEM.madvise, *mapped({own!r}), 21)",
    # What all programs of one user pay for.
    "large_pipe": "fcntl.fcntl(os.pipe()[0], 1031, 1 << 17)",
    "semaphore": "call(SYSTEM.semget(0, 1, 0o1600))",
    # Networks and ciphers of the kernel.
    "networks_of_kernel": "opened(socket.AF_NETLINK)",
    "ciphers": "opened(38, socket.SOCK_SEQPACKET)",
    # Who the people of the machine are, what else is in its network, and its name.
    "people": "open('/etc/passwd').read().split('root')[1][0]",
    "hosts": "open('/etc/hosts').read(1)",
    "name": "['x'][os.uname().nodename != {host!r}]",
}
OF_ROOT = {
    "new_in_root": "open('/{mark}', 'w')",
    "new_in_device": "open('/dev/{mark}', 'w')",
    "log_by_call": "number(SYSTEM.klogctl, 10, None, 0)",
}


class Reach(Contained):
    user = USERS[-4]

    def away(self) -> dict[str, str]:
        """A second copy of this program in a folder that anybody may read, and an installed one; where only root can
        put them."""
        copy = f"/opt/{MARK}"
        python = os.path.join(copy, "examples", "workshop", "python")
        shutil.copytree(RIGHT.removesuffix(f"/{NODE}"), python)
        self.addCleanup(shutil.rmtree, copy)
        folder = "/usr/local/lib/forestplan"
        if not os.path.isdir(folder):
            os.mkdir(folder)
            self.addCleanup(os.rmdir, folder)
        installed = self.file(f"{folder}/{MARK}", "x")
        self.addCleanup(os.remove, installed)
        return {"away": copy, "installed": installed}

    def names(self) -> dict[str, str]:
        """What the attacks speak of: all of it is there. Another process was called with the path of submissions."""
        own = os.path.join(self.copy, NODE)
        os.utime(own, (1, os.stat(own).st_mtime))
        arguments = ["python3", "-c", "input()", self.subs]
        other = subprocess.Popen(arguments, stdin=subprocess.PIPE)
        self.addCleanup(other.communicate)
        names = {"own": own, "backwards": self.subs[::-1], "host": os.uname().nodename}
        return names | {"mark": MARK, "node": NODE}

    def test_nothing_else_is_there(self) -> None:
        attacks, names = KNOWN | OWN, self.names()
        if os.geteuid() == 0:
            attacks, names = attacks | COPIES | OF_ROOT, names | self.away()
            for path in (f"/{MARK}", f"/dev/{MARK}"):
                self.addCleanup(remove, path)
        tried = {name: command.format(**names) for name, command in attacks.items()}
        within, without = (got(done(guard, program(tried, BEGIN))) for guard in self.guards())
        self.same("all are tried", within.keys(), attacks.keys())
        for name in attacks:
            with self.subTest(name):
                if without[name] == HASNT:
                    self.skipTest(f"the kernel's part for {name} isn't installed")
                if name in NEEDED and without[name] == NEEDED[name][0]:
                    self.skipTest(f"{NEEDED[name][1]} isn't installed")
                self.note(f"{name}: an attack", without[name] not in REFUSED, without[name])
                is_refused = within[name] in REFUSED | {HASNT}
                self.note(f"{name}: refused", is_refused, within[name])

    def test_families(self) -> None:
        """Of all families of sockets one opens; outside others do."""
        kinds = "(socket.SOCK_STREAM, socket.SOCK_DGRAM, socket.SOCK_RAW, socket.SOCK_SEQPACKET)"
        attacks = {
            f"family_{name}": f"[0 for kind in {kinds} if opened({number}, kind) is None][0]"
            for number, name in enumerate("abcdefghijklmnopqrstuvwxyz", 1)
        }
        within, without = (got(done(guard, program(attacks, BEGIN))) for guard in self.guards())
        self.same("inside", [name for name in within if within[name] == "0"], ["family_a"])
        others = [name for name in without if without[name] == "0"]
        self.note("outside", len(others) > 2, others)

    def test_what_proc_shows(self) -> None:
        """Of what isn't a process, three files with nothing but the number of processors and a size."""
        walk = (
            "[os.path.join(at, name) for top in os.scandir('/proc') if not top.name.isdigit() "
            "and top.name not in ('self', 'thread-self', 'net') and not top.is_symlink() "
            "for at, _, names in [*os.walk(top.path), ('/proc', (), [top.name])] for name in names "
            "if os.path.isfile(os.path.join(at, name)) and readable(os.path.join(at, name))]"
        )
        readable = (
            "def readable(path):\n    try:\n        with open(path, 'rb', buffering=0) as file:\n"
            "            return bool(os.set_blocking(file.fileno(), False) or file.read(1))\n"
            "    except OSError:\n        return False\n"
        )
        more = f"{BEGIN}{readable}print(*sorted({walk}))\n"
        seen = [self.printed(guard, more) for guard in self.guards()]
        self.same("inside", seen[0], ["/proc/cpuinfo", "/proc/meminfo", "/proc/stat"])
        self.note("outside", len(seen[1]) > 20, seen[1])

    def printed(self, guard: Guard, more: str) -> list[str]:
        """The words that a program prints."""

        return started(guard, program({}, more)).communicate(timeout=120)[0].split()
