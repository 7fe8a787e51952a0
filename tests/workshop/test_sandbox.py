"""The container of grading: what a program tries there fails, and each of these attacks gets through where nothing is
around it. It needs no built program."""
import contextlib
import ctypes
import os
import shutil
import socket
import subprocess
from unittest import mock

from forestplan.faults import Fault
from forestplan.workshop.compiling import compiled, unpack
from forestplan.workshop.findings import NoAnswer
from forestplan.workshop.guard import OPEN_FILES, Limits
from forestplan.workshop.leftovers import end_all, shut
from forestplan.workshop.processes import start_program
from forestplan.workshop.sandbox import Sandbox
from tests.cases import remove, wait_until
from tests.tools import need
from tests.workshop.base import JAVA, LIMIT
from tests.workshop.contained import NODE, REFUSED, RIGHT, Contained, done, got, program, started
from tests.workshop.test_misbehaving import MARK, left

# Each reaches something that no submission has any business with; `{other}` is another's node, `{workshop}` the number
# of the process that plays it.
ATTACKS = {
    "submissions": "os.listdir({subs!r})[0]",
    "another": "open({other!r}).read(1)",
    "link": "open('link').read(1)",
    "right": "open({right!r}).read(1)",
    "home": "open({home!r}).read(1)",
    "beside": "open({beside!r}).read(1)",
    "memory": "open({shared!r}).read(1)",
    "processes": "[name for name in os.listdir('/proc') if name.isdigit()][3]",
    "words": "open('/proc/{workshop}/cmdline').read(1)",
    "environment": "open('/proc/{workshop}/environ').read(1)",
    "kills": "os.kill({workshop}, 0)",
    "traces": "call(SYSTEM.ptrace(0x4206, {workshop}, None, None))",
    "limits": "resource.prlimit({workshop}, resource.RLIMIT_CORE)",
    "priority": "os.getpriority(os.PRIO_PROCESS, {workshop})",
    "other": "open({other!r}, 'a')",
    "own": "open({own!r}, 'a')",
    "rights": "os.chmod({own!r}, 0o755)",
    "times": "os.utime({own!r})",
    "moves": "os.rename({own!r}, {own!r})",
    "at_home": "open({homes!r}, 'w')",
    "connects": "connected(socket.AF_INET, ('127.0.0.1', {port}))",
    "meets": "connected(socket.AF_UNIX, {socket!r})",
    "meets_by_name": "connected(socket.AF_UNIX, chr(0) + {mark!r})",
    "segment": "call(SYSTEM.shmget({key}, 0, 0))",
    "key": "call(SYSTEM.syscall(248, b'user', b'x', b'x', 1, -1))",
    "lock": "fcntl.flock(open('/usr/bin/env'), fcntl.LOCK_EX)",
    "shared_lock": "fcntl.lockf(open('/usr/bin/env'), fcntl.LOCK_SH)",
    "watch": "call(SYSTEM.inotify_add_watch(SYSTEM.inotify_init(), b'/usr/bin/env', 32))",
    "users": "unshared()",
    "fills": "filled()",
}
# Those that an ordinary user can't do either, so that they get through only if root plays.
OF_ROOT = {
    "in_dev": "open('/dev/shm/../{mark}', 'w')",
    "system": "open('/opt/{mark}/new', 'w')",
    "device": "os.mknod('device', stat.S_IFBLK | 0o600, os.makedev(8, 0))",
    "kernel": "os.open('/proc/sys/kernel/hostname', os.O_WRONLY)",
    "host": "socket.sethostname(socket.gethostname())",
    "log": "os.open('/dev/kmsg', os.O_RDONLY)",
    "root": "os.setuid(0)",
}
PLUGIN = """\
import com.sun.source.util.*;
import java.nio.file.*;
public class Thief implements Plugin {
    public String getName() { return "Thief"; }
    public boolean autoStart() { return true; }
    public void init(JavacTask task, String... words) {
        try { Files.copy(Path.of("%s"), Path.of("%s")); } catch (Exception why) { }
    }
}
"""


class Sandboxed(Contained):
    def names(self):
        """What the attacks speak of: all of it is there."""
        server = socket.create_server(("127.0.0.1", 0))
        place, abstract = (socket.socket(socket.AF_UNIX) for _ in range(2))
        place.bind(os.path.join(self.folder, "socket"))
        abstract.bind(chr(0) + MARK)
        for end in (server, place, abstract):
            end.listen()
            self.addCleanup(end.close)
        shared = f"/dev/shm/{MARK}"
        self.file(shared, "x")
        self.addCleanup(os.remove, shared)
        system, key = ctypes.CDLL(None), os.getpid()
        segment = system.shmget(key, 4096, 0o1666)
        self.addCleanup(system.shmctl, segment, 0, None)
        return {
            "subs": self.subs,
            "other": self.other,
            "right": RIGHT,
            "home": os.path.join(self.folder, "home", "secret"),
            "homes": os.path.join(self.folder, "home", "new"),
            "beside": os.path.join(self.folder, "beside"),
            "own": os.path.join(self.copy, NODE),
            "socket": os.path.join(self.folder, "socket"),
            "port": server.getsockname()[1],
            "workshop": os.getpid(),
            **{"shared": shared, "key": key, "mark": MARK},
        }

    def test_nothing_outside_is_reached(self):
        names = self.names()
        of_root = OF_ROOT if os.geteuid() == 0 else {}
        attacks = {name: command.format(**names) for name, command in (ATTACKS | of_root).items()}
        self.addCleanup(remove, f"/dev/{MARK}")
        if of_root:  # a folder of the system that is open to all
            os.makedirs(f"/opt/{MARK}")
            os.chmod(f"/opt/{MARK}", 0o777)
            self.addCleanup(shutil.rmtree, f"/opt/{MARK}")
        within, without = self.guards()
        guarded, open_to = (got(done(guard, program(attacks))) for guard in (within, without))
        self.same("all are tried", guarded.keys(), attacks.keys())
        for name in attacks:
            self.note(f"{name}: refused", guarded[name] in REFUSED, guarded[name])
            self.note(f"{name}: an attack", open_to.get(name) not in REFUSED, open_to.get(name))

    def test_what_a_program_has(self):
        """Its files, a room to write in, connections with itself, and what languages need of memory that is shared."""
        own = {
            "reads": f"open({NODE!r}).read()",
            "writes": "open('log', 'w').write('x')",
            "names": "sorted(os.environ.keys() - {'LANG', 'LC_CTYPE'}) == "
            "['HOME', 'JAVA_TOOL_OPTIONS', 'PATH', 'PWD', 'TMPDIR']",
            "home": "os.environ['HOME'] == os.getcwd() == os.environ['TMPDIR']",
            "locks": "__import__('multiprocessing').Lock() is not None",
            "listens": "socket.create_server('socket', family=socket.AF_UNIX) is not None",
            "processors": "os.cpu_count() == len(os.sched_getaffinity(0))",
            "who": "__import__('pwd').getpwuid(os.getuid()).pw_dir == '/tmp'",
        }
        with mock.patch.dict(os.environ, SECRET="x"):
            found = got(done(self.guards()[0], program(own)))
        self.same("its own", found, dict.fromkeys(own, "True") | {"reads": "'own'", "writes": "1"})
        self.same("its folder", sorted(os.listdir(self.copy)), ["link", NODE])

    def test_nodes_dont_meet(self):
        """Each of two nodes that write one file reads what it has written itself."""
        code = program(
            {},
            "open('common', 'a').write('x')\ntime.sleep(1)\n"
            "said.append('met=%d' % len(open('common').read()))\n",
        )
        for guard, met in zip(self.guards(), ("1", "2")):
            both = [started(guard, code) for _ in range(2)]
            said = [got(process.communicate(timeout=LIMIT)[1]) for process in both]
            self.same(f"with {type(guard).__name__}", said, [{"met": met}] * 2)

    def test_all_ends_with_a_program(self):
        """Children in sessions of their own, whose parents have ended."""
        more = f"for _ in range(3):\n    away({MARK})\ntime.sleep(0.5)\n"
        shut()  # what is left behind becomes a child of this process
        for guard, some in zip(self.guards(), (0, 3)):
            with started(guard, program({}, more)) as process:
                process.wait(LIMIT)
                found = wait_until(lambda: len(left()) == some, 10)
                self.note(type(guard).__name__, found, left())
                end_all()

    def fault_of(self, more, memory):
        """What is found of a program that gives no answer."""
        limits = Limits(30, memory, 1)
        process = start_program(program({}, more), limits, self.guards()[0], 0)
        try:
            process.send(["workshop 1 rounds"])
            process.receive()
        except NoAnswer as fault:
            return f"{fault.kind}: {fault.message}"
        finally:
            process.stop(0)
        return "an answer"

    def test_what_it_takes(self):
        """Files, and memory that is shared or has no name."""
        for name, more, sentence in (
            (
                "many files",
                "for n in range(11_000):\n    open(str(n), 'w')\n",
                "more than 10000 files",
            ),
            (
                "shared memory",
                "import mmap\nfor _ in range(2):\n    if os.fork() == 0:\n        shared = mmap.mmap(-1, 150 << 20)\n"
                "        shared.write(bytes(150 << 20))\n        time.sleep(60)\n",
                "more than 200 megabytes of memory",
            ),
        ):
            found = self.fault_of(f"{more}time.sleep(60)\n", 200)
            self.note(name, found.startswith("flood") and sentence in found, found)

    def test_how_it_ends(self):
        """By a signal, with a status, or without a start, of which bubblewrap says why."""
        for command, sentence in (
            (["sh", "-c", "kill -9 $$"], "it ended with signal SIGKILL"),
            (["sh", "-c", "exit 3"], "it ended with status 3"),
            (["sh", "-c", "exit 200"], "it ended with status 200"),
            (["./nothing"], "`bwrap: execvp ./nothing: No such file or directory`"),
            ([f"./{NODE}"], f"`bwrap: execvp ./{NODE}: Permission denied`"),
        ):
            process = start_program(command, Limits(30, 200, 1), self.guards()[0], 0)
            with self.assertRaises(NoAnswer) as found:
                process.send(["workshop 1 rounds"])
                process.receive()
            process.stop(0)
            self.note(f"{command}", sentence in found.exception.message, found.exception.message)

    def test_a_compiler_that_a_student_tells_what_to_do(self):
        """A plugin that javac starts copies another's node; in the container there is nothing to copy, and the classes
        are made as they would be."""
        need(self, "javac")
        plugin, loot = os.path.join(self.folder, "plugin"), os.path.join(self.folder, "loot")
        source = self.file(os.path.join(plugin, "Thief.java"), PLUGIN % (self.other, loot))
        subprocess.run(["javac", "-d", self.copy, source], check=True)
        self.file(
            os.path.join(self.copy, "META-INF/services/com.sun.source.util.Plugin"), "Thief\n"
        )
        shutil.copy(JAVA, self.copy)
        command = ["java", os.path.basename(JAVA)]
        within, without = self.guards()
        made = compiled(command, self.copy, within)
        self.same("it is compiled", made[-2:], [".", "AlphaNode"])
        self.same("nothing is copied", os.path.exists(loot), False)
        compiled(command, self.copy, without)
        self.same("without the container it is", os.path.exists(loot), True)

    def test_what_a_compiler_may_hand_out(self):
        """Classes alone, each whole, and up to the first that isn't one."""
        good = b"3 A.class\nabc4 A$B.class\n\0\n\0\n"
        for more in (
            b"5 ../x.class\nabcde",
            b"3 .class\nabc",
            b"9 C.class\nabc",
            b"3 C.java\nabc",
            b"x",
            b"",
        ):
            with self.file_of(good + more) as classes:
                self.same(repr(more), unpack(classes, self.room), ["A.class", "A$B.class"])
            found = sorted(os.listdir(self.room))
            self.same(f"after {more!r}", found, ["A$B.class", "A.class", "copy"])

    def file_of(self, data):
        return open(self.file("classes", data), "rb")

    def test_many_open_files(self):
        """A container begins however many files the workshop has open: three for each program of a large network."""
        with contextlib.ExitStack() as stack:
            for _ in range(OPEN_FILES):
                stack.enter_context(open(os.devnull, "rb"))
            found = got(done(self.guards()[0], program({"reads": f"open({NODE!r}).read()"})))
        self.same("it has read its own", found, {"reads": "'own'"})

    def test_where_it_cant_be(self):
        """One sentence, which says what to do. Where it isn't installed: test_grade.py."""
        guard, _ = self.guards()
        guard.words_before += ["--no-such-word"]
        with self.assertRaises(Fault) as why:
            guard.try_out()
        self.assertRegex(
            str(why.exception), "can't start here .*no-such-word.*docker run --privileged"
        )

    def test_where_it_isnt_installed(self):
        """One sentence, even if the PATH has a folder that the submission's user can't enter, as root's own is."""
        guard, _ = self.guards()
        empty = os.path.join(self.folder, "empty")
        root = os.path.join(self.folder, "root", "bin")
        for folder in (empty, root):
            os.makedirs(folder)
        os.chmod(os.path.dirname(root), 0o700)
        for path in (empty, f"{root}:{empty}"):
            with mock.patch.dict(os.environ, PATH=path), self.assertRaises(Fault) as why:
                guard.try_out()
            self.note(path, "apt install bubblewrap" in str(why.exception), why.exception)

    def test_folders_that_its_user_cant_reach(self):
        """What lies below them can't be shown; an ordinary user reaches all that is its own."""
        shut = os.path.join(self.folder, "shut")
        tools = os.path.join(shut, "tools")
        os.makedirs(tools)
        os.chmod(shut, 0o700)
        guard = Sandbox(self.copy, [self.room], [tools], self.user)
        self.same("shown", tools in guard.container(), os.geteuid() != 0)
        guard.try_out()
