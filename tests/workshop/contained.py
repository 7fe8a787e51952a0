"""What the tests of the container of grading share: a submission, the container and none, and programs that try things
and say what they got."""

import os
import re
import subprocess

from forestplan.workshop.guard import Guard, Limits
from forestplan.workshop.leftovers import DUMPABLE, control, end_all
from forestplan.workshop.sandbox import USERS, Sandbox
from tests.cases import Case
from tests.tools import need
from tests.workshop.base import JAVA, LIMIT

BEGIN = """\
import ctypes, fcntl, os, resource, signal, socket, stat, sys, time
SYSTEM, WORKSHOP, said = ctypes.CDLL(None, use_errno=True), os.getppid(), []
def tries(name, attack):
    try:
        said.append(f"{name}={attack()!r}".split()[0])
    except BaseException as why:
        said.append(f"{name}={type(why).__name__}")
def call(status):
    if status < 0:
        raise OSError(ctypes.get_errno(), os.strerror(ctypes.get_errno()))
def connected(family, address):
    with socket.socket(family) as end:
        end.connect(address)
def unshared():
    pid = os.fork()
    if pid == 0:
        os._exit(SYSTEM.unshare(0x10000000) != 0)
    call(-os.waitpid(pid, 0)[1])
def filled():
    for number in range(20):
        file = os.open(f"fill{number}", os.O_CREAT | os.O_WRONLY)
        os.posix_fallocate(file, 0, 15 << 20)
        os.close(file)
def away(seconds):
    if os.fork() == 0:
        os.setsid()
        if os.fork() == 0:
            os.execvp("sleep", ["sleep", str(seconds)])
        os._exit(0)
"""
END = "\nsys.stderr.write(' '.join(said))\n"
REFUSED = {
    *("PermissionError", "FileNotFoundError", "ProcessLookupError", "OSError"),
    *("ConnectionRefusedError", "IndexError", "KeyError"),
}
NODE = "rounds_node.py"
RIGHT = os.path.join(os.path.dirname(os.path.dirname(JAVA)), "python", NODE)


def program(attacks, more=""):
    lines = [f"tries({name!r}, lambda: {attack})\n" for name, attack in attacks.items()]
    return ["python3", "-S", "-c", BEGIN + more + "".join(lines) + END]


def started(guard, command):
    pipe = subprocess.PIPE
    told = guard.start(Limits(LIMIT, 2048, 1), guard.tasks())
    return subprocess.Popen(guard.arguments(command), stdout=pipe, stderr=pipe, text=True, **told)


def done(guard, command):
    """What a program wrote to standard error."""
    process = started(guard, command)
    return process.communicate(timeout=LIMIT)[1]


def got(said):
    """What each attack got, from standard error or a verdict that shows it."""
    return dict(re.findall(r"([a-z_]+)=([^ `\n]+)", said))


class Contained(Case):
    """A copy of a submission, others beside it, and a home with a secret."""

    # Each module has another number, since the processes of one number are counted together.
    user = USERS[-2]

    def setUp(self):
        need(self, "bwrap")
        need(self, "libseccomp")
        control(DUMPABLE, 1)  # as it is before another test has shut this process
        os.chmod(self.folder, 0o755)
        self.subs = os.path.join(self.folder, "home", "submissions")
        self.room = os.path.join(self.folder, "room")
        self.copy = os.path.join(self.room, "copy")
        self.other = self.file(os.path.join(self.subs, "ben", NODE), "ben's")
        self.file("home/secret", "x")
        self.file("beside", "x")
        self.file(os.path.join(self.copy, NODE), "own")
        os.symlink(self.other, os.path.join(self.copy, "link"))

    def tearDown(self):
        end_all()

    def guards(self):
        """The container, and none; both in the folder of a submission."""
        if os.geteuid() == 0:
            subprocess.run(["chown", "-hR", f"{self.user}:{self.user}", self.copy], check=True)
        hidden = [os.path.join(self.folder, "home"), self.subs, self.room, os.path.dirname(RIGHT)]
        container = Sandbox(self.copy, hidden, [], self.user)
        self.addCleanup(close_all, container.files)
        return container, unguarded(self.copy)


def close_all(files):
    for number in files:
        os.close(number)


def unguarded(folder):
    guard = Guard()
    guard.place = folder
    return guard
