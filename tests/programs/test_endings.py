"""Tests of how the commands that are written in Python end: with one line, and never with a traceback, if the output is
closed or full, the input can't be read, or someone presses Ctrl-C. All end in one module
(src/forestplan/process_exit.py), and read what they are given by one function (src/forestplan/files.py)."""
import os
import re
import select
import signal
import subprocess
import sys

from forestplan.definitions import own_program
from forestplan.workshop.sandbox import USERS
from tests import FORESTLAB, SOURCES, TOP
from tests.cases import Case, called, copied, text_in, wait_until

LIMIT = 120
PATH2 = b"c Made by forestlab network path 2\nc at 1 0 0\nc at 2 1 0\np edge 2 1\ne 1 2\n"
TRIANGLE = os.path.join(TOP, "examples", "triangle.col")


def ended(line, *arguments, **given):
    """What a line of shell ends with: its status, its output, and what it says besides."""
    return called("bash", "-c", line, *arguments, limit=LIMIT, **given)


class Endings(Case):
    def redirected(self, where, path, *arguments):
        """What a command ends with whose stream is another one."""
        return ended(f'exec "$0" "$@" {where}', path, *arguments, stdin=subprocess.DEVNULL)

    def test_outputs(self):
        """A closed or full output is one line and status 1, of help too, and of a script that isn't Python; a closed
        standard error changes nothing."""
        scripts = [
            ("try", ["--help"]),
            ("test", ["--help"]),
            ("forestplan", ["--version"]),
            ("bin/forestlab", ["--help"]),
            ("bin/forestlab", ["--version"]),
            ("bin/forestlab", ["network", "path", "3"]),
        ]
        for name, arguments in scripts:
            for where, said in (
                (">/dev/full", rb"\w+: .*No space left on device\n"),
                (">&-", rb"\w+: .*Bad file descriptor\n"),
            ):
                done = self.redirected(where, os.path.join(TOP, name), *arguments)
                good = done[0] == 1 and re.fullmatch(said, done[2])
                self.note(f"{name} {arguments} {where}", good, done)
        # The reader has gone before anything is written, or after a line of much more.
        for name, arguments in scripts:
            _, _, fault = self.redirected("| exec true", os.path.join(TOP, name), *arguments)
            self.same(f"{name} {arguments} without a reader", fault, b"")
        # Who has read enough hasn't made anything go wrong.
        for arguments in (["--help"], ["--version"], ["network", "path", "3"]):
            reader, writer = os.pipe()
            os.close(reader)
            done = called(FORESTLAB, *arguments, stdout=writer, limit=LIMIT)
            os.close(writer)
            self.same(f"forestlab {arguments} without a reader", done[::2], (0, b""))
        done = ended('set -o pipefail; "$0" network random 2000 100000 | head -1', FORESTLAB)
        self.note("a reader that goes", done[::2] == (0, b"") and done[1].count(b"\n") == 1, done)
        for data, wanted in (("", (1, b"")), ("p edge 2 1\ne 1 2\n", (0, b"p edge 2 1\ne 1 2\n"))):
            got = self.redirected("2>&-", FORESTLAB, "network", "read", self.file("net.col", data))
            self.same(f"{wanted} without a standard error", got[:2], wanted)

    def test_inputs(self):
        """An input that is closed, or a folder, is one line; it is closed for Python, which wouldn't start with one."""
        for name, arguments in (("network", ["read", "-"]), ("transcript", ["check", TRIANGLE])):
            for where in ("<&-", f"<{TOP}"):
                status, out, fault = self.redirected(where, FORESTLAB, name, *arguments)
                line = rb"%s: (-|standard input): Bad file descriptor\n" % name.encode()
                self.note(
                    f"{name} {arguments} {where}",
                    (status, out) == (1, b"") and re.fullmatch(line, fault),
                    fault,
                )
        done = self.redirected(f"<{TOP}", FORESTLAB, "network", "path", "2")
        self.note("what needs no input may be given a folder", done[::2] == (0, b""), done)

    def test_interrupts(self):
        """Ctrl-C while a command waits for its input, once or more often, is one line and status 130; SIGTERM is
        143."""
        interrupted = 130, b"network: interrupted\n"
        for number, times, wanted in (
            (signal.SIGINT, 1, interrupted),
            (signal.SIGINT, 3, interrupted),
            (signal.SIGTERM, 1, (143, b"")),
        ):
            with self.begun("network", ["read", "-"]) as run:
                wait_until(lambda: self.is_reading(run.pid), LIMIT, 0.05)
                for _ in range(times):
                    run.send_signal(number)
                out, said = run.communicate(timeout=LIMIT)
            got = run.returncode, said
            self.note(f"{number} {times} times", got == wanted and out == b"", got)

    def test_nothing_is_left(self):
        """What ends a command ends the process of its own in which it calls a file of the user's, too."""
        for number, status in ((signal.SIGINT, 130), (signal.SIGTERM, 143), (signal.SIGKILL, -9)):
            reader, writer = os.pipe()
            does = f"import time\nopen('/proc/self/fd/{writer}', 'w').write('begun')\ntime.sleep({LIMIT})\n"
            path = self.file("own.py", does)
            arguments = ["path2", "--program", path]
            with self.begun("simulate", arguments, pass_fds=[writer]) as run:
                os.close(writer)
                self.same(f"{number}: the file is called", os.read(reader, 5), b"begun")
                run.send_signal(number)
                self.same(f"{number}: the status", run.wait(LIMIT), status)
            # The pipe has an end when no process has its other side any more. The call ends by itself later.
            is_left = not select.select([reader], [], [], own_program.LONGEST / 2)[0]
            self.note(f"{number}: nothing is left", not is_left)
            os.close(reader)

    def test_early_interrupt(self):
        """Ctrl-C while Python itself begins is the same."""
        late = f'#!/bin/sh\nkill -s INT $$\nexec {sys.executable} "$@"\n'
        os.chmod(self.file("python3", late), 0o755)
        path = f"{self.folder}:{os.environ['PATH']}"
        done = called(
            FORESTLAB,
            "network",
            "path",
            "3",
            env=dict(os.environ, PATH=path),
            limit=LIMIT,
            preexec_fn=lambda: signal.signal(signal.SIGINT, signal.SIG_DFL),
        )
        self.same("Ctrl-C at the start", done, (130, b"", b"network: interrupted\n"))

    def test_limits(self):
        """A limit with which Python can't begin is one line and status 1. Processes it needs none, beside its own."""
        copy = os.path.join(self.folder, "copy")
        copied(copy, "bin", "src", "examples")
        os.chmod(self.folder, 0o755)
        for limit, status, out in (
            ("-n 4", 1, b""),
            ("-s 96", 1, b""),
            ("-v 10000", 1, b""),
            ("-d 3000", 1, b""),
            ("-u 1", 0, PATH2),
        ):
            done = ended(
                f'ulimit {limit}; exec "$0" network path 2',
                os.path.join(copy, "bin", "forestlab"),
                env={"PATH": "/usr/bin:/bin"},
                # The system counts no processes of root.
                preexec_fn=None if os.getuid() else lambda: os.setuid(USERS[-3]),
            )
            good = done[:2] == (status, out) and done[2].count(b"\n") == status
            self.note(f"ulimit {limit}", good, done)

    def begun(self, name, arguments, **more):
        # A shell has what it runs in the background ignore SIGINT.
        return subprocess.Popen(
            [FORESTLAB, name, *arguments],
            **more,
            stdin=subprocess.PIPE,
            stdout=subprocess.PIPE,
            stderr=subprocess.PIPE,
            start_new_session=True,
            preexec_fn=lambda: signal.signal(signal.SIGINT, signal.SIG_DFL),
        )

    def is_reading(self, process):
        """Whether a process is Python, no longer the script, and waits for what a pipe gives."""
        return text_in(f"/proc/{process}/comm").startswith("python") and "pipe" in text_in(
            f"/proc/{process}/wchan"
        )

    def test_own_faults(self):
        """A fault of a command itself is one line, too."""
        own = "some: a fault of this command itself, please report it: "
        for fault, status, said in (
            ("{}['x']", 70, f"{own}KeyError: 'x' ("),
            ("[].pop()", 70, f"{own}IndexError: "),
            ("bytearray(1 << 62)", 1, "some: out of memory\n"),
        ):
            run = f"process_exit.run_command('some', lambda: lambda: {fault})"
            script = f"import sys; from forestplan import process_exit; sys.exit({run})"
            done = subprocess.run(
                [sys.executable, "-c", script], capture_output=True, text=True, cwd=SOURCES
            )
            # The place is that of the fault itself, and not of what has called it.
            last = "(<string> line 1)\n" if status == 70 else "\n"
            is_one_line = done.stderr.count("\n") == 1
            good = (
                done.returncode == status
                and is_one_line
                and done.stderr.startswith(said)
                and done.stderr.endswith(last)
            )
            self.note(f"a command that fails by {fault}", good, done)

    def test_words(self):
        """The doors themselves, without a command, or with one that there isn't."""
        for folder, said in (
            ("src/forestplan", "forestlab: "),
            ("build", "build: one of these is wanted: "),
        ):
            for arguments in ((), ("nothing",)):
                done = subprocess.run(
                    [sys.executable, os.path.join(TOP, folder), *arguments],
                    capture_output=True,
                    text=True,
                )
                self.note(
                    f"{folder} {arguments}",
                    done.returncode == 2 and done.stderr.startswith(said),
                    done,
                )
