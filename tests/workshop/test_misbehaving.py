"""Programs that misbehave are named, and none is left running: not at the end of a run, and not when the workshop
itself is interrupted or terminated."""
import os
import re
import signal
import subprocess
import sys
import time

from tests.cases import complaints_of, contents, wait_until, written_by
from tests.tools import needs
from tests.workshop.base import ALPHA, DOOR, EXAMPLES, LIMIT, Played, call, played

# A number of seconds that no other process sleeps: so a child that is left can be found.
MARK = str(100_000 + os.getpid())
PATIENCE = 10
BEGIN = (
    f"import os, signal, subprocess, sys, time\nsys.path[:0] = [{os.path.join(EXAMPLES, 'python')!r}]\n"
    "sys.argv[1:] = []\nimport talk\n"
)
# The right node up to a message, and what it does from then on in place of an answer.
NODE = (
    BEGIN
    + """\
from rounds_node import RoundsNode
asked, right = 0, talk.answer
def misbehave(lines):
    {code}
def answer(lines):
    global asked
    asked += 1
    right(lines) if asked < {first} else misbehave(lines)
talk.answer = answer
talk.serve(RoundsNode)
{last}
"""
)
LONG = "time.sleep(1000)"
TOO_MUCH = "signal.signal(signal.SIGXFSZ, signal.SIG_DFL); open({file!r}, 'wb').write(bytes(40 << 20)); right(lines)"
# What it does from the fifth message on, which is pulse 4, the verdict, and words of it; None if all is right.
ROWS = (
    (LONG, "silent", "it wrote nothing within 2 seconds"),
    ("print('put 0 colour', flush=True); " + LONG, "silent", "`put 0 colour`, and no line `end`"),
    (
        "raise ValueError('inbox is empty\\x1b[2J')",
        "ended",
        'line 12, in answer | File "<string>", line 8, in misbehave | ValueError: inbox is empty?[2J`',
    ),
    ("while True: print('put 0 colour 3')", "flood", "more than 1048576 bytes"),
    ("right(['colour 0 1'] * 30_000)", "garbage", "in this answer already"),
    (
        "os.write(1, '\\n'.join(['end', *lines, 'end', '']).encode())",
        "garbage",
        "after the line `end`",
    ),
    (
        "os.write(1, '\\u202e\\r'.encode() + bytes(range(256)) * 4 + b'\\nend\\n')",
        "garbage",
        "is no line of an answer",
    ),
    ("os.close(1); " + LONG, "ended", "goes on running"),
    (
        f"subprocess.Popen(['sleep', {MARK!r}]); " + LONG,
        "silent",
        "it wrote nothing within 2 seconds",
    ),
    ("bytearray(1 << 31)", "ended", "MemoryError"),
    (TOO_MUCH, "ended", "SIGXFSZ (it wrote too much"),
    ("sys.stderr.write('debugging\\n' * 100_000); right(lines)", None, ""),
)
# The same from the first message on.
AT_ONCE = (
    ("print('\\n'.join([*lines, 'end']))", "silent", "does it flush standard output"),
    ("os.write(1, '\\r\\n'.join([*lines, 'end', '']).encode())", None, ""),
)


def left():
    """Command lines of processes of these tests that are still there."""
    found = []
    for pid in filter(str.isdecimal, os.listdir("/proc")):
        try:
            command = contents(f"/proc/{pid}/cmdline").decode("utf-8", "replace").split("\0")
        except OSError:
            continue
        if MARK in command:
            found.append(" ".join(command))
    return found


def left_at_last():
    """The same after a while: whoever is killed dies when the system comes to it."""
    wait_until(lambda: not left(), PATIENCE)
    return left()


def command(code, first=5, last=""):
    return [sys.executable, "-S", "-c", NODE.format(code=code, first=first, last=last), MARK]


def alpha_node(methods):
    """A right node without a clock, but for these methods."""
    code = f"{BEGIN}from alpha_node import AlphaNode\nclass Node(AlphaNode):\n    {methods}\ntalk.serve(Node)\n"
    return [sys.executable, "-S", "-c", code, MARK]


@needs("bin/forestplan", "bin/forestplay")
class Misbehaving(Played):
    def tearDown(self):
        self.assertEqual(left_at_last(), [])

    def named(self, how, kind, sentence, *nodes, timeout=2):
        """What it says is harmless: it has no letter that a terminal obeys."""
        found = played("rounds", "two", *nodes, timeout=timeout).finding
        said = dict(found.lines) if found else {}
        good = (
            (found and found.kind) == kind
            and (not kind or sentence in said["wrong"])
            and "".join(said.values()).isprintable()
        )
        place = re.fullmatch(
            r"node 1, pulse [045] \(\w+\)", said.get("where", "node 1, pulse 4 (step)")
        )
        self.note(how, good and place, said)
        self.same(f"{how}: none is left", left_at_last(), [])

    def test_each_is_named(self):
        for code, kind, sentence in ROWS:
            self.named(
                code,
                kind,
                sentence,
                command(code.replace("{file!r}", repr(os.path.join(self.folder, "big")))),
            )
        for code, kind, sentence in AT_ONCE:
            self.named(code, kind, sentence, command(code, 1), timeout=0.3 if kind else 2)
        self.named("goes at once", "ended", "status 0", [sys.executable, "-S", "-c", "", MARK])
        # The other answers late, so that the end of this one's output is there before its next message.
        self.named(
            "goes after an answer",
            "ended",
            "status 0 instead of an answer",
            command("right(lines); sys.exit(0)"),
            command("time.sleep(0.5); right(lines)"),
        )
        self.named("stays", None, "", command("right(lines)", last=LONG))

    def test_a_wrong_step_before_a_line_that_is_none_comes_first(self):
        node = alpha_node(
            "def enter(self, out):\n        super().enter(out)\n        if self.pulse == 2:\n"
            "            self.answer += ['put 0 close', 'colour 0 3']"
        )
        self.found(("NothingToPut", 1, 2), "alpha", "two", node)

    def test_what_came_for_a_pulse_in_which_it_ends(self):
        found = self.found(
            ("ended", 1, 0),
            "alpha",
            "two",
            alpha_node(
                "def enter(self, out):\n        if self.pulse:\n"
                "            sys.exit()\n        super().enter(out)"
            ),
            ALPHA,
            policy="oldest",
        )
        self.same(
            "what is right", dict(found.lines)["right"], "pulse 1, for which hello 2 by port 0 came"
        )

    def test_what_a_right_program_leaves_behind(self):
        """A process in a session of its own, which no signal to the program's reaches, ends with the run, too."""
        code = f"subprocess.Popen(['sleep', {MARK!r}], start_new_session=True); right(lines)"
        done = call("rounds", "two", "--", *command(code))
        self.note("it is right", done.returncode == 0, done)
        self.same("none is left", left_at_last(), [])

    def test_ending_the_workshop_ends_the_programs(self):
        rows = (
            ("while True: pass", signal.SIGTERM, 143),
            (LONG, signal.SIGHUP, 129),
            (f"subprocess.Popen(['sleep', {MARK!r}]); {LONG}", signal.SIGINT, 130),
        )
        for code, number, status in rows:
            with self.subTest(number.name):
                arguments = [*DOOR, "rounds", "path3", "--timeout", "500", "--", *command(code)]
                pipe = subprocess.PIPE
                # Whatever started the tests may ignore signals, and then what they start does so too.
                before = signal.signal(number, lambda *_: None)
                workshop = subprocess.Popen(
                    arguments, stdout=pipe, stderr=pipe, start_new_session=True
                )
                signal.signal(number, before)
                wait_until(
                    lambda: len(left()) > 3, LIMIT
                )  # the workshop's own words have the mark, too
                time.sleep(0.3)
                workshop.send_signal(number)
                output = written_by(workshop)
                self.assertEqual((workshop.wait(LIMIT), output.read()), (status, b""))
                output.close()
                complaints_of(workshop).close()
                self.assertEqual(left_at_last(), [])
