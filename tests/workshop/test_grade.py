"""Grading: a folder of right and wrong submissions gets the table that is worked by hand, and those that attack get
nothing."""
import argparse
import contextlib
import io
import json
import os
import pathlib
import re
import shutil
import subprocess
from unittest import mock

from forestplan.faults import Fault
from forestplan.schedules.policies import POLICIES
from forestplan.workshop import grade, parts, processes, submissions
from tests.cases import Case, text_in, tool_at, wait_until
from tests.tools import need, needs
from tests.workshop.base import DOOR, LIMIT, call
from tests.workshop.contained import got, program
from tests.workshop.submitted import MUTE, RIGHT, ZERO, Submitted
from tests.workshop.test_misbehaving import MARK, left, left_at_last


def result_of(cases: list[submissions.PlayedCase], right: int = 0) -> submissions.Result:
    """A result of the workshop that has these cases, and says that so many were right."""
    return submissions.Result(runs=len(cases), right=right, seconds=1.0, cases=cases)


class Grades(Submitted):
    @needs("bin/forestplan", "bin/forestplay")
    def test_a_class(self):
        """Right and wrong submissions, and strange ones: what is no file is no program, and a name that is no text, or
        is too long for a report, is its student's alone. No letter is printed that a terminal obeys.
        """
        need(self, "bwrap", "libseccomp")
        shutil.copytree(RIGHT, os.path.join(self.subs, "anna"))
        self.submit(
            "anna",
            commands="rounds: python3 rounds_node.py\nopen : python3 'greedy_node.py'\n"
            "alpha: python3 alpha_node.py\n",
        )
        self.submit("ben", open_node_py=ZERO, rounds_node_c="int main;")
        self.submit("cleo", rounds_node_py=MUTE, rounds_node_js="x")
        os.symlink("ben", os.path.join(self.subs, "dora"))
        os.mkfifo(os.path.join(self.submit("eve", open_node_py=ZERO), "pipe"))
        os.makedirs(
            os.path.join(self.submit("fay", commands="rounds: true -- true"), "open_node.py")
        )
        for name in ("g" * 253, "em\udcffil", "\x1b[2Jhal\u202e"):
            self.submit(name, open_node_py=ZERO)
        done = call(
            "grade", self.subs, "--runs", "2", "--reports", os.path.join(self.folder, "reports")
        )
        garbage = r" - +0 +- +0 +0/2 +0 +0  rounds: no program; alpha: no program; open: garbage"
        for name, row in (
            ("anna", " 2/2 +40 +2/2 +40 +2/2 +10 +90"),
            (
                "ben",
                r" - +0 +- +0 +0/2 +0 +0  rounds: rounds_node.c can't be run: it has to be compiled, or "
                r"`chmod \+x rounds_node.c`; alpha: no program; open: garbage",
            ),
            ("cleo", ".* rounds: rounds_node.js and rounds_node.py: which one.*"),
            ("dora", ".* open: its folder is a link"),
            ("eve", ".* open: its folder has a named pipe or a device in it: pipe"),
            ("fay", ".* rounds: `commands`: `--` stands between commands.*"),
            (r"g{200} \.\.", garbage),
            (r"em\?il", garbage),
            (r"\?\[2Jhal\?", garbage),
        ):
            self.note(name, re.search(rf"(?m)^{name} +{row}$", done.stdout), done)
        self.assertNotRegex(done.stdout + done.stderr, "[\x00-\x09\x0b-\x1f\x7f\u202e]")
        self.assertIn("can't be written: File name too long", done.stderr)
        self.assertEqual(done.returncode, 0, done)

    @needs("bin/forestplan", "bin/forestplay")
    def test_what_tries_to_reach_out(self):
        """A node of each kind that fails, and what it starts; all that is left is the table, and submissions as they
        were."""
        need(self, "bwrap", "libseccomp")
        other = os.path.join(self.subs, "ben", "rounds_node.py")
        attacks = {
            "another": f"open({other!r}).read()",
            "right": f"open({os.path.join(RIGHT, 'rounds_node.py')!r}).read()",
            "link": "open('link').read()",
            "own": "open('kept', 'w').write('x')",
        }
        deep = "for _ in range(1500):\n    os.mkdir('d')\n    os.chdir('d')\n"
        folder = self.submit("anna", rounds_node_py=program(attacks, f"away({MARK})\n")[-1])
        os.symlink(other, os.path.join(folder, "link"))
        os.chmod(os.path.join(folder, "rounds_node.py"), 0o600)
        self.submit("ben", rounds_node_py=program({}, deep)[-1])
        self.submit("cleo", rounds_node_py="open(__file__, 'w')\n")
        reports, room = (os.path.join(self.folder, name) for name in ("reports", "room"))
        os.mkdir(room, 0o755)
        before = self.kept()
        given = {**os.environ, "HOME": os.path.dirname(self.subs), "TMPDIR": room}
        table = self.graded("--reports", reports, runs="1", env=given)
        verdicts = {name: found["rounds"]["cases"][0]["verdict"] for name, found in table.items()}
        self.same("verdicts", verdicts, dict.fromkeys(table, "ended"))
        found = got(text_in(reports, "anna.txt"))
        self.same("reached", found, dict.fromkeys(attacks, "FileNotFoundError") | {"own": "1"})
        self.same("submissions", self.kept(), before)
        self.same("what is left", os.listdir(room), [])

    def kept(self):
        """What submissions have, with the rights of each."""
        paths = sorted(pathlib.Path(self.subs).rglob("*.py"))
        return [(path, path.read_text(), path.stat().st_mode) for path in paths]

    @needs("bin/forestplan", "bin/forestplay")
    def test_if_the_one_that_grades_is_killed(self):
        need(self, "bwrap", "libseccomp")
        self.submit("anna", rounds_node_py=f"import os\nos.execvp('sleep', ['sleep', '{MARK}'])\n")
        given = {**os.environ, "TMPDIR": self.folder}  # what it leaves goes with the test
        arguments = [*DOOR, "grade", self.subs]
        grading = subprocess.Popen(arguments, stderr=subprocess.DEVNULL, env=given)
        self.assertTrue(wait_until(left, LIMIT))
        grading.kill()
        grading.wait()
        self.same("what is left", left_at_last(), [])

    @needs("bin/forestplan", "bin/forestplay")
    def test_where_bubblewrap_isnt_there(self):
        """It says what to do; without grading nothing needs it."""
        need(self, "libseccomp")
        tools = os.path.join(self.folder, "tools")
        os.makedirs(tools)
        for name in ("bash", "python3", "readlink", "dirname", "chmod", "rm"):
            os.symlink(os.path.realpath(tool_at(name)), os.path.join(tools, name))
        self.submit("anna", rounds_node_py=ZERO)
        given = {**os.environ, "PATH": tools}
        done = call("grade", self.subs, env=given)
        self.same("status and table", (done.returncode, done.stdout), (2, ""))
        self.same("one line", done.stderr.count("\n"), 1)
        self.note("what to do", "apt install bubblewrap" in done.stderr, done.stderr)
        node = [os.path.join(tools, "python3"), os.path.join(RIGHT, "rounds_node.py")]
        done = call("rounds", "two", "--", *node, env=given)
        self.same("a run without it", done.returncode, 0)

    def test_what_is_in_doubt(self):
        """What a signal ended is played once more, alone; what a program itself writes of a signal says nothing."""
        forged = "wrong  it ended with status 1; on standard error: it ended with signal SIGKILL"
        for line, is_by_signal in ((forged, False), ("wrong  it ended", True)):
            found = submissions.Graded(
                result=result_of([{"policy": "", "verdict": "ended"}]),
                report=[line],
                by_signal=is_by_signal,
            )
            part = submissions.Part("anna", "", "rounds", ["x"], found)
            self.same(line, part.is_in_doubt(), is_by_signal)

    def test_how_a_process_ended(self):
        """Shells say 128 and the number of a signal; 137 is 128 and 9, SIGKILL, and 3 is no such status."""
        for number, is_status, wanted in (
            (3, True, ("status 3", False)),
            (9, False, ("signal SIGKILL", True)),
            (137, True, ("signal SIGKILL", True)),
        ):
            found = processes.ending(number, is_status)
            self.same(f"{number} {is_status}", (str(found), found.is_by_signal), wanted)

    def test_second_plays(self):
        """They share a time, whatever their number, and the better of both results counts."""
        some = [
            submissions.Part(student, "", "rounds", ["x"], {"result": result_of([], 5)})
            for student in ("anna", "ben", "cleo")
        ]
        founds: dict[str, submissions.Graded] = {
            "anna": {"why": "over"},
            "ben": {"result": result_of([], 9)},
            "cleo": {"why": "x"},
        }
        seen = []

        def play(some, limits, jobs, room):
            seen.append(round(limits.seconds))
            some[0].found = founds[some[0].student]

        with mock.patch.object(parts, "play_all", play), mock.patch.object(parts, "AGAIN", 2):
            parts.play_again(some, argparse.Namespace(seconds=600.0), "room")
        self.same("seconds", seen, [400, 600, 600])
        self.same("right runs", [parts.runs_right(part.found) for part in some], [5, 9, 5])

    def test_a_result_is_only_what_the_workshop_says_itself(self):
        """A process that plays a part is ended, or hangs: that is no result."""
        given = mock.Mock(seconds=1, users={"anna": 0})
        for code, why in (
            ("os._exit(3)", "status 3"),
            ("os.kill(os.getpid(), 9)", "SIGKILL"),
            ("__import__('time').sleep(30)", "SIGKILL"),
        ):
            with self.subTest(code):
                part = submissions.Part("anna", "", "rounds", ["x"])
                with mock.patch.multiple(
                    parts, play=lambda *_, code=code: exec(code), GRACE=0
                ), contextlib.redirect_stderr(io.StringIO()):
                    parts.play_all([part], given, 1, "")
                self.assertEqual(part.found, {"why": f"no result: its process ended with {why}"})
                own = json.loads(json.dumps(grade.as_one({"anna": [part]}, "7")))["submissions"][0]
                self.assertEqual((own["in_all"], own["rounds"]["points"]), ("0?", None))

    @needs("bin/forestplan", "bin/forestplay")
    def test_a_limit(self):
        """Whatever a program does with its time, a part ends, and says so."""
        need(self, "bwrap", "libseccomp")
        slow = (
            "import sys, time\nfor line in sys.stdin:\n    if line == 'end\\n':\n        time.sleep(0.7)\n"
            "        print('put 0 x' if 0 else 'end', flush=True)\n"
        )
        self.submit("anna", open_node_py=slow)
        found = self.graded("--seconds", "3")
        self.assertLessEqual({case["verdict"] for case in found["anna"]["open"]["cases"]}, {"late"})

    def test_statuses(self):
        for arguments, status, said in (
            (("nowhere",), 2, "nowhere: No such file or directory"),
            ((self.folder, "--jobs", "0"), 2, "0 is no number"),
            ((), 2, "required: FOLDER"),
        ):
            done = call("grade", *arguments)
            self.assertEqual((done.returncode, done.stdout), (status, ""), done)
            self.assertIn(said, done.stderr)
        os.makedirs(self.subs)
        self.assertIn("has no folder of a submission in it", call("grade", self.subs).stderr)
        self.submit("anna", open_node_py=ZERO)
        with mock.patch.object(grade, "ask", lambda *_: (1, "", "it isn't there")):
            with self.assertRaisesRegex(
                Fault, "forestplan plain ends with status 1: it isn't there"
            ):
                grade.main([self.subs])

    @needs("bin/forestplan", "bin/forestplay")
    def test_words_before_a_command(self):
        """As those of a container, with the folder of the copy."""
        shutil.copytree(RIGHT, os.path.join(self.subs, "anna"))
        found = self.graded("--", "env", "-C", "{}", "SAID=yes", runs="1")
        self.assertEqual(found["anna"]["in_all"], "80")


class Points(Case):
    """By hand, of the table in WEEK: 99 of 100 runs give 39, nine of ten policies 36, and all plans 10."""

    def test_they_add_up(self):
        played = submissions.PlayedCase
        alpha = [played(policy=policy, verdict="right") for policy in POLICIES for _ in range(12)]
        right = played(policy="", verdict="right")
        for assignment, rows, all_right, one_wrong in (
            ("rounds", [right] * 100, 40, 39),
            ("alpha", alpha, 40, 36),
            ("open", [right] * 50, 10, 0),
        ):
            wrong = [*rows[:-1], played(policy=rows[-1]["policy"], verdict="stuck")]
            for cases, points in ((rows, all_right), (wrong, one_wrong)):
                part = submissions.Part("", "", assignment, found={"result": result_of(cases)})
                self.same(f"{assignment} {points}", part.points, points)

    def test_the_parts_are_a_hundred(self):
        table = text_in("docs", "learn", "WEEK.md").partition("## Points")[2].partition("\n## ")[0]
        found = {
            name: int(number) for name, number in re.findall(r"(?m)^\| (\w+) \| (\d+) \|", table)
        }
        self.assertEqual(sum(found.values()), 100)
        self.assertEqual({name: found[name] for name in submissions.POINTS}, submissions.POINTS)
