"""The command itself: statuses, the result for a program, what is kept, how a case is shrunk; and that the record
is what the programs really read and wrote."""
import json
import os
import subprocess
import sys

from tests.cases import text_in
from tests.tools import needs
from tests.workshop.base import ALPHA, GREEDY, ROUNDS, Played, answering, call

WAITS = [sys.executable, "-S", "-c", "import time; time.sleep(100)"]
# A node whose messages and answers are written down.
TEE = 'tee "$0/$$.in" | "$@" | tee "$0/$$.out"'


def in_turn(messages, answers):
    """The lines of messages and their answers, one after the other."""
    pairs = zip(messages.split("end\n"), answers.split("end\n"))
    return "".join(part for both in pairs for part in both).splitlines()


@needs("bin/forestplan", "bin/forestplay")
class Command(Played):
    def path(self, *names):
        return os.path.join(self.folder, *names)

    def test_statuses(self):
        for arguments, status, said in (
            (["rounds", "two", "--", *ROUNDS], 0, ""),
            (["rounds", "two", "--timeout", ".1", "--", *WAITS], 1, ""),
            (["rounds", "two"], 2, "there is no command after `--`"),
            (["nothing", "two", "--", *ROUNDS], 2, "invalid choice"),
            (["rounds", "two", "--policies", "oldest", "--", *ROUNDS], 2, "of alpha alone"),
            (["alpha", "two", "--policies", "odd", "--", *ALPHA], 2, "some of random,"),
            (
                ["open", "two", "--program", "layers", "--", *ALPHA],
                2,
                "--program is of rounds and alpha",
            ),
            (["rounds", "two", "--", "/nonexistent/node"], 2, "can't be started: No such file"),
            (
                ["rounds", "two", "--", self.file("node", "x")],
                2,
                "Permission denied; is it `chmod +x`",
            ),
        ):
            done = call(*arguments)
            self.note(
                f"{arguments[:4]}",
                done.returncode == status
                and said in done.stderr
                and bool(said) == (not done.stdout)
                and "Traceback" not in done.stderr,
                done,
            )

    def test_standard_input(self):
        """It is read once for all runs."""
        arguments = ("rounds", "-", "--runs", "2", "--", *ROUNDS)
        done = call(*arguments, input="p edge 2 1\ne 1 2\n")
        self.note("two runs", done.returncode == 0 and "2 of 2 runs right" in done.stdout, done)

    def test_the_result_for_a_program(self):
        wrong = self.wrong_node("close_never", "alpha_node.py")
        arguments = (
            "alone4",
            "path1",
            "--policies",
            "newest",
            "--runs",
            "3",
            "--json",
            "--one-process",
        )
        done = call("alpha", *arguments, "--", *wrong)
        got = json.loads(done.stdout)
        head = {name: got[name] for name in ("workshop", "assignment", "program", "seed", "right")}
        wanted = {"workshop": 1, "assignment": "alpha", "program": "colouring", "seed": "1"}
        self.same("status and head", (done.returncode, head), (1, wanted | {"right": 1}))
        case = {"policy": "newest"}
        right = case | {"case": 1, "network": "path1", "nodes": 1, "verdict": "right"}
        stuck = case | {"case": 0, "network": "alone4", "nodes": 4, "verdict": "stuck"}
        self.same("cases", got["cases"][:2], [right, stuck | {"node": 1, "pulse": 30}])

    def test_the_smallest_case_has_no_node_too_many(self):
        """A close that is never put shows on two nodes, and on no fewer."""
        done = call(
            "alpha",
            "alone4",
            "star4",
            "--policies",
            "oldest",
            "--one-process",
            "--",
            *self.wrong_node("close_never", "alpha_node.py"),
        )
        self.assertIn("smallest case that is wrong: stuck", done.stdout)
        self.assertRegex(done.stdout, r"\ncase   \d: a part of \w+, oldest; 2 nodes, edges 1-2\n")

    def test_the_smallest_case_is_wrong_in_the_same_way(self):
        """This node is wrong in the shift of two nodes, and never says its channel, which shows on one node."""
        wrong = self.wrong_node("no_shift", "rounds_node.py")
        node = ["sh", "-c", '"$@" | grep -v --line-buffered channel', "sh", *wrong]
        done = call("rounds", "two", "path3", "--", *node)
        self.assertRegex(
            done.stdout, r"\ncase   0: two; 2 nodes, edges 1-2\nwhere  node 1, pulse 7 \(shift\)\n"
        )
        self.assertRegex(call("rounds", "path1", "--", *node).stdout, "no line `channel 1`")

    def test_a_case_by_its_number(self):
        all_of, one = (
            json.loads(
                call(
                    "rounds", "random6", *arguments, "--json", "--one-process", "--", *ROUNDS
                ).stdout
            )
            for arguments in (["--runs", "4"], ["--case", "2"])
        )
        self.assertEqual(one["cases"], [row for row in all_of["cases"] if row["case"] == 2])

    def test_anybody_can_repeat_the_verdict(self):
        """The commands in verdict.txt are run as they stand, in the folder in which the workshop was called."""
        layers = [
            self.wrong_node("layers_again", f"{kind}_node.py", "layers")
            for kind in ("alpha", "rounds")
        ]
        rows = (
            ("alpha", layers[0], ["forestplay: WrongWire line", "WrongWire"]),
            ("rounds", layers[1], ["", "1 put 2 payload 1 hops 0"]),
            ("open", answering("channel 1"), ["forestplan: C4 vertices 1 2"]),
        )
        here = self.path("a folder")
        os.mkdir(here)
        for kind, command, expected in rows:
            with self.subTest(kind):
                kept = f"kept of {kind}"
                program = [] if kind == "open" else ["--program", "layers"]
                arguments = [kind, "path3", *program, "--keep", kept, "--", *command]
                self.assertEqual(call(*arguments, cwd=here).returncode, 1)
                lines = (
                    text_in(here, kept, "verdict.txt")
                    .partition("The same without the workshop:\n")[2]
                    .splitlines()
                )
                self.assertEqual(len(lines), len(expected))
                for line, wanted in zip(lines, expected):
                    done = subprocess.run(
                        ["bash", "-c", line], cwd=here, capture_output=True, text=True
                    )
                    self.assertIn(wanted, done.stdout + done.stderr)

    def test_the_record_is_what_the_programs_read_and_wrote(self):
        logs, kept = self.path("logs"), self.path("kept")
        os.mkdir(logs)
        done = call("alpha", "two", "--keep", kept, "--", "sh", "-c", TEE, logs, *ALPHA)
        self.assertEqual(done.returncode, 0, done.stdout)
        rows = [line.split(" ", 2)[1:] for line in text_in(kept, "run.transcript").splitlines()[1:]]
        did = []
        for name in {os.path.splitext(name)[0] for name in os.listdir(logs)}:
            lines = in_turn(*(text_in(logs, name + part) for part in (".in", ".out")))
            v = next(int(line.split()[1]) for line in lines if line.startswith("identifier"))
            kinds = ("take ", "put ", "pulse ")
            own = [line.replace(" 0", f" {3 - v}", 1) for line in lines if line.startswith(kinds)]
            self.same(f"node {v}", own, [text for u, text in rows if u == str(v)])
            did += own
        self.same("all of it", len(did), len(rows))

    def test_the_league_counts(self):
        done = call("open", "path5", "--", *GREEDY)
        self.assertEqual(done.stdout.splitlines()[-1].split(), ["path5", "6", "16", "2"])
        none = self.file("none.col", "p edge 0 0\n")
        done = call("open", none, "--", *GREEDY)
        self.assertEqual(done.stdout.splitlines()[-1].split(), ["none", "0", "0", "0"])
        done = call("open", "two", "--", *answering())
        self.assertIn("after 400 pulses nodes 1 and 2 said no channel", done.stdout)
