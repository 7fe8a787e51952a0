"""`plan` and `run` on worker threads: runs that stop, by the definition of a turn, and that options reach them. No time
decides a result. test_plain_networks.py has the bytes of `plan`, whatever the options are."""
import functools
import itertools

from forestplan.definitions.colours import plan_text, joined_lines
from forestplan.networks.network_text import network_in_bytes
from tests.cases import Case, called, text
from tests.commands import TRIANGLE as THREE
from tests.programs.made_transcripts import Run
from tests.programs.test_node_programs import play, program_of
from tests.programs.test_plain_networks import networks_by_chance
from tests.programs.test_sequel_runs import ended
from tests.settings import PLAN
from tests.tools import needs

TRIANGLE, TRIANGLE_PLAN = text(THREE), b"plan\n1 2\n2 3\n3 1\n"
STOPPED = b"forestplan: stopped\n"
STOPPED_PLAY = b"forestplay: stopped\n"
# (words after `plan`, input, status, standard output, standard error); test_codes.py has a run that stops at once.
WORKED_RUNS = [
    (["--turns", "0"], b"p edge 0 0\n", 0, b"plan\n", b""),
    (["--turns", "1", "--workers", "64"], TRIANGLE, 3, b"", STOPPED),
    (["--turns", "1000000000000"], TRIANGLE, 0, TRIANGLE_PLAN, b""),
]


@needs("forestplan", "forestplay")
class Plans(Case):
    def test_worked(self):
        for arguments, data, *wanted in WORKED_RUNS:
            self.same(
                f"plan {' '.join(arguments)}",
                called(PLAN, "plan", *arguments, data=data),
                tuple(wanted),
            )

    def limit_rows(self, name, whole, answer, stopped, call, *arguments):
        """One worker stops with one look less than its run needs, by the definition of a turn, and with as many it has
        the answer. A link that held another number of wires, or another number of looks, would move that limit.
        """
        got = [
            call(*arguments, "--workers", 1, "--turns", turns)
            for turns in (whole.looks - 1, whole.looks)
        ]
        self.same(
            f"{whole.looks} looks of {name}, and no less",
            got,
            [(3, b"", stopped), (0, answer, b"")],
        )

    def test_turns(self):
        networks = TRIANGLE, b"p edge 2 0\n", b"p edge 2 1\ne 1 2\n", *networks_by_chance(12, 6)
        for data, capacity in itertools.product(networks, (1, 2, 64)):
            whole = Run(network_in_bytes(data), capacity)
            for arguments, answer in (
                (["plan"], plan_text(network_in_bytes(data))),
                (("transcript", "--edition", 1), whole.text()),
                (("transcript",), whole.merged()),
            ):
                call = functools.partial(called, PLAN, *arguments, data=data)
                name = f"{arguments} for {data[:60]!r} with capacity {capacity}"
                self.limit_rows(name, whole, answer, STOPPED, call, "--capacity", capacity)
        needed = Run(network_in_bytes(TRIANGLE), 2).looks
        arguments = ["--capacity=0002", "--workers=+1", f"--turns=+0{needed}"]
        done = called(PLAN, "plan", *arguments, data=TRIANGLE)
        self.same("numbers with a sign or zeros before them", done, (0, TRIANGLE_PLAN, b""))

    def test_turns_of_run(self):
        """So does `forestplay run`, which prints the states of any program's nodes, or the transcript of the run."""
        for asked, capacity in itertools.product(
            ("leader", "layers --root 2", "matching"), (1, 64)
        ):
            program, net = program_of(asked), network_in_bytes(TRIANGLE)
            whole = Run(net, capacity, program)
            states = joined_lines(
                f"node {v} pulse {program.last_pulse(net)} {ended(net, v, node.simulated.result())}"
                for v, node in whole.player.state.nodes.items()
            )
            for shown, answer in (((), states), (("--transcript",), whole.merged())):
                call = functools.partial(play, "run", asked, *shown, data=TRIANGLE)
                name = f"run of {asked} {shown} with capacity {capacity}"
                self.limit_rows(name, whole, answer, STOPPED_PLAY, call, "--capacity", capacity)
