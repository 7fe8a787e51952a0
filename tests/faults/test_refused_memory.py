"""Runs the built program with each of its growths refused in turn: the answer is the right bytes, or out of memory."""
import os
import subprocess
import tempfile
from collections import Counter

from forestplan.definitions.colours import plan_text
from forestplan.networks.network_text import network_in_bytes
from tests.cases import Case, called, text, text_in
from tests.commands import COMMANDS, EDGE, TRIANGLE
from tests.programs.made_transcripts import Run
from tests.settings import CRATE_TESTS, PATHS
from tests.tools import needs

HERE = os.path.dirname(os.path.abspath(__file__))
# Tests of `checks`, which `rt ci` builds, or `rt test` in that crate, that try again what memory is refused to once.
TRIED_AGAIN = (
    "event_machine_checks::a_state_goes_on_after_a_refused_growth",
    "event_machine_checks::a_list_runs_again_after_a_refused_growth",
    "link_queue_checks::a_link_meets_again_after_a_refused_growth",
)
# Growths that are refused, runs at the end as one without a refusal, and seconds of a run.
MOST, LAST, LIMIT = 5000, 40, 60
# What has the files to which the libraries write their numbers.
COUNTS = ("COUNT", "COUNT_THREADS", "COUNTS")
THREADS = (4, b"", b"forestplan: threads\n")


def build_front(folder, *names):
    """The libraries that come before all others."""
    fronts = [os.path.join(folder, f"{name}.so") for name in names]
    for name, front in zip(names, fronts):
        built = subprocess.run(
            ["cc", "-O1", "-shared", "-fPIC", "-o", front, os.path.join(HERE, f"{name}.c"), "-ldl"],
            capture_output=True,
            text=True,
        )
        if built.returncode:
            raise AssertionError(f"{name}.c doesn't build: {built.stderr}")
    return ":".join(fronts)


def under(front, arguments, data=b"", streams=None, **given):
    """The status and both outputs of a run with libraries before all others, which have words of their own; and the
    numbers that they wrote, none if a signal ended the run."""
    with tempfile.TemporaryDirectory() as folder:
        counts = {name: os.path.join(folder, name) for name in COUNTS}
        given = {name: str(value) for name, value in given.items()} | counts
        answer = called(
            *arguments,
            data=data,
            limit=LIMIT,
            **streams or {},
            env=given | {"PATH": os.environ.get("PATH", ""), "LD_PRELOAD": front},
        )
        return answer, [
            int(word)
            for path in counts.values()
            if os.path.exists(path)
            for word in text_in(path).split()
        ]


@needs("forestplan", "forestplay", "cc")
class RefusedMemory(Case):
    """Words and network are tried up to the first run that asks for no further growth."""

    def setUp(self):
        self.front = build_front(self.folder, "refuse_growth")

    def sweep(self, name, arguments, data, wanted=None, or_else=None):
        """Refuses growth 1, 2, .. until a run is as one without refusal, and so the next ones. `wanted` is clap's text
        if it isn't given; `or_else` is the answer in place of the one for memory if the one growth by which the C
        library starts a thread, for its table of the thread's own variables, is refused. Of a run with a thread one
        growth is refused without a trace, that of the list of words, which then grows by less: so no part of a run
        passes a refusal by, or is made anew."""

        def got_of(number):
            return under(self.front, [PATHS[name], *arguments], data, REFUSE=number)[0]

        wanted, memory = wanted or got_of(0), (4, b"", f"{name}: memory\n".encode())
        ends: list[tuple] = []
        known = {wanted, memory, or_else}
        while len(ends) < MOST and ends[-LAST:] != [wanted] * LAST and known.issuperset(ends):
            ends.append(got_of(len(ends) + 1))
        refused, counts = ends[:-LAST], Counter(ends[:-LAST])
        row = f"each growth refused in turn: {' '.join(arguments)}, {data[-40:]!r}"
        said = f"{len(refused)} growths, {counts}; at last {ends[-1]}"
        self.note(row, ends[-LAST:] == [wanted] * LAST and counts[memory], said)
        if or_else is not None:
            self.note(f"{row}: the other once", counts[or_else] == 1 and counts[wanted] <= 1, said)

    def test_each_command(self):
        for it in COMMANDS:
            threads = THREADS[0], b"", THREADS[2].replace(b"forestplan", it.program.encode())
            self.sweep(
                it.program,
                it.line_of_one,
                text(it.data),
                (0, text(it.answer), b""),
                threads if "workers" in it.options else None,
            )

    def test_growths(self):
        """With identifiers and bars; with enough bars that the nodes' sets of colours have boxes of their own; with the
        links of a triangle on a worker thread; and of refusals and help."""
        triangle, run = text(TRIANGLE), Run(network_in_bytes(text(TRIANGLE)), 4)
        barred = [
            triangle + b"i 1 9\nb 3 1\nb 3 7\nb 1 2\ni 2 0\n",
            triangle + b"".join(b"b 1 %d\n" % channel for channel in range(1, 131)),
        ]
        for arguments, data, wanted in (
            *((["plain"], data, (0, plan_text(network_in_bytes(data)), b"")) for data in barred),
            (["check"], triangle, (1, b"", b"forestplan: C6 line 1\n")),
            (["forests"], b"q\n", (1, b"", b"forestplan: F8 line 1\n")),
            (["nothing"], b"", None),
            (["--help"], b"", None),
        ):
            self.sweep("forestplan", arguments, data, wanted)
        for edition, wanted in (((), run.merged()), (("--edition", "1"), run.text())):
            self.sweep(
                "forestplan",
                ["transcript", *edition, "--workers", "1"],
                triangle,
                (0, wanted, b""),
                THREADS,
            )
        for command, more, fault in (
            ("events", "put 1 0|put 1 0|", "NothingToPut line 4: list of 1 for 2"),
            ("events", "put 1|", "NoEvent line 3"),
            ("events", "e 1 1|", "F6 line 3"),
            (
                "replay",
                "transcript 1 2|1 put 2 safe 0|",
                "WrongWire line 4: expected payload 0 hello 1",
            ),
        ):
            self.sweep(
                "forestplay",
                [command],
                text(EDGE + more),
                (1, b"", f"forestplay: {fault}\n".encode()),
            )

    @needs("checks_tests")
    def test_tried_again(self):
        """Each growth of a test refused in turn: it passes, and then asks more often for memory than if nothing is
        refused."""
        for name in TRIED_AGAIN:
            _, (ample, _) = under(self.front, [CRATE_TESTS, name])
            runs = [
                under(self.front, [CRATE_TESTS, name], REFUSE=refused)
                for refused in range(1, ample + 1)
            ]
            wrong = [
                k
                for k, ((status, *_), counts) in enumerate(runs, 1)
                if status or counts[0] <= ample
            ]
            self.note(
                f"each growth refused in turn: {name}",
                runs and not wrong,
                f"of {ample} growths: {wrong}",
            )
