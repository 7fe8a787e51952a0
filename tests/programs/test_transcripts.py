"""Tests of `forestlab transcript check` and `forestlab transcript replay`, and of the built programs beside them.

Expected verdicts are worked by hand, or come from the definitions in src/forestplan/definitions/nodes.py; none is taken
from a program."""
import contextlib
import json
import os
import random
import re
import signal
import subprocess
import time

from forestplan.definitions.nodes import COLOURING
from forestplan.networks.network_text import network_in_bytes
from forestplan.schedules.simulate import played, text_of_run
from forestplan.transcripts.judge import find_order, whole_run
from forestplan.transcripts.reading import WrongEntry, transcript_read
from tests import FORESTLAB, TOP
from tests.cases import Case, called, forestlab, is_running, text, text_in, wait_until
from tests.programs.made_transcripts import transcript_text
from tests.programs.test_plain_networks import networks_by_chance
from tests.settings import PLAN, PLAY, setting
from tests.tools import needs

LIMIT = 60
SEED = 2026


EDGE = "p edge 2 1|e 1 2|"
# In 18 pulses an edge has 3 payloads of node 1 and 12 of node 2; an acknowledgement of each; 18 safes and a closing
# mark each: 68 wires, each put and taken; and 18 pulses of each node.
EDGE_LAST = 18
EDGE_RUN = transcript_text(2, played(network_in_bytes(text(EDGE))))
EDGE_WHOLE = "whole run of 2 nodes, 172 entries, 15 payloads, 68 wires"
HELLO_1, HELLO_2 = "payload 0 hello 1", "payload 0 hello 2"
GREETED = (
    f"transcript 1 2|1 put 2 {HELLO_1}|1 take 2 {HELLO_2}|2 put 1 {HELLO_2}|2 take 1 {HELLO_1}|"
)
APART = "".join(f"{v} pulse {p}|" for v in (1, 2) for p in range(1, 13))
# (network, transcript, what is said, up to the second colon of a refusal), in which '|' is a line feed. Refusals of
# stamps, and of what a node does, are in tests/workshop/test_transcripts.py, whole; lines that are no entries, other
# first lines, and stamped texts beside the program are for test_hostile.py.
ALONE = "p edge 2 0|"
WORKED = (
    ("p edge 0 0|", "transcript 1 0|", "whole run of 0 nodes, 0 entries, 0 payloads, 0 wires"),
    # an odd layout
    (
        ALONE,
        "\r| transcript\t1  002\r|" + APART[:-1].replace("1 pulse 2", "  01\tpulse 02 \r|| \t"),
        "whole run of 2 nodes, 24 entries, 0 payloads, 0 wires",
    ),
    (ALONE, "transcript 1 2|" + APART + "2 pulse 13|", "line 26: NotReady"),
    (ALONE, "transcript 1 2|" + APART[:-11], "line 24: NotWhole"),
    (ALONE, "transcript 1 2|" + APART.replace("2 pulse 3|", ""), "line 16: WrongWire"),
    (ALONE, "transcript 1 3|" + APART, "line 1: Nodes"),
    (ALONE, "transcript 1 2|" + APART + "1 put 2 close|", "line 26: NoSuch"),
    # the reading
    (EDGE, "", "line 1: X1"),
    (EDGE, "|1 put 2 close|", "line 2: X1"),
    # the search
    (EDGE, "transcript 1 2|1 put 2 safe 0|", "line 2: WrongWire"),
    (EDGE, f"transcript 1 2|1 put 2 {HELLO_1}|1 put 2 safe 0|", "line 3: NothingToPut"),
    (EDGE, GREETED.replace(f"1 take 2 {HELLO_2}|", ""), "line 4: NotWhole"),
    # each takes before it puts: the first of two that wait for each other
    (
        EDGE,
        f"transcript 1 2|2 take 1 {HELLO_1}|1 take 2 {HELLO_2}|1 put 2 {HELLO_1}|2 put 1 {HELLO_2}|",
        "line 2: LinkEmpty",
    ),
    # one that never can comes before one that waits, and one that waits for a node which is through before the others
    (EDGE, f"transcript 1 2|2 take 1 {HELLO_1}|1 pulse 1|1 put 2 {HELLO_1}|", "line 3: NotReady"),
    (
        "p edge 3 2|e 1 2|e 2 3|",
        f"transcript 1 3|1 take 2 {HELLO_2}|2 take 3 payload 0 hello 3|",
        "line 3: LinkEmpty",
    ),
)


def said_of(net, data, program=COLOURING):
    """The verdict, or the refusal's line and code, and what it says in words."""
    try:
        return whole_run(net, data, program)[1], ""
    except WrongEntry as wrong:
        line, code, sentence = wrong.line, wrong.word, wrong.sentence()
        return f"line {line}: {code}", sentence


def said_by(network, data, *arguments, play=PLAY):
    """None if `forestplay replay` accepts it, else its fault in the form of the checker's, with lines from the
    transcript's first."""
    status, output, fault = called(play, "replay", *arguments, data=network + data)
    if (status, fault) == (0, b""):
        return None
    found = re.fullmatch(rb"forestplay: (\w+) line (\d+)(: [ -~]+)?\n", fault)
    if status != 1 or output or not found:
        return f"status {status}, {output[:200]!r}, {fault[:200]!r}"
    code, line, before = found[1].decode(), int(found[2]), network.count(b"\n")
    if line > before:
        line -= before
    return f"line {line}: {code}"


def check(*arguments, data=b""):
    return forestlab("transcript", "check", *arguments, data=data)


def replay(*arguments, data):
    return forestlab("transcript", "replay", *arguments, data=data)


def machine_of(run):
    """The process forestplay that a running command has begun, or None if the command ends before."""
    while run.poll() is None:
        with contextlib.suppress(OSError):
            for process in text_in(f"/proc/{run.pid}/task/{run.pid}/children").split():
                if text_in(f"/proc/{process}/comm") == "forestplay\n":
                    return int(process)
        time.sleep(0.001)
    return None


class Transcripts(Case):
    @needs("forestplan", "forestplay")
    def test_worked(self):
        for network, transcript, said in WORKED:
            got = said_of(network_in_bytes(text(network)), text(transcript))
            self.note(f"{said} of {transcript[:60]!r}", got[0] == said, got)
        edge = network_in_bytes(text(EDGE))
        self.same("a run of an edge", said_of(edge, EDGE_RUN)[0], EDGE_WHOLE)
        order = find_order(edge, transcript_read(EDGE_RUN)[1])
        merged = text_of_run(edge, order.stamped()).encode()
        self.same(
            "with stamps",
            (said_of(edge, merged)[0], said_by(text(EDGE), merged)),
            (EDGE_WHOLE, None),
        )

    def test_checker(self):
        """The checker as a command: from a file, from standard input, and refused."""
        whole, wrong = EDGE_RUN, b"transcript 1 2\n1 take 2 close\n"
        network, transcript = self.file("edge.col", text(EDGE)), self.file("edge.transcript", whole)
        why = "node 1 takes close from 2, and 2 never puts it (is the text cut?)"
        nowhere = f"transcript: {transcript}x: No such file or directory\n".encode()
        for arguments, data, wanted in (
            ([network, transcript], b"x", (0, EDGE_WHOLE.encode() + b"\n", b"")),
            ([network], whole, (0, EDGE_WHOLE.encode() + b"\n", b"")),
            ([network], wrong, (1, b"", f"line 2: LinkEmpty: {why}\n".encode())),
            ([transcript + "x"], b"", (1, b"", nowhere)),
            ([network, transcript + "x"], b"", (1, b"", nowhere)),
        ):
            self.same(f"check {arguments}", check(*arguments, data=data), wanted)
        self.refusal("a text that is no network", check(transcript), 1, b"transcript line 1: `")
        for arguments in ([], [network, transcript, "x"]):
            self.refusal(f"the words {arguments}", check(*arguments), 2, b"error: ")
        for data, verdict in (
            (whole, {"right": True, "words": EDGE_WHOLE}),
            (wrong, {"right": False, "line": 2, "code": "LinkEmpty", "words": why}),
        ):
            status, told, fault = check("--json", network, data=data)
            self.same(
                f"--json: {verdict}",
                (status, json.loads(told), fault),
                (0 if verdict["right"] else 1, verdict, b""),
            )

    def test_cut(self):
        """Texts that end too early are refused, and the reader is asked whether the text is cut."""
        edge, lines = network_in_bytes(text(EDGE)), EDGE_RUN.split(b"\n")[:-1]
        pulse = lines.index(b"2 pulse %d" % EDGE_LAST)
        said = [said_of(edge, b"\n".join(lines[:count]) + b"\n") for count in range(2, pulse + 1)]
        unasked = [sentence for _, sentence in said if not sentence.endswith("(is the text cut?)")]
        self.note("each beginning without the last pulse may be cut", not unasked, unasked[:1])

    @needs("forestplan", "forestplay")
    @needs("forestplan", "forestplay", "bin/forestplay")
    def test_replays(self):
        """`forestlab transcript replay`, which puts the entries in an order and has the program play them."""
        network = self.file("edge.col", text(EDGE[:-1]))
        own = ["--program", os.path.join(TOP, "examples", "algorithms", "tree_count.py")]
        for arguments, data, said in (
            ([network, "nowhere"], b"", b"transcript: nowhere: No such file"),
            ([network], EDGE_RUN[:100], b"cut"),
            (["-"], EDGE_RUN, b"standard input has one text"),
            ([network, *own], EDGE_RUN, b"no proved program runs tree_count"),
        ):
            self.refusal(
                f"replay {arguments} of {len(data)} bytes", replay(*arguments, data=data), 1, said
            )
        layers = ["--program", "layers", "--root", "2"]
        run = forestlab("simulate", "two", *layers)[1]
        self.note("replay of layers", replay("two", "-", *layers, data=run)[::2] == (0, b""))
        taken = {v: EDGE_RUN.count(b"\n%d take %d " % (3 - v, v)) for v in (1, 2)}
        wanted = "".join(
            f"node {v} pulse {EDGE_LAST} channel {v}\nlink {v} {3 - v} taken {taken[v]}\n"
            for v in (1, 2)
        )
        self.same("replay of a run", replay(network, data=EDGE_RUN), (0, wanted.encode(), b""))

    @needs("forestplan", "forestplay")
    def test_signals(self):
        """SIGTERM and SIGHUP end the machine that plays the entries, too, even one that stands still then."""
        ring = forestlab("network", "ring", 300)[1]
        paths = self.file("ring.col", ring), self.file(
            "run", called(PLAN, "transcript", "--workers", 1, data=ring)[1]
        )
        for number in (signal.SIGTERM, signal.SIGHUP):
            with subprocess.Popen(
                [FORESTLAB, "transcript", "replay", *paths],
                stdout=subprocess.DEVNULL,
                stderr=subprocess.DEVNULL,
            ) as run:
                machine = machine_of(run)
                if machine:
                    os.kill(machine, signal.SIGSTOP)
                    # The command waits for it, whose pipe is full: before, it would find an empty input and end.
                    place = f"/proc/{run.pid}/wchan"
                    wait_until(
                        lambda: run.poll() is not None or "poll" in text_in(place), LIMIT, 0.001
                    )
                run.send_signal(number)
                status = run.wait(LIMIT)
            is_left = bool(machine) and is_running(machine)
            if is_left:
                os.kill(machine, signal.SIGKILL)
            self.note(
                f"{number.name}: the machine ends",
                machine and (status, is_left) == (128 + number, False),
                (machine, status, is_left),
            )

    @needs("forestplan", "forestplay")
    def test_runs(self):
        """Whole runs of several workers, written in both editions by turns: the checker accepts each, and so does
        `forestplay replay` those of edition 2, in the order of their lines."""
        count = int(setting("runs"))
        source, wrong, entries = random.Random(SEED), [], 0
        for at, network in enumerate(networks_by_chance(count, 14, SEED)):
            edition, workers = 1 + at % 2, source.choice((2, 4, 5, 8, 16, 64))
            arguments = ["--edition", edition, "--workers", workers]
            arguments += ["--capacity", source.choice((1, 2, 4, 64))]
            status, data, fault = called(PLAN, "transcript", *arguments, data=network)
            said = said_of(network_in_bytes(network), data)[0]
            good = (status, fault) == (0, b"") and said.startswith("whole run of ")
            got = said_by(network, data) if good and at % 2 else None
            if not good or got:
                wrong.append((network, arguments, status, fault, said, got))
            entries += data.count(b"\n") - 1
        self.note(f"{count} whole runs, {entries} entries", not wrong, f"{len(wrong)}: {wrong[:1]}")
