"""Tests of `forestlab simulate`.

Each run is played again here on src/forestplan/definitions/nodes.py, entry by entry, and its order beside what is
possible then: nothing is compared with what simulate itself wrote before."""
import itertools
import re

from forestplan.definitions.colours import colours
from forestplan.definitions.events import Event, Kind
from forestplan.definitions.machine import make_entry
from forestplan.definitions.nodes import alpha_start
from forestplan.networks.network_text import network_in_bytes
from forestplan.schedules.policies import POLICIES
from forestplan.schedules.simulate import AlphaPlayer, played
from forestplan.transcripts.judge import whole_run
from tests.cases import Case, called, example, forestlab
from tests.settings import PLAY
from tests.tools import needs

NETWORKS = ("two", "triangle", "chain6", "barred", "petersen")


def simulate(*arguments, data=b""):
    return forestlab("simulate", *arguments, data=data)


class Waits(Case):
    def test_since_when(self):
        """By hand: node 2 can put its greeting from the start on, whatever it has to put after it. It puts it third and
        its acknowledgement fourth, so node 1 can take since 3, and what was put on that link last is of 4.
        """
        player = AlphaPlayer(network_in_bytes(example("two")))
        for kind, node in ((Kind.PUT, 1), (Kind.TAKE, 2), (Kind.PUT, 2), (Kind.PUT, 2)):
            if len(player.made) == 2:
                possible = [(step.kind, step.since, step.latest) for step in player.steps[2]]
                self.same("the greeting of node 2", possible, [(Kind.PUT, 0, 0)])
            player.make(Event(kind, node, 0))
        self.assertEqual(
            [(step.kind, step.since, step.latest) for step in player.steps[1]], [(Kind.TAKE, 3, 4)]
        )

    def test_how_far_what_waits_lets_others_run(self):
        """By hand: while nothing goes over 2-3 in six in a row, nodes 2 and 3 wait for each other's acknowledgement at
        pulse 0, so 1 and 4 wait for their safe; 5 makes one pulse by 4's safe, and 6 another by 5's. While node 5 does
        nothing, 4 and 6 wait for its acknowledgement, and 3 for 4's safe; 2 makes one pulse, and 1 two.
        """
        net = network_in_bytes(example("chain6"))
        for name, entries, waits, pulses in (
            (
                "a slow link",
                played(net, seed="5", slow=[(2, 3)]),
                lambda it: {it.node, it.neighbour} == {2, 3},
                [0, 0, 0, 0, 1, 2],
            ),
            (
                "a lazy node",
                played(net, seed="5", lazy=[5]),
                lambda it: it.node == 5,
                [2, 1, 0, 0, 0, 0],
            ),
        ):
            state = alpha_start(net)
            for entry in itertools.takewhile(lambda it: not waits(it), entries):
                make_entry(state, entry)
            self.same(name, [node.pulse_number for node in state.nodes.values()], pulses)


class Runs(Case):
    @needs("forestplay")
    def test_whole_runs(self):
        """Each policy gives a whole run with right stamps, and ends with the plan."""
        for name in NETWORKS:
            net = network_in_bytes(example(name))
            for policy in POLICIES if name != "petersen" else ("random", "newest", "slow-node"):
                with self.subTest(name, policy=policy):
                    status, text, fault = simulate(name, "--policy", policy, "--seed", "7")
                    self.assertEqual((status, fault), (0, b""))
                    self.assertEqual(text.partition(b"\n")[0], b"transcript 2 %d" % net.nodes)
                    whole_run(net, text)
                    status, state, fault = called(PLAY, "replay", data=example(name) + b"\n" + text)
                    self.assertEqual((status, fault), (0, b""))
                    found = {
                        int(v): int(c) - 1
                        for v, c in re.findall(rb"^node (\d+) .* channel (\d+)$", state, re.M)
                    }
                    self.assertEqual(found, colours(net))

    def test_repeatable(self):
        """Two calls give the same bytes, and seeds differ; the first one is taken without --seed."""
        one, other, again = (
            simulate("triangle", *arguments)[1]
            for arguments in (("--seed", "1"), ("--seed", "x"), ())
        )
        self.assertTrue(one == again != other)


class Lists(Case):
    """A list of events as a transcript."""

    def test_to_the_end(self):
        """A list is how the run begins that goes on to its end; of a whole one nothing is left."""
        arguments, data = ("two", "--events", "-"), b"put 1 0\ntake 2 0\n"
        begun = simulate(*arguments, data=data)[1]
        status, whole, fault = simulate(*arguments, "--to-the-end", data=data)
        self.same("how it begins", (status, whole[: len(begun)], fault), (0, begun, b""))
        whole_run(network_in_bytes(example("two")), whole)
        alone = self.file("alone.col", "p edge 1 0\n")
        status, text, fault = simulate(alone, "--events", "-", data=12 * b"pulse 1\n")
        self.same("a whole list", (status, text.count(b"\n"), fault), (0, 13, b""))

    def test_what_is_passed_over(self):
        """Comments, blank lines, and notes after a colon."""
        plain = b"put 1 0\ntake 2 0\n"
        noted = b"c a list\n\n  put\t1 0: payload 0 hello 1 for 2\r\ncomment\ntake 2 0: payload 0 hello 1 from 1\n"
        self.assertEqual(
            simulate("two", "--events", "-", data=noted),
            simulate("two", "--events", "-", data=plain),
        )

    def test_worked(self):
        """Two nodes, by hand: 1 greets, 2 takes it and puts its own greeting. Lamport's clock gives 1, then 2 for the
        take (one more than the put), then 3."""
        status, text, fault = simulate("two", "--events", "-", data=b"put 1 0\ntake 2 0\nput 2 0\n")
        self.assertEqual(
            (status, text),
            (
                0,
                b"transcript 2 2\n1 1 put 2 payload 0 hello 1\n"
                b"2 2 take 1 payload 0 hello 1\n3 2 put 1 payload 0 hello 2\n",
            ),
        )
        self.assertEqual(
            fault,
            b"simulate: after the last event node 1 is at pulse 0 of 18; --to-the-end plays the rest\n",
        )

    def test_refusals(self):
        for events, end in (
            (
                "pulse 1",
                "line 1: `pulse 1` isn't possible there: ack 0 of 2; safe 0 of 2 (NotReady)",
            ),
            (
                "put 1 0|put 1 0",
                "line 2: `put 1 0` isn't possible there: list of 1 for 2 (NothingToPut)",
            ),
            ("c|take 1 0", "line 2: `take 1 0` isn't possible there: link from 2 to 1 (LinkEmpty)"),
            ("put 3 0", "line 1: `put 3 0` isn't possible there (NoSuch)"),
            ("put 1", "line 1: `put 1` is no event (NoEvent)"),
            (
                "put 1 0|take 2 0 1",
                "line 2: `take 2 0 1` overtakes another message, and links keep their order",
            ),
            (
                "put 1 0|take 2 0: ack 0 from 1, out of turn",
                "line 2: `take 2 0: ack 0 from 1, out of turn` overtakes another message, and links keep their order",
            ),
        ):
            done = simulate("two", "--events", "-", data=events.replace("|", "\n").encode())
            self.note(events, done == (1, b"", f"simulate: standard input {end}\n".encode()), done)
        for arguments, status, said in (
            (["two", "--events", "nowhere"], 1, b"simulate: nowhere: No such file or directory\n"),
            (["two", "--to-the-end"], 2, b"--to-the-end is for a list of --events\n"),
            (["-", "--events", "-"], 2, b"standard input is one file, not two\n"),
            ([self.file("bad.col", "e 1 2\n")], 1, b"(F3)\n"),
            (["chain6", "--slow", "2-4"], 1, b"simulate: chain6 has no edge 2-4\n"),
            (["chain6", "--lazy", "7"], 1, b"chain6 has no node 7: its nodes are 1 to 6\n"),
            (["chain6", "--slow", "2"], 2, b"two neighbours, as 2-3\n"),
            (["chain6", "--policy", "kind"], 2, b"kind"),
        ):
            self.refusal(" ".join(arguments), simulate(*arguments), status, said)
