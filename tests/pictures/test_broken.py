"""Pictures of rounds without a rule: the words beside what `forestlab explore` prints, what is red in a merge beside
the rounds of ruled_rounds.py (tests/programs/test_schedules.py compares these with nodes that hear and send), and in
the ends of other programs by hand. What the smallest networks show is in the stored pictures."""
import itertools
import re

from forestplan.networks.network_text import network_in_bytes
from forestplan.schedules import rules
from forestplan.schedules.ruled_rounds import RuledRounds
from tests import TOP
from tests.cases import example, said_by
from tests.pictures.base import PictureCase, painter
from tests.pictures.marks import (
    SVG,
    centre,
    marks,
    nearest,
    numbered,
    pairs_joined,
    parsed,
    texts,
    texts_of,
)

LONG_ROW = b"p edge 9 5\ne 1 2\ne 2 3\ne 3 4\ne 4 5\ne 5 9\n"
# By rule: the program, a network (none: its smallest), and the edges and the nodes that are red.
# tests/programs/test_sequels.py says why, and what the nodes find.
ENDS = {
    "partner": ("matching", None, [(1, 2)], [1, 2]),
    "last": ("matching", LONG_ROW, [(1, 2)], [1, 2]),
    "class": ("independent-set", None, [(1, 2)], [1, 2]),
    "beside": ("independent-set", None, [(1, 2)], [1, 2]),
    "bars": ("recolouring", None, [], [1]),
    "anew": ("recolouring", None, [(1, 2)], [1, 2]),
}


def alike(net, f, channels):
    """The edges of the forests merged so far whose ends have one channel."""
    return sorted(
        tuple(sorted(edge))
        for edge, forest in net.number.items()
        if forest <= f and len({channels[v] for v in edge}) == 1
    )


class Broken(PictureCase):
    def picture_of(self, *options):
        """A picture whose words have the sentences of `forestlab explore`, with quotes of its own."""
        status, picture, fault = painter("broken", *options)
        self.same(f"broken {options} is drawn", (status, fault), (0, b""))
        root = parsed(picture.decode())
        shown, (_, said, _) = " ".join(texts(root)), said_by("explore", *options, cwd=TOP)
        lines = [line for line in said.split("\n") if not line.startswith("wrong body")]
        missing = [line for line in lines if line[1:].replace("'", "’") not in shown]
        self.same(f"broken {options}: sentences that it hasn't", missing, [])
        return root, *marks(root, "without"), *marks(root, "with")

    def test_broken(self):
        for name, rule in (("petersen", "pair"), ("disk100", "children"), ("queen5_5", "earlier")):
            rounds = RuledRounds(network_in_bytes(example(name)), [rule]).work_out()
            arguments = [f"examples/{name}.col", "--without", rule]
            self.rule_rows(f"{name} without {rule}", rounds, *arguments)

    def rule_rows(self, name, rounds, *options):
        """Red in a merge are the edges of the forests merged whose ends have one channel, and no others."""
        clash = rounds.clash
        _, *groups = self.picture_of(*options)
        if clash.pulse is None:
            every = rounds, RuledRounds(rounds.net, []).work_out()
            for group, own in zip(groups, every):
                self.merge_rows(f"{name}, {group.get('class')}", group, own, clash)
        else:
            chain = [clash.v]
            while parent := rounds.net.parent(clash.forest, chain[-1]):
                chain.append(parent)
            wanted = list(map(str, chain[: clash.pulse - 1]))[::-1]
            for group in groups:
                self.same(f"{name}: it and those above it", texts_of(group, "node"), wanted)
                # The heads of the columns are written last before this word.
                before = texts(group)[: texts(group).index("pulse")]
                heads = list(itertools.takewhile(str.isdecimal, reversed(before)))
                pulses = list(map(str, range(clash.pulse, 1, -1)))
                self.same(f"{name}: a column for each pulse", heads, pulses)

    def merge_rows(self, name, group, rounds, clash):
        """Three panels: the colours in the forest are in the middle, and the channels after the merge come last."""
        net, f = rounds.net, clash.forest
        circles = [*map(centre, marks(group, "channel"))][net.nodes :]
        red = pairs_joined(group, "wrong", dict(zip(net.node_numbers, circles)))
        self.same(f"{name}: what is red", red, alike(net, f, rounds.merged[f + 1]))
        squares = marks(group, "colour", "alone")
        places = dict(zip(net.node_numbers, map(centre, squares)))
        forest = sorted(tuple(sorted(edge)) for edge, of in net.number.items() if of == f)
        self.same(f"{name}: arrows", pairs_joined(group, "arrow", places), forest)
        others = sorted(set(net.edges) - set(forest))
        self.same(f"{name}: other edges", pairs_joined(group, "other", places), others)
        colours, old = rounds.colours[f][-1], rounds.merged[f]
        numbers = [int(text) for _, _, text in numbered(group, "colour", "alone")]
        self.same(f"{name}: colours", numbers, [colours[v] for v in net.node_numbers])
        # Of both nodes that go wrong the turn and the channel, and of whom it has heard.
        heads = texts_of(group, "chooses")[::2]
        turns = [
            [colours[v], old[v]][: 1 if "pair" in rounds.without else 2] for v in (clash.v, clash.w)
        ]
        channels = [rounds.merged[f + 1][v] + 1 for v in (clash.v, clash.w)]
        wanted = [
            [v, *turn, channel] for v, turn, channel in zip((clash.v, clash.w), turns, channels)
        ]
        found = [list(map(int, re.findall(r"\d+", line))) for line in heads]
        self.same(f"{name}: turns", sorted(found), sorted(wanted))

    def test_ends(self):
        """Each rule of a program that goes on where the colouring ends."""
        self.same(
            "all of them", set(ENDS), {rule for of in rules.OF_SEQUELS.values() for rule in of}
        )
        for rule, (program, network, edges, nodes) in ENDS.items():
            net = [self.file("net.col", network)] if network else []
            root, *groups = self.picture_of("--program", program, "--without", rule, *net)
            row = self.rows_of(f"{program} without {rule}")
            circles = [mark.find(f"{SVG}circle") for mark in marks(groups[0], "map-node")]
            places = {v: centre(circle) for v, circle in enumerate(circles, 1)}
            named = re.findall(r"\d+", texts(root)[0].rpartition(": ")[2])
            row("the nodes that go wrong", sorted(map(int, named)), nodes)
            row("red edges", pairs_joined(root, "wrong", places), edges)
            red = [nearest(places, centre(mark)) for mark in marks(root, "wrong-node")]
            row("red nodes", sorted(red), nodes)
            row("bars", bool(marks(root, "bar")), rule == "bars")
