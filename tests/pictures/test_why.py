"""Tests of `forestlab picture why`.

The channel of the triangle's node 2 is worked by hand, as in docs/learn/LESSON_4.md. Of other networks: a colour stays
the same if identifiers on which it is said not to depend change."""
import random

from forestplan.definitions.colours import three
from forestplan.definitions.rounds import ColouringRounds
from forestplan.network import Network
from forestplan.networks.network_text import network_in_bytes
from forestplan.pictures.why_picture import Cone
from tests.cases import example
from tests.pictures.base import PictureCase
from tests.pictures.marks import marks, parsed

HAND = [
    "why node 2 of net has channel 3",
    "8 of 49 messages decided it, and the identifiers of 2 of 3 nodes. The farthest of these nodes, 1 edge away: 3.",
    "pulse 26, merge of forest 1: the turn of node 2, with colour 1 in the forest and 1 so far; it chooses colour 2, "
    "channel 3",
    "  channel 1 is taken: node 3 told it so in pulse 22",
    "  channel 2 is taken: node 1 told it so in pulse 25",
    # Of node 1 no colour from before pulse 11 matters, when it took its parent's.
    "the identifiers that decided it: 2 and 3",
    # Node 2 is a root in forest 1: no parent sent it a colour, and its own identifier is one of the two.
    "forest 1, node 2, a root, pulses 2 to 12: 2 0 0 0 0 1 1 0 0 1 1",
]
# In forest 0 node 1 is below 2, and 2 below 3; in forest 1 node 1 is below 3. After pulse 8 node 3 has colour 0 in
# forest 0, after pulse 10 nodes 1, 2 and 3 have 1, 0 and 1 there and 0, 0 and 1 in forest 1, and each takes its
# parent's colour in pulse 11. In the merges nodes 1 and 3 choose 0 in pulse 13, 3 chooses 0 in pulse 22, and 1
# chooses 1 in pulse 25.
MESSAGES = [
    "3 told 2 colour 0 in pulse 8, in forest 0",
    "2 told 1 colour 0 in pulse 10, in forest 0",
    "3 told 1 colour 1 in pulse 10, in forest 1",
    "3 told 2 colour 1 in pulse 10, in forest 0",
    "1 told 2 chosen 0 in pulse 13, in the merge of forest 0",
    "3 told 1 chosen 0 in pulse 22, in the merge of forest 1",
    "3 told 2 chosen 0 in pulse 22, in the merge of forest 1",
    "1 told 2 chosen 1 in pulse 25, in the merge of forest 1",
]


class Why(PictureCase):
    def said(self, name, node):
        return self.drawn("why", example(name), "--vertex", node, "--text")

    def test_by_hand(self):
        lines = self.said("triangle", 2).splitlines()
        self.same(
            "the triangle",
            (lines[:5], [line for line in HAND[5:] if line not in lines]),
            (HAND[:5], []),
        )
        self.same("its messages", lines[-10:-2], MESSAGES)
        # In 1 - 2 - 3 node 3 chooses first: its colour is 0 and nobody has taken anything.
        said = self.said("path", 3)
        self.note(
            "the row", "chooses colour 0, channel 1\n" in said and "is taken" not in said, said
        )

    def test_drops(self):
        """Who drops a colour needs its own before the shift, and its parent's; nobody else does in these pulses."""
        rounds = ColouringRounds(network_in_bytes(example("drops")))
        for (v, f), parent in rounds.parents.items():
            for p, dropped in ((8, 5), (10, 4), (12, 3)):
                has_dropped = rounds.pulses[p - 1].colours[v, f] == dropped
                own, above = ("colour", v, f, p - 1), ("colour", parent, f, p - 1)
                wanted = {own, ("colour", v, f, p - 2), above} if has_dropped else {own}
                causes = set(Cone(rounds, v).causes_of("colour", v, f, p))
                self.same(f"node {v} in forest {f}, pulse {p}", causes, wanted)

    def test_other_identifiers(self):
        """A colour of three in a forest doesn't change if the identifiers change on which it isn't said to depend, as
        long as their order stays."""
        source, tried = random.Random("why"), 0
        for case in range(60):
            nodes = source.randrange(2, 9)
            node_numbers = range(1, nodes + 1)
            edges = [
                (v, w)
                for v in node_numbers
                for w in node_numbers
                if v < w and source.random() < 0.4
            ]
            names = sorted(source.sample(range(0, 4000, 2), nodes))
            source.shuffle(names)
            identifiers = dict(zip(node_numbers, names))
            net = Network(nodes, edges, identifiers)
            rounds = ColouringRounds(net)
            for v, f in ((v, f) for v in node_numbers for f in range(net.forest_count)):
                facts = Cone(rounds, v).behind(("colour", v, f, 12))
                others = [w for w in node_numbers if ("identifier", w) not in facts]
                # One more is free, since all are even: so the order stays.
                changed = identifiers | {w: identifiers[w] + 1 for w in others}
                tried += bool(others)
                with self.subTest(case=case, v=v, f=f):
                    self.assertEqual(three(Network(nodes, edges, changed), f)[v], three(net, f)[v])
        self.assertGreater(tried, 100)

    def test_faded(self):
        """As many squares and circles are faded as aren't in the cone."""
        network, root = example("petersen"), parsed(
            self.drawn("why", example("petersen"), "--vertex", 6)
        )
        cone = Cone(ColouringRounds(network_in_bytes(network)), 6)
        kept = sum(fact[0] != "identifier" for fact in cone.facts)
        drawn = 10 * len(cone.forests()) * (11 + 1)
        self.same("how many are faded", len(marks(root, "faded")), drawn - kept)
