"""Pictures of plans and the player's page, read back: marks, hues and numbers beside src/forestplan/definitions. Those
of forests, rounds and bits are looked at as they are stored; here is which forests and columns are drawn."""
import re

from forestplan.definitions.colours import colours
from forestplan.definitions.nodes import last_pulse
from forestplan.definitions.rounds import FIRST_MERGE, ColouringRounds, merge_step
from forestplan.networks.network_text import network_in_bytes
from forestplan.networks.sources import network_bytes
from tests.cases import example, examples
from tests.pictures.base import APART, BARRED, PictureCase, painter
from tests.pictures.marks import (
    centre,
    data_of,
    is_ring,
    marks,
    numbered,
    pairs_joined,
    parsed,
    texts,
    titles,
    texts_of,
)
from tests.tools import needs

CHANNELS = ["#0072B2", "#E69F00", "#009E73", "#F0E442", "#CC79A7", "#56B4E9", "#D55E00", "#444444"]

NETWORKS = examples() | {
    "path2": network_bytes("path2"),
    "one apart": APART,
    "barred petersen": BARRED,
}
QUEEN = example("queen5_5")
# A node with 23 neighbours, where 24 channels are allowed.
STAR = b"p edge 24 23\n" + b"".join(b"e 1 %d\n" % v for v in range(2, 25))
PLAYED = {name: NETWORKS[name] for name in ("triangle", "petersen", "barred", "two")} | {
    "one": b"p edge 1 0\n",
    "all joined": network_bytes("complete8"),
    "three": b"p edge 3 0\n",
    "three with bars": b"p edge 3 0\nb 1 1\nb 1 2\nb 3 2\n",
}
# What a picture says of the forests that it draws, if there are others: the first, the last, and the last of all.
WHICH_FORESTS = r"Here forests? (\d+)(?: to (\d+))? of 0 to (\d+)"
# What the player says of a merge pulse: the three-colour, the forest, the old colour and its channel.
TURN = r"colour (\d+) in forest (\d+) and channel (\d+) so far .* K = (\d+), J = (\d+)"


def circles(mark, net_colours):
    """The circles of the channels of all nodes, as `numbered` has them."""
    return [(mark, CHANNELS[c % 8], str(c + 1)) for _, c in sorted(net_colours.items())]


def words_of_bars(net, v):
    """What comes after a node's channel: the barred ones."""
    channels = ", ".join(str(c + 1) for c in sorted(net.barred[v]))
    return f", barred {channels}" if channels else ""


def bars_of(net):
    """What is crossed out: of each node the lowest four barred channels, with an ellipsis for more."""
    rows = [sorted(net.barred[v]) for v in sorted(net.barred)]
    return (
        [("bar", CHANNELS[c % 8], str(c + 1)) for bars in rows for c in bars[:4]],
        ["…" for bars in rows if len(bars) > 4],
    )


def places_given(network):
    """The places that comments of a network give."""
    rows = re.findall(rb"c at (\d+) (\S+) (\S+)", network)
    return {int(v): (float(x), float(y)) for v, x, y in rows}


def order_of(places):
    """The nodes from left to right, and those from top to bottom."""
    return [sorted(places, key=lambda v: places[v][axis]) for axis in (0, 1)]


def turns_in(facts, f):
    """The three-colour and the old colour of each node in a merge."""
    return {v: (facts.colours[f][12][v], facts.merged[f][v]) for v in facts.network.node_numbers}


def as_lists(rows):
    return [list(row) for row in rows]


def colours_after(facts, p):
    """The colours of each node in all forests, as the player has them: from pulse 2 until the merges."""
    if not facts.forests or not 2 <= p < FIRST_MERGE:
        return None
    nodes, forests = facts.network.node_numbers, range(facts.forests)
    return [[facts.colours[f][p][v] for f in forests] for v in nodes]


class Maps(PictureCase):
    def test_plans(self):
        for name, network in NETWORKS.items():
            net, root = network_in_bytes(network), parsed(self.drawn("plan", network))
            plan = dict(sorted(colours(net).items()))
            places = {v: centre(mark) for v, mark in zip(plan, marks(root, "channel"))}
            row = self.rows_of(f"plan of {name}")
            said = [f"node {v}: channel {c + 1}{words_of_bars(net, v)}" for v, c in plan.items()]
            row("a node each", titles(root, "map-node"), said)
            row("hues and numbers", numbered(root, "channel"), circles("channel", plan))
            row("its edges", pairs_joined(root, "edge", places), net.edges)
            row("labels", sorted(map(int, texts_of(root, "number"))), [*plan])
            row("crossed out", (numbered(root, "bar"), texts_of(root, "more")), bars_of(net))
            heading = " ".join(texts(root)[:3])
            row("it says what is crossed out", "barred" in heading, net.greatest_bars > 0)
            used = f": {len({*plan.values()})} of the {net.span + 1} allowed"
            row("it says how many are used", used in heading, True)
            given = places_given(network)
            if len(given) == len(plan):
                row("the places given", order_of(places), order_of(given))

    @needs("bin/forestplan")
    def test_plan_of_the_program(self):
        """Without a stored plan it is that of the proved program, as the definitions have it."""
        for name in ("petersen", "barred petersen"):
            done = painter("plan", self.file("net.col", NETWORKS[name]))
            wanted = self.drawn("plan", NETWORKS[name]).encode()
            self.same(name, done, (0, wanted, b""))

    def test_shapes(self):
        """The eight hues come three times: as discs, as rings, and as discs again."""
        plan = "plan\n" + "".join(f"{v} {v}\n" for v in range(1, 25))
        circles = marks(parsed(self.drawn("plan", STAR, text=plan.encode())), "channel")
        rings = [channel for channel, mark in enumerate(circles, 1) if is_ring(mark)]
        self.same("channels", len(circles), 24)
        self.same("rings", rings, [9, 10, 11, 12, 13, 14, 15, 16])

    def test_bits(self):
        """The names and what four bit steps make of them, by hand: 1010 and 1100 differ first in place 1, where the
        first has a 1, so it becomes 2 * 1 + 1; what has no parent becomes its digit in place 0."""
        network = b"p edge 2 1\ni 1 10\ni 2 12\ne 1 2\n"
        pairs = titles(parsed(self.drawn("bits", network)), "pair")
        wanted = [[2, 10, 12], [3, 3, 0], [4, 1, 0], [5, 1, 0], [6, 1, 0]]
        self.same(
            "pulse and both", [list(map(int, re.findall(r"\d+", own))) for own in pairs], wanted
        )

    def test_rounds(self):
        self.rounds_rows("petersen", NETWORKS["petersen"], range(3))
        for forests, options in (([0], ()), ([1], ("--forest", 1)), ([4, 5], ("--forest", "4..5"))):
            self.rounds_rows("queen5_5", QUEEN, forests, *options)

    def rounds_rows(self, name, network, drawn, *options):
        facts, root = ColouringRounds(network_in_bytes(network)), parsed(
            self.drawn("rounds", network, *options)
        )
        net = facts.network
        row = self.rows_of(f"rounds of {name}")
        row("its forests", titles(root, "colours"), [f"forest {f}" for f in drawn])
        said = re.findall(WHICH_FORESTS, " ".join(texts(root)))
        last = str(drawn[-1]) if len(drawn) > 1 else ""
        wanted = [(str(drawn[0]), last, str(net.forest_count - 1))]
        row("it says which are drawn", said, wanted if len(drawn) < net.forest_count else [])
        legend = [number for _, _, number in numbered(root, "legend")]
        row("the colours, and a channel", legend, [*"012345", "1"])
        # Of many steps of a merge those at which no node chooses have no column.
        every = [3 * facts.width] * len(drawn)
        if sum(every) > 40:
            every = [len({*turns_in(facts, f).values()}) for f in drawn]
        row("columns of its merges", len(texts_of(root, "old")), sum(every))

    def test_players(self):
        for name, network in PLAYED.items():
            self.player_rows(name, network)

    def player_rows(self, name, network):
        facts, data = ColouringRounds(network_in_bytes(network)), data_of(
            self.drawn("player", network)
        )
        net, film, last = facts.network, data["film"], last_pulse(facts.network)
        row = self.rows_of(f"player of {name}")
        row("its last pulse", film["last"], last)
        parents = [[v, f, w] for v, ws in net.higher.items() for f, w in enumerate(ws)]
        row("parents", film["parents"], parents)
        row("the first colours", film["first"], [*facts.merged[0].values()])
        row("its edges", sorted(map(tuple, data["net"]["edges"])), net.edges)
        shown = {key: [pulse[key] for pulse in film["pulses"]] for key in film["pulses"][0]}
        row("messages", shown["puts"], [as_lists(pulse.puts) for pulse in facts.pulses])
        lists = [colours_after(facts, p) for p in range(last + 1)]
        row("colours", shown["colours"], lists)
        chosen = [{str(v): c for v, c in pulse.chosen.items()} for pulse in facts.pulses]
        row("choices", shown["chosen"], chosen)
        steps = [merge_step(net, p) for p in range(FIRST_MERGE, last + 1)]
        row("whose turn it is", shown["step"][FIRST_MERGE:], as_lists(steps))
        said = [re.findall(TURN, text) for text in shown["said"][FIRST_MERGE:]]
        wanted = [[(str(k), str(f), str(j + 1), str(k), str(j))] for f, k, j in steps]
        row("the turn in words", said, wanted)
