"""The definition of the colours beside the nodes of the rounds, and `plain` and `plan` beside it (test_black_box.py has
plans by hand); and networks by chance, the same in every run."""
import itertools
import random

from forestplan.definitions.colours import first_colours, merge, plan_text, three
from forestplan.definitions.rounds import LAST_COLOUR, ColouringRounds, rounds_text
from forestplan.network import Network
from forestplan.networks import kinds
from forestplan.networks.kinds import KINDS
from forestplan.networks.network_text import network_in_bytes
from forestplan.networks.texts import plain_text
from tests.cases import Case, called
from tests.settings import PLAN
from tests.tools import needs

# Networks by chance: of how many nodes at most, and by which seed.
NODES, SEED = 12, 20


def long_names(source, nodes):
    """Identifiers of some nodes, great ones and small ones, no two the same."""
    while True:
        given = {
            v: source.choice(
                (
                    source.randrange(2**128),
                    source.randrange(2 * nodes),
                    2 ** source.choice((32, 64, 128)) - 1 - source.randrange(2 * nodes),
                )
            )
            for v in range(1, nodes + 1)
            if source.random() < 0.8
        }
        if len({given.get(v, v) for v in range(1, nodes + 1)}) == nodes:
            return given


def some_bars(source, nodes):
    """Channels that are barred at some nodes, low ones mostly; at most three of a node."""
    bars = {
        v: {
            source.choice((source.randint(1, 4), source.randint(1, nodes + 2), 2048))
            for _ in range(source.choice((1, 1, 2, 3)))
        }
        for v in range(1, nodes + 1)
        if source.random() < 0.5
    }
    return bars or {1: {1}}


def text_of(source, nodes, edges, names, bars):
    """A network text with the edges in any order and direction, some of them again from the other end, and identifiers
    and bars among them, bars twice now and then."""
    lines = [pair if source.random() < 0.5 else pair[::-1] for pair in sorted(edges)]
    lines += [pair[::-1] for pair in lines if source.random() < 0.1]
    source.shuffle(lines)
    rows = [b"e %d %d\n" % pair for pair in lines]
    for pair in names.items():
        rows.insert(source.randint(0, len(rows)), b"i %d %d\n" % pair)
    for v, channels in bars.items():
        for channel in [*channels, *channels][: source.randint(1, 2) * len(channels)]:
            rows.insert(source.randint(0, len(rows)), b"b %d %d\n" % (v, channel))
    return f"p edge {nodes} {len(lines)}\n".encode() + b"".join(rows)


def reached(net, v):
    """The distance of each node that can be reached from v."""
    found, layer = {v: 0}, [v]
    while layer:
        layer = sorted({w for u in layer for w in net.neighbours[u]} - set(found))
        found |= dict.fromkeys(layer, max(found.values()) + 1)
    return found


def payloads_of(net):
    """How many payloads the rounds send, without their nodes. Each edge has a greeting both ways, a label, and ten
    colours for the child. In the merge of a forest each node chooses once, and tells it by its edges of the forests
    so far; in the last step of a merge nobody tells it any more."""
    forest_of = {}
    for v in net.node_numbers:
        higher = [w for w in net.neighbours[v] if net.identifiers[w] > net.identifiers[v]]
        for f, w in enumerate(sorted(higher, key=net.identifiers.get)):
            forest_of[v, w] = forest_of[w, v] = f
    payloads, merged = 13 * len(net.edges), first_colours(net)
    for f in range(net.forest_count):
        colours = three(net, f)
        tell = [v for v in net.node_numbers if (colours[v], merged[v]) != (2, net.span)]
        payloads += sum(forest_of[v, w] <= f for v in tell for w in net.neighbours[v])
        merged = merge(net, f, merged)
    return payloads


def pairs_of(nodes):
    return list(itertools.combinations(range(1, nodes + 1), 2))


def all_of(nodes):
    """Each set of edges on so many nodes, those with few edges first."""
    pairs = pairs_of(nodes)
    return itertools.chain(
        *(itertools.combinations(pairs, count) for count in range(len(pairs) + 1))
    )


def networks_by_chance(count, most=NODES, seed=SEED):
    """The texts of networks of any density, with identifiers of their own, every other one with barred channels."""
    source = random.Random(seed)
    for k in range(count):
        nodes, density = source.randint(1, most), source.random()
        edges = [pair for pair in pairs_of(nodes) if source.random() < density]
        names, bars = long_names(source, nodes), some_bars(source, nodes) if k % 2 else {}
        yield text_of(source, nodes, edges, names, bars)


class Definitions(Case):
    def test_places(self):
        """Of a network that is drawn in a row or a circle each node has a place, and nothing else has."""
        for make in (kinds.path, kinds.ring, kinds.star, kinds.complete):
            for nodes in (1, 2, 3, 7):
                if make is not kinds.ring or nodes > 2:
                    self.same(
                        f"{make.__name__} {nodes}", [*make(nodes).places], [*range(1, nodes + 1)]
                    )

    def test_first_lines_of_rounds(self):
        """Those of docs/claim/FORMATS.md: of two nodes, and of the same with a channel that is barred."""
        rows: tuple[tuple[dict[int, list[int]], bytes], ...] = (
            ({}, b"rounds 1 2 1 1 18"),
            ({1: [1]}, b"rounds 2 2 1 1 1 21"),
        )
        for bars, first in rows:
            found = rounds_text(Network(2, [(1, 2)], {}, bars)).split(b"\n")[0]
            self.same(f"bars {bars}", found, first)

    def test_two_definitions(self):
        """The lists of src/forestplan/definitions/colours.py are what the nodes of the rounds come to, forest by
        forest."""
        for number, text in enumerate(networks_by_chance(60, 24), 1):
            net = network_in_bytes(text)
            rounds, merged = ColouringRounds(net), [first_colours(net)]
            for f in range(net.forest_count):
                merged.append(merge(net, f, merged[f]))
            threes = [three(net, f) for f in range(net.forest_count)]
            found = [of_pulse[LAST_COLOUR] for of_pulse in rounds.colours]
            self.same(f"network {number}: three colours of each forest", found, threes)
            self.same(f"network {number}: after each merge", rounds.merged, merged)
            payloads = sum(len(pulse.puts) for pulse in rounds.pulses)
            self.same(f"network {number}: payloads", payloads, payloads_of(net))

    @needs("forestplan")
    def test_plain_and_plan(self):
        """On networks with identifiers and bars of their own, `plan` by each pair of workers and capacity."""
        pairs = itertools.product((1, 2, 4, 64), repeat=2)
        for network, (workers, capacity) in zip(networks_by_chance(16, 24, 2026), pairs):
            wanted = 0, plan_text(network_in_bytes(network)), b""
            for arguments in (("plain",), ("plan", "--workers", workers, "--capacity", capacity)):
                self.same(
                    f"{arguments} of {network}", called(PLAN, *arguments, data=network), wanted
                )
        network = KINDS["grid"].make(100, 200)
        done = called(PLAN, "plain", data=plain_text(network).encode())
        self.same("plain of 20,000 nodes", done, (0, plan_text(network), b""))
