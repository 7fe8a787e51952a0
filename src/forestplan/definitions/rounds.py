"""The rounds of the colouring pulse by pulse, as the nodes of src/forestplan/definitions/nodes.py make them, and their
text (docs/claim/FORMATS.md). Plans come from src/forestplan/definitions/colours.py, without a node.

A pulse p is 0 to R, a node v from 1, a forest f and a colour from 0."""
from collections.abc import Iterable, Iterator
from dataclasses import dataclass, field
from functools import cached_property
from operator import itemgetter

from forestplan.definitions.colours import Colours, joined_lines
from forestplan.definitions.nodes import Colouring, last_pulse
from forestplan.definitions.program import Slot, pulses_of
from forestplan.fault_codes import Code
from forestplan.faults import Fault
from forestplan.network import Edge, Network

# A payload that is sent: from, to, and its words.
Put = tuple[int, int, str, int]

SEED = 2
FIRST_MERGE = 13
LAST_COLOUR = FIRST_MERGE - 1
WORK_NAMES = ["step"] * 4 + ["shift", "drop"] * 3


def rounds_text(net: Network) -> bytes:
    """The text of the rounds of the colouring on a network `net`, in bytes; its identifiers may be any numbers that
    differ.

    >>> rounds_text(Network(2, [(1, 2)])).splitlines()[:3]
    [b'rounds 1 2 1 1 18', b'pulse 0 greet', b'1 put 2 payload 0 hello 1']
    """
    return joined_lines(ColouringRounds(net).lines())


def first_line_of(net: Network) -> str:
    """The first line. Edition 1, and edition 2 if a channel is barred."""
    sizes = [1, net.nodes, net.greatest_degree, net.forest_count, last_pulse(net)]
    if net.greatest_bars:
        sizes[:3] = [2, *sizes[1:3], net.greatest_bars]
    return "rounds " + " ".join(map(str, sizes))


def phase_words(net: Network, p: int) -> str:
    """What pulse p, from 0, is for.

    >>> edge = Network(2, [(1, 2)])
    >>> [phase_words(edge, p) for p in (0, 3, 7, 8, 13)]
    ['greet', 'step', 'shift', 'drop', 'merge 0 0 0']
    """
    if p < FIRST_MERGE:
        return (["greet", "orient", "seed"] + WORK_NAMES)[p]
    return "merge {} {} {}".format(*merge_step(net, p))


def merge_step(net: Network, p: int) -> tuple[int, int, int]:
    """Forest, three-colour (0 to 2) and old colour (0 to the span) of a merge pulse, 13 to R.

    >>> merge_step(Network(2, [(1, 2)]), 16)
    (0, 1, 1)
    """
    forest, step = divmod(p - FIRST_MERGE, 3 * net.channels)
    three, old = divmod(step, net.span + 1)
    return forest, three, old


def puts_of(net: Network, sent: dict[int, list[Slot]]) -> list[Put]:
    """What the nodes send in a pulse."""
    return [
        (v, w, slot.word, slot.number)
        for v, slots in sent.items()
        for w, slot in zip(net.neighbours[v], slots)
        if slot
    ]


@dataclass
class Pulse:
    """What all nodes did in one pulse: `puts` as (v, w, word, number). Of the colouring `phase` is what the pulse is
    for, `step` is (forest, three-colour, old colour) in a merge pulse, `colours[v, f]` are those after it, and
    `chosen[v]` is what v chose in it, if it did. Of another program `results[v]` is what v has found after it, in
    words, and `drawn[v]`, if the program says it, a colour and the node at the other end of an edge.
    """

    number: int
    puts: list[Put]
    phase: str = ""
    step: tuple[int, int, int] | None = None
    colours: dict[tuple[int, int], int] = field(default_factory=dict)
    chosen: Colours = field(default_factory=dict)
    results: dict[int, str] = field(default_factory=dict)
    drawn: dict[int, tuple[int | None, int | None]] = field(default_factory=dict)

    def turn(self) -> tuple[int, int, int]:
        """The step of a pulse of a merge."""
        if self.step is None:
            raise ValueError(f"pulse {self.number} is of no merge")
        return self.step

    def lines(self, what_for: str, own: Iterable[tuple[int, str]]) -> Iterator[str]:
        """Its line of a text of rounds, and after it the lines of each node: its `own`, and its puts."""
        yield f"pulse {self.number} {what_for}".rstrip()
        puts = [
            (v, f"put {w} payload {self.number} {word} {number}")
            for v, w, word, number in self.puts
        ]
        for v, text in sorted([*own, *puts], key=itemgetter(0)):
            yield f"{v} {text}"


class ColouringRounds:
    """The synchronous run of the colouring on a `network`, played once it is asked for: `pulses` are those from 0 to
    `last`.
    `parents[v, f]` is v's parent in forest f, and `forest_of[v, w]` the forest of an edge. `colours[f][p]` are the
    colours in forest f after pulse p, 2 to 12, and `merged[f]` the merged colours once the forests below f are merged;
    `first`, which is `merged[0]`, are the least colours that aren't barred. `turns[f, v]` is the pulse of the merge of
    forest f at which v chooses.

    >>> rounds = ColouringRounds(Network(2, [(1, 2)]))
    >>> rounds.parents, rounds.turns, rounds.merged[-1]
    ({(1, 0): 2}, {(0, 1): 13, (0, 2): 15}, {1: 0, 2: 1})
    """

    def __init__(self, network: Network) -> None:
        self.network = network
        self.forests = network.forest_count
        self.width = network.channels
        self.last = last_pulse(network)

    @cached_property
    def parents(self) -> dict[tuple[int, int], int]:
        """The parent of v in forest f, by (v, f)."""
        return {(v, f): w for v, ws in self.network.higher.items() for f, w in enumerate(ws)}

    @cached_property
    def forest_of(self) -> dict[Edge, int]:
        """The forest of each edge, in both directions."""
        return {pair: f for (v, f), w in self.parents.items() for pair in ((v, w), (w, v))}

    @cached_property
    def pulses(self) -> list[Pulse]:
        """All pulses, from 0 to the last."""
        nodes = {v: Colouring(self.network, v) for v in self.network.node_numbers}
        return [
            self.pulse(p, nodes, puts_of(self.network, sent))
            for p, nodes, _, sent in pulses_of(self.network, nodes, self.last)
        ]

    def pulse(self, p: int, nodes: dict[int, Colouring], puts: list[Put]) -> Pulse:
        """What all nodes have done in a pulse, after which they are these nodes."""
        if p >= FIRST_MERGE:
            turn = merge_step(self.network, p)
            chosen = {v: node.merged for v, node in nodes.items() if node.has_turn(turn)}
            return Pulse(p, puts, "merge", turn, chosen=chosen)
        colours = {}
        if p >= SEED:
            colours = {(v, f): c for v, node in nodes.items() for f, c in enumerate(node.colours)}
        return Pulse(p, puts, phase_words(self.network, p), colours=colours)

    @cached_property
    def colours(self) -> list[dict[int, Colours]]:
        """The colours in each forest, by pulse."""
        found: list[dict[int, Colours]] = [{} for _ in range(self.forests)]
        for pulse in self.pulses:
            for (v, f), colour in pulse.colours.items():
                found[f].setdefault(pulse.number, {})[v] = colour
        return found

    @cached_property
    def turns(self) -> dict[tuple[int, int], int]:
        """The pulse in which v chooses in the merge of forest f, by (f, v)."""
        return {
            (pulse.turn()[0], v): pulse.number
            for pulse in self.pulses[FIRST_MERGE:]
            for v in pulse.chosen
        }

    @cached_property
    def merged(self) -> list[Colours]:
        """The merged colours, by how many forests are merged."""
        found = [{v: Colouring(self.network, v).merged for v in self.network.node_numbers}]
        for f in range(self.forests):
            first = FIRST_MERGE + 3 * self.width * f
            now = dict(found[-1])
            for pulse in self.pulses[first : first + 3 * self.width]:
                now |= pulse.chosen
            found.append(now)
        return found

    @property
    def first(self) -> Colours:
        """The merged colours before the first merge."""
        return self.merged[0]

    def lines(self) -> Iterator[str]:
        """The text of rounds, line by line."""
        yield first_line_of(self.network)
        for pulse in self.pulses:
            own = [(v, f"colour {f} {colour}") for (v, f), colour in pulse.colours.items()]
            own += [(v, f"chose {colour}") for v, colour in pulse.chosen.items()]
            yield from pulse.lines(phase_words(self.network, pulse.number), own)

    def asked_forests(self, asked: tuple[int, int] | None, usual: int = 1) -> range:
        """The forests A to B that are asked for, if the network has them; else the `usual` first ones."""
        if not self.forests:
            raise Fault(Code.NO_FOREST, name=self.network.name)
        first, last = asked or (0, min(self.forests, usual) - 1)
        if not 0 <= first <= last < self.forests:
            if self.forests == 1:
                raise Fault(Code.ONE_FOREST, name=self.network.name)
            raise Fault(Code.FORESTS, name=self.network.name, last=self.forests - 1)
        return range(first, last + 1)

    def in_forest(self, v: int, f: int) -> bool:
        """Whether an edge of forest f ends at v."""
        return (v, f) in self.parents or any(
            self.parents.get((w, f)) == v for w in self.network.neighbours[v]
        )
