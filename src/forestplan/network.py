"""What a network is: commands read it, the definitions are of it, and pictures show it."""
from collections.abc import Collection, Mapping
from dataclasses import InitVar, dataclass, field
from functools import cached_property

Edge = tuple[int, int]
Places = Mapping[int, tuple[float, float]]
# What a network is called that has no name.
NAMELESS = "this network"
# Identifiers are below this number.
IDENTIFIERS = 2**128
# How many edges a prompt shows.
MOST_SHOWN = 12


@dataclass(eq=False, repr=False)
class Network:
    """The nodes from 1 to `nodes`, and the edges between them: `edges` has pairs, the lower node first, ascending,
    and `neighbours[v]` nodes, ascending.

    `given_identifiers[v]` is an identifier that v was given, below 2^128, and `identifiers[v]` that or v. `bars[v]` are
    the channels from 1 that are barred at v, ascending, if some are; `barred[v]` are the same as colours from 0, a set
    of each node. `names[v]` and `places[v]`, as (x, y) with y growing downwards, are there where they are known, and
    `name` is what the network is called.

    `higher[v]` are the neighbours with a higher identifier, by ascending identifier: entry f is v's parent in forest f.
    `number[frozenset((v, w))]` is the forest of an edge. `span` is the greatest degree and the greatest number of bars
    together: the colours of a plan are 0 to `span`, and `channels` is how many these are.

    >>> path = Network(3, [(2, 1), (2, 3)], given_identifiers={2: 17}, bars={1: [4]})
    >>> path.edges, path.neighbours[2], path.channels
    ([(1, 2), (2, 3)], [1, 3], 4)
    >>> path.identifiers, path.higher
    ({1: 1, 2: 17, 3: 3}, {1: [2], 2: [], 3: [2]})

    Raises ValueError if an edge joins a node to itself; if an edge, an identifier or a bar names a node that isn't
    there; if two nodes have one identifier, or it isn't from 0 to 2^128 - 1; and of a barred channel below 1.
    """

    nodes: int
    edges: Collection[Edge]
    given_identifiers: Mapping[int, int] = field(default_factory=dict)
    bars: Mapping[int, Collection[int]] = field(default_factory=dict)
    names: Mapping[int, str] = field(default_factory=dict)
    places: Places = field(default_factory=dict)
    name: str = NAMELESS
    # Readers say themselves which nodes have one identifier, after what else a file has wrong.
    may_repeat: InitVar[bool] = False

    def __repr__(self) -> str:
        """What a prompt shows of it.

        >>> Network(3, [(1, 2), (2, 3)], name="path3")
        <Network path3: nodes 1 to 3, edges 1-2 2-3>
        """
        edges = [f" {v}-{w}" for v, w in self.edges][:MOST_SHOWN]
        more = f" and {len(self.edges) - MOST_SHOWN} more" * (len(self.edges) > MOST_SHOWN)
        called = "" if self.name == NAMELESS else f" {self.name}"
        return f"<Network{called}: nodes 1 to {self.nodes}, edges{''.join(edges) or ' none'}{more}>"

    def __post_init__(self, may_repeat: bool) -> None:
        self.node_numbers = range(1, self.nodes + 1)
        self.edges = sorted({(min(v, w), max(v, w)) for v, w in self.edges})
        self.neighbours: dict[int, list[int]] = {v: [] for v in self.node_numbers}
        for v, w in self.edges:
            if not 1 <= v < w <= self.nodes:
                raise ValueError(
                    f"({v}, {w}) is no edge: it joins two different nodes from 1 to {self.nodes}"
                )
            self.neighbours[v].append(w)
            self.neighbours[w].append(v)
        self.identifiers: dict[int, int] = {
            v: self.given_identifiers.get(v, v) for v in self.node_numbers
        }
        self.check_identifiers(may_repeat)
        bars = {v: sorted(channels) for v, channels in sorted(self.bars.items()) if channels}
        for v, channels in bars.items():
            check_node(v, self.nodes, "bar")
            if channels[0] < 1:
                raise ValueError(
                    f"channel {channels[0]} is barred at node {v}: channels begin at 1"
                )
        self.bars = bars
        self.greatest_degree = max(map(len, self.neighbours.values()), default=0)
        self.greatest_bars = max(map(len, self.bars.values()), default=0)
        self.span = self.greatest_degree + self.greatest_bars
        self.channels = self.span + 1

    def check_identifiers(self, may_repeat: bool) -> None:
        """Raises ValueError of an identifier of no node, or out of range, and of two that are alike."""
        for v, number in self.given_identifiers.items():
            check_node(v, self.nodes, "identifier")
            if not 0 <= number < IDENTIFIERS:
                raise ValueError(f"the identifier of node {v} isn't from 0 to 2^128 - 1")
        if may_repeat or not self.given_identifiers:
            return
        owners = {number: v for v, number in self.identifiers.items()}
        for v, number in self.identifiers.items():
            if owners[number] != v:
                raise ValueError(f"nodes {v} and {owners[number]} have one identifier, {number}")

    @cached_property
    def barred(self) -> dict[int, frozenset[int]]:
        """The colours from 0 that are barred at each node."""
        return {
            v: frozenset(channel - 1 for channel in self.bars.get(v, ())) for v in self.node_numbers
        }

    @cached_property
    def higher(self) -> dict[int, list[int]]:
        """The parents of each node, by forest."""
        own = self.identifiers
        return {
            v: sorted((w for w in near if own[w] > own[v]), key=own.__getitem__)
            for v, near in self.neighbours.items()
        }

    @cached_property
    def number(self) -> dict[frozenset[int], int]:
        """The forest of each edge."""
        return {
            frozenset((v, w)): f
            for v, parents in self.higher.items()
            for f, w in enumerate(parents)
        }

    @cached_property
    def forest_count(self) -> int:
        """How many forests there are."""
        return max(map(len, self.higher.values()), default=0)

    def parent(self, f: int, v: int) -> int | None:
        """The parent of v in forest f, from 0; None at a root.

        >>> edge = Network(2, [(1, 2)])
        >>> edge.parent(0, 1), edge.parent(0, 2)
        (2, None)
        """
        return self.higher[v][f] if f < len(self.higher[v]) else None


def check_node(v: int, nodes: int, what: str) -> None:
    """Raises ValueError if there is no node v, which has something, among the nodes from 1."""
    if not 1 <= v <= nodes:
        raise ValueError(f"there is no node {v} for the {what}: the nodes are 1 to {nodes}")


def order(span: int, barring: bool, sweep: int) -> list[int]:
    """The colours in the order in which recolouring has them choose in a sweep, counted from 0, as sweeps are.

    >>> order(3, barring=False, sweep=0), order(3, barring=True, sweep=1)
    ([3, 2, 1, 0], [0, 1, 2, 3])
    """
    down = list(range(span, -1, -1))
    if barring:
        return down[::-1] if sweep % 2 else down
    if sweep % 3 == 0:
        return down
    first = sweep % 3 - 1
    return sorted(down, key=lambda colour: colour % 2 != first)
