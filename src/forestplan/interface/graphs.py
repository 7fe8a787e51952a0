"""A graph of Python, with bars and a licence, as the text that the programs read. What is given is looked at here."""
import numbers
from collections.abc import Hashable, Iterable, Mapping, Sequence
from typing import Any

from forestplan import limits
from forestplan.networks import search_order


Node = Hashable
Bars = Mapping[Any, Iterable[int]] | None
Channels = Sequence[int] | None
# A graph of networkx, or a dict with a list of the neighbours of each node.
Graph = Any
# The numbers of the nodes, and the two ends of an edge.
Numbers = Mapping[Node, int]
Pair = tuple[Node, Node]

# No channel of a licence has a greater number.
MAX_REAL = 10**12


def bounded(value: Any, what: str, least: float, most: float, kind: type = numbers.Real) -> float:
    """A number in these bounds; a truth value is none."""
    is_one = isinstance(value, kind) and not isinstance(value, bool)
    if not is_one:
        whole = "whole " if kind is numbers.Integral else ""
        raise TypeError(f"{what} is {value!r}, and has to be a {whole}number")
    if not least <= value <= most:
        raise ValueError(f"{what} is {value}, and has to be from {least:,} to {most:,}")
    number: float = value
    return number


def whole_value(value: object, what: str, least: int, most: int) -> int:
    return int(bounded(value, what, least, most, numbers.Integral))


class Licence:
    """The channels that all may use, in order of preference. Channel k of a program is the k-th of them; without a
    licence it is k itself."""

    def __init__(self, channels: Channels) -> None:
        self.channels = channels
        if channels is None:
            return
        if isinstance(channels, (str, bytes)) or not isinstance(channels, Sequence):
            raise TypeError(
                f"the licence is {channels!r}, and has to be a list of whole numbers, in order of preference"
            )
        self.channels = [
            whole_value(one, "a channel of the licence", 0, MAX_REAL) for one in channels
        ]
        bounded(len(channels), "the number of channels of the licence", 0, limits.MAX_CHANNEL)
        self.counted = {channel: k for k, channel in enumerate(self.channels, 1)}
        if len(self.counted) < len(channels):
            raise ValueError("the licence names a channel twice")

    def number(self, channel: object, what: str) -> int | None:
        """Which channel of a program it is; None if the licence lacks it."""
        if self.channels is None:
            return whole_value(channel, what, 1, limits.MAX_CHANNEL)
        return self.counted.get(whole_value(channel, what, 0, MAX_REAL))


class Sites(dict[Node, list[Node]]):
    """{site: [the sites within its reach]}, as `sites` makes it of their `names`: a graph that all functions take.
    `places` has where a site is on a map in kilometres, (x, y) with y growing downwards.

    >>> Sites(["Ulm", "Hof"])
    {'Ulm': [], 'Hof': []}
    """

    def __init__(self, names: Iterable[Node] = ()) -> None:
        super().__init__((name, []) for name in names)
        self.places: dict[Node, tuple[float, float]] = {}


def text_of(G: Graph, bars: Bars = None, licence: Channels = None) -> tuple[str, list[Node]]:
    """A graph G as the programs read it, with its `bars` and `licence`, as `forestplan.plan` has them, and its nodes in
    the order of their numbers.

    >>> text, order = text_of({"Ulm": ["Hof"], "Hof": []})
    >>> text.splitlines()[-1], order
    ('e 1 2', ['Ulm', 'Hof'])

    Raises TypeError and ValueError, as `forestplan.plan` does.
    """
    pairs = edge_pairs(G)
    given = list(dict.fromkeys([*G, *(node for pair in pairs for node in pair)]))
    order = order_of_nodes(given, pairs)
    number = {node: v for v, node in enumerate(order, 1)}
    barred = barred_in(bars, number, Licence(licence))
    ends = [sorted((number[one], number[other])) for one, other in pairs]
    edges = sorted({(v, w) for v, w in ends if v != w})
    bounded(len(order), "the number of nodes", 0, limits.MAX_NODES)
    bounded(len(edges), "the number of edges", 0, limits.MAX_EDGES)
    lines = [f"c name {v} {' '.join(str(node).split())}" for node, v in number.items()]
    lines.append(f"p edge {len(order)} {len(edges)}")
    lines += lines_of_nodes(G, given, number)
    lines += [f"b {v} {channel}" for v, channel in barred]
    lines += [f"e {v} {w}" for v, w in edges]
    return "\n".join(lines) + "\n", order


def lines_of_nodes(G: object, given: list[Node], number: Numbers) -> list[str]:
    """The places of sites, and identifiers, which count the nodes as they are given."""
    places = G.places if isinstance(G, Sites) else {}
    lines = [f"c at {number[v]} {x:.3f} {y:.3f}" for v, (x, y) in places.items() if v in number]
    return lines + [f"i {number[v]} {k}" for k, v in enumerate(given, 1) if number[v] != k]


def order_of_nodes(given: list[Node], pairs: list[Pair]) -> list[Node]:
    """The nodes as they are given; those of a large graph near their neighbours. Their identifiers stay."""
    if len(given) < search_order.LARGE:
        return given
    neighbours: dict[Node, dict[Node, None]] = {node: {} for node in given}
    for one, other in pairs:
        if one != other:
            neighbours[one][other] = neighbours[other][one] = None
    order: list[Node] = search_order.near_order(neighbours)
    return order


def barred_in(bars: Bars, number: Numbers, licence: Licence) -> list[tuple[int, int]]:
    """The numbers of nodes and of the channels that are barred at them, ascending."""
    if not isinstance(bars, Mapping | None):
        raise TypeError(
            f"bars are {bars!r}, and have to be a dict with the channels barred at a node"
        )
    found = []
    for node, several in (bars or {}).items():
        if node not in number:
            raise ValueError(f"{node!r} is no node of the graph")
        numbers = {
            licence.number(channel, f"a bar of {node!r}")
            for channel in list_or_set(several, f"bars of {node!r}")
        }
        # A bar of a channel that the licence lacks bars nothing.
        own = [channel for channel in numbers if channel is not None]
        bounded(len(own), f"the number of bars of {node!r}", 0, limits.MAX_BARS)
        found += [(number[node], channel) for channel in own]
    return sorted(found)


def edge_pairs(G: Graph) -> list[Pair]:
    """The edges of a graph of networkx, or of a dict of lists."""
    if callable(getattr(G, "edges", None)):
        return [(one, other) for one, other, *_ in G.edges()]
    if not isinstance(G, Mapping):
        raise TypeError(
            f"a {type(G).__name__} is no graph: a graph of networkx is wanted, which has functions that make one "
            "of pairs, tables and matrices, or a dict with a list of the neighbours of each node"
        )
    return [(one, other) for one, several in G.items() for other in neighbours_in(G, one, several)]


def neighbours_in(G: Mapping[Node, object], one: Node, several: object) -> list[Node]:
    """The neighbours of a node of a dict: each once, and each with an entry of its own."""
    found = list(list_or_set(several, f"neighbours of {one!r}"))
    for other in found:
        if other not in G:
            raise ValueError(f"a neighbour of {one!r} is {other!r}, which has no entry of its own")
    if len(set(found)) < len(found):
        raise ValueError(f"a neighbour of {one!r} comes twice")
    return found


def list_or_set(several: object, what: str) -> Iterable[Node]:
    """What is in a list or a set; a text isn't taken letter by letter."""
    is_other = isinstance(several, (str, bytes, Mapping))
    if is_other or not isinstance(several, Iterable):
        raise TypeError(f"the {what} are {several!r}, and have to be a list or a set")
    return several
