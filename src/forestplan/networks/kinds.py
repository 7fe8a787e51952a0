"""The kinds of networks that `forestlab network KIND` makes. The same words make the same network, on every machine:
what is chosen at random comes from `random()` of a seed alone, whose numbers Python keeps from version to version."""
import inspect
import random
from collections.abc import Callable, Iterable, Sequence
from itertools import combinations, islice
from math import cos, pi, prod, sin
from typing import NamedTuple

from forestplan.fault_codes import Code
from forestplan.faults import Fault
from forestplan.limits import MAX_EDGES, MAX_NODES
from forestplan.network import Edge, Network, Places
from forestplan.networks.network_text import checked_network
from forestplan.networks.places import near
from forestplan.networks.random_networks import alike_edges, random_below

SIDE = 1000
# Half of a queen's directions: the other half leads back.
WAYS_OF_A_QUEEN = ((1, 0), (0, 1), (1, 1), (-1, 1))


def check_sizes(least: int = 1, **sizes: int) -> None:
    """Refuses the sizes of a network that there isn't, before anything is made."""
    for name, size in sizes.items():
        if size < least:
            raise Fault(Code.SIZE_BELOW_LEAST, name=name.upper(), size=size, least=least)
    if prod(sizes.values()) > MAX_NODES:
        raise Fault(Code.NODES_OF_KIND_ABOVE_LIMIT, nodes=prod(sizes.values()), most=MAX_NODES)


def network_of_edges(nodes: int, edges: Iterable[Edge], places: Places | None = None) -> Network:
    """The network of these edges, of which no more are looked at than one too many."""
    return checked_network(
        Network(nodes, list(islice(edges, MAX_EDGES + 1)), places=places or {}), "that network"
    )


def circle(nodes: Sequence[int]) -> Places:
    """The first node on top, then clockwise."""
    angle = 2 * pi / max(1, len(nodes))
    return {v: (sin(angle * k), -cos(angle * k)) for k, v in enumerate(nodes)}


def path(nodes: int) -> Network:
    """A path: `nodes` nodes in a row, at least one, each joined to the next.

    Returns a `Network` whose places are on a line.

    >>> path(4).edges
    [(1, 2), (2, 3), (3, 4)]

    Raises `Fault` if there are less than one node, or more than a program may have.
    """
    check_sizes(nodes=nodes)
    return network_of_edges(
        nodes, ((v, v + 1) for v in range(1, nodes)), {v: (v - 1, 0) for v in range(1, nodes + 1)}
    )


def ring(nodes: int) -> Network:
    """A ring: `nodes` nodes in a row, at least three, whose ends are joined.

    Returns a `Network` whose places are on a circle.

    >>> ring(4).neighbours[1]
    [2, 4]

    Raises `Fault` if there are less than three nodes, or more than a program may have.
    """
    check_sizes(least=3, nodes=nodes)
    return network_of_edges(
        nodes, ((v, v % nodes + 1) for v in range(1, nodes + 1)), circle(range(1, nodes + 1))
    )


def star(nodes: int) -> Network:
    """A star: of `nodes` nodes, at least one, the last is the centre, and the others are its leaves.

    Returns a `Network` whose leaves have places on a circle.

    >>> star(4).edges
    [(1, 4), (2, 4), (3, 4)]

    Raises `Fault` if there are less than one node, or a centre with more neighbours than a node may have.
    """
    check_sizes(nodes=nodes)
    return network_of_edges(
        nodes, ((v, nodes) for v in range(1, nodes)), circle(range(1, nodes)) | {nodes: (0, 0)}
    )


def complete(nodes: int) -> Network:
    """A complete network: `nodes` nodes, at least one, each joined to each other.

    Returns a `Network` whose places are on a circle.

    >>> len(complete(5).edges)
    10

    Raises `Fault` if there are less than one node, or more nodes or edges than a program may have.
    """
    check_sizes(nodes=nodes)
    return network_of_edges(
        nodes, combinations(range(1, nodes + 1), 2), circle(range(1, nodes + 1))
    )


def board(rows: int, columns: int, ways: Sequence[Edge], far: int) -> Network:
    """The squares of a board, numbered row by row, each joined to those that are up to so far in these directions."""
    check_sizes(rows=rows, columns=columns)
    number = {(x, y): y * columns + x + 1 for y in range(rows) for x in range(columns)}
    moves = [(step * x, step * y) for step in range(1, far + 1) for x, y in ways]
    edges = (
        (v, number[x + across, y + down])
        for (x, y), v in number.items()
        for across, down in moves
        if (x + across, y + down) in number
    )
    return network_of_edges(rows * columns, edges, {v: square for square, v in number.items()})


def grid(rows: int, columns: int) -> Network:
    """A grid: the squares of a board of `rows` times `columns`, each at least one, joined if they share a side.

    Returns a `Network` of the squares, numbered row by row.

    >>> grid(2, 3).neighbours[2]
    [1, 3, 5]

    Raises `Fault` if a size is less than one, or if there are more squares or edges than a program may have.
    """
    return board(rows, columns, ((1, 0), (0, 1)), 1)


def queen(rows: int, columns: int) -> Network:
    """The squares of a board of `rows` times `columns`, each at least one, joined if a queen joins them in one move.

    Returns a `Network` of the squares, numbered row by row.

    >>> queen(3, 3).neighbours[1]
    [2, 3, 4, 5, 7, 9]

    Raises `Fault` if a size is less than one, or if there are more squares or edges than a program may have.
    """
    return board(rows, columns, WAYS_OF_A_QUEEN, max(rows, columns))


def tree(nodes: int, seed: str | int) -> Network:
    """A random tree: of `nodes` nodes, at least one, each but the first is joined to a random one before it.

    The same `seed` gives the same tree, in all versions of Python. Returns a `Network` without places.

    >>> len(tree(9, seed=7).edges)
    8

    Raises `Fault` if there are less than one node, or more nodes or neighbours of one than a program may have.
    """
    check_sizes(nodes=nodes)
    source = random.Random(seed)
    return network_of_edges(
        nodes, ((1 + random_below(source, v - 1), v) for v in range(2, nodes + 1))
    )


def disk(nodes: int, radius: float, seed: str | int) -> Network:
    """A unit-disk graph: `nodes` random places in a square, at least one, joined if they are near each other.

    Two are near if they are less than `radius` sides of the square apart, which is above 0 and at most 2. The same
    `seed` gives the same places, in all versions of Python. Returns a `Network` whose places are those, in a square of
    side 1000.

    >>> len(disk(5, 2, seed=7).edges)
    10

    Raises `Fault` if there are less than one node, more nodes, edges or neighbours of one than a program may have, or
    another radius.
    """
    check_sizes(nodes=nodes)
    if not 0 < radius <= 2:
        raise Fault(Code.RADIUS, radius=radius)
    source = random.Random(seed)
    free = set()
    places: dict[int, tuple[int, int]] = {}
    while len(places) < nodes:
        place = random_below(source, SIDE + 1), random_below(source, SIDE + 1)
        if place not in free:
            free.add(place)
            places[len(places) + 1] = place
    pairs = near([(x, y, 0) for x, y in places.values()], radius * SIDE, is_globe=False)
    return network_of_edges(nodes, ((v + 1, w + 1) for v, w in pairs), places)


def random_network(
    nodes: int,
    edges: int,
    seed: str | int,
    connected: bool = False,
    neighbours: int | None = None,
    forests: int | None = None,
) -> Network:
    """A network of `nodes` nodes, at least one, and so many random `edges`, each set of which is as likely as any
    other.

    With wishes it isn't: it is `connected`, the greatest number of neighbours of a node is `neighbours`, and the
    number of forests is `forests`. The same `seed` gives the same network, in all versions of Python. Returns a
    `Network` without places.

    >>> random_network(4, 6, seed=7).edges == complete(4).edges
    True
    >>> random_network(9, 12, seed=7, connected=True, neighbours=4).greatest_degree
    4

    Raises `Fault` if there are less than one node, another number of edges than such nodes have, more than a program
    may have of nodes, edges or neighbours of one, or if no network with these wishes is found.
    """
    check_sizes(nodes=nodes)
    pairs = nodes * (nodes - 1) // 2
    if not 0 <= edges <= min(pairs, MAX_EDGES):
        raise Fault(Code.EDGES_OF_NODES, edges=edges, nodes=nodes, most=min(pairs, MAX_EDGES))
    source = random.Random(seed)
    if connected or (neighbours, forests) != (None, None):
        found = alike_edges(source, nodes, edges, connected, neighbours, forests)
        if found is None:
            raise Fault(Code.NO_NETWORK_WITH_WISHES)
        return network_of_edges(nodes, found)
    chosen: set[Edge] = set()
    while len(chosen) < min(edges, pairs - edges):
        v, w = 1 + random_below(source, nodes), 1 + random_below(source, nodes)
        if v != w:
            chosen.add((min(v, w), max(v, w)))
    if edges > pairs - edges:
        chosen = set(combinations(range(1, nodes + 1), 2)) - chosen
    return network_of_edges(nodes, chosen)


class NetworkKind(NamedTuple):
    """A kind of networks, one of `KINDS`: the `function` that makes them, what a network of it is or `does`, in words,
    and `more` of it.

    >>> KINDS["ring"].sizes, KINDS["tree"].is_by_chance, KINDS["ring"].make(5).nodes
    (['nodes'], True, 5)
    """

    function: Callable[..., Network]
    does: str
    more: str = ""

    def make(self, *counts: float, **named: float | bool | None) -> Network:
        """A network of the kind, as `function` makes it of these arguments; raises `Fault` as that does."""
        return self.function(*counts, **named)

    @property
    def chosen(self) -> list[str]:
        """What `make` is told."""
        return list(inspect.signature(self.function).parameters)

    @property
    def sizes(self) -> list[str]:
        """The words after the kind: how many of these there are."""
        return [name for name in self.chosen if name in ("nodes", "rows", "columns", "edges")]

    @property
    def is_by_chance(self) -> bool:
        """Whether it needs a seed."""
        return "seed" in self.chosen


KINDS = {
    "path": NetworkKind(path, "a row"),
    "ring": NetworkKind(ring, "a row whose ends are joined"),
    "star": NetworkKind(
        star,
        "one centre, which is the last node; the others are its leaves",
        "So there is one forest.",
    ),
    "complete": NetworkKind(complete, "each node is joined to each other"),
    "grid": NetworkKind(grid, "squares of a board that share a side, numbered row by row"),
    "queen": NetworkKind(
        queen, "squares of a board that a queen joins in one move", "They are numbered row by row."
    ),
    "tree": NetworkKind(tree, "each node but the first is joined to a random one before it"),
    "disk": NetworkKind(
        disk,
        "random places in a square, joined if they are near",
        "So transmitters interfere that are near each other (a unit-disk graph).",
    ),
    "random": NetworkKind(
        random_network,
        "that many random edges",
        "Each choice of edges is as likely as any other. With wishes, as --connected --neighbours 3\n"
        "--forests 2, it isn't, but the networks of all seeds are equally hard: with --neighbours D\n"
        "and --forests U the last pulse of each is 12 + 3·U·(D + 1).",
    ),
}
