"""Edges by chance that are alike: connected if that is asked for, with a greatest number of neighbours and of forests.
So each network of them has as many rounds, and is as hard as any other. `forestlab network random` and `forestlab
sheet` make them."""
from collections.abc import Iterable
from random import Random

from forestplan.network import Edge


# How many edges are tried in all, how many networks at most and at least, and how many pairs for each edge.
EDGES_TRIED = 40_000
MOST_TRIES = 2000
LEAST_TRIES = 20
PAIRS = 40


def random_below(source: Random, bound: int) -> int:
    """A random number from 0 to bound - 1, the same on every machine.

    >>> 0 <= random_below(Random(7), 10) < 10
    True
    """
    return int(source.random() * bound)


def shuffled(source: Random, things: Iterable[int]) -> list[int]:
    """The things in a random order, the same on every machine.

    >>> sorted(shuffled(Random(7), [3, 1, 2]))
    [1, 2, 3]
    """
    order = list(things)
    for at in range(len(order) - 1, 0, -1):
        other = random_below(source, at + 1)
        order[at], order[other] = order[other], order[at]
    return order


def alike_edges(
    source: Random,
    nodes: int,
    edges: int,
    connected: bool = False,
    neighbours: int | None = None,
    forests: int | None = None,
) -> set[Edge] | None:
    """`edges` different random edges, or None if none were found in some tries. `neighbours` is the greatest number of
    neighbours of a node, and `forests` of neighbours of higher number.

    >>> sorted(alike_edges(Random(7), 3, 3))
    [(1, 2), (1, 3), (2, 3)]
    >>> alike_edges(Random(7), 4, 2, connected=True) is None
    True
    """
    if connected and edges < nodes - 1 or neighbours is not None and 2 * edges > nodes * neighbours:
        return None
    for _ in range(max(LEAST_TRIES, min(MOST_TRIES, EDGES_TRIED // max(1, edges)))):
        found, degree, higher = grown(source, nodes, edges, connected, neighbours, forests)
        if len(found) == edges and neighbours in (None, degree) and forests in (None, higher):
            return found
    return None


def grown(
    source: Random,
    nodes: int,
    edges: int,
    connected: bool,
    neighbours: int | None,
    forests: int | None,
) -> tuple[set[Edge], int, int]:
    """Edges that are added one by one, as long as no node gets too many neighbours; the greatest number of neighbours,
    and of those of higher number. Connected ones begin with a tree: each node, in an order by chance, is joined to one
    before it that has room."""
    found = set()
    degree = [0] * (nodes + 1)
    higher = [0] * (nodes + 1)

    def join(v: int, w: int) -> bool:
        """Adds an edge, and says whether that could be done."""
        v, w = min(v, w), max(v, w)
        if (
            v == w
            or (v, w) in found
            or neighbours in (degree[v], degree[w])
            or higher[v] == forests
        ):
            return False
        found.add((v, w))
        degree[v] += 1
        degree[w] += 1
        higher[v] += 1
        return True

    order = shuffled(source, range(1, nodes + 1)) if connected else []
    if all(
        any(join(order[at], order[random_below(source, at)]) for _ in range(PAIRS))
        for at in range(1, len(order))
    ):
        for _ in range(PAIRS * edges):
            if len(found) >= edges:
                break
            join(1 + random_below(source, nodes), 1 + random_below(source, nodes))
    return found, max(degree), max(higher)
