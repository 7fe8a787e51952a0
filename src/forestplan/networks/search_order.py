"""An order in which neighbours are near each other. A large network whose nodes are numbered so takes less time, since
what a run looks at together is together in memory."""
from collections.abc import Hashable, Iterable, Mapping
from typing import TypeVar

Node = TypeVar("Node", bound=Hashable)

# A network of so many nodes is numbered near each other where it is written; a lesson's network stays as it is.
LARGE = 1000


def near_order(neighbours: Mapping[Node, Iterable[Node]]) -> list[Node]:
    """The nodes by breadth first search, from one with the fewest neighbours; what can't be reached from there comes
    after, in the same way. Of nodes that are alike in this the first of `neighbours` comes first.

    >>> near_order({"a": "bc", "b": "a", "c": "a", "d": ""})
    ['d', 'b', 'a', 'c']
    """
    order: list[Node] = []
    found: set[Node] = set()
    for start in sorted(neighbours, key=lambda node: len(list(neighbours[node]))):
        reached = [] if start in found else [start]
        found.update(reached)
        for node in reached:
            new = [other for other in neighbours[node] if other not in found]
            found.update(new)
            reached += new
        order += reached
    return order
