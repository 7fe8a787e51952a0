"""What is asked of a graph of networkx, which has no hints of its own."""
from collections.abc import Iterable, Mapping
from typing import Any, Protocol

# What a node or an edge has, by its keys: text, numbers, lists.
Attributes = Mapping[object, Any]


class Graph(Protocol):
    """A graph of any class of networkx, with or without directions. `data` is to be true."""

    def nodes(self, data: bool) -> Iterable[tuple[object, Attributes]]:
        """Each node, and what it has."""

    def edges(self, data: bool) -> Iterable[tuple[object, object, Attributes]]:
        """The ends of each edge, and what it has."""

    def number_of_nodes(self) -> int:
        """How many nodes there are."""

    def number_of_edges(self) -> int:
        """How many edges there are, with those that have the same ends."""

    def is_directed(self) -> bool:
        """Whether edges have a direction."""
