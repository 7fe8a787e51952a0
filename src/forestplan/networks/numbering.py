"""The same network with other numbers: by chance, as `forestlab network number` makes them, or near each other. A node
keeps its name, or is named by its old number, and keeps its barred channels and its place."""
import random
from collections.abc import Mapping, Sequence
from dataclasses import replace
from typing import TypeVar

from forestplan.network import Network
from forestplan.networks.network_text import checked_network
from forestplan.networks.random_networks import shuffled
from forestplan.networks.search_order import LARGE, near_order

Value = TypeVar("Value")


def network_in_order(
    network: Network, order: Sequence[int], identifiers: Mapping[int, int]
) -> Network:
    """The network of the nodes of `order` alone, in this order. `identifiers` has theirs.

    >>> network_in_order(Network(3, [(1, 2), (2, 3)]), [3, 2], {}).names
    {1: '3', 2: '2'}
    """
    number = {old: new for new, old in enumerate(order, 1)}

    def kept(of: Mapping[int, Value]) -> dict[int, Value]:
        return {number[v]: what for v, what in of.items() if v in number}

    left = [edge for edge in network.edges if number.keys() >= {*edge}]
    return replace(
        network,
        nodes=len(order),
        edges=[(number[v], number[w]) for v, w in left],
        given_identifiers=kept(identifiers),
        bars=kept(network.bars),
        names={new: network.names.get(old, str(old)) for old, new in number.items()},
        places=kept(network.places),
    )


def renumbered(network: Network, seed: str | int) -> Network:
    """The same `network` with its nodes in a random order, which comes from the `seed`. An identifier that was
    given stays; another one is the new number. Each node is named by its old number, if it has no name.

    >>> sorted(renumbered(Network(3, [(1, 2)]), "seed").names.values())
    ['1', '2', '3']

    Raises `Fault` if an identifier that a line gives is the new number of another node.
    """
    order = shuffled(random.Random(seed), network.node_numbers)
    return checked_network(
        network_in_order(network, order, network.given_identifiers),
        f"{network.name}, numbered again",
    )


def near_each_other(network: Network) -> Network:
    """A large network whose neighbours have near numbers. Each node keeps its identifier, so the plan is the same. A
    network of fewer than 1,000 nodes is returned as it is.

    >>> small = Network(3, [(1, 2)])
    >>> near_each_other(small) is small
    True
    """
    if network.nodes < LARGE:
        return network
    return network_in_order(network, near_order(network.neighbours), network.identifiers)
