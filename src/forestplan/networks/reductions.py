"""Networks that are a little smaller than another one, for who looks for the smallest on which something is wrong."""
from collections.abc import Iterator
from dataclasses import replace

from forestplan.network import Network
from forestplan.networks.numbering import network_in_order


def without_node(network: Network, gone: int) -> tuple[Network, list[int]]:
    """The network without a node, and the nodes that its own were."""
    left = [v for v in network.node_numbers if v != gone]
    return replace(network_in_order(network, left, network.identifiers), names={}, places={}), left


def smaller(network: Network) -> Iterator[tuple[Network, list[int]]]:
    """The networks that lack one of the nodes of this `network`, one of its edges, or the bars of one node; and the one
    with small identifiers in the same order. With each comes which nodes its own were before.

    >>> [(less.nodes, less.edges, before) for less, before in smaller(Network(2, [(1, 2)]))]
    [(1, [], [2]), (1, [], [1]), (2, [], [1, 2])]
    """
    same = list(network.node_numbers)
    names = network.identifiers
    own = replace(network, given_identifiers=names, names={}, places={})
    for gone in same:
        yield without_node(network, gone)
    for edge in network.edges:
        yield replace(own, edges=[other for other in network.edges if other != edge]), same
    for gone in network.bars:
        bars = {v: channels for v, channels in network.bars.items() if v != gone}
        yield replace(own, bars=bars), same
    small = {v: k for k, v in enumerate(sorted(same, key=names.__getitem__), 1)}
    if small != names:
        yield replace(own, given_identifiers=small), same
