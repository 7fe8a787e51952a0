"""A network as text: what `forestlab network` writes, in the DIMACS format, with places and names in comment lines."""
from collections.abc import Iterable

from forestplan.network import Network
from forestplan.wording import as_text


def decimal(number: float) -> str:
    """At most three digits after the point, without zeros at the end.

    >>> decimal(2.5), decimal(-0.0001)
    ('2.5', '0')
    """
    text = f"{number:.3f}".rstrip("0").rstrip(".")
    return "0" if text == "-0" else text


def plain_text(network: Network) -> str:
    """A network without comments, as the programs are given it: the `p` line, the identifiers that aren't the nodes'
    numbers, the bars, and the edges, ascending.

    >>> print(plain_text(Network(2, [(2, 1)], {1: 7}, {2: [4]})), end="")
    p edge 2 1
    i 1 7
    b 2 4
    e 1 2
    """
    lines = [f"p edge {network.nodes} {len(network.edges)}"]
    lines += [
        f"i {v} {number}" for v, number in sorted(network.given_identifiers.items()) if number != v
    ]
    lines += [f"b {v} {channel}" for v, channels in network.bars.items() for channel in channels]
    lines += [f"e {v} {w}" for v, w in network.edges]
    return as_text(lines)


def dimacs_text(network: Network, head: Iterable[str] = ()) -> str:
    """A `network` as a text in the DIMACS format, which `read_network` and all commands read. First come comment lines:
    those of `head`, the places and the names.

    >>> print(dimacs_text(Network(1, [], names={1: "Ulm"}), ["Two sites"]), end="")
    c Two sites
    c name 1 Ulm
    p edge 1 0
    """
    lines = [f"c {line}" for line in head]
    lines += [f"c at {v} {decimal(x)} {decimal(y)}" for v, (x, y) in sorted(network.places.items())]
    lines += [f"c name {v} {name}" for v, name in sorted(network.names.items())]
    return as_text(lines) + plain_text(network)
