"""The forests and the colours of a network by their definitions (docs/claim/DEFINITIONS.md), slow and plain: what the
tests compare the program with.

A node is a number from 1, an identifier a number below 2^128, a forest a number from 0, and a colour a number from 0:
the channel of the text less one. A list over the nodes is a dictionary (`Colours`), and is made for all of them at
once."""
from typing import Iterable

from forestplan.network import Network
from forestplan.wording import as_text

Colours = dict[int, int]


def joined_lines(lines: Iterable[str]) -> bytes:
    """The lines as a text, each with a line feed."""
    return as_text(lines).encode()


def forests_text(net: Network) -> bytes:
    """The forests text: entry F of a node's higher neighbours, by ascending identifier, is its parent in forest F.

    >>> print(forests_text(Network(3, [(1, 2), (1, 3)])).decode(), end="")
    forests 3 2
    0 1 2
    1 1 3
    """
    triples = sorted((f, v, w) for v, ws in net.higher.items() for f, w in enumerate(ws))
    return joined_lines(
        [f"forests {net.nodes} {net.forest_count}"] + [f"{f} {v} {w}" for f, v, w in triples]
    )


def plan_text(net: Network) -> bytes:
    """The text of the plan of a network `net`, in bytes: the channel of a node is its colour plus one.

    >>> print(plan_text(Network(2, [(1, 2)])).decode(), end="")
    plan
    1 1
    2 2
    """
    return joined_lines(["plan"] + [f"{v} {c + 1}" for v, c in sorted(colours(net).items())])


def at_parent(net: Network, f: int, c: Colours, v: int) -> int | None:
    """The entry of v's parent in forest f, from 0; None at a root.

    >>> edge = Network(2, [(1, 2)])
    >>> at_parent(edge, 0, {1: 7, 2: 9}, 1), at_parent(edge, 0, {1: 7, 2: 9}, 2)
    (9, None)
    """
    parent = net.parent(f, v)
    return None if parent is None else c[parent]


def digit(i: int, number: int) -> int:
    """The binary digit of a number at place i; place 0 is the last one.

    >>> [digit(i, 6) for i in range(3)]
    [0, 1, 1]
    """
    return number >> i & 1


def bit(net: Network, f: int, c: Colours) -> Colours:
    """The bit step: twice the least place in which a node differs from its parent, plus its own digit there. A root's
    place is 0. Here 4 and 6 differ in place 1, in which 4 has the digit 0.

    >>> bit(Network(2, [(1, 2)]), 0, {1: 4, 2: 6})
    {1: 2, 2: 0}
    """

    def step(own: int, parent: int | None) -> int:
        if parent is None:
            return digit(0, own)
        i = min(i for i in range((own ^ parent).bit_length()) if digit(i, own) != digit(i, parent))
        return 2 * i + digit(i, own)

    return {v: step(c[v], at_parent(net, f, c, v)) for v in c}


def other_than(*taken: int | None) -> int:
    """The least of 0, 1, 2 that isn't taken; at most two are.

    >>> other_than(0, 2)
    1
    """
    return min({0, 1, 2} - set(taken))


def shift(net: Network, f: int, c: Colours) -> Colours:
    """Each node has its parent's colour, and a root the least of 0, 1, 2 other than its own.

    >>> shift(Network(2, [(1, 2)]), 0, {1: 5, 2: 0})
    {1: 0, 2: 1}
    """
    above = {v: at_parent(net, f, c, v) for v in c}
    return {v: other_than(c[v]) if colour is None else colour for v, colour in above.items()}


def drop(x: int, net: Network, f: int, c: Colours, before: Colours) -> Colours:
    """Each node of colour x (3 to 5) has the least of 0, 1, 2 other than its colour before the shift, and other than
    its parent's.

    >>> drop(5, Network(2, [(1, 2)]), 0, {1: 5, 2: 1}, {1: 0, 2: 5})
    {1: 2, 2: 1}
    """
    return {v: other_than(before[v], at_parent(net, f, c, v)) if c[v] == x else c[v] for v in c}


def three(net: Network, f: int) -> Colours:
    """Colours 0 to 2 in forest f, with no edge of it between two alike: four bit steps from the identifiers; then
    shift, and drop 5; shift, and drop 4; shift, and drop 3.

    >>> three(Network(2, [(1, 2)]), 0)
    {1: 0, 2: 1}
    """
    c = net.identifiers
    for _ in range(4):
        c = bit(net, f, c)
    for x in (5, 4, 3):
        c = drop(x, net, f, shift(net, f, c), c)
    return c


def merge(net: Network, f: int, old: Colours) -> Colours:
    """The merged colours after forest f, from those before it.

    >>> edge = Network(2, [(1, 2)])
    >>> merge(edge, 0, first_colours(edge))
    {1: 0, 2: 1}
    """
    return merged(net, f, old, three(net, f))


def merged(net: Network, f: int, old: Colours, colour_in_f: Colours) -> Colours:
    """The list that its own equation gives back: each node has the least colour of 0 to the span that is not barred
    at it and that no neighbour has at which it looks. There is one such list, since these neighbours have lower pairs;
    the equation is applied until it holds."""
    pair = {v: (colour_in_f[v], old[v]) for v in old}
    looked_at = {
        v: [w for w in ws if net.number[frozenset((v, w))] <= f and pair[w] < pair[v]]
        for v, ws in net.neighbours.items()
    }
    palette = {v: set(range(net.channels)) - net.barred[v] for v in old}
    new: Colours = {}
    made = dict.fromkeys(old, 0)
    while new != made:
        new = made
        made = {v: min(palette[v] - {new[w] for w in ws}) for v, ws in looked_at.items()}
    return new


def first_colours(net: Network) -> Colours:
    """The least colour of each node that is not barred at it; channels are barred, which count from 1.

    >>> first_colours(Network(2, [(1, 2)], bars={2: [1]}))
    {1: 0, 2: 1}
    """
    return {v: min(set(range(net.channels)) - net.barred[v]) for v in net.neighbours}


def colours(net: Network) -> Colours:
    """The colours of the plan, 0 to the span: the first colours, merged for each forest in turn.

    >>> colours(Network(3, [(1, 2), (2, 3)]))
    {1: 0, 2: 1, 3: 0}
    """
    c = first_colours(net)
    for f in range(net.forest_count):
        c = merge(net, f, c)
    return c
