"""Where the nodes of a network are drawn: at given places, on a circle, or laid out by the edges (layout.py)."""
from collections.abc import Iterable, Iterator
from math import cos, pi, sin

from forestplan.network import Edge, Network
from forestplan.pictures.geometry import Point, apart_by, fitted
from forestplan.pictures.layout import laid_out

Places = dict[int, Point]

LARGEST_CIRCLE = 6
# How far apart two nodes are at least, in radii: circles don't touch then; and neither do squares of twice that
# width.
OF_CIRCLES = 2.3
OF_SQUARES = 2.95
PUSHES = 200


def places_of(network: Network) -> Places:
    """{node: (x, y)}: the comment lines `c at V X Y` if they name every node; else a circle for up to six; else a
    layout."""
    if all(v in network.places for v in network.node_numbers):
        return {v: network.places[v] for v in network.node_numbers}
    return places_on_circle(network.nodes) if network.nodes <= LARGEST_CIRCLE else laid_out(network)


def unused_places(network: Network) -> str | None:
    """Of a network that places some of its nodes: that they are drawn elsewhere, in words; else None."""
    named = sum(v in network.places for v in network.node_numbers)
    if named in (0, network.nodes):
        return None
    return f"{network.name}: places are given for {named} of {network.nodes} nodes, so they aren't used"


def turned(part: float) -> Point:
    """The unit vector turned from the top clockwise by a part of a circle; rounded, since `sin` may differ from machine
    to machine."""
    return round(sin(2 * pi * part), 9), -round(cos(2 * pi * part), 9)


def places_on_circle(nodes: int) -> Places:
    """Node 1 on top, then clockwise."""
    return {v: turned((v - 1) / nodes) for v in range(1, nodes + 1)}


def extent(places: Places) -> Point:
    """Width and height of the places, at least a little."""
    xs, ys = [x for x, _ in places.values()], [y for _, y in places.values()]
    return max(xs) - min(xs) or 1e-9, max(ys) - min(ys) or 1e-9


def fit(places: Places, width: float, height: float, margin: float) -> Places:
    """The places, scaled evenly and put in the middle of a box."""
    scale, x, y = fitted(list(places.values()), width, height, margin, margin, margin)
    return {v: (scale * px + x, scale * py + y) for v, (px, py) in places.items()}


def spaced(
    places: Places,
    width: float,
    height: float,
    margin: float,
    radius: float,
    least: float,
    apart: float,
) -> tuple[Places, float]:
    """The places fitted into a box, and the radius that they leave: at most `radius`. Nodes too near for `least` are
    pushed apart, as far as the box allows; no two of the radius overlap in any case."""
    places = fit(places, width, height, margin)
    for _ in range(PUSHES):
        near = list(near_pairs(places, apart * least))
        if not near:
            break
        places = fit(pushed_apart(places, near, 1.02 * apart * least), width, height, margin)
    gaps = (gap(places[v], places[w]) for v, w in near_pairs(places, apart * radius))
    return places, max(0.1, min(gaps, default=apart * radius) / apart)


def moved_places(places: Places, left: float, top: float) -> Places:
    return {v: (x + left, y + top) for v, (x, y) in places.items()}


def near_pairs(places: Places, least: float) -> Iterator[Edge]:
    """The pairs less than `least` apart, both one after the other."""
    order = sorted(places, key=lambda v: (places[v][0], v))
    for at, v in enumerate(order):
        for w in order[at + 1 :]:
            if places[w][0] - places[v][0] >= least:
                break
            if gap(places[v], places[w]) < least:
                yield v, w


def pushed_apart(places: Places, near: Iterable[Edge], least: float) -> Places:
    """Moves each of the near pairs apart, along its line; a pair on one point in a direction of its own."""
    places = dict(places)
    for v, w in near:
        x1, y1 = places[v]
        x2, y2 = places[w]
        far = gap(places[v], places[w])
        dx, dy = (
            ((x2 - x1) / far, (y2 - y1) / far) if far > 1e-6 else turned((5 * v + 3 * w) % 16 / 16)
        )
        push = max(0, (least - far) / 2 + 0.01)
        places[v] = (x1 - dx * push, y1 - dy * push)
        places[w] = (x2 + dx * push, y2 + dy * push)
    return places


def box_height(places: Places, width: float, margin: float, least: float) -> float:
    """The height of a box of this width that the places fill: from `least` to the width itself."""
    wide, high = extent(places)
    return max(least, min(width, 2 * margin + (width - 2 * margin) * high / wide))


def gap(p: Point, q: Point) -> float:
    return apart_by(p[0] - q[0], p[1] - q[1])
