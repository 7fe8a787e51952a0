"""Places for the nodes of a network that names none: each two as far apart as the shortest way between them is long,
as nearly as the plane allows (stress majorisation: Gansner, Koren and North, Graph Drawing 2004, with weights 1 / d²).
Places are complex numbers while they are sought. No random number is used, and they are rounded at the end, so that a
network has one drawing on every machine."""
from math import sqrt

from forestplan.network import Network

# Each node pays attention to those near to it, and to some that are far apart.
NEAR = 3
LANDMARKS = 32
SWEEPS = 200
STILL = 0.001
# Of a large network not as many, so that it is laid out in seconds: the pulls of all nodes times the sweeps.
MOST_PULLS = 2_000_000
LEAST_SWEEPS = 20
SPACE = 1.0


def laid_out(network: Network) -> dict[int, tuple[float, float]]:
    """{node: (x, y)}, an edge being about 1 long: the connected parts one by one, the largest first, in rows."""
    parts = sorted(parts_of(network), key=lambda part: (-len(part), part[0]))
    places = in_rows([upright(network, placed(network, part)) for part in parts])
    return {v: (round(place.real, 6), round(place.imag, 6)) for v, place in places.items()}


def parts_of(network: Network) -> list[list[int]]:
    """The nodes of each connected part, ascending."""
    seen = set()
    parts = []
    for v in network.node_numbers:
        if v not in seen:
            part = sorted(distances(network.neighbours, v))
            seen.update(part)
            parts.append(part)
    return parts


def distances(
    neighbours: dict[int, list[int]], start: int, most: int | None = None
) -> dict[int, int]:
    """{node: edges on a shortest way to it}, up to a number of edges."""
    found = {start: 0}
    layer = [start]
    far = 0
    while layer and far != most:
        far += 1
        layer = [w for v in layer for w in neighbours[v] if found.setdefault(w, far) == far]
        layer = list(dict.fromkeys(layer))
    return found


def landmarks_of(network: Network, part: list[int]) -> list[tuple[int, dict[int, int]]]:
    """Nodes that are far from each other, with the distances from each: the next is always one farthest from those
    before."""
    nearest = dict.fromkeys(part, len(part))
    found: list[tuple[int, dict[int, int]]] = []
    first = distances(network.neighbours, part[0])
    v = max(part, key=lambda w: (first[w], -w))
    while len(found) < min(LANDMARKS, len(part)):
        ways = distances(network.neighbours, v)
        found.append((v, ways))
        nearest = {w: min(nearest[w], ways[w]) for w in part}
        v = max(part, key=lambda w: (nearest[w], -w))
    return found


def placed(network: Network, part: list[int]) -> dict[int, complex]:
    """The places of one part."""
    landmarks = landmarks_of(network, part)
    pulls = {v: distances(network.neighbours, v, NEAR) for v in part}
    for mark, ways in landmarks:
        for v, far in ways.items():
            pulls[v][mark] = pulls[mark][v] = far
    return relaxed(
        first_places(part, landmarks),
        {v: [(w, far) for w, far in ways.items() if w != v] for v, ways in pulls.items()},
    )


def first_places(
    part: list[int], landmarks: list[tuple[int, dict[int, int]]]
) -> dict[int, complex]:
    """By how much nearer each is to one landmark than to another: the first two give x, the next two y."""
    (_, left), (_, right), (_, above), (_, below) = (landmarks * 4)[:4]
    # A little of the number keeps apart nodes that all landmarks see alike.
    return {
        v: complex(
            0.9 * (left[v] - right[v]) + 0.013 * (at * 7 % 11),
            0.9 * (above[v] - below[v]) + 0.017 * (at * 5 % 13),
        )
        for at, v in enumerate(part)
    }


def relaxed(
    places: dict[int, complex], pulls: dict[int, list[tuple[int, int]]]
) -> dict[int, complex]:
    """Moves each node in turn to the mean of where the others want it, until all stay."""
    count = sum(map(len, pulls.values()))
    for _ in range(min(SWEEPS, max(LEAST_SWEEPS, MOST_PULLS // max(1, count)))):
        moved = 0.0
        for v, ways in pulls.items():
            place = places[v]
            wanted = 0j
            weights = 0.0
            for w, far in ways:
                away = place - places[w]
                weight = 1 / (far * far)
                wanted += weight * (places[w] + away * (far / (abs(away) or 1)))
                weights += weight
            places[v] = wanted / (weights or 1)
            moved = max(moved, abs(places[v] - place))
        if moved < STILL:
            break
    return places


def upright(network: Network, places: dict[int, complex]) -> dict[int, complex]:
    """Turned so that as many edges as can be are level or upright, and the whole is wider than high; its least node
    is in the upper left quarter."""
    edges = [places[w] - places[v] for v in places for w in network.neighbours[v]]
    square = sum((edge / abs(edge)) ** 4 for edge in edges if edge)
    back = (square / abs(square)) ** -0.25 if abs(square) > 1e-6 else 1
    turned = {v: place * back for v, place in places.items()}
    _, wide, high = box_around(turned)
    if high > wide:
        turned = {v: place * 1j for v, place in turned.items()}
    first = turned[min(turned)]
    centre = sum(turned.values()) / len(turned)
    across, down = (-1 if first.real > centre.real else 1), (-1 if first.imag > centre.imag else 1)
    return {v: complex(across * place.real, down * place.imag) for v, place in turned.items()}


def in_rows(parts: list[dict[int, complex]]) -> dict[int, complex]:
    """Parts side by side from left to right, in rows about as wide as all of them are high."""
    boxes = [box_around(places) for places in parts]
    row = max(
        1.5 * sqrt(sum((wide + SPACE) * (high + SPACE) for _, wide, high in boxes)),
        max(wide for _, wide, _ in boxes),
    )
    found: dict[int, complex] = {}
    left = 0.0
    top = 0.0
    tallest = 0.0
    for places, (corner, wide, high) in zip(parts, boxes):
        if left and left + wide > row:
            left = 0.0
            top = top + tallest + SPACE
            tallest = 0.0
        found |= {v: place - corner + complex(left, top) for v, place in places.items()}
        left = left + wide + SPACE
        tallest = max(tallest, high)
    return found


def box_around(places: dict[int, complex]) -> tuple[complex, float, float]:
    """The upper left corner of places, their width and their height."""
    xs, ys = [place.real for place in places.values()], [place.imag for place in places.values()]
    return complex(min(xs), min(ys)), max(xs) - min(xs), max(ys) - min(ys)
