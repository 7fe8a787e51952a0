"""Places of sites, on a plane in kilometres or on the globe, and which of them are near each other. `import forestplan`
needs it, too."""
import math
from collections.abc import Collection, Hashable, Iterator, Mapping
from itertools import product
from typing import TypeVar

Site = TypeVar("Site", bound=Hashable)
# The mean radius of the earth in kilometres.
EARTH = 6371.0088
Place = tuple[float, float]
Point = tuple[float, float, float]
# The rows in each cube of space, with their points.
Cells = dict[tuple[int, int, int], list[tuple[int, Point]]]


def on_ground(latitude: float, longitude: float) -> Point:
    """The point of a place on the globe, by which distances are measured.

    >>> on_ground(0, 0) == (EARTH, 0, 0)
    True
    """
    north, east = math.radians(latitude), math.radians(longitude)
    return (
        EARTH * math.cos(north) * math.cos(east),
        EARTH * math.cos(north) * math.sin(east),
        EARTH * math.sin(north),
    )


def on_map(places: Mapping[Site, Place]) -> dict[Site, Place]:
    """Places of latitude and longitude on a map in kilometres, with true lengths at their mean latitude, and y growing
    downwards.

    >>> on_map({"Null Island": (0, 0)})["Null Island"] == (0, 0)
    True
    """
    middle = sum(latitude for latitude, _ in places.values()) / max(1, len(places))
    degree = math.radians(1) * EARTH
    return {
        one: (longitude * degree * math.cos(math.radians(middle)), -latitude * degree)
        for one, (latitude, longitude) in places.items()
    }


def across_of(places: Collection[Place]) -> float:
    """How far places reach from west to east, or from south to north, whichever is more.

    >>> across_of([(0, 0), (3, 1), (1, 7)])
    7
    """
    xs, ys = [x for x, _ in places], [y for _, y in places]
    return max(max(xs) - min(xs), max(ys) - min(ys)) if places else 0.0


def near(points: list[Point], reach: float, is_globe: bool) -> Iterator[tuple[int, int]]:
    """The pairs of rows that are less than the reach apart on the ground; those in neighbouring cells are looked at.

    >>> list(near([(0, 0, 0), (1, 0, 0), (9, 0, 0)], 5, is_globe=False))
    [(0, 1)]
    """
    # On a globe the straight line is shorter than the way on the ground.
    span = 2 * EARTH * math.sin(min(reach / (2 * EARTH), math.pi / 2)) if is_globe else reach
    cells: Cells = {}
    for at, point in enumerate(points):
        x, y, z = (math.floor(part / span) for part in point)
        cells.setdefault((x, y, z), []).append((at, point))
    for cell, rows in cells.items():
        around = list(rows_around(cells, cell))
        for (at, here), (other, there) in product(rows, around):
            if at < other and math.dist(here, there) < span:
                yield at, other


def rows_around(cells: Cells, cell: tuple[int, int, int]) -> Iterator[tuple[int, Point]]:
    """The rows of a cell and of those beside it."""
    x, y, z = cell
    for across, down, up in product((-1, 0, 1), repeat=3):
        yield from cells.get((x + across, y + down, z + up), ())
