"""Sites that interfere since they are near each other, by the code of `forestlab network read --sites --reach`."""
from collections.abc import Iterable, Mapping
from typing import Any

from forestplan import limits
from forestplan.interface.graphs import Sites, bounded
from forestplan.networks.places import near, on_ground, on_map


FAR = (-1e9, 1e9)
# What a place is in: what makes kilometres of it, and the bounds of its two numbers.
UNITS = {"degrees": (1, (-90, 90), (-180, 360)), "km": (1, FAR, FAR), "m": (0.001, FAR, FAR)}


def sites(places: Mapping[Any, Any], reach: float, unit: str = "degrees") -> Sites:
    """The graph of the sites that are less than `reach` kilometres apart.

    `places` is a dict with the place of each site: its latitude and longitude in degrees, or with the `unit` km or m
    how far east and how far north it is. A site whose place is None has no neighbour.

    >>> sites({"Ulm": (48.4, 9.98), "Bonn": (50.73, 7.1), "Hof": None}, reach=400)
    {'Ulm': ['Bonn'], 'Bonn': ['Ulm'], 'Hof': []}

    Raises TypeError if a place isn't one, and ValueError for another unit, a number that is out of its range, or more
    than 400,000 edges."""
    if not isinstance(places, Mapping):
        raise TypeError(f"places are {places!r}, and have to be a dict with the place of each site")
    if unit not in UNITS:
        raise ValueError(f"unit is {unit!r}, and has to be one of {', '.join(UNITS)}")
    bounded(reach, "reach", 1e-6, 20000)
    found = Sites(places)
    known = {
        site: site_place(site, place, unit) for site, place in places.items() if place is not None
    }
    names = list(known)
    is_globe = unit == "degrees"
    if is_globe:
        points = [on_ground(*place) for place in known.values()]
        found.places = on_map(known)
    else:
        points = [(x, y, 0.0) for x, y in known.values()]
        found.places = {site: (x, -y) for site, (x, y) in known.items()}
    for count, (at, other) in enumerate(near(points, reach, is_globe), 1):
        bounded(count, "the number of edges", 0, limits.MAX_EDGES)
        found[names[at]].append(names[other])
        found[names[other]].append(names[at])
    return found


def site_place(site: object, place: Iterable[object], unit: str) -> tuple[float, float]:
    """A place in degrees or in kilometres."""
    factor, of_x, of_y = UNITS[unit]
    try:
        x, y = place
    except (TypeError, ValueError):
        what = f"the place of {site!r} is {place!r}, and has to be two numbers"
        raise TypeError(what) from None
    what = f"the place of {site!r}"
    return (factor * bounded(x, what, *of_x), factor * bounded(y, what, *of_y))
