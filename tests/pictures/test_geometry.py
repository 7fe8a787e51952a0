"""Where all is in a picture is decided once, by src/forestplan/pictures/geometry.py: pages have it translated, and the
translation decides the same to the last bit; no edge runs through a third node's circle; labels are beside their own
circles, and cover nothing."""
import json
import random
import shutil
from collections.abc import Iterator
from math import hypot
from typing import NamedTuple

from forestplan.networks.network_text import network_in_bytes
from forestplan.pictures import geometry, pages
from forestplan.pictures.geometry import Point, bends_of, labels_at, side_of
from forestplan.pictures.places import places_of
from forestplan.pictures.translation import translated
from tests.cases import Case, called, examples
from tests.tools import need

RUN = """\
import {readFileSync} from "node:fs";
import * as geometry from "./geometry.mjs";
const calls = JSON.parse(readFileSync(0));
console.log(JSON.stringify(calls.map(([name, given]) => geometry[name](...given))));
"""
# What has no translation, and the line that is named.
REFUSED = {
    "a dictionary": "def f(a: int) -> int:\n    b = {a: 1}\n    return 2\n",
    "a keyword": "def f(a: int) -> int:\n    a = f(a)\n    return f(a=a)\n",
    "a power": "def f(a: int) -> int:\n    a = 1\n    return a ** 2\n",
    "a text": "def f(a: int) -> str:\n    a = 2\n    return 'a'\n",
    "a try": "def f(a: int) -> int:\n    try:\n        return 1\n    finally:\n        return 2\n",
}
# More nodes than these are a crowd.
CROWD = 60
ROOM = (-1e9, -1e9, 1e9, 1e9)


class Drawn(NamedTuple):
    """A network as it is drawn: places, edges and the radius of its circles."""

    places: list[Point]
    edges: list[tuple[int, int]]
    radius: float
    room: geometry.Room = ROOM


def at_random(seed: int) -> Drawn:
    source = random.Random(seed)
    count = source.randint(1, 24)
    places = [(float(source.randint(0, 600)), float(source.randint(0, 400))) for _ in range(count)]
    pairs = [(v, w) for w in range(2, count + 1) for v in range(1, w)]
    edges = sorted(source.sample(pairs, min(len(pairs), source.randint(0, 2 * count))))
    return Drawn(places, edges, source.choice([5.0, 8.0, 13.5, 22.0]))


def rows() -> Iterator[tuple[str, Drawn]]:
    """Nodes in a line, level, upright and aslant, with an edge between each two."""
    for count in range(3, 9):
        for name, across, up in (("level", 90, 0), ("upright", 0, 70), ("aslant", 60, 50)):
            places = [(100.0 + across * k, 100.0 + up * k) for k in range(count)]
            edges = [(v, w) for w in range(2, count + 1) for v in range(1, w)]
            yield f"{count} {name}", Drawn(places, edges, 22.0)


def fitted_examples() -> Iterator[tuple[str, Drawn]]:
    """The example networks in windows of three widths, but for crowds, whose circles are as small as they can be."""
    for name, text in examples().items():
        network = network_in_bytes(text)
        if network.nodes > CROWD:
            continue
        places = list(places_of(network).values())
        for wide, high in ((360, 330), (768, 500), (880, 610)):
            margins = geometry.margins_of(wide, high, 22.0, 10.0)
            scale, x, y = geometry.fitted(places, wide, high, *margins)
            there = [(scale * px + x, scale * py + y) for px, py in places]
            largest = geometry.largest_in(wide, high, 22.0)
            radius = geometry.radius_in(geometry.least_apart(there), 2.9, largest, 0)
            edges, room = sorted(network.edges), (0.0, 0.0, wide, high)
            radius = geometry.radius_passed(there, edges, radius, room)
            yield f"{name} {wide}", Drawn(there, edges, radius, room)


def points(begin: Point, bend: Point | None, end: Point) -> list[Point]:
    """Points of a drawn edge: a curve of the second degree, whose control point is moved by the bend."""
    dx, dy = bend or (0.0, 0.0)
    mx, my = (begin[0] + end[0]) / 2 + dx, (begin[1] + end[1]) / 2 + dy
    parts = [k / 60 for k in range(61)]
    return [
        (
            (1 - t) ** 2 * begin[0] + 2 * t * (1 - t) * mx + t * t * end[0],
            (1 - t) ** 2 * begin[1] + 2 * t * (1 - t) * my + t * t * end[1],
        )
        for t in parts
    ]


def run_through(drawn: Drawn) -> list[tuple[int, int, int]]:
    """The edges with the third nodes through whose circles they run."""
    found = []
    bends = bends_of(drawn.places, drawn.edges, drawn.radius, drawn.room)
    for (v, w), bend in zip(drawn.edges, bends):
        line = points(drawn.places[v - 1], bend, drawn.places[w - 1])
        for u, (x, y) in enumerate(drawn.places, 1):
            near = min(hypot(px - x, py - y) for px, py in line)
            if u not in (v, w) and near < drawn.radius:
                found.append((v, w, u))
    return found


class Geometry(Case):
    is_one_row = True

    def translation(self, calls: list[tuple[str, list[object]]]) -> list[object]:
        """What the translated module answers."""
        need(self, "node")
        self.file("geometry.mjs", pages.geometry_script())
        program = self.file("run.mjs", RUN)
        data = json.dumps(calls).encode()
        status, out, errors = called(shutil.which("node"), program, data=data)
        self.assertEqual((status, errors), (0, b""))
        found: list[object] = json.loads(out)
        return found

    def test_the_translation_decides_the_same(self) -> None:
        calls: list[tuple[str, list[object]]] = [("sideOf", [side]) for side in range(16)]
        wanted: list[object] = [side_of(side) for side in range(16)]
        for seed in range(60):
            places, edges, radius, _ = at_random(seed)
            room = (0, 0, 600, 400)
            bends = bends_of(places, edges, radius, room)
            texts = [[(4.0 + v % 30, 6.5), (5.0, 4.4)][: 1 + v % 2] for v in range(len(places))]
            taken = [(x, y + 30, 20.0, 8.0) for x, y in places[::3]]
            boxes = (places, edges, bends, radius, 0.8 * radius, texts, taken, 600, 400)
            calls.append(("bendsOf", [places, edges, radius, room]))
            wanted.append(bends)
            calls.append(("radiusPassed", [places, edges, radius, room]))
            wanted.append(geometry.radius_passed(places, edges, radius, room))
            calls.append(("labelsAt", [*boxes]))
            wanted.append(labels_at(*boxes))
            margins = geometry.margins_of(seed * 20, 300, radius, 31.5)
            calls.append(("marginsOf", [seed * 20, 300, radius, 31.5]))
            wanted.append(margins)
            calls.append(("fitted", [places, seed * 20, 300, *margins]))
            wanted.append(geometry.fitted(places, seed * 20, 300, *margins))
            link = (places[0], (1.0, 2.0), places[-1], 0.3, radius, 40.0, 15.0, 3.0)
            calls.append(("onLink", [*link]))
            wanted.append(geometry.on_link(*link))
        found = self.translation(calls)
        for (name, _), here, there in zip(
            calls, json.loads(json.dumps(wanted)), found, strict=True
        ):
            with self.subTest(name):
                self.assertEqual(here, there)

    def test_what_has_no_translation(self) -> None:
        for name, source in REFUSED.items():
            with self.subTest(name), self.assertRaises(ValueError) as refused:
                translated(source)
            self.note(name, str(refused.exception).startswith("line "), refused.exception)

    def test_no_edge_runs_through_a_node(self) -> None:
        for name, drawn in [*rows(), *fitted_examples()]:
            self.same(name, run_through(drawn), [])

    def test_the_radius_stays(self) -> None:
        """An edge that is bent around a circle, where there is room, makes no circle smaller."""
        places, edges, room = (
            [(100.0, 100.0), (200.0, 100.0), (300.0, 100.0)],
            [(1, 3)],
            (0.0, 0.0, 400.0, 200.0),
        )
        self.note("it is bent", bends_of(places, edges, 10.0, room)[0])
        self.same("its radius", geometry.radius_passed(places, edges, 10.0, room), 10.0)
