"""How a network is on the stage, as a reader sees it: no edge runs through a third node, while it is dragged and after;
each label is nearer to its own circle than to any other one, and covers no other; circles use their room."""
import json
from math import hypot
from typing import NamedTuple

from forestplan.studio.lessons import LESSONS
from tests.cases import examples
from tests.pages.test_studio_page import Page

# Node 2 lies on the edge from 1 to 3.
ROW = "net=100.100_200.100_300.100~1-2_1-3_2-3&tab=draw"
# Four nodes in a row, as in lesson 1, whose ends are joined.
FOUR = "net=0.0_90.0_180.0_270.0~1-2_1-4_2-3_3-4&tab=draw"
IS_BENT = "document.querySelector('#net [data-edge=\"1-3\"]').getAttribute('d').includes('Q')"
LABEL = "document.querySelector('#net [data-label=\"2\"]')"
NAME_IT = """(() => { const field = document.querySelector('#chosen input');
  field.value = 'Frankfurt am Main'; field.onchange(); })()"""
# Circles, the labels that are written, and points of the edges, as the page has drawn them.
SEEN = """(() => {
  const {stage, net} = studio, labels = [...document.querySelectorAll('#net [data-label]')];
  const edgeOf = ([v, w]) => {
    const path = document.querySelector(`#net [data-edge="${v}-${w}"]`), length = path.getTotalLength();
    const count = Math.ceil(length / 3), at = k => path.getPointAtLength(length * k / count);
    return [v, w, Array.from({length: count + 1}, (_, k) => [at(k).x, at(k).y])];
  };
  return {radius: stage.radius, circles: net.nodes.map((_, k) => [stage.X(k + 1), stage.Y(k + 1)]),
    labels: labels.map(one => [+one.dataset.label, +one.getAttribute('x'), +one.getAttribute('y'),
      +one.getAttribute('font-size'), one.getComputedTextLength()]), wide: stage.wide, high: stage.high,
    named: stage.texts.filter(one => one.length).length, edges: net.edges.map(edgeOf)};
})()"""
WINDOWS = ((1280, 800), (768, 1024), (360, 740))
# More nodes than these are a crowd: the circles of one are as small as they can be.
CROWD = 60


class Box(NamedTuple):
    """What is seen of a label: capitals and digits are as high as 0.74 of their size, and above the line."""

    v: int
    left: float
    top: float
    right: float
    bottom: float

    def gap(self, x: float, y: float) -> float:
        across = max(self.left - x, x - self.right, 0)
        return hypot(across, max(self.top - y, y - self.bottom, 0))

    def covers(self, other: "Box") -> bool:
        return (
            min(self.right, other.right) - max(self.left, other.left) > 0.5
            and min(self.bottom, other.bottom) - max(self.top, other.top) > 0.5
        )


def boxes_of(seen: dict) -> list[Box]:
    return [
        Box(v, x - wide / 2, y - 0.74 * size, x + wide / 2, y)
        for v, x, y, size, wide in seen["labels"]
    ]


def wrong_labels(seen: dict) -> list[object]:
    """Labels that are nearer to another circle than to their own, that cover another one, or that are cut off."""
    found: list[object] = []
    boxes = boxes_of(seen)
    for box in boxes:
        gaps = {v: box.gap(x, y) for v, (x, y) in enumerate(seen["circles"], 1)}
        nearest = min(gaps, key=lambda v: gaps[v])
        if nearest != box.v:
            found.append(f"{box.v} is beside {nearest}")
        if (
            box.left < -1
            or box.top < -1
            or box.right > seen["wide"] + 1
            or box.bottom > seen["high"]
        ):
            found.append(f"{box.v} is cut off")
        found += [
            f"{box.v} covers {other.v}" for other in boxes if other.v > box.v and box.covers(other)
        ]
    return found


def run_through(seen: dict) -> list[tuple[int, int, int]]:
    """The edges with the third nodes through whose circles they run."""
    return [
        (v, w, u)
        for v, w, line in seen["edges"]
        for u, (x, y) in enumerate(seen["circles"], 1)
        if u not in (v, w) and min(hypot(px - x, py - y) for px, py in line) < seen["radius"]
    ]


def places() -> list[str]:
    """The example networks, and the networks of all lessons in the tabs in which they are seen."""
    found = [f"example={name}&tab=draw" for name in examples()]
    for lesson in LESSONS:
        for step in lesson.steps:
            kept = [
                one
                for one in step.place.split("&")
                if one.split("=")[0] in ("example", "net", "tab", "program")
            ]
            if kept and kept[0] != "net=~":
                found.append("&".join(kept))
    return [one for one in dict.fromkeys(found) if "tab=pictures" not in one]


class Bends(Page):
    def settled(self, name: str) -> dict:
        """What is seen once the page has followed an address, and has drawn all."""
        self.sees(
            name,
            "!studio.isFollowing() && busy.hidden && studio.stage.spots.length === studio.net.nodes.length",
        )
        seen: dict = self.value(SEEN)
        return seen

    def test_labels_and_edges(self) -> None:
        """In three windows. A number that has no room is left out: only in a crowd."""
        self.addCleanup(self.page.size, 1280, 800)
        for place in places():
            self.page.size(1280, 800)
            self.go_to(place)
            for wide, high in WINDOWS:
                self.page.size(wide, high, wide == 360)
                seen = self.settled(f"{wide} {place}")
                self.same(f"{wide} {place}: labels", wrong_labels(seen), [])
                if len(seen["circles"]) <= CROWD:
                    self.same(f"{wide} {place}: edges", run_through(seen), [])
                    self.same(f"{wide} {place}: left out", len(seen["labels"]), seen["named"])

    def test_room(self) -> None:
        """A network is as large as its window allows, however near its nodes are in its text; in the large mode,
        too."""
        for place in (
            FOUR,
            "net=0.0_9.0_9.9~1-2_2-3_1-3&tab=draw",
            "net=0.0_0.70~1-2&tab=adversary",
        ):
            self.go_to(place)
            for look in ("usual", "large"):
                seen = self.settled(place)
                xs, ys = zip(*seen["circles"])
                part = max((max(xs) - min(xs)) / seen["wide"], (max(ys) - min(ys)) / seen["high"])
                self.note(f"{look} {place}", part > 0.7, part)
                self.value("large.click()")
        self.go_to("example=two&tab=draw")
        self.note("a large circle", self.settled("two")["radius"] > 26)

    def test_bends(self) -> None:
        """Bent at once, straight once node 2 is moved away, and bent again when that is undone."""
        self.go_to(ROW)
        self.reads("as it is opened", IS_BENT, True)
        self.value("document.querySelector('#net [data-node=\"2\"]').focus()")
        for _ in range(4):
            self.page.key("ArrowDown")
        self.sees("node 2 has moved", "studio.net.nodes[1].y === 180")
        self.sees("no node is near any more", f"!{IS_BENT}")
        self.value("document.getElementById('undo').click()")
        self.sees("node 2 is back", "studio.net.nodes[1].y === 100")
        self.sees("and the bend", IS_BENT)

    def test_a_new_edge(self) -> None:
        """Of a row of four whose ends are joined, with two clicks: the edge is seen."""
        self.go_to(FOUR.replace("1-4_", ""))
        self.settled("the row")
        self.value("studio.seen.node = null")
        for v in (1, 4):
            self.click_on(f'#net [data-node="{v}"] circle')
        self.sees("joined", "studio.net.edges.length === 4")
        self.same("it runs through no node", run_through(self.settled("joined")), [])

    def test_drag(self) -> None:
        """While a node is dragged edges bend around it, and no circle shrinks, even if it lies on another one."""
        self.go_to("tab=draw")
        self.go_to(ROW.replace("200.100", "200.250"))
        self.reads("no node is near", IS_BENT, False)
        radius = self.settled("the triangle")["radius"]
        (x, y), (left, up) = self.at(2), self.at(1)
        self.page.mouse("mousePressed", x, y)
        for part in (0.2, 0.6, 0.9, 1):
            self.page.mouse("mouseMoved", x, y + (up - y) * part)
        self.sees("bent around it", IS_BENT)
        self.same("while it is dragged", run_through(self.value(SEEN)), [])
        for part in (0.5, 0.9, 1):
            self.page.mouse("mouseMoved", x + (left - x) * part, up)
        self.sees("on node 1", "Math.hypot(studio.stage.X(1) - studio.stage.X(2), 0) < 12")
        self.same("no circle shrinks", self.value("studio.stage.radius"), radius)
        self.page.mouse("mouseReleased", left, up)
        self.sees(
            "beside it",
            "Math.hypot(studio.stage.X(1) - studio.stage.X(2), studio.stage.Y(1) - studio.stage.Y(2)) > 30",
        )
        self.same("and none has shrunk", self.value("studio.stage.radius"), radius)

    def test_words(self) -> None:
        """The words of a label are asked for after a change."""
        self.go_to("tab=draw")
        self.go_to("net=100.300_300.300_500.300~1-2_2-3&tab=draw&node=2")
        self.value(NAME_IT)
        self.sees("its name, cut", "studio.net.nodes[1].label === 'Frankfurt a…'")
        self.sees("as it is drawn", f"{LABEL}.textContent === '2 Frankfurt a…'")

    def test_rings(self) -> None:
        """Two marks of one node are both seen: neither ring lies on the other, nor on what lights the node up."""
        self.go_to("example=petersen&tab=run&seed=7&at=40")
        self.sees("a run", "studio.run.film && studio.run.at > 0")
        node = self.value("(at => studio.run.film.last(at)[1])(studio.run.at)")
        self.value(f"studio.seen.node = {node}, studio.time.set(studio.time.at)")
        rings = (
            f"Array.from(document.querySelectorAll('#net [data-node=\"{node}\"] > [data-mark^=ring]'), one => "
            "[one.dataset.mark, +one.getAttribute('r'), +one.getAttribute('stroke-width')])"
        )
        found = self.value(rings)
        self.same("both", sorted(mark for mark, _, _ in found), ["ring_edge", "ring_glow"])
        (_, first, wide), (_, second, other) = sorted(found, key=lambda one: one[1])
        self.note("apart", second - first >= (wide + other) / 2, json.dumps(found))
