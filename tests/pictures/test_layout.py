"""How pictures are laid out, whatever they show: nothing reaches over the edge, and no text, circle or square is on
another one. And where the nodes of a network are drawn, and their names."""
import re
from itertools import combinations, product

from forestplan.networks.network_text import network_in_bytes
from forestplan.networks.sources import network_bytes
from forestplan.network import Edge
from forestplan.pictures.geometry import Box, Point, Room, bends_of, labels_at
from forestplan.pictures.page_data import PlainNode
from forestplan.pictures.pages import page_label
from forestplan.schedules import rules
from tests.cases import examples
from tests.pictures.base import BARRED, PictureCase, transcript
from tests.pictures.marks import (
    SVG,
    centre,
    data_of,
    depth,
    gap,
    marks,
    parsed,
    shapes,
    title,
    texts_of,
)

NAMED = (
    "c name 1 Ulm\nc name 2 Frankfurt am Main\nc name 3 Köln & <Bonn>\nc name 5 a\x1bb\nc name 9 nobody\n"
    "p edge 5 5\ne 1 2\ne 2 3\ne 3 4\ne 4 5\ne 1 3\n"
).encode()
# Eight nodes with a place for two or three of them.
CROWD = b"p edge 8 4\ne 1 2\ne 2 3\ne 1 3\ne 5 6\n" + b"".join(
    b"c at %d %d %d\n" % (v, v // 3, v // 5) for v in range(1, 9)
)
NETWORKS = examples() | {
    "one": b"p edge 1 0\n",
    "edge": b"p edge 2 1\ne 1 2\n",
    "names": NAMED,
    "a crowd": CROWD,
    "barred petersen": BARRED,
}
# The kinds, each with the number of nodes up to which it is drawn here.
OF_ROUNDS = {"map": 40, "plan": 100, "results": 40, "rounds": 25}
OF_RUNS = {"run": 10}
OTHERS = (
    ("schedules", "two"),
    ("schedules", "path", "--columns", "0..20"),
    ("schedules", "two", "--without", "safes"),
    *(("bits", name) for name in examples()),
    ("rounds", "petersen", "--program", "matching"),
    ("results", "petersen", "--program", "leader"),
    ("results", "drops", "--program", "recolouring"),
    ("broken", "petersen", "--without", "pair"),
    ("broken", "drops", "--without", "parent"),
    *(
        ("broken", None, "--program", program, "--without", rule)
        for program, names in rules.OF_PROGRAMS.items()
        for rule in names
        if rule != "last"
    ),
)
# What lies on other marks by its meaning.
ABOVE = ("faded", "wrong", "wrong-node")
# Texts that are drawn beside marks.
BESIDE = ("number", "found", "more")


def is_seen(mark):
    """Whether a mark has a meaning of its own and a place of its own."""
    return mark.get("class") not in ABOVE and (mark.get("class") or mark.text)


def called(mark):
    return mark.get("class") or mark.text


def is_cut(shape, wide, high):
    left, top, right, bottom, r = shape
    return min(left, top) < r or right > wide - r or bottom > high - r


def overlaps(pairs, most):
    """The pairs of marks of which one reaches farther into the other than that."""
    return [
        (called(one), called(other))
        for (one, shape), (other, beneath) in pairs
        if depth(shape, beneath) > most
    ]


class Bends(PictureCase):
    def test_bends(self):
        """By hand: an edge passes a circle of radius 12.5 by 0.3 of that, at 16.25. One of length 200 that passes
        nearer is bent by 16.25 + 0.03 * 200 = 22.25 upwards, which is the left of one to the right: the point towards
        which it is drawn is moved by twice that. One that passes at 60 isn't bent, and one that has no room above is
        bent downwards."""
        edges = [(1, 2), (1, 3), (2, 3)]
        wide: Room = (-1e9, -1e9, 1e9, 1e9)
        low: Room = (0, 90, 400, 400)
        for y, room, bent in (
            (100, wide, (0, -44.5)),
            (106, wide, (0, -44.5)),
            (160, wide, None),
            (100, low, (0, 44.5)),
        ):
            places: list[Point] = [(100, 100), (200, y), (300, 100)]
            self.same(f"node 2 at {y}", bends_of(places, edges, 12.5, room), [None, bent, None])
        self.same("no node", bends_of([], [], 12.5, wide), [])
        crowd: list[Point] = [(v, 0) for v in range(1, 1003)]
        far = [(1, v) for v in range(3, 1003)]
        self.same("too many edges to look at", {*bends_of(crowd, far, 5, wide)}, {None})
        self.same("too many nodes to look at", bends_of(crowd, [(1, 3)], 5, wide), [None])

    def test_a_picture(self):
        """Of three nodes in a row the edge from the first to the last, which would run through the second, is drawn
        as a curve, and the other one straight."""
        row = b"c at 1 0 0\nc at 2 1 0\nc at 3 2 0\np edge 3 2\ne 1 2\ne 1 3\n"
        edges = marks(parsed(self.drawn("plan", row)), "edge")
        are_bent = [tag.tag == f"{SVG}path" and "Q" in tag.get("d") for tag in edges]
        self.same("bent", are_bent, [False, True])


def sides_of(places: list[Point], edges: list[Edge], taken: list[Box] | None = None) -> list[int]:
    """The sides on which labels of one digit are, beside circles of the radius 20."""
    texts = [[(5.0, 6.5)]] * len(places)
    bends = [None] * len(edges)
    spots = labels_at(places, edges, bends, 20, 0, texts, taken or [], 2000, 2000)
    return [side if text == 0 else -1 for text, side, _, _ in spots]


class Labels(PictureCase):
    def test_sides(self):
        """By hand: in a row from the left to the right each label is above its node. A node whose edges leave room only
        below it and at its lower right has it at the lower right; and nowhere where something else is written.
        """
        row: list[Point] = [(x, 400.0) for x in (100, 400, 700)]
        sides = sides_of(row, [(1, 2), (2, 3)])
        self.note("above", {*sides} <= {14, 15, 0, 1, 2}, sides)
        around = [(-300, 0), (-212, -212), (0, -300), (212, -212), (300, 0), (-212, 212)]
        places: list[Point] = [(500.0, 500.0), *((500.0 + x, 500.0 + y) for x, y in around)]
        edges = [(1, w) for w in range(2, 8)]
        self.note("at the lower right", sides_of(places, edges)[0] in {5, 6, 7, 8}, "")
        below: Box = (500.0, 540.0, 60.0, 20.0)
        self.note("not below", sides_of(places, edges, [below])[0] not in {6, 7, 8, 9, 10}, "")
        full: Box = (500.0, 500.0, 90.0, 90.0)
        self.same("no room at all", sides_of(places, edges, [full])[0], -1)
        self.same("no node", sides_of([], []), [])

    def test_words(self):
        """The name has at most 12 letters, the identifier 8 digits; what belongs to a letter isn't cut off it."""
        rows = (
            ("", "", ""),
            ("Oslo", "17", "Oslo (17)"),
            ("", "3", ""),
            ("Frankfurt am Main", "", "Frankfurt a…"),
            ("", "12345678", "(12345678)"),
            ("", "123456789", "(123456…)"),
            ("e\u0301" * 13, "", "e\u0301" * 11 + "…"),
            ("\U0001f469\u200d\U0001f680" * 12, "", "\U0001f469\u200d\U0001f680" * 12),
            ("\U0001f44b\U0001f3fd" * 13, "", "\U0001f44b\U0001f3fd" * 11 + "…"),
            ("a\x1b\u202eb", "", "a\ufffd\ufffdb"),
            ("\u0627\u0628", "4", "\u2068\u0627\u0628\u2069 (4)"),
        )
        for name, identifier, wanted in rows:
            self.same(
                ascii((name, identifier)),
                page_label(3, PlainNode(0, 0, identifier, name, [])),
                wanted,
            )


class Layout(PictureCase):
    def test_layout(self):
        for name, network in NETWORKS.items():
            nodes = len(network_in_bytes(network).neighbours)
            for kind, most in (OF_ROUNDS | OF_RUNS).items():
                if nodes <= most and not (nodes == 1 and kind == "rounds"):
                    self.layout_rows(kind, name)
        for kind, name, *options in OTHERS:
            self.layout_rows(kind, name, *options)
        for seed in range(4):
            self.layout_rows("run", "triangle", seed=seed)

    def layout_rows(self, kind, of, *options, seed="layout"):
        network, name = NETWORKS.get(of), " ".join(map(str, [kind, of, *options, seed]))
        text = transcript(network, seed) if kind in OF_RUNS else None
        picture = self.drawn(kind, network, *options, text=text)
        root = parsed(picture)
        box = [*map(float, root.get("viewBox").split()[2:])]
        found = [pair for pair in shapes(root) if is_seen(pair[0])]
        cut = [called(mark) for mark, shape in found if is_cut(shape, *box)]
        self.same(f"{name}: nothing is cut", cut, [])
        texts = [pair for pair in found if pair[0].tag == f"{SVG}text"]
        others = [pair for pair in found if pair[0].tag != f"{SVG}text"]
        beside = [pair for pair in texts if pair[0].get("class") in BESIDE]
        on = [
            *overlaps(combinations(texts, 2), 1),
            *overlaps(combinations(others, 2), 0.2),
            *overlaps(product(beside, others), 0.5),
        ]
        self.same(f"{name}: nothing is on another", on, [])
        self.note(f"{name}: it has a title", title(root))
        several = r"\b1 (?:node|time|wire|payload|pulse|edge|pair|transmitter|neighbour|forest|channel|message)s\b"
        self.same(f"{name}: one isn't called several", re.findall(several, picture), [])

    def test_player(self):
        nodes = data_of(self.drawn("player", CROWD))["net"]["nodes"]
        places = [(node["x"], node["y"]) for node in nodes]
        nearest = min(gap(*pair) for pair in combinations(places, 2))
        self.note("no node of a player's crowd is on another", nearest >= 18, nearest)

    def test_names(self):
        run, names = transcript(NAMED, "names"), ["Ulm", "Frankfurt a…", "Köln & <Bon…", "a\ufffdb"]
        labels = ["1 Ulm", "2 Frankfurt a…", "3 Köln & <Bon…", "4", "5 a\ufffdb"]
        for kind, mark, text, wanted in (
            ("plan", "number", None, labels),
            ("run", "node-name", run, 2 * names),
        ):
            root = parsed(self.drawn(kind, NAMED, text=text))
            self.same(f"names in {kind}", texts_of(root, mark), wanted)
        page = self.drawn("player", NAMED)
        is_escaped = "Köln & \\u003cBon" in page and "<Bon" not in page and "\x1b" not in page
        self.note("names in a player are escaped", is_escaped, page[-900:])

    def places(self, network):
        """The places of a network as its plan is drawn if it has none."""
        network = re.sub(rb"(?m)^c at .*\n", b"", network)
        groups = marks(parsed(self.drawn("plan", network)), "channel")
        return {v: centre(group) for v, group in enumerate(groups, 1)}

    def test_grids(self):
        """A grid without places is drawn as one: edges about equally long, and all other pairs farther apart."""
        for name in ("grid10x10", "grid4x7"):
            network = network_bytes(name)
            places, edges = self.places(network), network_in_bytes(network).edges
            far = {(v, w): gap(places[v], places[w]) for v, w in combinations(places, 2)}
            longest, shortest = (of(far[e] for e in edges) for of in (max, min))
            other = min(length for pair, length in far.items() if pair not in edges)
            is_grid = longest < 1.25 * shortest and other > 1.15 * longest
            self.note(name, is_grid, (longest, shortest, other))

    def test_parts(self):
        """Parts that no edge joins are drawn beside each other: their boxes have no point in common."""
        places = self.places(b"p edge 9 5\ne 1 2\ne 2 3\ne 3 4\ne 5 6\ne 7 8\n")
        boxes = []
        for part in ((1, 2, 3, 4), (5, 6), (7, 8), (9,)):
            xs, ys = zip(*(places[v] for v in part))
            boxes.append((min(xs), min(ys), max(xs), max(ys), 0))
        are_apart = all(depth(one, other) < 0 for one, other in combinations(boxes, 2))
        self.note("parts are drawn beside each other", are_apart, boxes)
