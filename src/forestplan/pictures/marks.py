"""The marks that the pictures share: nodes by their channel or colour, edges and arrows between them, legends."""
import unicodedata
from collections.abc import Collection
from copy import copy
from math import inf, sqrt
from typing import TypeVar

from forestplan.network import Edge, Network
from forestplan.pictures.geometry import (
    BASELINE,
    CROSSED,
    ROUNDED,
    Point,
    bends_of,
    labels_at,
    pill_high,
    pill_wide,
    radius_passed,
    ring_wide,
    size_in,
    towards_of,
)
from forestplan.pictures.palette import (
    BAR_GAP,
    BAR_SIZES,
    BLANK_RIM,
    BLANK_SIZE,
    FOREST_COLOURS,
    INK,
    MOST_BARS,
    PALE,
    PAPER,
    PILL_RIM,
    SQUARE_SIZES,
    WIRES,
    WRONG,
    channel_hue,
    channel_look,
    grey,
    short,
    text_on,
)
from forestplan.pictures.places import OF_CIRCLES, Places, moved_places, spaced
from forestplan.pictures.svg import Svg

# Maps of more nodes than these are wider, and of more than the second have smaller circles and straight edges.
SMALL = 12
LARGE = 40


Value = TypeVar("Value")
Drawing = TypeVar("Drawing", bound="Map")


def by_size(network: Network, large: Value, middling: Value, small: Value) -> Value:
    """What is chosen for a network of so many nodes."""
    if network.nodes > LARGE:
        return large
    return middling if network.nodes > SMALL else small


def width_of_map(network: Network) -> int:
    return by_size(network, 900, 560, 420)


def channel_circle(
    svg: Svg, x: float, y: float, radius: float, channel: int, mark: str = "channel"
) -> None:
    """A channel: its hue, full or as a ring on white, and its number."""
    look = channel_look(channel)
    if look.is_ring:
        width = ring_wide(radius)
        svg.circle(x, y, radius - width / 2, PAPER, look.hue, round(width, 1), mark=mark)
    else:
        svg.circle(x, y, radius, look.hue, PAPER, 1, mark=mark)
    size = radius * look.size
    svg.label(x, y + BASELINE * size, channel, round(size, 1), look.ink)


def blank_circle(
    svg: Svg, x: float, y: float, radius: float, said: int | str, fill: str = PAPER
) -> None:
    """A node without a channel, or one that is filled: its number."""
    mark = "blank" if fill == PAPER else "filled"
    size = radius * BLANK_SIZE
    svg.circle(x, y, radius, fill, INK, BLANK_RIM, mark=mark)
    svg.label(x, y + BASELINE * size, said, round(size, 1), text_on(fill) if fill != PAPER else INK)


def message_pill(svg: Svg, x: float, y: float, said: str, kind: str, size: float) -> None:
    """A message on its way: its words in a pill."""
    wide, high = pill_wide(len(said), size), pill_high(size)
    left, top = x - wide / 2, y - high / 2
    svg.rect(left, top, wide, high, PALE[kind], WIRES[kind], PILL_RIM, high / 2)
    svg.text(x, y + BASELINE * size, said, size, INK, "middle")


def bars_width(channels: Collection[int], radius: float) -> float:
    """How much room a row of barred channels takes."""
    return (
        min(len(channels), MOST_BARS) * (2 * radius + BAR_GAP)
        + (len(channels) > MOST_BARS) * 1.5 * radius
    )


def bar_row(svg: Svg, x: float, y: float, channels: Collection[int], radius: float) -> None:
    """The barred channels of a node, lowest first, to the right of a place: each in a ring of its hue, crossed out.
    An ellipsis stands for those that have no room."""
    for at, channel in enumerate(list(channels)[:MOST_BARS]):
        middle_x = x + radius + at * (2 * radius + BAR_GAP)
        svg.circle(middle_x, y, radius, PAPER, channel_hue(channel), 1, mark="bar")
        size = round(radius * size_in(BAR_SIZES, len(str(channel))), 1)
        svg.label(middle_x, y + BASELINE * size, channel, size)
        svg.line(
            middle_x - CROSSED * radius,
            y + CROSSED * radius,
            middle_x + CROSSED * radius,
            y - CROSSED * radius,
            WRONG,
            1.5,
            opacity="0.9",
        )
    if len(channels) > MOST_BARS:
        svg.note(
            x + MOST_BARS * (2 * radius + BAR_GAP),
            y + 0.4 * radius,
            "…",
            1.5 * radius,
            halo=2,
            mark="more",
        )


def colour_square(
    svg: Svg,
    x: float,
    y: float,
    half: float,
    colour: int,
    mark: str = "colour",
    is_name: bool = False,
    opacity: str | None = None,
) -> None:
    """A colour of 0 to 5 in one forest; or a name, or another number that is no such colour yet: grey, darker the
    longer it is."""
    is_grey = is_name or colour >= len(FOREST_COLOURS)
    text = short(colour)
    fill, ink = (
        grey(colour) if is_grey else (FOREST_COLOURS[colour], text_on(FOREST_COLOURS[colour]))
    )
    svg.rect(
        x - half,
        y - half,
        2 * half,
        2 * half,
        fill,
        PAPER,
        1,
        ROUNDED * half,
        mark=mark,
        fill_opacity=opacity,
    )
    size = half * size_in(SQUARE_SIZES, len(text))
    svg.label(x, y + BASELINE * size, text, round(size, 1), INK if opacity else ink)


def alone_chip(svg: Svg, x: float, y: float, half: float, colour: int) -> None:
    """The square of a node at which no edge of the forest ends: pale."""
    colour_square(svg, x, y, half, colour, "alone", opacity="0.3")


class Map:
    """A network in a box: the places of its nodes, their radius, and how far its edges are bent, those of a large
    network not at all; and where `label` has put the nodes' numbers beside them."""

    def __init__(
        self,
        network: Network,
        places: Places,
        width: float,
        height: float,
        margin: float,
        radius: float,
        least: float,
        apart: float = OF_CIRCLES,
        left: float = 0,
        top: float = 0,
    ) -> None:
        places, self.radius = spaced(places, width, height, margin, radius, least, apart)
        self.network = network
        self.places = moved_places(places, left, top)
        self.labels: Places = {}
        # By how much the point is moved aside towards which each edge that is bent is drawn.
        self.bend: dict[Edge, Point] = {}
        if network.nodes <= LARGE:
            edges = list(network.edges)
            room = (left, top, left + width, top + height)
            self.radius = radius_passed(self.all_places(), edges, self.radius, room)
            bends = bends_of(self.all_places(), edges, self.radius, room)
            self.bend = {edge: bend for edge, bend in zip(edges, bends) if bend is not None}

    def all_places(self) -> list[Point]:
        return [self.places[v] for v in self.network.node_numbers]

    def label(self, boxes: Places, corner: float = 0) -> None:
        """Finds where the words of each node are, of which `boxes` has half the width and half the height; `corner`
        is how much farther out the corners of its mark are."""
        edges = list(self.network.edges)
        bends = [self.bend.get(edge) for edge in edges]
        texts = [[boxes[v]] for v in self.network.node_numbers]
        places = self.all_places()
        spots = labels_at(places, edges, bends, self.radius, corner, texts, [], inf, inf)
        self.labels = {v: (x, y) for v, (_, _, x, y) in zip(self.network.node_numbers, spots)}

    def towards(self, a: int, b: int) -> Point:
        """The point towards which the edge from a to b is drawn."""
        return towards_of(self.places[a], self.places[b], self.bend.get((min(a, b), max(a, b))))

    def at(self: Drawing, left: float, top: float) -> Drawing:
        """The same map elsewhere."""
        other = copy(self)
        other.places = moved_places(self.places, left, top)
        other.labels = moved_places(self.labels, left, top)
        return other

    def edge(
        self,
        svg: Svg,
        a: int,
        b: int,
        colour: str,
        width: float,
        head: float = 0,
        distance: float = 0,
        mark: str = "edge",
    ) -> None:
        """An edge from a to b; with a head, an arrow whose tip is at this distance of b."""
        x1, y1 = self.places[a]
        x2, y2 = self.places[b]
        mx, my = self.towards(a, b)
        ex, ey = x2 - mx, y2 - my
        length = sqrt(ex * ex + ey * ey) or 1
        ex, ey = ex / length, ey / length
        tip_x, tip_y = x2 - ex * distance, y2 - ey * distance
        end_x, end_y = tip_x - ex * head * 0.8, tip_y - ey * head * 0.8
        if (min(a, b), max(a, b)) in self.bend:
            svg.path(["M", x1, y1, "Q", mx, my, end_x, end_y], colour, width, mark=mark)
        else:
            svg.line(x1, y1, end_x, end_y, colour, width, mark=mark)
        if head:
            svg.head(tip_x, tip_y, ex, ey, head, colour)

    def numbers(self, svg: Svg, size: float, down: float) -> None:
        """The nodes' numbers at their places, whose middle is so far above the ground line."""
        for v, (x, y) in self.labels.items():
            svg.note(x, y + down, v, size, "middle", halo=2.5, mark="number")


def wire_arrow(svg: Svg, x1: float, y1: float, x2: float, y2: float, kind: str) -> None:
    """A wire from where it was put to where it was taken."""
    size, width, dot = (9, 2.1, 2.2) if kind == "payload" else (6, 1.1, 1.6)
    svg.arrow(x1, y1, x2, y2, WIRES[kind], width, size, dash_of(kind), hollow=kind == "ack")
    svg.circle(x1, y1, dot, WIRES[kind])


# The most letters of a node's name that are written beside its number, the last one an ellipsis if there are more.
LONGEST_NAME = 12
# Letters of no width that shape or join those beside them, as in Persian and in signs that are made of several.
JOINERS = "\u200c\u200d"


def short_name(network: Network, v: int) -> str:
    """The name that the network's text gives a node, as there is room for it; `` if it gives none."""
    return cut_name(network.names.get(v, ""))


def cut_name(name: str) -> str:
    """A name as there is room for it.

    >>> cut_name("Frankfurt am Main"), cut_name("a\\x1bb")
    ('Frankfurt a…', 'a\ufffdb')
    """
    letters = whole_letters(
        "".join(one if one.isprintable() or one in JOINERS else "\ufffd" for one in name)
    )
    if len(letters) <= LONGEST_NAME:
        return "".join(letters)
    return "".join(letters[: LONGEST_NAME - 1]).rstrip() + "…"


def whole_letters(text: str) -> list[str]:
    """The letters of a text, each with the marks and the joined signs that belong to it, so that none is cut apart.

    >>> [len(letter) for letter in whole_letters("e\\u0301a")]
    [2, 1]
    """
    letters: list[str] = []
    for one in text:
        is_joined = bool(letters) and letters[-1].endswith(JOINERS[1])
        belongs = one in JOINERS or unicodedata.category(one).startswith("M") or is_skin(one)
        if letters and (belongs or is_joined):
            letters[-1] += one
        else:
            letters.append(one)
    return letters


def is_skin(letter: str) -> bool:
    """Whether it changes the colour of the sign before it."""
    return "\U0001f3fb" <= letter <= "\U0001f3ff"


def dash_of(kind: str) -> str | None:
    return "4 2.5" if kind == "ack" else None
