"""The network alone: numbers in circles, joined where they interfere. What a question sheet shows; and the map of other
pictures that have words beside the circles."""
from collections.abc import Callable, Iterable, Mapping

from forestplan.network import Network
from forestplan.pictures.geometry import BASELINE, Point
from forestplan.pictures.marks import (
    LARGE,
    Map,
    bar_row,
    bars_width,
    blank_circle,
    by_size,
    channel_circle,
    short_name,
    width_of_map,
)
from forestplan.pictures.palette import BAR_RADIUS, INK, PAPER, SOFT
from forestplan.pictures.places import box_height, places_of
from forestplan.pictures.svg import Svg, text_width
from forestplan.wording import counted

MARGIN = 48
GAP = 3
# The colour and the width of an edge.
EDGE = SOFT, 1.4


# Width, height, how much of the width is beside the circles on each side, and the upper edge.
Box = tuple[float, float, float, float]


class MapNode:
    """What is drawn of a node: a circle with its channel, or if it has none with its number and filled in a colour;
    `words` and its barred channels beside it, and its title; `mark` is the class of its words."""

    mark: str | None = None
    channel: int | None = None
    fill = PAPER

    def __init__(self, network: Network, v: int) -> None:
        number = str(network.identifiers[v]) if network.identifiers[v] != v else ""
        self.v = v
        self.bars = network.bars.get(v, [])
        self.title = f"node {v}" + (f", identifier {number}" if number else "")
        self.size = 8.5 if network.nodes > LARGE else 12
        number = number if len(number) <= 12 else number[:5] + "…" + number[-5:]
        self.label = " ".join(filter(None, [number, short_name(network, v)]))

    def room(self) -> float:
        """How wide its words and bars are."""
        return text_width(self.label, self.size) + (
            GAP + bars_width(self.bars, BAR_RADIUS) if self.bars else 0
        )

    def draw(self, svg: Svg, x: float, y: float, radius: float, spot: Point) -> None:
        with svg.group("map-node", self.title):
            self.draw_circle(svg, x, y, radius)
        self.draw_beside(svg, spot)

    def draw_circle(self, svg: Svg, x: float, y: float, radius: float) -> None:
        if self.channel:
            svg.circle(x, y, radius + 1.6, PAPER)
            channel_circle(svg, x, y, radius, self.channel)
        else:
            blank_circle(svg, x, y, radius, self.v, self.fill)

    def draw_beside(self, svg: Svg, spot: Point) -> None:
        """Its words, and its barred channels."""
        left = spot[0] - self.room() / 2
        width = text_width(self.label, self.size)
        if self.label:
            svg.text(
                left + width / 2,
                spot[1] + BASELINE * self.size,
                self.label,
                self.size,
                INK,
                "middle",
                halo=3,
                mark=self.mark,
            )
        bar_row(svg, left + width + GAP, spot[1], self.bars, BAR_RADIUS)


def map_svg(network: Network) -> str:
    said = f"{counted(network.nodes, 'node')}, {counted(len(network.edges), 'edge')}"
    nodes = {v: MapNode(network, v) for v in network.node_numbers}
    svg, box = begun(network, nodes, f"Map of {network.name}", network.name, said)
    draw_map(svg, network, nodes, box, EDGE)
    return svg.document()


def begun(
    network: Network, nodes: Mapping[int, MapNode], title: str, *heading: str
) -> tuple[Svg, Box]:
    """A picture with its heading, as wide as that and the map need; and the map's box."""
    svg = Svg(0, 0, title)
    top = 26 + 16 * len(heading)
    svg.heading(*heading)
    svg.width, height, *_ = box = map_box(network, nodes.values(), svg.width, top)
    svg.height = top + height + 10
    return svg, box


def map_box(network: Network, nodes: Iterable[MapNode], least: float, top: float) -> Box:
    """The box of a map, at least so wide: width, height, how much of the width is for what is beside the circles on
    each side, and its upper edge."""
    beside = max(one.room() for one in nodes)
    width = width_of_map(network)
    height = min(640, box_height(places_of(network), width, MARGIN, 130))
    return max(width + 2 * beside, least), height, beside, top


def draw_map(
    svg: Svg,
    network: Network,
    nodes: Mapping[int, MapNode],
    box: Box,
    edge: tuple[str, float],
    draw_more: Callable[[Map], None] | None = None,
    left: float = 0,
) -> None:
    """The map in a box: its edges in a colour and a width, on them what else is drawn, and the nodes."""
    width, height, beside, top = box
    radius, least = by_size(network, (8.5, 6.5), (14, 9), (17, 11))
    drawn = Map(
        network,
        places_of(network),
        width - 2 * beside,
        height,
        MARGIN,
        radius,
        least,
        left=left + beside,
        top=top,
    )
    for v, w in network.edges:
        drawn.edge(svg, v, w, *edge)
    if draw_more:
        draw_more(drawn)
    drawn.label(
        {
            v: (one.room() / 2, BAR_RADIUS if one.bars else 0.45 * one.size)
            for v, one in nodes.items()
        }
    )
    for v, (x, y) in sorted(drawn.places.items()):
        nodes[v].draw(svg, x, y, drawn.radius, drawn.labels[v])
