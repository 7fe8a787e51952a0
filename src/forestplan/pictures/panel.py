"""A small map of a network: a forest's edges and colours, or the channels once some forests are merged."""
from forestplan.network import Edge, Network
from forestplan.pictures.geometry import CORNER
from forestplan.pictures.marks import LARGE, Map, alone_chip, by_size, channel_circle, colour_square
from forestplan.pictures.palette import INK, PAPER, WRONG
from forestplan.pictures.places import OF_SQUARES, Places, box_height, places_of
from forestplan.pictures.svg import Svg, text_width

PANEL = 250
FAINT = "#E6E6E6"
BEFORE = "#9A9A9A"


class Panel(Map):
    """A small map of a network, with sizes by the number of its nodes: of a forest's colours, or of channels."""

    def __init__(self, network: Network) -> None:
        self.is_large = network.nodes > LARGE
        radius, least = by_size(network, (4.5, 3), (10, 7), (13, 10))
        places = places_of(network)
        margin = 14 if self.is_large else 34
        self.height = box_height(places, PANEL, margin, 100)
        super().__init__(network, places, PANEL, self.height, margin, radius, least, OF_SQUARES)
        if not self.is_large:
            boxes: Places = {v: (text_width(v, 8.5) / 2, 4) for v in network.node_numbers}
            self.label(boxes, corner=self.radius * CORNER)

    def colours(
        self, svg: Svg, left: float, top: float, parents: dict[int, int], colours: dict[int, int]
    ) -> None:
        """A forest's edges as arrows to the parents, and colours in it; a pale chip where a node has no edge."""
        drawn = self.at(left, top)
        radius = self.radius
        thin = 0.6 if self.is_large else 1
        joined = {v for edge in parents.items() for v in edge}
        for v, w in self.network.edges:
            if parents.get(v) != w and parents.get(w) != v:
                drawn.edge(svg, v, w, FAINT, thin, mark="other")
        drawn.numbers(svg, 8.5, 3)
        for v, w in parents.items():
            drawn.edge(svg, v, w, INK, 1.8 * thin, 8 * thin, radius + 3 * thin, mark="arrow")
        for v, (x, y) in sorted(drawn.places.items()):
            if v in joined:
                colour_square(svg, x, y, radius, colours[v])
            else:
                alone_chip(svg, x, y, radius * 0.6, colours[v])

    def channels(
        self,
        svg: Svg,
        left: float,
        top: float,
        forest_of: dict[Edge, int],
        last: int,
        now: int,
        merged: dict[int, int],
    ) -> None:
        """The channels once the forests up to `last` are merged: edges of forest `now` in ink, of others in grey; red
        is what has one channel."""
        drawn = self.at(left, top)
        thin = 0.6 if self.is_large else 1
        wrong = {(v, w) for v, w in self.network.edges if merged[v] == merged[w]}
        wrong = {e for e in wrong if forest_of[e] <= last}
        for e in sorted(self.network.edges, key=lambda e: (forest_of[e] <= last, forest_of[e])):
            hue, width = (WRONG, 3.4) if e in wrong else style_of(forest_of[e], last, now)
            drawn.edge(svg, *e, hue, width * thin, mark="wrong" if e in wrong else "edge")
        drawn.numbers(svg, 8.5, 3)
        self.circles(svg, drawn, {v for edge in wrong for v in edge}, merged, thin)

    def circles(
        self, svg: Svg, drawn: "Panel", ends: set[int], merged: dict[int, int], thin: float
    ) -> None:
        """The channels; `ends` are those of the edges in red."""
        for v, (x, y) in sorted(drawn.places.items()):
            if v in ends:
                svg.circle(x, y, self.radius + 3.6, PAPER, WRONG, 2.2)
            else:
                svg.circle(x, y, self.radius + 1.4 * thin, PAPER)
            channel_circle(svg, x, y, self.radius, merged[v] + 1)


def style_of(forest: int, last: int, now: int) -> tuple[str, float]:
    """The colour and the width of an edge once the forests up to `last` are merged."""
    if forest > last:
        return FAINT, 1
    return (INK, 1.8) if forest == now else (BEFORE, 1.3)
