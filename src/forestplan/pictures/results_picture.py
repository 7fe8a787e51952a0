"""What the nodes of a program have found at their last pulse, on the map: a chosen edge is thick, a colour fills the
circle, and words are beside it."""
from forestplan.definitions.independent_set import IndependentSet
from forestplan.definitions.matching import Matching
from forestplan.definitions.nodes import Colouring
from forestplan.definitions.recolouring import Recolouring
from forestplan.network import Network
from forestplan.pictures.map_picture import MapNode, begun, draw_map
from forestplan.pictures.marks import Map, short_name
from forestplan.pictures.palette import INK, channel_hue
from forestplan.pictures.program_rounds import ProgramRounds
from forestplan.pictures.svg import Svg
from forestplan.wording import counted

# Programs whose colours are channels: in the circle is the channel, and the node's number beside it; and those of which
# the marks show all.
OF_CHANNELS = (Colouring, Recolouring)
SHOWN = (Matching, IndependentSet)


class ResultNode(MapNode):
    """What a node is drawn with: `colour`, from 0, and `other`, the node at the end of the edge that it has chosen,
    or None; `words` are beside it."""

    mark = "found"

    def __init__(self, rounds: ProgramRounds, v: int) -> None:
        super().__init__(rounds.network, v)
        node = rounds.nodes[v]
        self.result = node.result()
        self.colour, self.other = rounds.pulses[-1].drawn.get(v, (None, None))
        self.has_channel = isinstance(node, OF_CHANNELS)
        is_shown = isinstance(node, SHOWN)
        self.before = node.first.merged if isinstance(node, Recolouring) else self.colour
        if self.colour is not None and self.has_channel:
            self.channel = self.colour + 1
        elif self.colour is not None:
            self.fill = channel_hue(self.colour + 1)
        was = self.channel_before()
        self.title = f"node {v}: {self.result}" + (f", was channel {was}" if was else "")
        # Words of its result only as far as the marks don't show them.
        said = self.result
        if was:
            said = f"was {was}"
        elif self.has_channel or is_shown and (self.colour, self.other) != (None, None):
            said = ""
        number = str(v) if self.has_channel else ""
        self.label = " ".join(filter(None, [number, short_name(rounds.network, v), said]))

    def channel_before(self) -> int | None:
        """Its channel before it chose another one, if it did."""
        if not self.has_channel or self.before is None or self.before == self.colour:
            return None
        return self.before + 1


def found_in(rounds: ProgramRounds) -> dict[int, ResultNode]:
    return {v: ResultNode(rounds, v) for v in rounds.network.node_numbers}


def results_svg(rounds: ProgramRounds) -> str:
    network = rounds.network
    found = found_in(rounds)
    lines = [
        f"What each node has found after pulse {rounds.last}{result_legend(found)}.",
        counts(found, network) + ".",
    ]
    if rounds.wrong:
        lines.append(f"It isn't right: {rounds.wrong}.")
    svg, box = begun(
        network,
        found,
        f"{rounds.program.name} on {network.name}",
        f"{network.name}: {rounds.program.name}",
        *lines,
    )
    draw_map(
        svg, network, found, box, ("#9A9A9A", 1.2), lambda drawn: draw_chosen(svg, drawn, found)
    )
    return svg.document()


def draw_chosen(svg: Svg, drawn: Map, found: dict[int, ResultNode]) -> None:
    """The edges that nodes have chosen; one that only one of its ends has chosen is an arrow."""
    for v, one in found.items():
        is_mutual = one.other and found[one.other].other == v
        if one.other and (v < one.other or not is_mutual):
            drawn.edge(
                svg, v, one.other, INK, 4, 0 if is_mutual else 10, drawn.radius + 1, mark="chosen"
            )


def result_legend(found: dict[int, ResultNode]) -> str:
    """What the marks mean, of those that there are."""
    said = ["a thick line is an edge that a node has chosen"] * any(
        one.other for one in found.values()
    )
    if any(one.has_channel for one in found.values()):
        said.append("in the circle is its channel")
    elif filled := {one.result for one in found.values() if one.colour is not None}:
        said.append("filled: " + (f"`{filled.pop()}`" if len(filled) == 1 else "by its colour"))
    return f": {'; '.join(said)}" if said else ""


def counts(found: dict[int, ResultNode], network: Network) -> str:
    """How much there is of what is found."""
    if all(one.has_channel for one in found.values()):
        after = len({one.colour for one in found.values()})
        before = len({one.before for one in found.values()})
        return counted(after, "channel") + (
            f"; before there were {before}" if before != after else ""
        )
    chosen = len({tuple(sorted((v, one.other))) for v, one in found.items() if one.other})
    filled = sum(one.colour is not None for one in found.values())
    return "; ".join(
        [f"{counted(chosen, 'edge')} of {len(network.edges):,}"] * bool(chosen)
        + [f"{filled:,} of {counted(len(found), 'node')}"] * bool(filled)
    ) or counted(len(found), "node")
