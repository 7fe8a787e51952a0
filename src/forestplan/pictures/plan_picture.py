"""The plan on the map: who has which channel."""
from forestplan.fault_codes import Code
from forestplan.faults import Fault
from forestplan.network import Network
from forestplan.networks.plan_text import clashes
from forestplan.pictures.map_picture import MapNode, begun, draw_map
from forestplan.pictures.marks import SMALL, short_name
from forestplan.wording import counted

LARGEST_NUMBERED = 100


class Planned(MapNode):
    """A node in the hue of its channel; beside it are its number and name, if there is room for all of them."""

    mark = "number"

    def __init__(self, network: Network, v: int, channel: int) -> None:
        super().__init__(network, v)
        self.channel = channel
        self.label = f"{v} {short_name(network, v)}".rstrip()
        said = f", barred {', '.join(map(str, self.bars))}" if self.bars else ""
        self.title = f"node {self.label}: channel {channel}{said}"
        if network.nodes > LARGEST_NUMBERED:
            self.label = ""
            self.bars = []


def plan_svg(network: Network, plan: dict[int, int]) -> str:
    clash = clashes(network, plan)
    if clash:
        v, w = clash[0]
        raise Fault(Code.PLAN_NOT_PROPER, node=v, neighbour=w, channel=plan[v])
    nodes = {v: Planned(network, v, plan[v]) for v in network.node_numbers}
    used = f"In the circles are the channels: {len(set(plan.values()))} of the {network.channels} allowed"
    svg, box = begun(
        network,
        nodes,
        f"Channel plan of {network.name}",
        f"{network.name}: the plan is proper",
        plan_words(network),
        used + ("; crossed out: barred" if network.bars else ""),
    )
    edge = ("#B9B9B9", 0.9) if network.nodes > SMALL else ("#9A9A9A", 1.6)
    is_dense = len(network.edges) > 5 * network.nodes
    draw_map(svg, network, nodes, box, ("#D0D0D0", 0.7) if is_dense else edge)
    return svg.document()


def plan_words(network: Network) -> str:
    """What there is, and what to look for."""
    if not network.edges:
        return f"{counted(network.nodes, 'transmitter')}, and no pair interferes"
    verb = "interferes" if len(network.edges) == 1 else "interfere"
    return (
        f"{counted(network.nodes, 'transmitter')}, {counted(len(network.edges), 'pair')} that {verb}, at most "
        f"{counted(network.greatest_degree, 'neighbour')}: on each line two different numbers"
    )
