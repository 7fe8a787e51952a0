"""The network of an address, `net=..`: X.Y of each node, the edges, and if there are any the identifiers (`i`), barred
channels (`b`) and names (`n`), with `~` between them, as `10.20_90.20~1-2~i1-17~b2-1_2-4~n1-Oslo`.

The page writes it (address.js), and it is read here alone, for the page and for `studio --links`."""
import re
from collections.abc import Callable, Iterator
from dataclasses import dataclass, field
from urllib.parse import unquote_to_bytes

from forestplan.fault_codes import Code
from forestplan.faults import Fault
from forestplan.limits import MAX_CHANNEL
from forestplan.networks.fields import shown_field
from forestplan.pictures.page_data import Net, PlainNode
from forestplan.pictures.pages import net_at

PLACE = re.compile(r"(-?[0-9]{1,6})\.(-?[0-9]{1,6})")
# A node by its number, and what is said of it.
OF_NODE = re.compile("([0-9]{1,5})-(.*)", re.S)
NUMBER, IDENTIFIER, CHANNEL = (re.compile(f"[0-9]{{1,{most}}}") for most in (5, 39, 4))


@dataclass
class AddressNode:
    """A node, while it is read: an identifier is its digits, or empty for the node's own number."""

    x: int
    y: int
    id: str = ""
    name: str = ""
    bars: list[int] = field(default_factory=list)


@dataclass
class Drawn:
    """Nodes, and edges (v, w) from 1, the lower node first, ascending."""

    nodes: list[AddressNode]
    edges: list[tuple[int, int]]

    def for_page(self) -> Net:
        nodes = [PlainNode(one.x, one.y, one.id, one.name, one.bars) for one in self.nodes]
        return net_at("", nodes, self.edges)

    def text(self) -> str:
        """In the DIMACS format, without places and names."""
        numbered = list(enumerate(self.nodes, 1))
        lines = [f"p edge {len(self.nodes)} {len(self.edges)}"]
        lines += [f"i {v} {node.id}" for v, node in numbered if node.id]
        lines += [f"b {v} {bar}" for v, node in numbered for bar in node.bars]
        lines += [f"e {v} {w}" for v, w in self.edges]
        return "\n".join(lines) + "\n"


def percent_decoded(said: str) -> str:
    """What `%` and two digits of 16 stand for."""
    try:
        if re.search("%(?![0-9A-Fa-f]{2})", said):
            raise ValueError
        return unquote_to_bytes(said.encode()).decode()
    except ValueError:
        raise Fault(Code.NO_LETTER_OF_PERCENT, said=shown_field(said)) from None


def list_items(said: str) -> list[str]:
    """The items of a list, with `_` between them."""
    return said.split("_") if said else []


def drawn_of(code: str) -> Drawn:
    """The network of an address, or what is wrong with it."""
    places, edges, *more = [*code.split("~"), ""][: max(2, code.count("~") + 1)]
    nodes = [node_at(place) for place in list_items(places)]
    found = Drawn(nodes, sorted(drawn_edges(edges, len(nodes))))
    kinds: set[str] = set()
    for part in more:
        kind = part[:1]
        if kind not in ADDS or kind in kinds:
            said = "are there twice" if kind in kinds else "mean nothing"
            raise Fault(Code.PART_OF_NETWORK, part=shown_field(part), said=said)
        kinds.add(kind)
        for v, what in of_nodes(part[1:], len(nodes)):
            ADDS[kind](nodes[v - 1], v, what)
    return found


def node_at(place: str) -> AddressNode:
    found = PLACE.fullmatch(place)
    if not found:
        raise Fault(Code.NO_PLACE, spot=shown_field(place))
    return AddressNode(int(found[1]), int(found[2]))


def of_nodes(said: str, nodes: int) -> Iterator[tuple[int, str]]:
    """The pairs of a part, a node and what is said of it."""
    for pair in list_items(said):
        found = OF_NODE.fullmatch(pair)
        if not found or not 1 <= int(found[1]) <= nodes:
            raise Fault(Code.OF_NO_NODE, pair=shown_field(pair), nodes=nodes)
        yield int(found[1]), found[2]


def drawn_edges(said: str, nodes: int) -> set[tuple[int, int]]:
    found: set[tuple[int, int]] = set()
    for v, other in of_nodes(said, nodes):
        w = int(other) if NUMBER.fullmatch(other) else 0
        edge = min(v, w), max(v, w)
        if not 1 <= edge[0] < edge[1] <= nodes:
            raise Fault(Code.WRONG_EDGE, edge=shown_field(f"{v}-{other}"))
        if edge in found:
            raise Fault(Code.EDGE_TWICE, v=v, other=other)
        found.add(edge)
    return found


def add_identifier(node: AddressNode, v: int, said: str) -> None:
    if not IDENTIFIER.fullmatch(said):
        raise Fault(Code.IDENTIFIER_NO_NUMBER, node=v, said=shown_field(said))
    if node.id:
        raise Fault(Code.TWO_IDENTIFIERS, node=v)
    node.id = said


def add_bar(node: AddressNode, v: int, said: str) -> None:
    if not CHANNEL.fullmatch(said) or not 1 <= int(said) <= MAX_CHANNEL:
        raise Fault(Code.CHANNEL_NOT_TO_BAR, said=shown_field(said), node=v, most=MAX_CHANNEL)
    if int(said) in node.bars:
        raise Fault(Code.BARRED_TWICE, channel=int(said), node=v)
    node.bars.append(int(said))


def add_name(node: AddressNode, v: int, said: str) -> None:
    if node.name:
        raise Fault(Code.TWO_NAMES, node=v)
    node.name = percent_decoded(said)


ADDS: dict[str, Callable[[AddressNode, int, str], None]] = {
    "i": add_identifier,
    "b": add_bar,
    "n": add_name,
}
