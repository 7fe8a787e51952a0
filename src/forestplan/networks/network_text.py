"""The network of a text in the DIMACS format, or its first fault in words: the fault that the programs report, with its
code.

Comment lines may give places (`c at V X Y`) and names (`c name V NAME`); to the programs they are comments like any
other."""
import re

from forestplan.fault_codes import Code
from forestplan.faults import Fault, InText
from forestplan.limits import MAX_BARS, MAX_CHANNEL, MAX_DEGREE, MAX_EDGES, MAX_NODES
from forestplan.network import IDENTIFIERS, Edge, Network
from forestplan.networks.fields import fields_of, shown_field, field_number

FORMATS = ("edge", "edges", "col")
SKIPPED = {"n", "d", "v", "x"}


def stem(path: str) -> str:
    """A file's name without its folder and its ending, with a mark in place of what is no UTF-8.

    >>> stem("nets/two.col")
    'two'
    """
    return re.sub(r"\.\w+$", "", path.split("/")[-1]).encode("utf-8", "replace").decode()


# Comment lines `c at V X Y` and `c name V NAME`, whose name is the rest of the line.
PLACE = re.compile(
    "[ \t]*c[ \t]+at[ \t]+([0-9]+)" + r"[ \t]+(-?[0-9]{1,9}(?:\.[0-9]{1,9})?)" * 2 + "[ \t]*\r?"
)
NAME = re.compile("[ \t]*c[ \t]+name[ \t]+([0-9]+)[ \t]+([^ \t].*)")

# The words of a line after its first field, how many of them are nodes, what it says, and the fault of one that
# comes before the `p` line.
LINES = {
    "e": ("V W", 2, "an edge", Code.EDGE_BEFORE_PROBLEM_LINE),
    "i": ("V NUMBER", 1, "an identifier", Code.BEFORE_PROBLEM_LINE),
    "b": ("V CHANNEL", 1, "a barred channel", Code.BEFORE_PROBLEM_LINE),
}


def two_numbers(fields: list[str]) -> tuple[int, int] | None:
    """Two fields as numbers; None if they aren't two, or one of them is no number."""
    found = [number for number in map(field_number, fields) if number is not None]
    return (found[0], found[1]) if len(found) == 2 else None


class Reading:
    """What the lines so far say: `nodes` is None before the `p` line, `promised` its number of edges, and `edge_lines`
    counts the lines that name one, again and again too."""

    def __init__(self, path: str = "") -> None:
        self.path = path
        self.line = 0
        self.promised = 0
        self.edge_lines = 0
        self.nodes: int | None = None
        self.edges: set[Edge] = set()
        self.places: dict[int, tuple[float, float]] = {}
        self.names: dict[int, str] = {}
        self.identifiers: dict[int, int] = {}
        self.bars: dict[int, set[int]] = {}

    def fault(self, code: Code, **subject: object) -> Fault:
        return Fault(code, InText(self.path, self.line), **subject)

    def read(self, raw: str) -> None:
        """The next line, or its fault."""
        self.line += 1
        fields = [field for field in fields_of(raw) if field]
        word = fields[0] if fields else "c"
        if word.startswith("c"):
            self.comment(raw)
        elif word == "p":
            self.problem(fields)
        elif word in LINES:
            one, other = self.numbers(fields)
            {"e": self.edge, "i": self.identifier, "b": self.bar}[word](one, other)
        elif word not in SKIPPED:
            raise self.fault(Code.NO_LINE_OF_A_NETWORK, word=shown_field(word))

    def comment(self, raw: str) -> None:
        """Keeps a place or a name of a node."""
        place = PLACE.fullmatch(raw)
        name = NAME.fullmatch(raw.rstrip(" \t\r"))
        if place and (v := field_number(place[1])) is not None:
            self.places[v] = float(place[2]), float(place[3])
        if name and (v := field_number(name[1])) is not None:
            self.names[v] = name[2]

    def problem(self, fields: list[str]) -> None:
        """NODES and EDGES of the `p` line."""
        if self.nodes is not None:
            raise self.fault(Code.SECOND_PROBLEM_LINE)
        pair = two_numbers(fields[2:4])
        if pair is None or fields[1] not in FORMATS:
            raise self.fault(Code.NO_PROBLEM_LINE, row=shown_field(" ".join(fields)))
        if pair[0] > MAX_NODES:
            raise self.fault(Code.NODES_ABOVE_LIMIT, most=MAX_NODES)
        self.nodes, self.promised = pair

    def numbers(self, fields: list[str]) -> tuple[int, int]:
        """The two numbers of a line; a node that isn't there is named with the digits that the text has."""
        form, count, what, code = LINES[fields[0]]
        if self.nodes is None:
            raise self.fault(code, what=what)
        pair = two_numbers(fields[1:3])
        if pair is None:
            raise self.fault(
                Code.NO_SUCH_LINE, word=fields[0], form=form, row=shown_field(" ".join(fields))
            )
        for field, v in zip(fields[1 : 1 + count], pair):
            if not 1 <= v <= self.nodes:
                raise self.fault(Code.NO_NODE_OF_LINE, node=shown_field(field), nodes=self.nodes)
        if fields[0] == "b" and not 1 <= pair[1] <= MAX_CHANNEL:
            raise self.fault(
                Code.NO_CHANNEL_TO_BAR, channel=shown_field(fields[2]), most=MAX_CHANNEL
            )
        return pair

    def edge(self, v: int, w: int) -> None:
        if v == w:
            raise self.fault(Code.LOOP, node=v)
        self.edges.add((min(v, w), max(v, w)))
        self.edge_lines += 1
        if len(self.edges) > MAX_EDGES:
            raise self.fault(Code.SECOND_EDGE_LIMIT, most=MAX_EDGES)

    def identifier(self, v: int, number: int) -> None:
        if number >= IDENTIFIERS:
            raise self.fault(Code.IDENTIFIER_ABOVE_LIMIT)
        if v in self.identifiers:
            raise self.fault(Code.SECOND_IDENTIFIER, node=v)
        self.identifiers[v] = number

    def bar(self, v: int, channel: int) -> None:
        barred = self.bars.setdefault(v, set())
        barred.add(channel)
        if len(barred) > MAX_BARS:
            raise self.fault(Code.BARS_ABOVE_LIMIT, most=MAX_BARS, node=v)

    def count(self) -> int:
        """How many nodes there are, by the `p` line."""
        if self.nodes is None:
            raise Fault(Code.PROBLEM_LINE_MISSING, InText(self.path))
        return self.nodes

    def network(self) -> Network:
        """What all lines are, or its first fault."""
        return checked_network(
            Network(
                self.count(),
                self.edges,
                self.identifiers,
                self.bars,
                self.names,
                self.places,
                stem(self.path),
                may_repeat=True,
            ),
            self.path,
        )


def reading_of(text: str, path: str) -> Reading:
    """What all lines of a text say.

    >>> reading_of("p edge 2 1\\ne 1 2\\ne 2 1\\n", "two.col").edge_lines
    2

    Raises `Fault` of the first line that is none of a network, and of a text without a `p` line.
    """
    read = Reading(path)
    for raw in text.split("\n"):
        read.read(raw)
    read.count()
    return read


def checked_network(network: Network, path: str) -> Network:
    """The same network, if it is within the limits and its identifiers differ. `path` is what a fault calls it.

    >>> checked_network(Network(2, [(1, 2)]), "two").nodes
    2

    Raises `Fault` of too many nodes, edges or neighbours, and of an identifier that two nodes have.
    """
    if network.nodes > MAX_NODES:
        raise Fault(Code.TOO_MANY_NODES, InText(path), nodes=network.nodes, most=MAX_NODES)
    if len(network.edges) > MAX_EDGES:
        raise Fault(Code.TOO_MANY_EDGES, InText(path), most=MAX_EDGES)
    for v in network.node_numbers:
        if len(network.neighbours[v]) > MAX_DEGREE:
            name = network.names.get(v)
            raise Fault(
                Code.TOO_MANY_NEIGHBOURS,
                InText(path),
                node=v,
                name=name and shown_field(name),
                neighbours=len(network.neighbours[v]),
                most=MAX_DEGREE,
            )
    alike: dict[int, list[int]] = {}
    for v, number in network.identifiers.items():
        alike.setdefault(number, []).append(v)
    same = min((found for found in alike.values() if len(found) > 1), default=None)
    if same:
        raise Fault(Code.ONE_IDENTIFIER_TWICE, InText(path), node=same[0], other=same[1])
    return network


def read_network(text: str, path: str) -> Network:
    """The network of a `text` in the DIMACS format. `path` is what a fault calls it.

    >>> read_network("p edge 3 2\\ne 1 2\\ne 2 3\\n", "path.col").neighbours
    {1: [2], 2: [1, 3], 3: [2]}
    >>> read_network("p edge 3 1\\ne 1 4\\n", "path.col")
    Traceback (most recent call last):
    forestplan.faults.Fault: path.col line 2: there is no node 4: there are 3, from 1 on (F5)

    Raises `Fault` of the text's first fault, which has the code that the programs report.
    """
    return reading_of(text, path).network()


def network_in_bytes(data: bytes, path: str = "the network") -> Network:
    """The same as `read_network`, of a text in bytes. What is no UTF-8 in it is read as a mark of its own.

    >>> network_in_bytes(b"p edge 2 1\\ne 1 2\\n").edges
    [(1, 2)]
    """
    return read_network(data.decode("utf-8", "replace"), path)
