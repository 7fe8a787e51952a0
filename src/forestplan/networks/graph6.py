"""graph6 and sparse6: one line of letters from `?` to `~`, each of which is six bits. What a line declares is judged
before anything is made of it: a few letters can declare 68 billion nodes."""
import re
from math import isqrt
from types import ModuleType

from forestplan.fault_codes import Code
from forestplan.faults import Fault, InText
from forestplan.limits import MAX_EDGES, MAX_NODES
from forestplan.networks.fields import shown_field
from forestplan.networks.networkx_graph import Graph

FIRST, LAST = b"?~"
# What may stand before the letters of a form: the name of the form, and the mark of sparse6.
HEADS = {"graph6": re.compile(rb"(?:>>graph6<<)?"), "sparse6": re.compile(rb"(?:>>sparse6<<)?:")}
OTHER = re.compile(rb"[^?-~]")
# No graph within the limits has more letters in sparse6: each edge, and each node once, takes a bit and the bits of a
# node.
LONGEST_SPARSE = (MAX_EDGES + MAX_NODES) * (1 + MAX_NODES.bit_length()) // 6 + 100


def in_graph6(data: bytes, path: str) -> None:
    """Refuses what isn't one line of graph6 within the limits. `A_` is two nodes and their edge.

    >>> in_graph6(b"A_", "two.g6")

    Raises `Fault` of another number of letters than the nodes take, and of too many nodes or edges.
    """
    nodes, letters = nodes_declared("graph6", data, path)
    pairs = nodes * (nodes - 1) // 2
    wanted = (pairs + 5) // 6
    if len(letters) != wanted:
        raise Fault(
            Code.OTHER_NUMBER_OF_LETTERS,
            InText(path, 1),
            nodes=nodes,
            wanted=wanted,
            letters=len(letters),
        )
    if edges_in(letters) > MAX_EDGES:
        raise Fault(Code.EDGES_ABOVE_LIMIT, InText(path, 1), most=MAX_EDGES)


def in_sparse6(data: bytes, path: str) -> None:
    """Refuses what isn't one line of sparse6 within the limits.

    >>> in_sparse6(b"A_", "two.s6")
    Traceback (most recent call last):
    forestplan.faults.Fault: two.s6 line 1: no sparse6: `A_`

    Raises `Fault` of what doesn't begin as sparse6 does, and of too many nodes or edges.
    """
    _, letters = nodes_declared("sparse6", data, path)
    if len(letters) > LONGEST_SPARSE:
        raise Fault(Code.EDGES_ABOVE_LIMIT, InText(path, 1), most=MAX_EDGES)


def nodes_declared(form: str, data: bytes, path: str) -> tuple[int, bytes]:
    """How many nodes the one line of a text declares, and the letters after that number."""
    line, *others = data.strip().split(b"\n")
    if others:
        raise Fault(Code.SECOND_GRAPH_OF_FILE, InText(path, 2))
    head = HEADS[form].match(line)
    letters = line[head.end() :] if head else b""
    if not letters:
        raise Fault(
            Code.NO_LETTERS_OF_FORM,
            InText(path, 1),
            form=form,
            row=shown_field(line[:41].decode("utf-8", "replace")),
        )
    other = OTHER.search(letters)
    if other:
        letter = shown_field(letters[other.start() :].decode("utf-8", "replace")[0])
        raise Fault(Code.NO_LETTER_OF_FORM, InText(path, 1), form=form, letter=letter)
    # Up to 62 nodes are one letter; more are three after a `~`, or six after two, and so many no network has.
    begin, end = (0, 1) if letters[0] < LAST else (1, 4)
    nodes = 0
    for six in letters[begin:end]:
        nodes = nodes << 6 | six - FIRST
    if nodes > MAX_NODES:
        raise Fault(Code.NODES_OF_LINE_ABOVE_LIMIT, InText(path, 1), most=MAX_NODES)
    if len(letters) < end:
        raise Fault(Code.NUMBER_OF_NODES_CUT, InText(path, 1), form=form)
    return nodes, letters[end:]


def edges_in(letters: bytes) -> int:
    """The edges of graph6, each of which is a bit."""
    some = letters.translate(None, b"?")
    return sum(some.count(bytes([FIRST + six])) * six.bit_count() for six in range(1, 64))


def from_graph6(nx: ModuleType, data: bytes) -> Graph:
    """The graph of a line that `in_graph6` takes. networkx would list all pairs of nodes first, which takes some 20 GB
    for as many nodes as a network may have."""
    nodes, letters = nodes_declared("graph6", data, "")
    made = nx.Graph()
    made.add_nodes_from(range(nodes))
    for found in re.finditer(rb"[^?]", letters):
        for place in range(6):
            lower, higher = pair_at(6 * found.start() + place)
            # The last letter has bits that are of no pair.
            if found[0][0] - FIRST & 32 >> place and higher < nodes:
                made.add_edge(lower, higher)
    graph: Graph = made
    return graph


def pair_at(bit: int) -> tuple[int, int]:
    """The pair of nodes that a bit of graph6 is of: (0, 1), (0, 2), (1, 2), (0, 3), .., by their higher node."""
    higher = (1 + isqrt(1 + 8 * bit)) // 2
    return bit - higher * (higher - 1) // 2, higher
