"""`forestlab network read`: a text of another form as a network, and what of it isn't read."""
from forestplan.fault_codes import Code
from forestplan.faults import Fault, InText
from forestplan.network import Edge, Network
from forestplan.networks import edge_lists, networkx_forms, tables
from forestplan.networks.fields import field_number
from forestplan.networks.forms import Stated, decoded_text, form_of, letters_of
from forestplan.networks.listing import Listed
from forestplan.networks.network_text import checked_network, network_in_bytes, read_network, stem
from forestplan.networks.sources import path_of
from forestplan.wording import counted, one_line


def listed_of(data: bytes, name: str, form: str, stated: Stated) -> Listed:
    """The nodes and edges that a text of a form lists, by their names.

    >>> listed_of(b"source,target\\nUlm,Hof\\n", "pairs.csv", "pairs", Stated()).names()
    ['Ulm', 'Hof']

    Raises `Fault` of the text's first fault, and `Unsaid` of what the user has to state.
    """
    if form in networkx_forms.READERS:
        return networkx_forms.graph_read(data, name, form, stated)
    if form == "dimacs":
        # Nothing is mended, not even line ends.
        encoding = stated.encoding
        text = letters_of(data, name, encoding) if encoding else data.decode("utf-8", "replace")
        return listed_in(read_network(text, name), name)
    text = decoded_text(data, name, stated.encoding)
    if form == "pairs":
        return tables.pairs(text, name, stated)
    return {"edges": edge_lists.edges, "adjacency": edge_lists.adjacency}[form](text, name)


def listed_in(network: Network, path: str) -> Listed:
    """The nodes and edges of a network by their names, which differ."""
    names = {v: network.names.get(v, str(v)) for v in network.node_numbers}
    nodes = {own: v for v, own in names.items()}
    for v, own in names.items():
        if nodes[own] != v:
            raise Fault(Code.ONE_NAME_TWICE, InText(path), node=v, other=nodes[own], name=own)
    return Listed(
        "dimacs",
        edges=[(f"node {v}", names[v], names[w]) for v, w in network.edges],
        nodes={own: f"node {v}" for v, own in names.items()},
        places={names[v]: place for v, place in network.places.items() if v in names},
        identifiers={names[v]: number for v, number in network.given_identifiers.items()},
        bars={names[v]: set(channels) for v, channels in network.bars.items()},
    )


def made_of(found: Listed, name: str) -> tuple[Network, list[str]]:
    """The network of what a text lists, and what is said of it: how it was read, and what of it wasn't.

    >>> network, notes = made_of(Listed("pairs", [(2, "Ulm", "Hof")]), "pairs.csv")
    >>> network.names, notes[0].partition(";")[0]
    ({1: 'Ulm', 2: 'Hof'}, 'pairs')

    Raises `Fault` of a network above the limits.
    """
    names, by = numbered(found.names())
    number = {node: v for v, node in enumerate(names, 1)}
    edges, notes = edges_by_number(found, number)
    network = Network(
        len(names),
        edges,
        {number[node]: identifier for node, identifier in found.identifiers.items()},
        {number[node]: channels for node, channels in found.bars.items()},
        {v: node for node, v in number.items() if node != str(v)},
        {number[node]: place for node, place in found.places.items()},
        stem(name),
        may_repeat=True,
    )
    checked_network(network, name)
    return network, [reading_summary(network, len(edges), found.form, by), *found.notes, *notes]


def edges_by_number(found: Listed, number: dict[str, int]) -> tuple[set[Edge], list[str]]:
    """The edges by numbers, and notes of those that aren't there for themselves."""
    ends = [(number[one], number[other]) for _, one, other in found.edges]
    edges = {(min(pair), max(pair)) for pair in ends if len({*pair}) == 2}
    loops = sum(v == w for v, w in ends)
    again = len(ends) - loops - len(edges)
    notes = []
    if loops:
        notes.append(f"{counted(loops, 'edge')} from a node to itself left out")
    if again:
        notes.append(f"{counted(again, 'edge')} there before, in one direction or the other")
    return edges, notes


def reading_summary(network: Network, many: int, form: str, by: str) -> str:
    """The form and the counts, to be compared with one's data."""
    alone = sum(not beside for beside in network.neighbours.values())
    lone = f", {alone} of them without a neighbour" if alone else ""
    nodes = counted(network.nodes, "node")
    edges = counted(many, "edge")
    most = counted(network.greatest_degree, "neighbour")
    return f"{form}; {nodes}{lone}, {edges}, at most {most}; {by}"


def numbered(names: list[str]) -> tuple[list[str], str]:
    """The names by their numbers, which are those that the names are, if these count from 1 or from 0."""
    numbers = {field_number(name) for name in names}
    by = {1: "numbers as in the text", 0: "it counts from 0, so each number is one more"}
    for least, note in by.items():
        if len(numbers) == len(names) and numbers == set(range(least, len(names) + least)):
            return sorted(names, key=int), note
    return names, "numbers by the order in which they come"


def form_read(path: str, stated: Stated) -> str:
    """The form of what a command line names; what is called by the name of a network is DIMACS.

    >>> form_read("petersen", Stated()), form_read("petersen", Stated("pairs"))
    ('dimacs', 'pairs')
    """
    if stated.form is None and path_of(path) != path:
        return "dimacs"
    return form_of(path, one_line(path), stated)


def read_any(data: bytes, name: str, form: str, stated: Stated) -> tuple[Network, list[str]]:
    """The network of a file as the studio opens it, and what is said of it.

    >>> network, notes = read_any(b"p edge 2 1\\ne 1 2\\n", "two.col", "dimacs", Stated())
    >>> network.edges, notes
    ([(1, 2)], [])

    Raises `Fault` of the text's first fault, and `Unsaid` of what the user has to state.
    """
    if form == "dimacs":
        return network_in_bytes(data, name), []
    found = listed_of(data, name, form, stated)
    stated.check_found()
    return made_of(found, name)
