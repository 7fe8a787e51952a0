"""Networks that other programs wrote, read by networkx, where that is installed.

What the text declares (cross_check.py) is compared with what networkx makes of it.
"""
import importlib
import importlib.util
import io
import json
import re
import site
import sys
import warnings
from collections.abc import Callable, Collection, Iterable
from types import ModuleType

from forestplan.fault_codes import Code
from forestplan.faults import Fault, InText
from forestplan.networks.cross_check import Declared, in_json, in_xml
from forestplan.networks.fields import shown_field
from forestplan.networks.forms import Stated, decoded_text
from forestplan.networks.gml import in_gml, with_multigraph
from forestplan.networks.graph6 import from_graph6, in_graph6, in_sparse6
from forestplan.networks.listing import Listed, Where, name_of, not_read
from forestplan.networks.networkx_graph import Attributes, Graph
from forestplan.networks.table import FARTHEST
from forestplan.wording import one_line

PACKAGE = "apt install python3-networkx, or pip install networkx"
# How much of the words of networkx is said.
MOST_SAID = 300
# Gephi writes GEXF 1.3, whose nodes and edges are those of 1.2, which all versions of networkx read.
NEW_GEXF = b"http://gexf.net/1.3"
GEXF = b"http://www.gexf.net/1.2draft"


def networkx() -> ModuleType | None:
    """The module, or None. Commands start without the packages of the system, so these are looked for now."""
    if "networkx" not in sys.modules and importlib.util.find_spec("networkx") is None:
        site.main()
    try:
        return importlib.import_module("networkx")
    except ImportError:
        return None


# networkx's functions have no hints, so each reader states what it returns.


def from_graphml(nx: ModuleType, data: bytes) -> Graph:
    graph: Graph = nx.read_graphml(io.BytesIO(data), force_multigraph=True)
    return graph


def from_gexf(nx: ModuleType, data: bytes) -> Graph:
    graph: Graph = nx.read_gexf(io.BytesIO(data.replace(NEW_GEXF, GEXF)))
    return graph


def from_gml(nx: ModuleType, data: bytes) -> Graph:
    """Two edges may have the same ends."""
    graph: Graph = nx.parse_gml(with_multigraph(data.decode()), label=None)
    return graph


def from_json(nx: ModuleType, data: bytes) -> Graph:
    """What networkx calls the list of edges depends on its version."""
    whole = json.loads(data)
    edges = whole.get("links", whole.get("edges"))
    text = {**whole, "multigraph": True, "links": edges, "edges": edges}
    graph: Graph = nx.node_link_graph(text)
    return graph


def from_sparse6(nx: ModuleType, data: bytes) -> Graph:
    graph: Graph = nx.from_sparse6_bytes(data.strip())
    return graph


Reader = Callable[[ModuleType, bytes], Graph]
Judge = Callable[[bytes, str], Declared | None]
# Of each form: how networkx reads it, and what finds the nodes and edges that its text declares, or only refuses what
# is above the limits.
READERS: dict[str, tuple[Reader, Judge]] = {
    "graphml": (from_graphml, in_xml),
    "gexf": (from_gexf, in_xml),
    "gml": (from_gml, in_gml),
    "json": (from_json, in_json),
    "graph6": (from_graph6, in_graph6),
    "sparse6": (from_sparse6, in_sparse6),
}


def graph_read(data: bytes, name: str, form: str, stated: Stated) -> Listed:
    """What networkx reads, if it has all nodes and edges that the text declares."""
    nx = networkx()
    if nx is None:
        raise Fault(Code.NO_NETWORKX, InText(name), form=form, package=PACKAGE)
    reader, declares = READERS[form]
    # XML says its encoding itself, if nothing else is stated.
    if declares != in_xml or stated.encoding:
        text = decoded_text(data, name, stated.encoding)
        data = re.sub(r"\A\s*<\?xml[^>]*\?>", "", text).encode()
    declared = declares(data, name)
    try:
        with warnings.catch_warnings(record=True) as warned:
            warnings.simplefilter("always")
            warnings.simplefilter("ignore", FutureWarning)
            graph = reader(nx, data)
    except MemoryError:
        raise
    except Exception as why:
        said = one_line(str(why))[:MOST_SAID] or type(why).__name__
        raise Fault(Code.NETWORKX_REFUSES, InText(name), form=form, why=said) from None
    if declared:
        there = len(declared.nodes), len(declared.edges)
        got = graph.number_of_nodes(), graph.number_of_edges()
        if there != got:
            raise Fault(
                Code.NETWORKX_READS_OTHERS,
                InText(name),
                nodes=there[0],
                edges=there[1],
                nodes_read=got[0],
                edges_read=got[1],
            )
    found = listed_graph(graph, form, declared or Declared(name))
    found.notes += [f"networkx warns: {one_line(str(one.message))[:MOST_SAID]}" for one in warned]
    return found


def listed_graph(graph: Graph, form: str, declared: Declared) -> Listed:
    """The nodes and edges of a graph by its nodes' label, name or id: the first that each has for itself."""
    rows = dict(graph.nodes(data=True))
    key = next(
        (key for key in ("label", "name") if tells_nodes_apart(key, list(rows.values()))), None
    )
    # networkx keeps the order of the nodes.
    where: dict[object, Where] = dict(zip(rows, declared.nodes.values()))
    own: dict[object, str] = {}
    nodes: dict[str, Where] = {}
    found = Listed(form, nodes=nodes, notes=[f"nodes are named by their {key or 'id'}"])
    for node, has in rows.items():
        line = where.get(node, 1)
        own[node] = name_of(str(has[key] if key else node), declared.path, line)
        if own[node] in nodes:
            raise Fault(
                Code.SECOND_NODE_OF_NAME, InText(declared.path, line), name=shown_field(own[node])
            )
        nodes[own[node]] = line
    found.edges = [(nodes[own[v]], own[v], own[w]) for v, w, _ in graph.edges(data=True)]
    found.places = places_in_rows({own[node]: has for node, has in rows.items()})
    if graph.is_directed():
        found.notes.append("directions aren't read")
    read = {key, "id", *(("x", "y") if found.places else ())}
    found.notes += not_read("keys of nodes", keys_of(rows.values(), read))
    edges = graph.edges(data=True)
    found.notes += not_read("keys of edges", keys_of((has for *_, has in edges), {"id"}))
    return found


def keys_of(rows: Iterable[Attributes], read: Collection[str | None]) -> list[str]:
    """The keys that aren't read."""
    return sorted({str(key) for has in rows for key in has if key not in read})


def tells_nodes_apart(key: str, rows: list[Attributes]) -> bool:
    """Whether each node has a value of a key that no other has."""
    values = {str(has[key]) for has in rows if type(has.get(key)) in (str, int, float)}
    return len(values) == len(rows) and "" not in values


def places_in_rows(rows: dict[str, Attributes]) -> dict[str, tuple[float, float]]:
    """The places of the nodes, if each has one in numbers `x` and `y`."""
    try:
        places = {name: (float(has["x"]), float(has["y"])) for name, has in rows.items()}
    except (KeyError, TypeError, ValueError):
        return {}
    are_near = all(abs(x) < FARTHEST and abs(y) < FARTHEST for x, y in places.values())
    return places if are_near else {}
