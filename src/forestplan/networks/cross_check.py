"""The nodes and edges that a text of a foreign form declares, counted beside what networkx makes of it.

networkx makes one node of two of one id, makes a node of an end that isn't declared, and leaves out all graphs but the
first and graphs in a node, each without a word. What is counted here is an element of the form by its place in the
text, not by a word that others have, too.
"""
import json
import re
from collections.abc import Mapping
from dataclasses import dataclass, field
from xml.parsers import expat

from forestplan.fault_codes import Code
from forestplan.faults import Fault, InText
from forestplan.networks.fields import shown_field
from forestplan.networks.listing import Where


# Digits of a whole number in JSON: Python makes a number of more of them in quadratic time, or refuses to.
MOST_DIGITS = 4000


# What begins as a tag does; expat looks at a long one again with each part of the text that comes.
TAG = re.compile(rb"<[^>]*")
LONGEST_TAG = 1 << 20
# Letters of a namespace: each element gets its name with the whole namespace before it.
LONGEST_SPACE = 1000


@dataclass
class Declared:
    """Where each node is declared, by its id, and each edge, with the ids of its ends."""

    path: str
    nodes: dict[object, Where] = field(default_factory=dict)
    edges: list[tuple[Where, object, object]] = field(default_factory=list)
    graphs: int = 0

    def declare(self, kind: str, where: Where, has: Mapping[str, object]) -> None:
        """Declares an element, by what it is called and what it has."""
        if kind == "graph":
            self.graphs += 1
            if self.graphs > 1:
                raise self.fault(where, Code.SECOND_GRAPH)
        elif kind == "node":
            if has.get("id") in self.nodes:
                raise self.fault(where, Code.SECOND_NODE_OF_ID, name=shown_field(str(has["id"])))
            self.nodes[has.get("id", where)] = where
        elif kind == "edge":
            self.edges.append((where, has.get("source"), has.get("target")))
        elif "source" in has and "target" in has:
            raise self.fault(where, Code.JOINS_BUT_NO_EDGE, kind=kind)

    def fault(self, where: Where, code: Code, **subject: object) -> Fault:
        return Fault(code, InText(self.path, where), **subject)

    def checked(self) -> "Declared":
        """The same, if each end of an edge is the id of a node, which may come after it."""
        for where, *ends in self.edges:
            for end in ends:
                if end not in self.nodes:
                    raise self.fault(where, Code.NO_NODE_OF_ID, name=shown_field(str(end)))
        return self


def in_xml(data: bytes, path: str) -> Declared:
    """What a text in GraphML or GEXF declares: its elements that are in the namespace of the first one.

    >>> in_xml(b'<graphml><graph><node id="a"/></graph></graphml>', "net.graphml").nodes
    {'a': 1}

    Raises `Fault` of what is no XML, of a second graph, and of an end of an edge that isn't declared.
    """
    declared = Declared(path)
    for found in TAG.finditer(data):
        if found.end() - found.start() > LONGEST_TAG:
            line = data.count(b"\n", 0, found.start()) + 1
            raise declared.fault(line, Code.TAG_TOO_LONG, most=LONGEST_TAG >> 20)
    spaces: list[str] = []
    parser = expat.ParserCreate(namespace_separator=" ")

    def begin(tag: str, has: dict[str, str]) -> None:
        space, _, kind = tag.rpartition(" ")
        spaces.append(space)
        if space == spaces[0]:
            declared.declare(kind, parser.CurrentLineNumber, has)

    def begin_space(_prefix: str | None, uri: str | None) -> None:
        if len(uri or "") > LONGEST_SPACE:
            raise declared.fault(parser.CurrentLineNumber, Code.SPACE_TOO_LONG, most=LONGEST_SPACE)

    def define(name: str, *_: object) -> None:
        raise declared.fault(parser.CurrentLineNumber, Code.TEXT_DEFINED, name=shown_field(name))

    parser.StartElementHandler = begin
    parser.StartNamespaceDeclHandler = begin_space
    parser.EntityDeclHandler = define
    try:
        parser.Parse(data, True)
    except expat.ExpatError as why:
        raise Fault(
            Code.NO_XML, InText(path, why.lineno), why=expat.ErrorString(why.code)
        ) from None
    except (ValueError, LookupError) as why:
        raise Fault(Code.NO_XML, InText(path), why=why) from None
    return declared.checked()


def json_object(data: bytes, path: str) -> dict[str, object]:
    """The object of a text in JSON; an empty one if it has none."""

    def once(pairs: list[tuple[str, object]]) -> dict[str, object]:
        found = dict(pairs)
        if len(found) < len(pairs):
            raise Fault(Code.KEY_TWICE, InText(path), keys=shown_field(", ".join(found)))
        return found

    def number(digits: str) -> int:
        if len(digits) > MOST_DIGITS:
            raise Fault(Code.JSON_NUMBER_TOO_LONG, InText(path), most=MOST_DIGITS)
        return int(digits)

    try:
        whole = json.loads(data, object_pairs_hook=once, parse_int=number)
    except json.JSONDecodeError as why:
        raise Fault(Code.NO_JSON, InText(path, why.lineno), why=why.msg) from None
    except RecursionError:
        return {}
    return whole if isinstance(whole, dict) else {}


def in_json(data: bytes, path: str) -> Declared:
    """What a text in JSON declares, as networkx writes it, which calls the edges `links` or `edges`.

    >>> in_json(b'{"nodes": [{"id": "a"}], "links": []}', "net.json").nodes
    {'a': 'nodes[0]'}

    Raises `Fault` of what is no such JSON, and of an end of an edge that isn't declared.
    """
    whole = json_object(data, path)
    lists = {key: value for key, value in whole.items() if isinstance(value, list)}
    if sorted(lists) not in (["links", "nodes"], ["edges", "nodes"]):
        raise Fault(Code.NO_JSON_OF_NODES, InText(path))
    declared = Declared(path)
    for key, items in lists.items():
        kind, wanted = ("node", ["id"]) if key == "nodes" else ("edge", ["source", "target"])
        for at, item in enumerate(items):
            where = f"{key}[{at}]"
            for own in wanted:
                if not isinstance(item, dict) or type(item.get(own)) not in (str, int):
                    raise declared.fault(where, Code.NO_TEXT_AND_NO_NUMBER, key=own)
            declared.declare(kind, where, item)
    return declared.checked()
