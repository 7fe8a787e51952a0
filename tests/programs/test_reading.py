"""Tests of `forestlab network read`: each form is read as it is said to be, or refused with its line; nothing is
guessed. test_written.py has files of other programs."""
from unittest import mock

from forestplan.faults import Fault
from forestplan.networks import networkx_forms
from forestplan.networks.forms import Stated
from forestplan.networks.reading import listed_of, made_of
from tests.cases import Case


def read(text, form, **more):
    """The edges by names, the nodes without one, and what is said."""
    data = text if isinstance(text, bytes) else text.encode()
    made, said = made_of(listed_of(data, "net", form, Stated(**more)), "net")
    names = {v: made.names.get(v, str(v)) for v in made.node_numbers}
    edges = {frozenset((names[v], names[w])) for v, w in made.edges}
    return edges, set(names.values()).difference(*edges), said


PAIR = "source,target\n"
# (form, text, a part of what is said). Each is refused.
REFUSED = (
    ("dimacs", "Ulm,Aue\n", "line 1: `Ulm,Aue` begins no line of a network (F8)"),
    ("dimacs", "c name 2 1\np edge 2 0\n", "nodes 1 and 2 are both called 1"),
    ("pairs", "Ulm,Aue\nAue,Hof\n", "line 1: no heading with source and target: `Ulm,Aue`"),
    (
        "pairs",
        "source,target,from\na,b,c\n",
        "line 1: source and from may each be the column source",
    ),
    ("pairs", "sep=;\nsource;target\na;b\n", "line 1: `sep=;` is for Excel alone: delete this"),
    ("pairs", b"\x1f\x8b\x08\0", "it is compressed: unpack it by gunzip"),
    ("pairs", PAIR + "a,#N/A\n", "line 2: no name of a node"),
    ("pairs", PAIR.encode("utf-16-le"), "line 1: a letter of value zero"),
    ("edges", "2 3\nUlm Site 1\n", "line 2: not as many words as in the rows before"),
    ("json", '{"nodes": [], "nodes": [{"id": 1}], "links": []}', "an object has a key twice"),
    ("sparse6", ":~~~~~~~~~\n", "line 1: more than 20000 nodes"),
    ("gml", 'graph [\nnode [ id 1 name "say "hi" 1" ] ]', "line 2: a quotation mark within"),
    (
        "gml",
        'graph [ node [ id 1 ]\nnode [ id 2 label "a" label "b" ] ]',
        "line 2: a second name of one node",
    ),
    ("pairs", "", "it has no row"),
    ("pairs", PAIR, "line 1: it has no row below its heading"),
    ("pairs", PAIR + "a,b\nsource,target\nb,c\n", "line 3: the heading a second time"),
    ("pairs", PAIR + "a,\n", "line 2: no name of a node: ``"),
    ("pairs", PAIR + "a,b\na,b,c\n", "line 3: 3 fields, and the first row has 2"),
    ("pairs", PAIR + '"a\nb",c\nd,"e" f\n', "line 4: no row of a table"),
    ("pairs", PAIR + "a,b\u00adc\n", "line 2: no name of a node"),
    ("pairs", PAIR.encode() + b"a,b\nK\xf6ln,a\n", "line 3: it isn't in UTF-8"),
    ("edges", "a\n", "line 1: no two nodes"),
    ("edges", "", "it has no row"),
    ("edges", '"a" "b"\n', 'line 1: no name of a node: `"a"`; a table is read --as pairs'),
    ("edges", "#c d\na b\n", "line 1: no name of a node: `#c`"),
    ("adjacency", "#x.py\n#a b\nb\n", "line 2: no name of a node: `#a`"),
    ("edges", "source target\na b\n", "line 1: it is a heading"),
    ("edges", "2 Mill,\n", "line 1: no name of a node: `Mill,`; a table is read --as pairs"),
    ("edges", "A\u00a0B 3\n", "line 1: no name of a node: `A\\xa0B`"),
    ("edges", f"{'a' * 201} b\n", "line 1: no name of a node: `aaa"),
    ("adjacency", "a b\n", "line 1: b has no line of its own"),
    ("adjacency", "a b\nb\na\n", "line 3: a second line of a"),
    (
        "json",
        '{"nodes": [{"id": "a"}, {"id": "a"}], "links": []}',
        "nodes[1]: a second node of the id a",
    ),
    (
        "json",
        '{"nodes": [{"id": "a"}], "links": [{"source": 0, "target": "a"}]}',
        "links[0]: 0 isn't the id of a node",
    ),
    ("json", '{"nodes": [{"id": "a"}], "links": [], "more": [{"source": "a"}]}', "and no other"),
    ("json", '{"nodes": [{"id": "a"}], "links": [], "edges": []}', "and no other"),
    ("json", '{"nodes": [{"id": true}], "links": []}', "nodes[0]: its `id` is no text"),
    (
        "json",
        '{"nodes": [{"id": 1}, {"id": "1"}], "links": []}',
        "nodes[1]: a second node is called 1",
    ),
    ("json", '{"nodes": [],\n "links": []', "line 2: no JSON"),
    ("json", "[" * 100000, "no JSON of nodes and links"),
    (
        "graphml",
        '<graphml><graph><node id="a"/>\n<edge source="a" target="b"/></graph></graphml>',
        "line 2: b isn't the id of a node",
    ),
    (
        "graphml",
        '<graphml><graph><node id="a">\n<graph><node id="b"/></graph></node></graph></graphml>',
        "line 2: a second graph",
    ),
    (
        "graphml",
        '<graphml><graph><node id="a"/>\n<node id="a "/></graph></graphml>',
        "line 2: a second node is called a",
    ),
    (
        "graphml",
        '<graphml><graph><node id="a"/><link source="a" target="a"/></graph></graphml>',
        "line 1: `link` joins nodes and isn't an edge",
    ),
    ("graphml", "<?xml version='1.0' encoding='utf-x8'?><graphml/>", "no XML: unknown encoding"),
    ("graphml", "<graphml>\n<graph>\n</graphml>", "line 3: no XML"),
    ("gml", "graph [ node [ id 1 ]\nnode [ id 1 ] ]", "line 2: a second node of the id 1"),
    ("gml", "graph [ node [ id 1 ]\nlink [ source 1 target 1 ] ]", "line 2: `link` joins nodes"),
    ("gml", "graph [ node [ id 1 ]\ngraph [ node [ id 5 ] ] ]", "line 2: a second graph"),
    ("gml", "graph [ node [ id 1 ] edge [ source 1\ntarget 2 ] ]", "line 1: 2 isn't the id"),
    ("gml", "graph [ " + "a [ " * 5000 + "]" * 5001, "can't read it as gml"),
    ("gml", "graph [ node [ id 1 ]\nnode [ id 2 label ] ]", "line 2: no GML: no value: `]`"),
    ("gml", "graph [ node [ id 1 ] ]\n]", "line 2: no GML: no list to close: `]`"),
    ("gml", 'graph [ node [ id 1 ]\n"x" 1 ]', 'line 2: no GML: no key: `"x"`'),
    ("gml", "graph [\nnode [ id 1 ]", "line 1: no GML: `graph` has no end: is the text cut?"),
    ("gml", "graph [\nnode [ id 1 label", "line 2: no GML: `label` has no end"),
    ("gml", 'graph [ node [ id 1\nlabel "x ] ]', "line 2: a quotation mark without a second"),
    ("gml", 'graph [ node [ id "a" ] node [ id "a" ] ]', 'a second node of the id "a"'),
    ("gml", "graph [ node [ id %s ] ]" % ("7" * 5000), "can't read it as gml"),
    ("gml", "graph", "line 1: "),
    (
        "json",
        '{"nodes": [{"id": %s}], "links": []}' % ("7" * 5000),
        "no JSON: a number of more than 4,000 digits",
    ),
    ("graph6", "A_\nA_\n", "line 2: a second graph"),
    # A complete graph of 2,000 nodes, of which networkx would make 2 million edges first.
    ("graph6", "~?^O" + "~" * 333_167, "line 1: more than 400000 edges"),
    ("sparse6", ":~?^O" + "~" * 1_300_000, "line 1: more than 400000 edges"),
    (
        "graphml",
        f"<graphml xmlns='{'u' * 1001}'><graph/></graphml>",
        "line 1: a namespace of more than 1,000 letters",
    ),
    (
        "graphml",
        "<graphml>\n<" + "a" * (1 << 20) + "/></graphml>",
        "line 2: a tag or a comment of more than 1 MiB",
    ),
    (
        "gexf",
        "<!DOCTYPE gexf [\n<!ENTITY e 'x'>]><gexf>&e;</gexf>",
        "line 2: the text defines `e`: write what it stands for in its place",
    ),
    ("pairs", PAIR + "a" + "\u0300\u0316" * 400 + ",b\n", "line 2: no name of a node"),
    ("graph6", "A", "line 1: no graph6: the bits of 2 nodes take 1 letter, and here are 0"),
    ("graph6", "", "line 1: no graph6: ``"),
    ("sparse6", "An", "line 1: no sparse6: `An`"),
)
YED = """\
<graphml xmlns="http://graphml.graphdrawing.org/xmlns" xmlns:y="http://www.yworks.com/xml/graphml">
<key id="d5" for="node" yfiles.type="nodegraphics"/><key id="d9" for="edge" yfiles.type="edgegraphics"/>
<graph edgedefault="directed" id="G">
<node id="n0"><data key="d5"><y:ShapeNode><y:Geometry height="30.0" width="30.0" x="1.5" y="2.0"/>
<y:NodeLabel>Ulm</y:NodeLabel></y:ShapeNode></data></node>
<node id="n1"><data key="d5"><y:ShapeNode><y:Geometry height="30.0" width="30.0" x="4.0" y="2.0"/>
<y:NodeLabel>Aue</y:NodeLabel></y:ShapeNode></data></node>
<edge id="e0" source="n0" target="n1"><data key="d9"><y:PolyLineEdge>
<y:Path sx="0.0" sy="0.0" tx="0.0" ty="0.0"/><y:Arrows source="none" target="standard"/></y:PolyLineEdge>
</data></edge></graph></graphml>"""
GEPHI = """\
<gexf xmlns="http://gexf.net/1.3" version="1.3" xmlns:viz="http://gexf.net/1.3/viz">
<graph defaultedgetype="undirected"><attributes class="node"><attribute id="0" title="source" type="string"/>
</attributes><nodes><node id="0" label="Ulm"><attvalues><attvalue for="0" value="x"/></attvalues></node>
<node id="1" label="Aue"/></nodes><edges><edge id="0" source="0" target="1"/></edges></graph></gexf>"""
# (form, text): the network of Ulm and Aue with an edge between them.
READ = (
    ("pairs", " Source , Target \n Ulm , Aue \n"),
    ("pairs", 'source, target\n"Ulm", "Aue"\n'),
    ("pairs", "source;target\r\nUlm;Aue\r\n;\r\n"),
    ("pairs", "\ufeffsource,target\nUlm,Aue\n"),
    ("pairs", "source,target\nUlm,Aue\n".encode("utf-16")),
    ("edges", "# Graph\n# by hand\nUlm\tAue\n"),
    ("adjacency", "#read.py\nUlm: Aue\nAue:\n# end\n"),
    ("dimacs", "c name 1 Ulm\nc name 2 Aue\np edge 2 1\ne 1 2\n"),
    ("graphml", YED),
    ("gexf", GEPHI),
    (
        "gml",
        'graph [ node [ id 7 name "Ulm" source 3 ] node [ id 8 name "Aue" ] edge [ source 7 target 8 ] ]',
    ),
    (
        "gml",
        'graph [ node [ id 7 label "Ulm" ] node [ id 8 label "Aue" ] # [\n edge [ source 7 target 8 ] ]',
    ),
    (
        "gml",
        'Creator "me" graph [ node [ graphics [ id 9 ] id 7 name "Ulm" ] node [ name "Aue" id 8 ] '
        "edge [ line [ target 9 ] source 7 target 8 ] edge [ source 8 target 7 ] ]",
    ),
    (
        "json",
        '{"nodes": [{"id": "Ulm", "source": 1}, {"id": "Aue"}], "edges": [{"source": "Aue", "target": "Ulm"}]}',
    ),
)


# (form, text, encoding): the name of a node has half a letter.
HALVES = (
    ("gml", 'graph [ node [ id 1 label "\\ud800" ] ]', "unicode_escape"),
    ("json", '{"nodes": [{"id": "a+2AA-"}], "links": []}', "utf-7"),
    ("pairs", "\\ud800,target\n", "raw_unicode_escape"),
)


class Reading(Case):
    def setUp(self):
        self.has_networkx = networkx_forms.networkx() is not None

    def readable(self, rows):
        """The rows whose form can be read here."""
        return [row for row in rows if self.has_networkx or row[0] not in networkx_forms.READERS]

    def test_refused(self):
        for form, text, said in self.readable(REFUSED):
            with self.subTest(f"{form} {text[:80]!r}"), self.assertRaises(Fault) as found:
                read(text, form)
            self.note(
                f"{form} {text[:80]!r} says why", said in str(found.exception), found.exception
            )

    def test_halves_of_letters(self):
        """What an encoding makes of half a pair of UTF-16 is no letter, and is refused as no text of that encoding."""
        for form, text, encoding in self.readable(HALVES):
            with self.assertRaisesRegex(Fault, f"net line 1: it isn't in {encoding.upper()}"):
                read(text, form, encoding=encoding)

    def test_long_names(self):
        """A name of 200 letters may be written with a mark beside each."""
        name = "u\u0308" * 200
        _, names, _ = read(f"{PAIR}{name},{name}\n", "pairs")
        self.same("composed", names, {"\u00fc" * 200})

    def test_read(self):
        """Each of these is one network, whatever other elements and keys are called."""
        for form, text in self.readable(READ):
            edges, alone, _ = read(text, form)
            self.same(f"{form} {text[:40]!r}", (edges, alone), ({frozenset(("Ulm", "Aue"))}, set()))

    def test_said(self):
        """What isn't read is said."""
        text = (
            '{"nodes": [{"id": 1}, {"id": 2}], "links": [{"source": 1, "target": 2, "weight": 0}, '
            '{"source": 2, "target": 1, "on": false}]}'
        )
        said = read(text, "json")[2] if self.has_networkx else []
        self.note("keys", not said or said[2] == "keys of edges that aren't read: on, weight", said)
        said = read(PAIR.replace("\n", ",km\n") + "a,a,1\na,b,2\nb,a,3\nA,b,1\n", "pairs")[2]
        self.same(
            "pairs",
            said[1:],
            [
                "columns that aren't read: km",
                "1 edge from a node to itself left out",
                "1 edge there before, in one direction or the other",
            ],
        )
        said = read("# x\n#\na b 2\na c 1\n", "edges")[2]
        self.same(
            "edges",
            said[1:],
            ["2 lines that begin with # left out", "numbers or data after the nodes aren't read"],
        )
        said = read(
            "a,b,c\nd,e,f\n", "pairs", columns={"source": "3", "target": "1"}, has_heading=False
        )
        self.same("without a heading", said[0], {frozenset("ca"), frozenset("fd")})
        self.same("a column by its number", said[2][1:], ["columns that aren't read: column 2"])

    @mock.patch.object(networkx_forms, "networkx", lambda: None)
    def test_without_networkx(self):
        with self.assertRaisesRegex(Fault, "python3-networkx"):
            read("graph [ ]", "gml")
