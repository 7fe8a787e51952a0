"""Files as igraph, pandas and gv2gml write them, and by hand as Gephi and yEd do: each is read as the network that was
meant, or refused.

Debian has all of it, for /usr/bin/python3:
apt-get install python3-igraph python3-pandas graphviz"""

import csv
import importlib
import json
import subprocess
from xml.sax.saxutils import escape, quoteattr

from tests.programs import test_written
from tests.programs.test_written import Meant, Writer, through_file
from tests.tools import need, needs


def igraph_writers() -> list[Writer]:
    igraph = importlib.import_module("igraph")

    def by(form):
        def write(one: Meant) -> bytes:
            graph = igraph.Graph(len(one.nodes), one.numbers())
            graph.vs["name"] = one.nodes
            graph.es["weight"] = [at / 2 for at in range(len(one.edges))]
            return through_file(getattr(graph, f"write_{form}"))

        return write

    return [
        Writer("GraphML", "net.graphml", by("graphml")),
        Writer("GML", "net.gml", by("gml")),
        Writer("edges", "net.edgelist", by("edgelist"), has_names=False, has_lone=False),
        Writer("NCOL", "net.ncol", by("ncol"), ("--as", "edges"), lacks=" ", has_lone=False),
    ]


def piped(arguments, data: bytes) -> bytes:
    return subprocess.run(arguments, input=data, stdout=subprocess.PIPE, check=True).stdout


def gv2gml_writers() -> list[Writer]:
    def write(one: Meant) -> bytes:
        names = [json.dumps(name, ensure_ascii=False) for name in one.nodes]
        edges = [f"{names[a]} -- {names[b]}" for a, b in one.numbers()]
        return piped(["gv2gml"], ("graph {" + ";\n".join(names + edges) + "}").encode())

    return [Writer("GML", "net.gml", write, lacks="&")]


def pandas_writers() -> list[Writer]:
    pandas = importlib.import_module("pandas")

    def row(form, *arguments, file="net.csv", titles=("source", "target"), **more):
        def write(one: Meant) -> bytes:
            table = pandas.DataFrame(one.edges, columns=titles).assign(km=0.5)
            return through_file(lambda path: table.to_csv(path, **more))

        return Writer(form, file, write, arguments, has_lone=False)

    german = {"titles": ("Von", "Nach"), "sep": ";", "decimal": ","}
    return [
        row("index"),
        row("German", "--columns", "source=Von,target=Nach", **german),
        # As R's write.csv does it.
        row("quoted", quoting=csv.QUOTE_ALL, lineterminator="\r\n"),
        row("UTF-16", encoding="utf-16", sep="\t"),
        row("blanks", file="net.edgelist", index=False, header=False, sep=" "),
    ]


# By hand: Gephi and yEd.

GEXF = """<?xml version="1.0" encoding="UTF-8"?>
<gexf xmlns="SPACE" version="1.3" xmlns:viz="SPACE/viz">
<meta lastmodifieddate="2026-11-29"><creator>Gephi 0.10.1</creator><description/></meta>
<graph defaultedgetype="undirected" mode="static">
<attributes class="node" mode="static"><attribute id="degree" title="Degree" type="integer"/></attributes>
<nodes>
{nodes}</nodes>
<edges>
{edges}</edges>
</graph>
</gexf>
"""
GEXF_NODE = """<node id="{at}" label={label}>
<attvalues><attvalue for="degree" value="2"/></attvalues>
<viz:size value="10.0"/><viz:position x="{at}.5" y="-3" z="0.0"/><viz:color r="0" g="9" b="9"/>
</node>
"""
GEXF_EDGE = (
    '<edge id="{at}" source="{a}" target="{b}" type="undirected" weight="1.5"><attvalues/></edge>\n'
)
YED = """<?xml version="1.0" encoding="UTF-8" standalone="no"?>
<graphml xmlns="http://graphml.graphdrawing.org/xmlns" xmlns:y="http://www.yworks.com/xml/graphml">
<key attr.name="Description" attr.type="string" for="graph" id="d0"/>
<key for="node" id="d6" yfiles.type="nodegraphics"/>
<key for="edge" id="d10" yfiles.type="edgegraphics"/>
<graph edgedefault="directed" id="G">
{nodes}{edges}</graph>
</graphml>
"""
YED_NODE = """<node id="n{at}">
<data key="d6"><y:ShapeNode>
<y:Geometry height="30.0" width="30.0" x="405.0" y="235.0"/><y:Fill color="#FFCC00" transparent="false"/>
<y:NodeLabel alignment="center" x="9.5" y="6.0">{name}<y:LabelModel/></y:NodeLabel>
<y:Shape type="rectangle"/>
</y:ShapeNode></data>
</node>
"""
YED_GROUP = """<node id="g" yfiles.foldertype="group">
<graph edgedefault="directed" id="g:">
{nodes}</graph>
</node>
"""
YED_EDGE = """<edge id="e{at}" source="n{a}" target="n{b}" sourceport="p1">
<data key="d10"><y:PolyLineEdge><y:Path sx="0.0" sy="0.0" tx="0.0" ty="0.0"/>
<y:Arrows source="none" target="standard"/><y:BendStyle smoothed="false"/></y:PolyLineEdge></data>
</edge>
"""


def in_xml(text, node, edge):
    def write(one: Meant) -> bytes:
        names = [
            {"at": at, "label": quoteattr(name), "name": escape(name)}
            for at, name in enumerate(one.nodes)
        ]
        nodes = [node.format(**has) for has in names]
        edges = [edge.format(at=at, a=a, b=b) for at, (a, b) in enumerate(one.numbers())]
        return text.format(nodes="".join(nodes), edges="".join(edges)).encode()

    return write


def writers_by_hand() -> list[Writer]:
    spaces = "http://www.gexf.net/1.2draft", "http://gexf.net/1.3"
    drafts = [in_xml(GEXF.replace("SPACE", space), GEXF_NODE, GEXF_EDGE) for space in spaces]
    return [
        Writer("Gephi GEXF 1.2", "net.gexf", drafts[0]),
        Writer("Gephi GEXF 1.3", "net.gexf", drafts[1]),
        Writer("yEd", "net.graphml", in_xml(YED, YED_NODE, YED_EDGE)),
        Writer("yEd group", "net.graphml", in_xml(YED, YED_GROUP.format(nodes=YED_NODE), YED_EDGE)),
    ]


WRITERS = {"igraph": igraph_writers, "pandas": pandas_writers, "gv2gml": gv2gml_writers}


class WrittenElsewhere(test_written.Files):
    def test_programs(self):
        for program, writers in WRITERS.items():
            with self.subTest(program):
                need(self, program)
                self.read_files(writers())

    @needs("networkx")
    def test_by_hand(self):
        self.read_files(writers_by_hand(), refused=("yEd group",))
