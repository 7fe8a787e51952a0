"""Files as spreadsheets and networkx write them, by a seed: each is read as the network that was meant, or refused.
Those of other programs: test_written_elsewhere.py."""

import contextlib
import csv
import io
import json
import os
import random
import tempfile
import unicodedata
from collections.abc import Callable, Iterator
from dataclasses import dataclass

from forestplan.networks import network, networkx_forms
from forestplan.networks.forms import ENDINGS
from forestplan.networks.network_text import read_network
from tests.cases import Case, in_process
from tests.settings import setting
from tests.tools import need

FILES = int(setting("files"))
REFUSED = {"refused", "refused with line"}
# Names of nodes: {0} counts from 0, and {1} from 1.
NAMES = (
    "{0} {1} {0:03} {0}7 -{1} {0}.5 1e{0} site{0} #{0} a:{0} x_{0} [{0}] {0}% {0}'s A;{0} B{{{0}}} &amp;{0}"
    ' Ko\u0308ln-{0} \U0001f4e1{0} Site\xa0{0} Bad\xa0Tölz\xa0{0} Mill,\xa0{0} <A&B>\xa0{0} say\xa0"hi"\xa0{0}'
).split(" ")
# Words that the forms have, and what programs write for no value.
WORDS = "source target from to id label name node edge graph NA N/A nan None null true FALSE inf 0x10 1_000".split()
SIZES = (0, 1, 2, 3, 5, 8, 13, 20, 30)


@dataclass
class Meant:
    """A network; its edges may be loops, and come twice, in either direction."""

    nodes: list[str]
    edges: list[tuple[str, str]]

    def numbers(self) -> list[tuple[int, int]]:
        """The edges by the places of their ends, from 0 on."""
        return [(self.nodes.index(one), self.nodes.index(other)) for one, other in self.edges]


def meant(source: random.Random, lacks: str) -> Meant:
    """A network by chance, in whose names none of some letters is."""
    patterns = [name.replace("\xa0", " ") for name in source.sample(NAMES, 3)]
    names = [pattern.format(at, at + 1) for pattern in patterns for at in range(30)]
    fitting = [name for name in dict.fromkeys(names + WORDS) if not set(name) & set(lacks)]
    nodes = source.sample(fitting, min(source.choice(SIZES), len(fitting)))
    count = source.choice((0, 1, 1, 2)) * len(nodes)
    return Meant(nodes, [(source.choice(nodes), source.choice(nodes)) for _ in range(count)])


@dataclass
class Writer:
    """What writes a form: the file's name, the words of the command, and the letters that no name of the form can have.
    A form may lack nodes without an edge, or have numbers in place of names."""

    form: str
    file: str
    write: Callable[[Meant], bytes]
    arguments: tuple[str, ...] = ()
    lacks: str = ""
    has_lone: bool = True
    has_names: bool = True

    def files(self, count: int) -> Iterator[tuple[bytes, tuple[set, set]]]:
        """Files by chance, each with what it has, but for those whose names can't be written."""
        source = random.Random(self.form)
        for _ in range(count):
            one = meant(source, self.lacks)
            with contextlib.suppress(UnicodeEncodeError):
                yield self.write(one), self.wanted(one)

    def wanted(self, one: Meant) -> tuple[set, set]:
        names = one.nodes if self.has_names else map(str, range(len(one.nodes)))
        nodes = [own(name) for name in names]
        ends = [(nodes[a], nodes[b]) for a, b in one.numbers()]
        return network_of(nodes if self.has_lone else [], ends)

    def verdict(self, folder: str, data: bytes, wanted: object) -> str:
        """`read`, if `forestlab network read` makes this network of a file, `refused`, or what is wrong."""
        path = os.path.join(folder, self.file)
        with open(path, "wb") as file:
            file.write(data)
        status, out, errors = in_process("network", network.main, "read", *self.arguments, path)
        said = errors.decode()
        if status == 0:
            made = read_network(out.decode(), path)
            names = {v: made.names.get(v, str(v)) for v in made.node_numbers}
            found = network_of(names.values(), [(names[v], names[w]) for v, w in made.edges])
            return "read" if found == wanted else f"{found} is read, and it says {wanted}"
        if status not in (1, 2) or out or not said.startswith("network: "):
            return f"status {status}: {said}"
        return "refused with line" if " line " in said else "refused"


def network_of(nodes, ends) -> tuple[set, set]:
    """The nodes, with those that edges name, and the edges without loops."""
    edges = {frozenset(pair) for pair in ends}
    return set(nodes).union(*edges), {edge for edge in edges if len(edge) == 2}


def own(name: str) -> str:
    """A name as it is read: letters composed, without the blanks around it."""
    return unicodedata.normalize("NFC", name.strip())


def through_file(write) -> bytes:
    """What `write` puts into the file whose path it is given."""
    with tempfile.NamedTemporaryFile() as file:
        write(file.name)
        return file.read()


def table_of(titles, rows, mark=",", encoding="utf-8") -> bytes:
    stream = io.StringIO()
    csv.writer(stream, delimiter=mark).writerows([titles, *rows])
    return stream.getvalue().encode(encoding)


def spreadsheet_writers() -> list[Writer]:
    def row(form, titles, *more, arguments=()):
        def write(one: Meant) -> bytes:
            return table_of(titles, one.edges, *more)

        return Writer(form, "net.CSV", write, arguments, has_lone=False)

    return [
        row("CSV with a mark", ("Source", "Target"), ",", "utf-8-sig"),
        row("CSV in cp1252", ("from", "to"), ";", "cp1252", arguments=("--encoding", "cp1252")),
        row("CSV in UTF-16", ("SOURCE", "TARGET"), "\t", "utf-16"),
        row("CSV in German", ("Von", "Ort"), ";", arguments=("--columns", "source=von,target=Ort")),
    ]


def networkx_writers(nx) -> list[Writer]:
    def graph_of(one: Meant, kind):
        graph = kind()
        graph.add_nodes_from(one.nodes, height=2.5)
        graph.add_edges_from(one.edges, weight=1.5)
        return graph

    def by(form, kind=nx.Graph, **more):
        def write(one: Meant) -> bytes:
            graph = graph_of(one, kind)
            return through_file(lambda path: getattr(nx, f"write_{form}")(graph, path, **more))

        return write

    def by_numbers(form):
        """A form without names: its nodes are sorted."""
        write = by(form)
        return lambda one: write(Meant([*range(len(one.nodes))], one.numbers()))

    def in_json(one: Meant) -> bytes:
        return json.dumps(nx.node_link_data(graph_of(one, nx.MultiGraph)), indent=1).encode()

    def edges(form, write):
        """A form of lines, which has no node without an edge."""
        return Writer(form, "net.edgelist", write, lacks=" ", has_lone=False)

    return [
        Writer("GraphML", "net.graphml", by("graphml", nx.MultiDiGraph)),
        Writer("GEXF", "net.gexf", by("gexf")),
        Writer("GML", "net.gml", by("gml", nx.MultiGraph)),
        Writer("JSON", "net.json", in_json),
        Writer("adjacency", "net.adjlist", by("adjlist"), lacks=" "),
        edges("edges", by("edgelist")),
        edges("edges, bare", by("edgelist", data=False)),
        edges("edges, weights", by("weighted_edgelist")),
        Writer("graph6", "net.g6", by_numbers("graph6"), has_names=False),
        Writer("sparse6", "net.s6", by_numbers("sparse6"), has_names=False),
    ]


# The endings of files that networkx reads.
BY_NETWORKX = tuple(ending for form in networkx_forms.READERS for ending in ENDINGS[form])


class Files(Case):
    def read_files(self, writers: list[Writer], refused: tuple[str, ...] = ()):
        """Each file is read as it was meant, or refused. A form whose files with edges all are is one of `refused`."""
        for writer in writers:
            with self.subTest(writer.form):
                if writer.file.endswith(BY_NETWORKX):
                    need(self, "networkx")
                files = list(writer.files(FILES))
                said = [writer.verdict(self.folder, data, wanted) for data, wanted in files]
                self.assertEqual(set(said) | REFUSED, {"read"} | REFUSED)
                with_edges = [one for one, (_, (_, edges)) in zip(said, files) if edges]
                is_read = writer.form not in refused
                self.assertEqual("read" in with_edges, is_read, "a file with an edge is read")


class Written(Files):
    def test_spreadsheets(self):
        self.read_files(spreadsheet_writers())

    def test_networkx(self):
        library = networkx_forms.networkx()
        if library is None:
            self.skipTest("networkx isn't installed")
        self.read_files(networkx_writers(library))
