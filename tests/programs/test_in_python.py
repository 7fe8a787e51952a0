"""Tests of `import forestplan`, and of the notebook examples/forestplan.ipynb that shows it."""
import ast
import contextlib
import copy
import doctest
import functools
import io
import json
import os
import pickle
import random
import sys
from collections.abc import Callable, Sequence
from concurrent.futures import ProcessPoolExecutor
from operator import itemgetter
from unittest import mock
from xml.etree import ElementTree

import forestplan
from forestplan.definitions.colours import colours
from forestplan.interface import calls, sites as site_graphs
from forestplan.network import Network
from forestplan.networks.network_text import network_in_bytes
from forestplan.pictures.palette import CHANNEL_HUES
from tests import TOP
from tests.cases import Case, called, forestlab, working_in
from tests.programs.test_own_networks import is_near
from tests.programs.test_plain_networks import networks_by_chance
from tests.programs.test_sequels import channels
from tests.settings import setting
from tests.tools import need, needs


PACKAGE = os.path.dirname(forestplan.__file__)
NOTEBOOK = os.path.join(TOP, "examples", "forestplan.ipynb")
PUBLIC = (
    "Entry Message Plan Pulse Refused Rounds Sites Transcript check colour_map home plan rounds sites text_of "
    "transcript"
)
# Four nodes in a ring, one with an edge to itself and one in both directions.
SQUARE = {"Ulm": ["Aue", "Bonn"], "Aue": ["Ulm", "Hof"], "Hof": [], "Bonn": ["Hof", "Bonn"]}
NUMBER = {node: v for v, node in enumerate(forestplan.text_of(SQUARE)[1], 1)}
# Sites with their places; in kilometres the third and the fourth are the reach, 1.5, away from the first.
SITES = {"Ulm": (0, 0), 7: (0.01, 0.0), "Hof": (0.9, 1.2), "Aue": (-1.2, 0.9), "Kiel": None}

# By the call and what it raises: words of a refusal, and what is given. A plan is asked of a graph, bars and a licence;
# and a graph, a plan, bars and a licence are checked.
REFUSED: dict[tuple[Callable, type[Exception]], tuple[tuple, ...]] = {
    (forestplan.plan, TypeError): (
        ("a list is no graph", [("Ulm", "Aue")]),
        ("the neighbours of 'Ulm' are 'Aue'", {"Ulm": "Aue"}),
        ("the neighbours of 'Ulm' are None", {"Ulm": None}),
        ("the neighbours of 'a' are {'b': 0}", {"a": {"b": 0}, "b": {}}),
        ("bars are [(1, 2)]", SQUARE, [(1, 2)]),
        ("workers is True", SQUARE, None, None, True),
        ("a bar of 'Ulm' is '6'", SQUARE, {"Ulm": ["6"]}, [6, 1, 11]),
        ("the bars of 'Ulm' are '16'", SQUARE, {"Ulm": "16"}),
        ("the licence is '1-3'", SQUARE, None, "1-3"),
        ("the licence is {1}", SQUARE, None, {1}),
        ("a channel of the licence is 36.5", SQUARE, None, [36.5, 40]),
    ),
    (forestplan.plan, ValueError): (
        ("a neighbour of 0 comes twice", {0: [0, 1, 0], 1: [1, 0, 1], 2: [0, 1, 0]}),
        ("is 'a', which has no entry", {"source": ["a"], "target": ["b"]}),
        ("a bar of 'Ulm' is 0", SQUARE, {"Ulm": [0]}),
        ("a bar of 'Ulm' is 2049, and has to be from 1 to 2,048", SQUARE, {"Ulm": [2049]}),
        ("the number of bars of 'Ulm' is 1025", SQUARE, {"Ulm": range(1, 1026)}),
        ("the number of nodes is 20001", dict.fromkeys(range(20001), ())),
        ("workers is 0, and has to be from 1 to 64", SQUARE, None, None, 0),
        ("passes is 65, and has to be from 0 to 64", SQUARE, None, None, None, 65),
        ("of the licence is 2049", SQUARE, None, range(2049)),
        ("names a channel twice", SQUARE, None, [36, 36]),
        ("'Prag' is no node", SQUARE, {"Prag": {1}}),
    ),
    (forestplan.check, TypeError): (("a list is no plan", SQUARE, [1, 2]),),
    (forestplan.check, ValueError): (
        ("the plan has 'Prag'", SQUARE, {"Prag": 1}),
        ("isn't in the licence", SQUARE, {"Ulm": 1}, None, [7, 8, 9]),
    ),
    (forestplan.sites, TypeError): (
        ("places are [('Ulm', 1, 2)]", [("Ulm", 1, 2)], 1),
        ("the place of 'Ulm' is 5, and has to be two numbers", {"Ulm": 5}, 1),
        ("the place of 'Ulm' is 'N', and has to be a number", {"Ulm": "NE"}, 1),
    ),
    (forestplan.sites, ValueError): (
        ("the place of 'Ulm' is 95, and has to be from -90 to 90", {"Ulm": (95, 10)}, 1),
        ("unit is 'mile'", SITES, 1, "mile"),
        ("reach is 0, and has to be from", SITES, 0),
        ("number of edges is 400001", dict.fromkeys(range(1000), (0, 0)), 1),
    ),
}


# Names of nodes, by a number.
NAMES = [
    lambda v: v,
    lambda v: f"site {v}",
    lambda v: (v, None),
    lambda v: object(),
    lambda v: frozenset({v, "site"}),
    lambda v: v / 3,
    lambda v: str(v // 2) if v % 2 else v // 2,
    lambda v: f"\n{v}\r\n",
    lambda v: f"\ud800{v}",
    lambda v: f"p edge {v} 0\0",
]


def graph_of(seed, nodes, pairs):
    """A graph of networkx, as each of its classes has it, or a dict."""
    import networkx

    class Own(networkx.Graph):
        """A class of the user's."""

    kinds = [networkx.Graph, networkx.DiGraph, networkx.MultiGraph, networkx.MultiDiGraph, Own]
    around = [networkx.subgraph_view, networkx.freeze]
    dicts = [list, set, tuple, dict.keys]
    kind = [*kinds, *around, *dicts][seed % 11]
    if kind in dicts:
        near = {node: {other: 0 for one, other in pairs if one == node} for node in nodes}
        return {node: kind(others) for node, others in near.items()}
    graph = networkx.DiGraph() if kind in around else kind()
    graph.add_nodes_from(nodes)
    graph.add_edges_from(pairs)
    return kind(graph) if kind in around else graph


def asked_of(net, names, seed, source):
    """A network as a graph of Python, some edges in both directions and one from a node to itself; with its bars, and
    a licence now and then."""
    pairs = [(names[v], names[w]) for v, w in net.edges]
    pairs += [pair[::-1] for pair in pairs if source.random() < 0.3] + [(names[1], names[1])]
    graph = graph_of(seed, list(names.values()), pairs)
    licence = source.sample(range(1, 5000), net.channels) if seed % 3 == 0 else None
    real = dict(enumerate(licence or range(1, 2049), 1))
    bars = {names[v]: {real[c] for c in own if c in real} for v, own in net.bars.items()}
    return graph, bars, licence


def wrong_of(seed, text):
    """What is wrong about the plan of a network, whose identifiers don't count, and about the verdicts on it."""
    net, source = network_in_bytes(text), random.Random(seed)
    names = {v: NAMES[seed % len(NAMES)](v) for v in net.node_numbers}
    graph, bars, licence = asked_of(net, names, seed, source)
    workers, passes = source.choice((None, None, 1, 3)), source.choice((0, 1, 2, 3, 8, 9, 64))
    plan = forestplan.plan(graph, bars, licence, workers, passes)
    real = licence or range(1, 2049)
    found = {v: real.index(plan[name]) + 1 for v, name in names.items()}
    said = [what for what in channels(net, found) if passes or "lower" not in what]
    if list(plan) != list(names.values()):
        said.append(f"the order of {list(plan)}")
    for is_planted in (False, True):
        for v, w in [*net.edges][:is_planted]:
            plan[names[v]], found[v] = plan[names[w]], found[w]
        judged = verdict(graph, plan, bars, licence)
        if judged not in (faults_of(net, found, names) or [max(found.values())]):
            said.append(f"{judged} of {plan}")
    return said


def faults_of(net, found, names):
    """What may be said of a plan that isn't right."""
    clashes = [("C4", [names[v], names[w]]) for v, w in net.edges if found[v] == found[w]]
    return clashes + [("C8", [names[v]]) for v in names if found[v] - 1 in net.barred[v]]


def verdict(*given):
    """How many channels there are, or the code and the nodes of what is refused."""
    try:
        return forestplan.check(*given)
    except forestplan.Refused as why:
        return why.code, why.nodes


def is_proper(graph, plan):
    return all(plan[node] != plan[other] for node in graph for other in graph[node])


def small_graph(source):
    """A graph of up to nine nodes; of each edge the greater end names the other."""
    nodes = range(source.randint(1, 9))
    return {v: [w for w in range(v) if source.random() < 0.4] for v in nodes}


class InPython(Case):
    def test_public(self):
        """What is public is this list. It is imported only once it is asked for, so the commands don't wait for it; and
        it needs neither numpy nor networkx."""
        self.same("the names", forestplan.__all__, PUBLIC.split())
        code = (
            "import sys, forestplan; print(*sorted(name for name in sys.modules if 'forestplan' in name)); "
            "from forestplan import *; "
            "print(text_of({1: [2], 2: []})[1]); print({'numpy', 'networkx'} & set(sys.modules)); "
            "forestplan.unknown"
        )
        environment = os.environ | {"PYTHONPATH": os.path.dirname(PACKAGE)}
        done = called(sys.executable, "-S", "-c", code, env=environment)
        self.same(
            "what is printed", done[:2], (1, b"forestplan forestplan._python\n[1, 2]\nset()\n")
        )
        last = b"AttributeError: module 'forestplan' has no attribute 'unknown'\n"
        self.note("another name", done[2].endswith(last), done)
        for name in forestplan.__all__:
            module = getattr(forestplan, name).__module__
            self.same(f"the module of {name}", module.partition(".")[0], "forestplan")

    def refused(self, kind, call):
        """What a call raises."""
        with self.assertRaises(kind) as caught:
            call()
        return caught.exception

    @needs("bin/forestplan", "bin/forestplay")
    def test_graphs(self):
        """Graphs of each class, with each kind of names, bars, licences, threads and passes."""
        need(self, "networkx")
        for seed, text in enumerate(networks_by_chance(int(setting("graphs")), 30, 95)):
            self.same(f"graph {seed}", wrong_of(seed, text), [])

    @needs("bin/forestplan", "bin/forestplay")
    def test_large(self):
        """A graph of 1,000 nodes is numbered near each other, which nobody sees."""
        source = random.Random(96)
        nodes = source.sample(range(10**6), 1000)
        graph = {node: set(source.sample(nodes, 2)) for node in nodes}
        number = {node: v for v, node in enumerate(nodes, 1)}
        pairs = {(number[one], number[other]) for one in nodes for other in graph[one] - {one}}
        wanted = colours(Network(1000, pairs))
        got = forestplan.plan(graph)
        self.same("its plan", list(got.items()), [(v, wanted[number[v]] + 1) for v in nodes])
        text, order = forestplan.text_of(graph)
        self.note("its numbers", is_near(network_in_bytes(text.encode())) and order != nodes)

    @needs("bin/forestplan", "bin/forestplay")
    def test_passes(self):
        """This tree takes three channels, and after a pass two, as every tree can."""
        tree = {1: [2, 4, 5], 2: [3], 3: [], 4: [], 5: []}
        for workers, passes, most in ((None, 0, 3), (None, 1, 2), (2, 1, 2)):
            got = forestplan.plan(tree, workers=workers, passes=passes)
            self.same(f"{passes} passes, workers {workers}", max(got.values()), most)

    @needs("bin/forestplan", "bin/forestplay")
    def test_licence(self):
        triangle = forestplan.plan({"Ulm": ["Aue", "Hof"], "Aue": ["Hof"], "Hof": []})
        self.note("a triangle, by hand", triangle == {"Ulm": 2, "Aue": 3, "Hof": 1}, triangle)
        real = [36, 40, 44, 48]
        got = forestplan.plan(SQUARE, bars={"Ulm": {36, 99}}, licence=real)
        self.note("real channels", set(got.values()) <= {*real} and got["Ulm"] != 36, got)
        pair = forestplan.plan({"Ulm": ["Aue"], "Aue": []}, licence=[0, 5])
        self.same("a channel 0", sorted(pair.values()), [0, 5])
        most = forestplan.check(SQUARE, got, {"Ulm": {36}}, real)
        self.note("they are judged", most <= 4, most)
        barred, counted = {"Ulm": {36}, "Hof": {99}}, {"Ulm": {1}}
        self.same(
            "rounds", forestplan.rounds(SQUARE, barred, real), forestplan.rounds(SQUARE, counted)
        )
        self.same(
            "a transcript",
            forestplan.transcript(SQUARE, barred, 1, real),
            forestplan.transcript(SQUARE, counted, 1),
        )
        why = self.refused(forestplan.Refused, lambda: forestplan.plan(SQUARE, licence=[36]))
        self.same("a plan that was found", why.plan, forestplan.plan(SQUARE))
        lacking = [node for node, channel in why.plan.items() if channel > 1]
        self.same("who has no channel", (why.code, why.nodes), ("licence", lacking))

    def test_sites(self):
        """The graph of places is the one that forestlab reads of a table of them."""
        for unit, columns in (("degrees", "lat,lon"), ("km", "x_km,y_km"), ("m", "x_m,y_m")):
            rows = [(name, *(place or ("", ""))) for name, place in SITES.items()]
            table = f"site,{columns}\n" + "".join("{},{},{}\n".format(*row) for row in rows)
            arguments = ("network", "read", "--sites", "-", "--reach", 1.5)
            wanted = network_in_bytes(forestlab(*arguments, data=table.encode())[1])
            got = forestplan.sites(SITES, 1.5, unit)
            network = network_in_bytes(forestplan.text_of(got)[0].encode())
            for fact in ("names", "edges", "places"):
                self.same(f"{unit}: {fact}", getattr(network, fact), getattr(wanted, fact))

    def test_the_last_places(self):
        """Latitudes up to the poles, and longitudes from 180 in the west up to 360 in the east, as in a table."""
        last: tuple[tuple[float, float], ...] = ((90, 0), (-90, 0), (0, -180), (0, 360))
        for place in last:
            self.same(place, forestplan.sites({"Ulm": place}, 3), {"Ulm": []})
        beyond: tuple[tuple[float, float], ...] = ((90.1, 0), (-90.1, 0), (0, -180.1), (0, 360.1))
        for place in beyond:
            self.refused(ValueError, functools.partial(forestplan.sites, {"Ulm": place}, 3))
        for reach in (1e-6, 20_000):
            self.same(reach, forestplan.sites({"Ulm": (0, 0)}, reach), {"Ulm": []})
        for reach in (9e-7, 20_001):
            self.refused(ValueError, functools.partial(forestplan.sites, {"Ulm": (0, 0)}, reach))

    def test_kinds(self):
        """What is no graph, no list and no whole number is refused, and says where it is; it isn't taken letter by
        letter."""
        for (call, kind), rows in REFUSED.items():
            for row in rows:
                arguments, *given = row
                why = self.refused(kind, functools.partial(call, *given))
                self.note(arguments, arguments in str(why) and type(why) is kind, why)

    @needs("bin/forestplan", "bin/forestplay")
    def test_refused(self):
        plan = {"Ulm": 1, "Aue": 1, "Hof": 2, "Bonn": 3}
        part = {node: channel for node, channel in plan.items() if node != "Hof"}
        star = {0: range(1, 1025)} | {leaf: () for leaf in range(1, 1025)}
        faults: tuple[tuple[str, list, Callable], ...] = (
            ("C4", ["Ulm", "Aue"], lambda: forestplan.check(SQUARE, plan)),
            ("C1", ["Hof"], lambda: forestplan.check(SQUARE, part)),
            ("N1", [0], lambda: forestplan.plan(star)),
        )
        for code, nodes, call in faults:
            why = self.refused(forestplan.Refused, call)
            self.same(f"{code}: its code and nodes", (why.code, why.nodes), (code, nodes))
            names = f"{' and '.join(map(repr, nodes))} "
            self.note(f"{code}: its words", names in str(why), why)
            for same in (pickle.loads(pickle.dumps(why)), copy.copy(why)):
                self.same(f"{code}: copied", (str(same), vars(same)), (str(why), vars(why)))

    @needs("bin/forestplan", "bin/forestplay")
    def test_pool(self):
        """A thousand graphs in four processes, of which each tenth is refused: nothing is lost."""
        source = random.Random(7)
        graphs = [small_graph(source) for _ in range(1000)]
        with ProcessPoolExecutor(4) as pool:
            found = [
                pool.submit(forestplan.plan, graph, licence=[] if at % 10 == 0 else None)
                for at, graph in enumerate(graphs)
            ]
        reasons = [done.exception() for done in found]
        refused = [at for at, why in enumerate(reasons) if why]
        self.same("which are refused", refused, [*range(0, 1000, 10)])
        plans = [
            why.plan if isinstance(why, forestplan.Refused) else done.result()
            for why, done in zip(reasons, found)
        ]
        wrong = [at for at in range(1000) if not is_proper(graphs[at], plans[at])]
        self.same("which are wrong", wrong, [])

    @needs("bin/forestplan", "bin/forestplay")
    def test_rounds(self):
        """Pulses, states and messages, put together again node by node, are the lines of the program."""
        got = forestplan.rounds(SQUARE)
        lines = []
        for at, phase, messages, states in got:
            rows = [(NUMBER[node], state) for node, state in states]
            rows += [
                (NUMBER[one], f"put {NUMBER[other]} payload {at} {word} {value}")
                for one, other, word, value in messages
            ]
            rows.sort(key=itemgetter(0))
            lines += [f"pulse {at} {phase}", *(f"{v} {state}" for v, state in rows)]
        self.same("the rounds", lines, got.text.splitlines()[1:])

    def test_workers(self):
        """As many as are asked for, but no more than there are processors."""
        for usable, asked, wanted in ((1, 4, "1"), (2, 64, "2"), (8, 3, "3"), (64, 64, "64")):
            with mock.patch("os.sched_getaffinity", return_value=range(usable)):
                got = calls._command_of(asked, 0)
            self.same(f"{asked} workers, {usable} processors", got[-1], wanted)

    @needs("bin/forestplan", "bin/forestplay")
    def test_transcript(self):
        """Its entries, put together again, are the lines of the run."""
        got = forestplan.transcript(SQUARE, workers=1)
        lines = [
            f"{it.stamp} {NUMBER[it.node]} {it.kind} {NUMBER.get(it.other, it.other)} {it.wire}".strip()
            for it in got
        ]
        self.same("the entries", lines, got.text.splitlines()[1:])
        self.note("all of a run", len(lines) > 100, len(lines))

    @needs("bin/forestplan", "bin/forestplay")
    def test_pictures(self):
        for one in (forestplan.rounds(SQUARE), forestplan.transcript(SQUARE)):
            picture = ElementTree.fromstring(one._repr_svg_() or "")
            self.note(
                f"a picture of {type(one).__name__}",
                picture.tag.endswith("svg") and len(picture) > 3,
            )

    @needs("bin/forestplan", "bin/forestplay")
    def test_colours(self):
        """The colours are those of the pictures, of real channels, too."""
        star: dict[int, Sequence[int]] = {0: range(1, 10), **{leaf: () for leaf in range(1, 10)}}
        plan = forestplan.plan(star, licence=[40, 36])
        hues = {40: CHANNEL_HUES[0], 36: CHANNEL_HUES[1]}
        self.same("by node", plan.colours(), {node: hues[plan[node]] for node in star})
        self.note(
            "the picture says them", "1 is 40, 2 is 36" in (plan._repr_svg_() or ""), plan.title
        )
        need(self, "matplotlib")
        made = forestplan.colour_map(9)
        self.same("a colour map", made.colors, [*CHANNEL_HUES, CHANNEL_HUES[0]])

    @needs("bin/forestplan", "bin/forestplay")
    def test_surface(self):
        """What is public is documented; the examples of its texts are right, and its hints are there to be used."""
        self.note("it has hints", os.path.isfile(os.path.join(PACKAGE, "py.typed")))
        self.same("dir", dir(forestplan), sorted([*forestplan.__all__, *forestplan.PACKAGES]))
        for name in forestplan.__all__:
            self.note(name, getattr(forestplan, name).__doc__)
        for module in (calls, site_graphs):
            done = doctest.testmod(module)
            self.note(f"examples of {module}", not done.failed and done.attempted, done)

    @needs("bin/forestplan", "bin/forestplay")
    def test_notebook(self):
        """Each cell of the notebook leaves what is stored below it; those with networkx only if that is installed."""
        with open(NOTEBOOK, encoding="utf-8") as file:
            cells = [cell for cell in json.load(file)["cells"] if cell["cell_type"] == "code"]
        known = {"__name__": "notebook"}
        for count, cell in enumerate(cells, 1):
            code = "".join(cell["source"])
            if "networkx" in code:
                need(self, "networkx")
            stored = [joined(out.get("data") or {"": out["text"]}) for out in cell["outputs"]]
            self.same(f"cell {count}", run_cell(code, known), stored)
        self.note("cells", len(cells) > 6, len(cells))


def joined(texts):
    return {kind: "".join(lines) for kind, lines in texts.items()}


def run_cell(code, known):
    """What a cell prints, and the value of its last line if that is an expression, as Jupyter has them."""
    tree, result = ast.parse(code), None
    last = tree.body.pop() if isinstance(tree.body[-1], ast.Expr) else None
    said = io.StringIO()
    with working_in(os.path.dirname(NOTEBOOK)), contextlib.redirect_stdout(said):
        exec(compile(tree, "cell", "exec"), known)
        if isinstance(last, ast.Expr):
            result = eval(compile(ast.Expression(last.value), "cell", "eval"), known)
    shown = {} if result is None else {"text/plain": repr(result)}
    drawn = getattr(result, "_repr_svg_", None)
    if drawn:
        shown["image/svg+xml"] = drawn()
    return [out for out in ({"": said.getvalue()}, shown) if any(out.values())]
