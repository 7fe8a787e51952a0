"""Tests of `forestlab network`. What is written is read by the reader of src/forestplan/, which test_hostile.py
compares with the programs.

Expected counts are formulas, or come from the definitions in src/forestplan/definitions/colours.py,
src/forestplan/definitions/nodes.py and src/forestplan/definitions/rounds.py."""
import itertools
import math
import os
import random
import re

from forestplan.definitions.nodes import last_pulse
from forestplan.network import Network
from forestplan.networks import network
from forestplan.networks.description import most_payloads
from forestplan.networks.network_text import network_in_bytes
from forestplan.networks.reductions import smaller
from forestplan.wording import duration
from tests.cases import Case, called, example, forestlab, in_process
from tests.programs import test_plain_networks
from tests.programs.test_plain_networks import payloads_of, reached, some_bars
from tests.settings import PLAN, setting
from tests.tools import needs


def call(*arguments, **more):
    """Status, output and what is said by a call in this process."""
    return in_process("network", network.main, *arguments, **more)


def edges_of(text):
    return set(network_in_bytes(text).edges)


# (words, nodes, edges, least and greatest number of neighbours)
KINDS = [
    ("path 1", 1, 0, 0, 0),
    ("ring 3", 3, 3, 2, 2),
    ("star 1", 1, 0, 0, 0),
    ("star 1024", 1024, 1023, 1, 1023),
    ("grid 30 20", 600, 2 * 600 - 30 - 20, 2, 4),
    ("queen 3 7", 21, 118, None, None),
    ("queen 8 8", 64, 728, 21, 27),
    ("random 10 45", 10, 45, 9, 9),
    ("random 40 700", 40, 700, None, None),
    ("tree 20000", 20000, 19999, 1, None),
]


REFUSED = [
    "path 0",
    "path 20001",
    "ring 2",
    "star 1025",
    "complete 1025",
    "grid 200 101",
    "queen 0 1",
    "queen 141 141",
    "disk 30 --radius 0",
    "disk 30 --radius 3",
    "disk 2000 --radius 2",
    "random 10 46",
    "random 2000 400001",
    "random 5 3 --connected",
    "random 5 9 --neighbours 3",
    "random 5 4 --forests 5",
    "random 5 4 --neighbours -1",
    "random 5 -1",
    "path 3 4",
    "path 3 --seed 1",
    "",
    "read",
    "number x --by degree",
    "tell",
]


def by_names(text):
    """Of each node by its name what the lines of a network say."""
    net = network_in_bytes(text)
    names = {v: net.names.get(v, str(v)) for v in net.node_numbers}
    return {
        names[v]: (
            net.places.get(v),
            net.given_identifiers.get(v),
            net.bars.get(v),
            {names[w] for w in net.neighbours[v]},
        )
        for v in net.node_numbers
    }


def known(text, plan):
    """Of each node by its name its channel and identifier, and the rest of what the lines say."""
    net, lines, found = network_in_bytes(text), by_names(text), {}
    for v, channel in zip(net.node_numbers, plan.split()[2::2], strict=True):
        name = net.names.get(v, str(v))
        place, _, *others = lines[name]
        found[name] = (channel, net.identifiers[v], place, *others)
    return found


# Kinds of large networks.
LARGE = ("tree {}", "disk {} --radius 0.04", "ring {}")


def is_near(net):
    """Whether the numbers are those of a breadth first search of each component, from a node with the fewest
    neighbours there, and components come by how many these are."""
    least = {v: min([v, *ws]) for v, ws in net.neighbours.items()}
    firsts = [v for v in net.node_numbers if least[v] == v]
    parents = [least[v] for v in net.node_numbers if least[v] < v]
    degrees = [len(net.neighbours[v]) for v in net.node_numbers]
    fewest = []
    for first, after in itertools.pairwise([*firsts, net.nodes + 1]):
        fewest.append(min(degrees[first - 1 : after - 1]))
        if set(reached(net, first)) != set(range(first, after)) or degrees[first - 1] > fewest[-1]:
            return False
    return parents == sorted(parents) and fewest == sorted(fewest)


def large_network(source, nodes):
    """The text of a network in any order, with identifiers and bars, and with some nodes that no edge is at."""
    edges = {tuple(sorted(source.sample(range(1, nodes), 2))) for _ in range(nodes)}
    others = source.sample(range(nodes + 1, 2**60), nodes // 2)
    names = dict(zip(source.sample(range(1, nodes + 1), nodes // 2), others))
    return test_plain_networks.text_of(source, nodes, edges, names, some_bars(source, nodes))


def numbers(text):
    return [
        int(number.replace(",", "")) for number in re.findall(r"\d[\d,]*", text.replace(", ", " "))
    ]


LONG_NAMES = b"p edge 4 4\ni 2 %d\ni 4 0\ne 1 2\ne 2 3\ne 1 4\ne 1 3\n" % (2**128 - 1)


BARRED = (
    b"c name 4 Last\np edge 4 4\ne 1 2\ne 2 3\nb 4 2\ne 1 4\nb 4 2048\ne 1 3\nb 1 2\nb 4 2 again\n"
)


# (text, its fault, a part of what is said of it)
FAULTS = [
    ("", "F1", "there is no line"),
    ("p edge 1 0\np edge 1 0\n", "F2 line 2", "second"),
    ("e 1 2\np edge 2 1\n", "F3 line 1", "before"),
    ("p edge 2\n", "F4 line 1", "no `p edge NODES EDGES`: `p edge 2`"),
    ("p edge 2 1\re 1 2\r", "F4 line 1", "`p edge 2 1\\re 1 2`"),
    ("p edge 2 1\ne 1\n", "F4 line 2", "no `e V W`: `e 1`"),
    ("p edge 2 1\ne 1 2\r\r\n", "F4 line 2", "`e 1 2\\r`"),
    ("p edge 2 1\nb x 1\n", "F4 line 2", "no `b V CHANNEL`: `b x 1`"),
    ("p edge 2 1\ni 1\n", "F4 line 2", "no `i V NUMBER`: `i 1`"),
    ("p edge 2 1\ne 1 3\n", "F5 line 2", "there is no node 3: there are 2, from 1 on"),
    ("p edge 2 1\ne 0 1\n", "F5 line 2", "there is no node 0: there are 2, from 1 on"),
    *(
        (f"p edge 2 1\n{line}\n", "F5 line 2", f"there is no node {v}: ")
        for line, v in (("e 3 1", 3), ("i 0 1", 0), ("i 3 1", 3), ("b 0 1", 0), ("b 3 1", 3))
    ),
    ("p edge 2 1\ne 2 2\n", "F6 line 2", "from node 2 to itself"),
    ("p edge 20001 0\n", "F7 line 1", "more than 20000 nodes"),
    ("p edge %s 0\n" % ("9" * 5000), "F7 line 1", "more than 20000 nodes"),
    ("p edge 2 1\ne 1 000002\n q\n", "F8 line 3", "`q` begins no line"),
    ("\ufeffp edge 2 1\ne 1 2\n", "F8 line 1", "`\\ufeffp` begins no line"),
    (
        "p edge 1025 1024\n" + "".join(f"e 1 {v}\n" for v in range(2, 1026)),
        "N1 vertex 1",
        "node 1 has 1024 neighbours",
    ),
    ("p edge 2 1\n\x0b\n", "F8 line 2", "`\\x0b`"),
    ("i 1 5\np edge 2 1\n", "F10 line 1", "an identifier before"),
    ("p edge 2 1\ni 1 %d\n" % 2**128, "F11 line 2", "2^128"),
    ("p edge 2 1\ni 1 5\ni 1 5\n", "F12 line 3", "second identifier of node 1"),
    ("b 1 5\np edge 2 1\n", "F10 line 1", "a barred channel before"),
    ("p edge 2 1\nb 1 2049\n", "F13 line 2", "channel 2049 can't be barred, only 1 to 2048 can"),
    (
        "p edge 2 1\n" + "".join(f"b 2 {channel}\n" for channel in range(1, 1026)),
        "F14 line 1026",
        "more than 1024 channels are barred at node 2",
    ),
    ("p edge 2 1\ni 1 2\n", "N2 vertices 1 2", "nodes 1 and 2 have one identifier"),
]


ORDER_1, ORDER_2 = (os.environ | {"PYTHONHASHSEED": order} for order in "12")


class OwnNetworks(Case):
    def written(self, *arguments, data=b""):
        """The text that a call writes."""
        status, text, fault = call(*arguments, data=data)
        self.note(f"network {' '.join(map(str, arguments))}", status == 0, fault)
        return text

    def test_kinds(self):
        for arguments, nodes, edges, least, most in KINDS:
            text = self.written(*arguments.split())
            net = network_in_bytes(text)
            degrees = [len(ws) for ws in net.neighbours.values()]
            self.same(f"{arguments}: nodes and edges", (net.nodes, len(net.edges)), (nodes, edges))
            good = least in (None, min(degrees)) and most in (None, max(degrees))
            self.note(
                f"{arguments} has its numbers of neighbours, and says how it was made",
                good and text.startswith(f"c Made by forestlab network {arguments}".encode()),
                text[:80],
            )
            if arguments.split()[0] not in ("tree", "random"):
                self.same(f"{arguments}: places", sorted(net.places), list(net.node_numbers))
            if arguments.startswith("tree"):
                before = sorted(w for _, w in net.edges)
                self.same("each node but the first has one before it", before, [*range(2, 20001)])
        for name, kind in (("queen5_5", ("queen", 5, 5)), ("star", ("star", 9))):
            self.same(f"the example {name}", edges_of(self.written(*kind)), edges_of(example(name)))

    def test_smaller(self):
        """A network without one of its nodes, edges or bars, each once, and the one with the identifiers 1, 2, 3."""
        net = Network(3, [(1, 2), (2, 3)], {1: 5, 2: 9, 3: 7}, {1: [2], 3: [1, 4]})
        found = list(smaller(net))
        nodes, edges, bars = found[:3], found[3:5], found[5:7]
        self.same("the nodes left", [left for _, left in nodes], [[2, 3], [1, 3], [1, 2]])
        identifiers = [[less.identifiers[v] for v in less.node_numbers] for less, _ in nodes]
        self.same("their identifiers", identifiers, [[9, 7], [5, 7], [5, 9]])
        self.same("the edges left", [list(less.edges) for less, _ in edges], [[(2, 3)], [(1, 2)]])
        self.same("the bars left", [less.bars for less, _ in bars], [{3: [1, 4]}, {1: [2]}])
        names = [less.identifiers for less, _ in found[7:]]
        self.same("small identifiers", names, [{1: 1, 2: 3, 3: 2}])
        self.same("which no one has again", len(list(smaller(found[7][0]))), 7)

    def test_disk(self):
        """The places are what the seed's numbers say, and two are joined just if they are less than the reach apart."""
        for reach in (0.05, 0.26, 1.5):
            net = network_in_bytes(self.written("disk", 60, "--radius", reach, "--seed", 5))
            source = random.Random(5)
            places: dict[tuple[int, int], None] = {}
            while len(places) < 60:
                places[int(source.random() * 1001), int(source.random() * 1001)] = None
            self.same(f"places of a disk of reach {reach}", [*net.places.values()], [*places])
            near = [
                (v, w)
                for v, w in itertools.combinations(net.node_numbers, 2)
                if math.dist(net.places[v], net.places[w]) < 1000 * reach
            ]
            self.same(f"a disk of reach {reach}", net.edges, near)

    def test_wishes(self):
        """Networks by chance with wishes are as they are wished, and other seeds give others."""
        for arguments, wanted in (
            ("8 9 --connected --neighbours 3 --forests 2", (True, 3, 2)),
            ("20 20 --neighbours 4", (None, 4, None)),
            ("20 20 --forests 3", (None, None, 3)),
            ("60 80 --connected --neighbours 4 --forests 3", (True, 4, 3)),
            ("3 0 --neighbours 0 --forests 0", (None, 0, 0)),
        ):
            found = []
            for seed in range(1, 5):
                net = network_in_bytes(self.written("random", *arguments.split(), "--seed", seed))
                nodes, edges = map(int, arguments.split()[:2])
                there = len(reached(net, 1)) == nodes, net.greatest_degree, net.forest_count
                good = all(wish in (None, is_so) for wish, is_so in zip(wanted, there))
                sizes = net.nodes, len(net.edges)
                self.note(
                    f"random {arguments}, seed {seed}", good and sizes == (nodes, edges), there
                )
                found.append(net.edges)
            differ = found[0] != found[1] or not edges
            self.note(f"random {arguments}: the seeds differ", differ, found)

    def test_seeds(self):
        """A seed is the same again, whatever the order of sets is, and another is another."""
        for command in ("tree 50", "disk 50", "random 50 100"):
            one, again, other = (
                forestlab("network", *command.split(), "--seed", seed, env=env)[1]
                for seed, env in ((4, ORDER_1), (4, ORDER_2), (5, ORDER_1))
            )
            differ = edges_of(one) != edges_of(other)
            self.note(command, one == again and differ and b"--seed 4\n" in one, one[:80])

    def test_words(self):
        for arguments in REFUSED:
            self.refusal(f"refused words: {arguments}", call(*arguments.split()), 2, b": error: ")
        for line in (("path", "9" * 100_000), ("path", "3", "a\nb" * 20_000)):
            status, text, fault = call(*line)
            said = fault.partition(b"error: ")[2]
            good = (status, text) == (2, b"") and 0 < len(said) < 1000 and said.count(b"\n") == 1
            self.note(f"a long word: {len(arguments)}", good, fault[:300])
        for command in (["read", "--as", "dimacs"], ["tell"]):
            status, _, fault = call(*command, "/dev/zero")
            is_said = b"/dev/zero: more than 256 MiB" in fault
            self.note(f"{command[0]} of what has no end", status == 1 and is_said, fault[:300])
        for command in (["read"], ["tell"], ["number"], ["names"]):
            self.same(
                f"{command[0]} of no file",
                call(*command, "/nowhere.col"),
                (1, b"", b"network: /nowhere.col: No such file or directory\n"),
            )

    def test_numbers(self):
        """`number` and `read` leave each node its name, place, identifier, bars and neighbours."""
        networks = {"petersen": example("petersen"), "identifiers": LONG_NAMES, "bars": BARRED}
        for name, before in networks.items():
            again = []
            for arguments in ("read -", *(f"number - --seed {seed}" for seed in (1, 1, 4))):
                again.append(self.written(*arguments.split(), data=before))
                self.same(f"{name} by {arguments}", by_names(again[-1]), by_names(before))
            self.note(f"{name} numbered by chance: by its seed", again[1] == again[2] != again[3])
        said = b"1 and 2 have one identifier"
        done = call("number", "-", data=b"p edge 2 0\ni 2 9\ni 1 9\n")
        self.refusal("number of a network with a fault", done, 1, said)

    @needs("forestplan")
    def test_near(self):
        """A large network is numbered by breadth first search, where each node has the channel that it has in the
        order that is kept; a smaller one is written as it is."""
        for seed in range(int(setting("large"))):
            source, nodes = random.Random(seed), 1000 + seed
            data = large_network(source, nodes)
            if seed % 2:
                data = self.written(*source.choice(LARGE).format(nodes).split())
            arguments = ("read -", "number - --seed 2")[seed // 2 % 2]
            orders = ((), ("--keep-order",))
            texts = [self.written(*arguments.split(), *more, data=data) for more in orders]
            command = "plan" if seed % 50 == 1 else "plain"
            plans = [called(PLAN, command, data=text)[1].decode() for text in texts]
            near, kept = map(known, texts, plans)
            self.note(f"{arguments} by {seed}: the same nodes and channels", near == kept)
            are_near = [is_near(network_in_bytes(text)) for text in texts]
            self.same(
                f"{arguments} by {seed}: whether neighbours are near", are_near, [True, False]
            )
        small = large_network(random.Random(6), 999)
        written = network_in_bytes(self.written("read", "-", data=small))
        self.same("999 nodes", written.given_identifiers, network_in_bytes(small).given_identifiers)

    def told_of(self, data, *arguments):
        """{name: what} of the lines of `network tell`."""
        status, text, told = call("tell", "-", *arguments, data=data)
        self.note("tell", status == 0, told)
        return dict(re.findall(r"^(.*?): (.*)$", text.decode(), re.M)), told

    def test_bars(self):
        told, _ = self.told_of(BARRED)
        self.same(
            "tell of bars",
            told["barred"],
            "3 channels at 2 nodes, at most 2 at one, so at most 6 channels",
        )

    def test_tell(self):
        """Beside the definitions: the rounds' payloads, and the lines of a run's transcript."""
        networks = {name: example(name) for name in ("petersen", "star", "chain6")}
        networks |= {command: self.written(*command.split()) for command in ("grid 3 4", "path 1")}
        networks |= {"long names": LONG_NAMES, "bars": BARRED}
        for name, data in networks.items():
            net = network_in_bytes(data)
            told, warned = self.told_of(data)
            last, edges, payloads = last_pulse(net), len(net.edges), payloads_of(net)
            wires = 2 * payloads + 2 * edges * (last + 1)
            degrees = [len(ws) for ws in net.neighbours.values()]
            bars = max(map(len, net.barred.values()))
            enough = max(degrees) + bars + 1
            for key, wanted in (
                ("edges", [edges, edges]),
                ("neighbours", [min(degrees), max(degrees)] + ([] if bars else [enough])),
                ("forests", [net.forest_count, 12, 3, net.forest_count, enough, last]),
                ("payloads", [payloads]),
                ("wires", [2, payloads, 2, edges, last + 1, wires]),
            ):
                self.same(f"tell of {name}: {key}", numbers(told[key]), wanted)
            counted = told["payloads"].partition(";")[0]
            self.same(f"tell of {name}: no bound", counted, f"{payloads:,}")
            lines = 1 + len(degrees) * last + 2 * wires
            self.same(f"tell of {name}: transcript", numbers(told["transcript"])[0], lines)
            # What is said of a network that is too large to be worked out.
            most = most_payloads(net)
            self.note(f"the most payloads of {name}", payloads <= most <= 2 * payloads, most)

    def test_warnings(self):
        said = b"the `p` line says 99 edges, and the text has 1: is it cut?"
        self.note("a text that is cut", said in self.told_of(b"p edge 3 99\ne 1 2\n")[1])
        # Some count each edge twice, once from each end.
        both = b"e 1 2\ne 2 1\ne 2 3\ne 3 2\n"
        for edges, lines, is_warned in (
            *((b"2 1", b"e 1 2\n", False), (b"2 2", b"e 1 2\n", False), (b"2 3", b"e 1 2\n", True)),
            *((b"3 2", both, False), (b"3 4", both, False), (b"3 6", both, True)),
        ):
            warned = self.told_of(b"p edge %s\n%s" % (edges, lines))[1]
            self.same(f"whether it warns of {edges!r} and {lines!r}", bool(warned), is_warned)

    def test_faults(self):
        """The fault that the program reports (test_codes.py), in words."""
        for text, fault, said in FAULTS:
            status, wrote, told = call("tell", "-", data=text.encode())
            code, _, place = fault.partition(" ")
            lines = told.decode().split("\n")
            said_in = rf"network: -(?=.*{re.escape(said)}).*\({code}\)"
            is_said = (status, wrote) == (1, b"") and re.fullmatch(said_in, lines[0])
            is_placed = f" {place}: " in lines[0] if place.startswith("line") else True
            self.note(f"the fault {fault} of {text[:40]!r}", is_said and is_placed, told)

    def test_large(self):
        """Of a large network `network tell` has the bound that test_tell compares, and the command that counts."""
        data = self.written("random", 3000, 9000)
        told, _ = self.told_of(data)
        wires = numbers(told["wires"])[-1]
        said = f"plan about {duration(wires / 1_500_000)}, transcript about {duration(wires / 1_000_000)}, of all "
        self.note("the time of a large network", told["time"].startswith(said), told)
        times = [duration(59.9), duration(60), duration(185)]
        self.same("times in words", times, ["59 s", "1 min 0 s", "3 min 5 s"])
        most = most_payloads(network_in_bytes(data))
        said = f"at most {most:,}; `forestplay rounds < FILE | grep -c ' put '` counts them"
        self.same("a bound of the payloads", told["payloads"], said)
