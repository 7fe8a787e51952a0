"""Tests of the studio's addresses: the page writes them, and one reader reads them, for the page and
for a class's links.

The page's own JavaScript writes, if node is installed. studio_addresses.json has addresses that
the page wrote before there was this reader, each with its state, and all links of its pages."""

import json
import os
import random
import re
import shutil
import subprocess
import time
from typing import get_args
from unittest import mock

from forestplan.definitions.programs import program_at
from forestplan.faults import Fault
from forestplan.networks.network_text import read_network
from forestplan.pictures.page_data import Net, as_object
from forestplan.schedules.policies import POLICIES
from forestplan.schedules.rules import OF_PROGRAMS, OF_SCHEDULES
from forestplan.schedules.stepwise import Stepwise
from forestplan.studio import limits, links
from forestplan.studio.address import NAMES, Here
from forestplan.studio.answers import PictureKind, TabName, Values
from forestplan.studio.dares import DARES
from forestplan.studio.links import judged_links, judged_link
from forestplan.studio.messages import HelloCall
from forestplan.studio.networks import answer_hello, opened_by
from forestplan.studio.recording import tell
from forestplan.studio.session import SAMPLES, Session
from tests import FORESTLAB, TOP
from tests.cases import Case, called, example, found_in, said_by, text_in, written_by
from tests.tools import need

STATES, SEED = 400, 107
PAGE = os.path.join(TOP, "src", "forestplan", "studio", "page")
# Writes each state of standard input as the page does.
WRITER = """\
import {readFileSync} from "node:fs";
import {codeOf, written} from "./address.mjs";
const {states, names} = JSON.parse(readFileSync(0));
console.log(JSON.stringify(states.map(state => [written(state, names), state.net && codeOf(state.net)])));
"""
# Reads each address of standard input as a published page does.
READER = """\
import {readFileSync} from "node:fs";
import {opened} from "./reader.mjs";
const {places, hello, examples} = JSON.parse(readFileSync(0)), found = [];
const example = async name => Object.hasOwn(examples, name) ? examples[name] : null;
for (const place of places) found.push(await opened(place, hello, {nodes: 0, edges: []}, example));
console.log(JSON.stringify(found));
"""
# The studio with its samples, and names that an address may have as its example.
OPEN = Session(own=SAMPLES, forms={name: "reactions" for name in SAMPLES})
SHOWN = ("two", "path", "petersen", "chain6")
# What may get into an address that is written by hand, cut or joined.
SPOILS = tuple(
    "0 1 9 . - _ ~ & = % %41 %zz a , net tab lesson step &dare= &steps= &lesson= ~i1-".split()
)
TEXTS = (
    *("", "1", "7", "Oslo", "a b", "Ü~_b", "50%", "%41", "x=1&y=2", "#3", "<b>", "名前", "a.b-c"),
    *("+", "\U0001f600", "\u202eabc", "\0", "'\"`", "~~__", "%", "&amp;", "1.5"),
)
PROGRAMS = ("colouring", "leader", "layers", "matching", "independent-set", "recolouring")
# What only a state whose network is drawn can say, and what any can.
TWO = "net=0.0_90.0~1-2"
# Steps on the path of three that win with another root than the first node's alone, found by chance.
WON_BY_ROOT = {
    2: "2-1_1_3_3_1_2-3_1-2_1-2_2-1_3-2_2-1_2-1_2_2-3_3-2_2_1-2_1-2_3-2_3-2_2-3_2-3",
    3: "3-2_1-2_3_1_2-1_3_1_2_2_2-1_2-1_3-2_2-3_2-3_1-2_2-3_3-2_2-3_3-2_1-2",
}

# Addresses that no page writes, with what is said of each; of a few nothing is wrong.
REFUSED = (
    ("net=0.0_1.1~1-2~i1-1x7~b1-zz", "the identifier of node 1 is `1x7`"),
    ("net=0.0_1.1~1-2~b1-zz", "`zz` is barred"),
    ("net=0.0_1.1~1-2~b1-0", "`0` is barred"),
    ("net=0.0_1.1~1-2~b1-2049", "`2049` is barred"),
    ("net=0.0_1.1~1-2~b1--3", "`-3` is barred"),
    ("net=0.0_1.1~1-2~i1-7_1-8", "node 1 has two identifiers"),
    ("net=0.0_1.1~1-2~i1-7~i2-8", "are there twice"),
    ("net=0.0_1.1~1-2~x1-7", "mean nothing"),
    ("net=0.0_1.1~1-2~", "mean nothing"),
    ("net=0.0_1.1~1-2~b1-3_1-3", "barred twice"),
    ("net=0.0_1.1~1-2~n1-%E0", "stands for no letter"),
    ("net=0.0_1.1~1-2~n1-%zz", "stands for no letter"),
    ("net=0.0_1.1~1-2~n1-a_1-b", "two names"),
    ("net=0.0_1.1~1-2_2-1", "twice"),
    ("net=0.0_1.1~1-1", "a wrong edge"),
    ("net=0.0_1.1~1-3", "a wrong edge"),
    ("net=0.0_1.1~0-1", "none of its 2 nodes"),
    ("net=0.0_1.1~\u0661-\u0662", "none of its 2 nodes"),
    ("net=\u0660.0_1.1~1-2", "a place is X.Y"),
    ("net=1e5.0", "a place is X.Y"),
    ("net=9999999.0", "a place is X.Y"),
    ("net=x", "a place is X.Y"),
    ("net=0.0%5F1.1~1-2", "a place is X.Y"),
    ("example=../x", "no example"),
    ("example=path\0", "no example"),
    ("example=path&net=0.0", "one of them"),
    ("example=path&example=two", "two networks"),
    (f"{TWO}&dare=apart&dare=wrong", "dare (it is there twice)"),
    (f"{TWO}&dare=apart&steps", ""),
    (f"{TWO}&Dare=apart", "Dare=apart (an address has no such name)"),
    (f"{TWO}&__proto__=1", "no such name"),
    (f"{TWO}&dare=constructor", "dare=constructor"),
    (f"{TWO}&program=layers&root=3", "there is no node 3"),
    (f"{TWO}&root=0", "there is no node 0"),
    (f"{TWO}&root=-1", "no whole number"),
    (f"{TWO}&root=\u0661", "no whole number"),
    (f"{TWO}&root={'9' * 5000}", "no whole number"),
    (f"{TWO}&program=recolouring&passes=65", "1 to 64"),
    (f"{TWO}&passes=0", "1 to 64"),
    (f"{TWO}&program=x.py", "there are colouring"),
    (f"{TWO}&at=1e3", "a number from 0"),
    (f"{TWO}&at=NaN", "a number from 0"),
    (f"{TWO}&forest=1", "a number from 0 to 0"),
    (f"{TWO}&steps=1-2_x", "`x` is no step"),
    (f"{TWO}&steps=\u0661", "is no step"),
    (f"{TWO}&steps=1-2-3-4", "is no step"),
    (f"{TWO}&steps={'1_' * 6001}", "6,001 steps"),
    (f"{TWO}&without=fifo,fifo", "a rule is there twice"),
    (f"{TWO}&without=toString", "there is no rule toString"),
    (f"{TWO}&broken=bars", "there is no rule bars"),
    (f"{TWO}&program=recolouring&broken=bars", ""),
    (f"{TWO}&slow=1-3", "there is no link 1-3"),
    (f"{TWO}&plan=1_2_3", "3 channels, and there are 2 nodes"),
    (f"{TWO}&plan=10000", "0 to 9,999"),
    (f"{TWO}&seed=%", "stands for no letter"),
    (f"{TWO}&seed=", ""),
    (f"{TWO}&other=newest.1.5", ""),
    (f"{TWO}&other=oldests.1", "there are random"),
    (f"{TWO}&lesson=9", "1 to 8"),
    (f"{TWO}&node=1.5&tab=rounds", "`1.5` is no whole number"),
    (f"{TWO}&tab=check&plan=1-2", "`1-2` is no whole number"),
    (f"{TWO}&tab=pictures&kind=x", "there are plan"),
    ("lesson=0x1", "`0x1` is no whole number"),
    ("lesson=0", "1 to 8"),
    ("lesson=1&step=0", "a number from 1 to"),
    ("lesson=1&step=99", "a number from 1 to"),
    ("lecture=0", "a number from 1 to"),
    ("lecture=99", "a number from 1 to"),
    (f"{TWO}&tab=draw&lecture=0", "a number from 1 to"),
    (f"{TWO}&tab=draw&lesson=0", "1 to 8"),
    (f"{TWO}&tab=draw&lesson=1&step=0", "a number from 1 to"),
    (f"{TWO}&tab=draw&step=1", "step=1"),
    ("lesson=1&step=-1", "`-1` is no whole number"),
    ("lecture=1e0", "`1e0` is no whole number"),
    ("net=0.0_1.1~1.5-2", "none of its 2 nodes"),
    ("net=0.0_1.1~1-2-9", "a wrong edge"),
    (f"net={'_'.join(['0.0'] * 401)}", "at most 400 nodes, and here are 401"),
    (f"{TWO}&lesson=9&tab=draw", "1 to 8"),
    ("x=" * 2_000_000, "at most 2,097,152 letters"),
    ("&".join(f"x{n}=1" for n in range(99)), "and 94 more"),
)


def stored():
    """(links, [(address, state)]) of the file."""
    found = json.loads(text_in("tests", "programs", "studio_addresses.json"))
    return found["links"], [(one["address"], one["state"]) for one in found["written"]]


def complete(nodes):
    """The link of a complete network, each round of which is kept."""
    every = range(1, nodes + 1)
    edges = "_".join(f"{v}-{w}" for v in every for w in every if v < w)
    return f"#net={'_'.join(['0.0'] * nodes)}~{edges}&dare=wrong&without=safes"


def some(source, among, most):
    """Some of these, in their order."""
    chosen = source.sample(range(len(among)), source.randint(0, min(most, len(among))))
    return [among[k] for k in sorted(chosen)]


def random_network(source):
    nodes = source.choice((1, 2, 3, 3, 5, 8, 30))
    identifiers = source.sample(range(10**12), nodes)
    bars = range(1, 2049)
    edges = [[v, w] for v in range(1, nodes + 1) for w in range(v + 1, nodes + 1)]
    return {
        "nodes": [
            {
                "x": source.choice((source.randint(-999999, 999999), source.uniform(-9, 99))),
                "y": source.randint(-999999, 999999),
                "id": source.choice(("", "0", str(identifiers[k]), str(10**38 + k))),
                "name": source.choice(("", *TEXTS)),
                "bars": source.choice(([], sorted(source.sample(bars, 3)))),
            }
            for k in range(nodes)
        ],
        "edges": some(source, edges, 12),
    }


def random_state(source):
    """What the page may have to write: a value of each name, or none."""
    network = random_network(source)
    nodes, edges, program = len(network["nodes"]), network["edges"], source.choice(PROGRAMS)
    node_numbers = list(range(1, nodes + 1))

    def step():
        return "-".join(str(source.randint(1, nodes)) for _ in range(source.randint(1, 3)))

    values = {
        "net": network,
        "tab": source.choice(get_args(TabName)),
        "program": program,
        "passes": source.randint(1, 64),
        "root": source.choice(node_numbers),
        "slow": some(source, edges, 3),
        "lazy": some(source, node_numbers, 3),
        "node": source.choice(node_numbers),
        "at": source.choice((source.randint(1, 999999999), source.randint(1, 9999) / 100)),
        "forest": source.randint(0, max(0, nodes - 2)),
        "broken": ",".join(some(source, list(OF_PROGRAMS.get(program, {})), 7)),
        "predict": source.choice((True, False)),
        "how": source.choice(("seed", "threads")),
        "policy": source.choice(list(POLICIES)),
        "seed": source.choice(TEXTS),
        "other": {"policy": source.choice(list(POLICIES)), "seed": source.choice(TEXTS)},
        "beside": source.choice((True, False)),
        "steps": [step() for _ in range(source.randint(0, 40))],
        "without": ",".join(some(source, list(OF_SCHEDULES), 4)),
        "dare": source.choice(list(DARES)),
        "plan": [source.randint(0, 9999) for _ in range(source.randint(0, nodes))],
        "kind": source.choice(get_args(PictureKind)),
        "lesson": source.randint(1, 7),
        # Each lesson has as many steps; the first one needn't be said.
        "step": source.randint(2, 4),
        "lecture": source.randint(1, 7),
    }
    always = ("net", "tab", "program")
    found = {
        name: value for name, value in values.items() if name in always or source.random() < 0.6
    }
    if "lesson" not in found:
        found.pop("step", None)
    return found


def rounded(network):
    """A network as an address has it: places are whole, as JavaScript rounds them."""
    nodes = [
        node | {"x": int(node["x"] + 1e6 + 0.5) - 10**6, "y": node["y"]}
        for node in network["nodes"]
    ]
    return {"name": "", "nodes": nodes, "edges": network["edges"]}


def told(state):
    """What an address says of a state: what has no value isn't written."""
    said = {name: value for name, value in state.items() if value or name == "seed"}
    return {name: value for name, value in said.items() if name != "net"}


def read_back(place):
    """(network, values) of an address, as the page gets them."""
    opened = opened_by(place, Session())
    opened.address.refuse()
    text = json.dumps([opened.network, opened.address.values], default=as_object)
    found = json.loads(text)
    # What is written beside a node isn't in an address.
    for node in found[0]["nodes"]:
        del node["label"]
    return found[0], {name: value for name, value in found[1].items() if name != "net"}


def spoiled(source, place):
    """An address in which some letters are others, or are gone."""
    for _ in range(source.randint(1, 3)):
        at = source.randrange(len(place) + 1)
        place = place[:at] + source.choice(("", *SPOILS)) + place[at + source.randint(0, 2) :]
    return place


class Writes(Case):
    def written(self, states):
        """(address, network's code) of each, by the page's own module."""
        need(self, "node")
        shutil.copy(os.path.join(PAGE, "address.js"), self.file("address.mjs", ""))
        names = {name: of.written for name, of in NAMES.items()}
        asked = json.dumps({"states": states, "names": names}).encode()
        status, out, errors = called(shutil.which("node"), self.file("w.mjs", WRITER), data=asked)
        self.same("node writes them", (status, errors), (0, b""))
        return json.loads(out)


class Addresses(Writes):
    def test_written_and_read(self):
        """Random states are written by the page's module and read back: every name that the page can write."""
        source = random.Random(SEED)
        states = [random_state(source) for _ in range(STATES)]
        seen = set()
        for state, (place, _) in zip(states, self.written(states), strict=True):
            network, values = read_back(place)
            seen |= set(values)
            with self.subTest(place[:200]):
                self.assertEqual(values, told(state))
                self.assertEqual(network, rounded(state["net"]))
        self.same("all names", seen, set(NAMES) - {"net", "example", "play"})

    def test_written_before(self):
        """What the page wrote before there was this reader says what it said then; so do the links of its pages."""
        links, written = stored()
        self.note("there are many", len(links) >= 30 and len(written) >= 50)
        for place, state in written:
            network, values = read_back(place[1:])
            with self.subTest(place[:200]):
                if "nodes" in state:
                    drawn = {"name": "", "nodes": state["nodes"], "edges": state["edges"]}
                    self.assertEqual(network, drawn)
                for name, value in values.items():
                    self.assertEqual(value, state[name], name)
        for place in links:
            network, values = read_back(place)
            with self.subTest(place):
                self.assertTrue(values)
                self.assertIsNotNone(network)

    def test_written_again(self):
        """And the page's module writes the same networks in the same letters."""
        states = [{"net": read_back(place[1:])[0]} for place, state in stored()[1]]
        drawn = [place for place, state in stored()[1] if place.startswith("#net=")]
        codes = {code for _, code in self.written(states)}
        for place in drawn:
            self.note(place[:200], found_in("^#net=([^&]*)", place)[1] in codes)

    def test_refused(self):
        """What no page writes is refused with the reason, however it is written."""
        for place, said in REFUSED:
            with self.subTest(place[:100]):
                try:
                    opened_by(place, Session()).address.refuse()
                    found = ""
                except Fault as why:
                    found = str(why)
                self.assertTrue(said in found and (said or not found), found)
                self.assertLess(len(found), 2000)

    def test_of_the_page(self):
        """An address without a network is of the one that the page has, and a lesson opens its place."""
        here = Here(2, {(1, 2)})
        found = opened_by("tab=run&slow=2-1&node=2", Session(), here)
        wanted = Values(tab="run", slow=[(1, 2)], node=2)
        self.same("its network is kept", (found.network, found.address.values), (None, wanted))
        self.same("an empty one", opened_by("net=~", Session(), here).network, Net("", [], []))
        values = opened_by("lesson=6&step=3", Session()).address.values
        self.same("a lesson's place", (values.tab, values.without), ("adversary", "safes"))
        values = opened_by(f"{TWO}&tab=check&lesson=6", Session()).address.values
        self.same("another place", (values.tab, values.without), ("check", None))


class Recorded(Writes):
    """A published page has no server that reads its addresses. What it reads itself is what the studio reads, and no
    more: an address may come from anybody."""

    def read(self, places):
        """What the page says of each, in this order; None if it refuses it."""
        need(self, "node")
        shutil.copy(os.path.join(PAGE, "recorded_address.js"), self.file("reader.mjs", ""))
        examples = {name: opened_by(f"example={name}", OPEN).network for name in SHOWN}
        asked = {
            "places": places,
            "examples": examples,
            "hello": answer_hello(HelloCall(), OPEN, tell),
        }
        data = json.dumps(asked, default=as_object).encode()
        status, out, errors = called(shutil.which("node"), self.file("r.mjs", READER), data=data)
        self.same("node reads them", (status, errors), (0, b""))
        return json.loads(out)

    def wanted(self, place):
        """What the studio's own call says of an address; None if it refuses it."""
        try:
            opened = opened_by(place, OPEN)
        except Fault:
            return None
        is_read = not opened.address.unread
        network = opened.network and (len(opened.network.nodes), opened.network.edges)
        return json.loads(json.dumps([network, opened.address.values, is_read], default=as_object))

    def same_as_studio(self, places):
        for place, found in zip(places, self.read(places), strict=True):
            if found:
                net, values, unread = (found[name] for name in ("network", "values", "unread"))
                self.note(f"{place[:100]!a}: one line", len(unread) < 500, unread)
                found = [net and [len(net["nodes"]), net["edges"]], values, not unread]
            self.same(f"{place[:100]!a}", found, self.wanted(place))

    def test_refused(self):
        """Without real threads `how=threads` isn't read, and by a row of names only the first five are named."""
        self.same_as_studio([place for place, _ in REFUSED])
        self.same("threads", self.read([f"{TWO}&tab=run&how=threads"])[0]["unread"], "how=threads")

    def test_spoiled(self):
        """Addresses of random states, and of the stored ones, with some letters changed."""
        source = random.Random(SEED)
        states = [random_state(source) for _ in range(STATES // 4)]
        written = [place for place, _ in self.written(states)]
        places = [spoiled(source, place) for place in written * 4]
        self.same_as_studio([place for place in places if "threads" not in place])


class Links(Case):
    def verdicts(self, *links):
        status, out, errors = said_by("studio", "--links", "-", data="\n".join(links).encode())
        self.same("nothing else is said", errors, "")
        return status, [line.partition(": ")[2] for line in out.splitlines()]

    def test_program(self):
        """The program with its option is the link's, as the page writes it."""
        links, steps = [], "without=safes,acks&dare=results&steps="
        for root, won in WON_BY_ROOT.items():
            links.append(f"#example=path&tab=adversary&program=layers&root={root}&{steps}{won}")
        network = read_network(example("two").decode(), "two")
        player = Stepwise(network, program_at("recolouring", passes=2))
        player.by_chance(2000, "1", set(), set())
        place = f"dare=results&steps={'_'.join(player.chosen)}"
        links.append(f"#example=two&tab=adversary&program=recolouring&passes=2&{place}")
        links.append("#example=two&tab=adversary&program=recolouring&dare=apart")
        status, said = self.verdicts(*links)
        won = "won: results without safes,acks: they halted with other results"
        same = "not won: results: they halted with the same results"
        none = "not won: apart: 0 of 2 pulses apart, in 0 steps"
        self.same("verdicts", (status, said), (0, [won, won, same, none]))

    def test_malformed(self):
        """A line that can't be read has a verdict, and those after it have theirs."""
        good = f"#{TWO}&dare=apart"
        fine = "not won: apart: 0 of 2 pulses apart, in 0 steps"
        for line, text in (
            ("http://[#dare=apart", "it has no network"),
            ("http://[", "`http://[` has no #"),
            ("x" * 3_000_000, "xxx..` has no #"),
            ("#" + "x" * 3_000_000, "at most 2,097,152 letters"),
            ("#net=0.0_1.1~1-2~i1-7_2-7&dare=apart", "have one identifier"),
            (f"#{TWO}~i1-{'9' * 39}&dare=apart", "2^128"),
            ("#dare=apart\0", "dare=apart\\x00"),
            ("#example=petersen%00&dare=apart", "no example"),
            (f"#{TWO}&dare=apart\u2028", ""),
            ("#" + "&" * 2_000_000, "it has no dare"),
            ("#net=" + "1.1_" * 500_000 + "&dare=apart", "a place is X.Y"),
            ("#net=" + "_".join(["1.1"] * 500_000) + "&dare=apart", "at most 400 nodes"),
            ("#net=" + "_".join(["1.1"] * 401) + "~&dare=apart", "at most 400 nodes"),
            ("#net=~&dare=apart", "no node yet"),
            ("\ud800#dare=apart", "it has no network"),
        ):
            data = "\n".join([line, good]).encode(errors="surrogatepass")
            status, out, errors = said_by("studio", "--links", "-", data=data)
            said = out.splitlines()
            shown = (said[0] if said else "")[:300], status, errors
            self.note(f"{line[:40]!a}", len(said) == 2 and text in said[0], shown)
            self.note(f"{line[:40]!a}: the next one", said[1:] == [f"2: {fine}"], said[1:])

    def test_at_once(self):
        """A verdict is there as soon as its link is judged, while the next one is still played."""
        links = self.file("links", f"#{TWO}&dare=apart\n{complete(50)}\n")
        begun = time.monotonic()
        arguments = [FORESTLAB, "studio", "--links", links]
        with subprocess.Popen(arguments, stdout=subprocess.PIPE, text=True) as process:
            output = written_by(process)
            said = output.readline()
            first = time.monotonic() - begun
            output.read()
        took = time.monotonic() - begun
        self.note(
            "the first one", said.startswith("1: not won") and first < took / 2, (said, first, took)
        )

    def test_own(self):
        """A program of one's own is known if the command line names its file."""
        own = os.path.join(TOP, "examples", "algorithms", "independent_set.py")
        link = f"#{TWO}&program=independent_set&dare=apart"
        done = said_by("studio", "--own", own, "--links", self.file("link", link))
        self.same(
            "with its file", done[:2], (0, "1: not won: apart: 0 of 2 pulses apart, in 0 steps\n")
        )
        status, said = self.verdicts(link)
        self.note(
            "without it", status == 1 and "program=independent_set (there are" in said[0], said
        )

    def test_limits(self):
        """Each link has a process with the limits of a call; what takes too much is said, and the others go on."""
        judged = links.judged_link
        with mock.patch.object(limits, "MEMORY", 300 << 20), mock.patch.object(
            links,
            "judged_link",
            lambda link, session: bytes(1 << 30) if link == "large" else judged(link, session),
        ):
            found = list(judged_links(["large", f"#{TWO}&dare=apart"], Session()))
        said = ["1: can't be judged: it took too much memory, so it was ended", False]
        self.same("too much memory", list(found[0]), said)
        self.note("the next one", found[1][0].startswith("2: not won"), found[1])
        with mock.patch(
            "forestplan.studio.links.judged_link", lambda link, _: time.sleep(60)
        ), mock.patch.object(limits, "SECONDS", 1):
            found = list(judged_links(["x"], Session()))
        self.same("too much time", found, [(f"1: can't be judged: {limits.TOO_LATE}", False)])
        with mock.patch(
            "forestplan.studio.links.judged_link", side_effect=lambda link, _: os._exit(3)
        ):
            found = list(judged_links(["x"], Session()))
        self.note("an end without a word", "so it was ended" in found[0][0], found)
        with mock.patch("forestplan.studio.links.judged_link", lambda link, _: 1 // 0):
            found = list(judged_links(["x"], Session()))
        self.note("a fault of ours", "can't be judged: a fault of the studio" in found[0][0], found)

    def test_dared(self):
        """What a link lacks is named."""
        for link, said in (
            (f"#{TWO}", "it has no dare"),
            ("#dare=apart", "it has no network"),
            (f"#{TWO}&dare=apart&steps=1", "step 1 of the list, 1, isn't possible there"),
        ):
            with self.subTest(link), self.assertRaisesRegex(Fault, re.escape(said)):
                judged_link(link, Session())
