"""Tests of `explore`, which plays every schedule of a tiny network.

The numbers of states and steps are compared with a trial's, which was written before it; random walks, state by state
and step by step, with src/forestplan/definitions/nodes.py; and lists of events are played by `forestplay events`."""
import gc
import os
import random
import re

from forestplan.definitions.colours import colours
from forestplan.definitions.events import Event, Kind
from forestplan.definitions.nodes import alpha_start, last_pulse
from forestplan.network import Network
from forestplan.networks.network_text import network_in_bytes
from forestplan.schedules import ruled_rounds, rules
from forestplan.schedules.alpha_space import AlphaSpace
from forestplan.schedules.explore import rounded
from tests import TOP
from tests.cases import Case, called, found_in, said_by, text_in
from tests.programs.test_plain_networks import networks_by_chance, payloads_of
from tests.settings import PLAY
from tests.tools import needs

MOST = 50_000  # states; more show that a search goes on and on
SEED = 2026

NETWORKS = {
    "two": "p edge 2 1|e 1 2|",
    "path": "p edge 3 2|e 1 2|e 2 3|",
    "triangle": "p edge 3 3|e 1 2|e 1 3|e 2 3|",
    "apart": "p edge 3 1|e 1 3|",
    "barred": "p edge 2 1|e 1 2|b 1 1|b 2 3|",
    "alone": "p edge 1 0|",
    "row of four": "p edge 4 3|e 1 2|e 2 3|e 3 4|",
}

# (network, how it is searched, states, steps), as a trial found them that searched copies of whole states; and as Spin
# finds them of a model that was written apart (bench/spin).
TRIAL: list[tuple[str, dict, int, int]] = [
    ("two", {}, 281, 430),
    ("path", {}, 3551, 8843),
    ("triangle", {}, 16473, 50723),
    ("row of four", {}, 41421, 141961),
    ("path", {"reduce": True}, 1642, 2373),
    ("triangle", {"reduce": True}, 4620, 7683),
]


def text_of(name):
    return NETWORKS[name].replace("|", "\n")


def net_of(name):
    return network_in_bytes(text_of(name).encode())


# Networks, and rules left out.
NAMED = Network(3, [(1, 2), (2, 3)], {1: 9, 2: 200, 3: 5}, {2: [1]})
REDUCED = [(NAMED, ("acks",)), (net_of("apart"), ()), (net_of("triangle"), ())]


def put_all(state):
    """Makes all puts that are possible."""
    for (v, _), port in state.port_to.items():
        while state.nodes[v].ports[port].out:
            state.step(Event(Kind.PUT, v, port))


def links_of(space, s):
    """The wires on each link in a state."""
    state = space.states[s]
    return {
        link: tuple(space.wires[number] for number in space.contents[state[space.slot[link]]])
        for link in space.links
    }


def states_of(space, states):
    """The nodes and links of some states."""
    return {str((space.nodes(s), links_of(space, s))) for s in states}


def shown(state, v):
    """What is shown of a node: its pulse, its stage, and what it waits for."""
    node, ports = state.nodes[v], list(zip(state.neighbours[v], state.nodes[v].ports))
    p = node.pulse_number
    if p == node.last:
        return (
            p,
            "whole" if node.drained() else "last",
            [("close", w) for w, port in ports if not port.closed],
        )
    if not node.safe_sent:
        return p, "asks", [(f"ack {p}", w) for w, port in ports if port.waits]
    return (
        p,
        "ready" if node.may_act() else "safe",
        [(f"safe {p}", w) for w, port in ports if not port.safe],
    )


# The number of events, and the ends.


def count_of_events(net):
    """n·R + 2·wires, wires being 2·payloads + 2·edges·(R + 1)."""
    wires = 2 * payloads_of(net) + 2 * len(net.edges) * (last_pulse(net) + 1)
    return net.nodes * last_pulse(net) + 2 * wires, wires


# Lists of events, and walks.


def list_of(name, lines):
    """The input of `forestplay events`."""
    return (text_of(name) + "".join(line + "\n" for line in lines)).encode()


def explored(*arguments):
    return said_by("explore", *arguments, cwd=TOP)


# (network, rules, the fault of `forestplay events` on the list without them, or None): what happens to two nodes is
# worked by hand. Without `early` the list is one that the program can play, since it keeps what comes early apart; a
# wire out of turn is one that it can't take. What goes wrong, after how many events, is on lesson 6 and GALLERY.
BROKEN = [
    ("two", "safes", "NotReady"),
    ("two", "early", None),
    ("two", "fifo", None),
    ("two", "acks,fifo", "NothingToPut"),
    ("two", "safes,acks", "NotReady"),
]


# (words, status, standard error)
FAULTS = [
    (
        ["examples/petersen.col"],
        1,
        "explore: petersen has 10 nodes, and every schedule is played of at most 4\n",
    ),
    (
        ["examples/triangle.col", "--limit", "16472"],
        1,
        "explore: there are more than 16,472 states: --reduce leaves most of them out, --limit allows more, "
        "at some 420 bytes each\n",
    ),
    (["README.md"], 1, "explore: README.md line 1: `#` begins no line of a network (F8)\n"),
]
REFUSED: list[tuple[list[str], str]] = [
    ([], "NETWORK is missing"),
    (["examples/two.col", "--without", "safes,digit"], "can't be left out together"),
    (["examples/two.col", "--without", "x"], "`x` is no rule"),
    (["--without", "partner"], "only --program matching has the rules partner,last"),
    (
        ["--without", "digit", "--program", "matching"],
        "only --program colouring has the rules digit,",
    ),
    (
        ["path2", "--without", "bars", "--program", "recolouring", "--list"],
        "the rounds have no events",
    ),
    (["two", "--reduce", "--without", "safes"], "explore: error: --reduce"),
    (["two", "--reduce", "--without", "acks,fifo"], "explore: error: --reduce"),
]


def is_state(space, s, state):
    """Whether a state of the explorer's has the nodes, the links and the steps of one by the definitions."""
    seen = {v: node[:3] for v, node in space.nodes(s).items()}
    wires = {(v, w): tuple(state.link[v, port]) for (v, w), port in state.port_to.items()}
    may = {str(event) for event, _ in space.steps(s)}
    return (
        links_of(space, s) == wires
        and seen == {v: shown(state, v) for v in space.node_numbers}
        and may == set(map(str, state.possible()))
    )


class Schedules(Case):
    @classmethod
    def setUpClass(cls):
        # Hundreds of thousands of states are held, none of which is in a circle: the collector would take a third of
        # the time.
        gc.disable()

    def test_trials(self):
        for name, how, states, steps in TRIAL:
            space = AlphaSpace(net_of(name), limit=MOST, **how).search()
            self.same(
                f"numbers of {name}, {how}", (space.count, len(space.target)), (states, steps)
            )
            if not how:
                self.end_rows(name, space)

    def end_rows(self, name, space):
        """Every schedule has the number of events that the formula says, less the puts."""
        events, wires = count_of_events(space.net)
        depths = [space.depth[s] for s in space.ends]
        self.same(f"events of each schedule of {name}", depths, [events - wires])
        self.note(f"{name}: in each order", space.schedules)
        ends = [{v: node.colour for v, node in space.nodes(s).items()} for s in space.ends]
        self.same(f"end of {name}", ends, [colours(space.net)])

    def test_formulas(self):
        for name in ("alone", "apart", "barred"):
            self.end_rows(name, AlphaSpace(net_of(name), limit=MOST).search())

    def test_walks(self):
        """Random walks, each state beside the definitions."""
        source = random.Random(SEED)
        for name, count in (("two", 10), ("path", 10), ("triangle", 20)):
            space = AlphaSpace(net_of(name), limit=MOST).search()
            for _ in range(count):
                state, s, length = alpha_start(space.net), 0, source.randrange(0, 400)
                events: list[str] = []
                put_all(state)
                is_right = is_state(space, s, state)
                while is_right and space.steps(s) and len(events) < length:
                    event, target = source.choice(space.steps(s))
                    s = target or 0
                    state.step(event)
                    put_all(state)
                    events.append(str(event))
                    is_right = is_state(space, s, state)
                self.note(f"a walk on {name}", is_right, events)

    def test_reduced(self):
        """With `reduce` the same goes wrong, and the ends are the same; its states are some of the whole search."""
        for net, without in REDUCED:
            whole, less = (
                AlphaSpace(net, without, MOST, reduce=it).search() for it in (False, True)
            )
            name = f"{net.edges} without {without}"
            self.note(f"nothing goes wrong: {name}", not less.faults and not whole.faults)
            self.same(name, *(states_of(space, space.ends) for space in (less, whole)))
            some, of_all = (states_of(space, range(space.count)) for space in (less, whole))
            self.note(f"states of {name}", some < of_all, (len(some), len(of_all)))
        for without in (("early",), ("acks", "early")):
            less = AlphaSpace(net_of("two"), without, MOST, reduce=True).search()
            self.note(f"what goes wrong is found: two without {without}", less.faults)
        # The triangle's counts by the help; and nothing of what it doesn't know.
        for arguments in ((), ("--reduce",)):
            said = explored("triangle", *arguments)[1]
            count = said.split(" states")[0].split(": ")[1]
            self.note(
                f"the triangle, as the help says {arguments}", count in explored("--help")[1], said
            )
        said = said.replace("so schedules, pulses apart and wires under way aren't", "")
        known = not any(word in said for word in ("schedules,", "apart,", "under way\n"))
        self.note("nothing of what it doesn't know", known, said)

    def explored(self, name, *arguments):
        return explored(self.file(f"{name}.col", text_of(name)), "--limit", str(MOST), *arguments)

    @needs("forestplay")
    def test_broken(self):
        for name, without, fault in BROKEN:
            (status, said, _), (_, listed, _) = (
                self.explored(name, "--without", without, *more) for more in ((), ("--list",))
            )
            lines = listed.splitlines()
            self.note(f"{name} without {without}", status == 1, said)
            self.same(
                f"the list of {name} without {without}",
                [line.split(":")[0] for line in said.splitlines()[1 : 1 + len(lines)]],
                lines,
            )
            got = called(PLAY, "events", data=list_of(name, lines))
            wanted = f"forestplay: {fault} line ".encode() if fault else b""
            self.note(
                f"forestplay refuses it as it should, {name} without {without}",
                got[2].startswith(wanted) and got[0] == (1 if fault else 0),
                got,
            )

    @needs("forestplay")
    def test_whole_lists(self):
        """One whole list of each network, by the program, which ends as `explore` says."""
        for name in ("alone", "apart", "path"):
            listed, said = (self.explored(name, *more)[1] for more in (("--list",), ()))
            done = called(PLAY, "events", data=list_of(name, listed.splitlines()))
            channels = re.findall(rb"channel (\d+)", done[1])
            ended = f"\none end: channels {b' '.join(channels).decode()}\n"
            good = len(channels) == net_of(name).nodes and said.endswith(ended)
            self.note(f"a whole list of {name}", done[0] == 0 and good, (done, said))

    def test_rounds(self):
        for net in map(network_in_bytes, networks_by_chance(20, 9)):
            rounds = ruled_rounds.RuledRounds(net, ()).work_out()
            self.same(
                f"the plan of {net.edges} with all rules",
                (rounds.clash, rounds.plan),
                (None, colours(net)),
            )

    def test_rules(self):
        """Each rule has its part of docs/learn/GALLERY.md, which says the edges of the smallest network that goes wrong
        without it, and names a wrong body that is there, in one of the two folders."""
        gallery = text_in("docs", "learn", "GALLERY.md")
        for word, rule in rules.ALL.items():
            part = gallery.partition(f"\n### `{word}`: ")[2].partition("\n### ")[0]
            self.note(f"{word} in the gallery", f"--without {word}" in part and rule.edit in part)
            if word in rules.OF_ROUNDS:
                said = found_in(
                    r"(?:oken on|finds that)\s(.*?)(?:goes|[.:;]|\n *after)", part, re.S
                )[1]
                edges = [(int(v), int(w)) for v, w in re.findall(r"(\d)-(\d)", said)]
                rounds = ruled_rounds.smallest_wrong_rounds([word])[0]
                self.same(
                    f"the smallest network without {word}", rounds and rounds.net.edges, edges
                )
            paths = [
                os.path.join(TOP, "crates", rule.crate, folder)
                for folder in ("must-fail", "wrong-bodies")
            ]
            found = [
                path for path in paths if os.path.exists(os.path.join(path, rule.edit + ".edit"))
            ]
            self.note(f"the wrong body of {word}", len(found) == 1, rule)

    def test_rounded(self):
        """Two digits of a large number, rounded half up."""
        for number, arguments in (
            *((0, "0"), (999_999, "999,999"), (1_000_000, "1.0e6"), (1_249_999, "1.2e6")),
            *((1_250_000, "1.3e6"), (9_949_999, "9.9e6"), (9_950_000, "1.0e7")),
            *((99_499_999, "9.9e7"), (23 * 10**187, "2.3e188"), (10**189 - 1, "1.0e189")),
        ):
            self.same(f"{number:.9e}" if number else "0", rounded(number), arguments)

    def test_words(self):
        for arguments, status, fault in FAULTS:
            self.same(f"explore {' '.join(arguments)}", explored(*arguments), (status, "", fault))
        for line, said in REFUSED:
            self.refusal(f"explore {' '.join(line)}", explored(*line), 2, said)
        self.note(
            "explore at the limit", explored("examples/triangle.col", "--limit", "16473")[0] == 0
        )
        said = explored("--help")[1]
        self.note("explore --help", all(f"  {word} " in said for word in rules.ALL), said)
        cut = AlphaSpace(net_of("two"), limit=280).search()
        self.note("more states than the limit", cut.is_cut and cut.expanded < cut.count, cut.count)
