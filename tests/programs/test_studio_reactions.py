"""Tests of the studio's calls on a program of one's own: in all states of small networks, whose number explore's own
search has found, too, they say of nodes without rounds what the machine allows; the file's text; and the dares."""

import itertools
import json
import os
from collections.abc import Iterator
from unittest import mock

from forestplan.definitions.events import PUT, TAKE
from forestplan.definitions.machine import NetState
from forestplan.definitions.programs import any_program_at
from forestplan.definitions.reacting_program import Reacting, ReactingNode
from forestplan.faults import Fault
from forestplan.networks.network_text import network_in_bytes
from forestplan.pictures.page_data import as_object
from forestplan.studio.address import Here
from forestplan.studio.calls import CALLS
from forestplan.studio.links import judged_link
from forestplan.studio.local_reactions import LocalReactions
from forestplan.studio.networks import opened_by
from forestplan.studio.own_dares import other_judged
from forestplan.studio.session import Session
from forestplan.studio.studio import own_programs
from tests import TOP
from tests.cases import FilesCase

EDGE, ROW = "p edge 2 1\ne 1 2\n", "p edge 3 2\ne 1 2\ne 1 3\n"
TRIANGLE = "p edge 3 3\ne 1 2\ne 1 3\ne 2 3\n"
# (sample, network, rules left out, states): the numbers that `forestlab explore` writes, which searches otherwise.
WALKS = (
    ("echo", TRIANGLE, "", 28),
    ("exclusion", EDGE, "", 31),
    ("alpha", EDGE, "", 37),
    ("exclusion", EDGE, "fifo", 35),
    ("ring_leader", TRIANGLE, "", 27),
)
# Node 1 keeps the first greeting that comes.
FIRST = """\
def start(me):
    me.first = None
    if me.id != 1:
        me.send(0, "hi", me.id)


def on_hi(me, port, id):
    me.first = me.first or id


def result(me):
    return f"first {me.first}"


def right(results, neighbours):
    return results[1] == "first 2" or "node 1 has heard 3 first"
"""
# Each node goes in and out when it likes, so two may be inside.
INSIDE = """\
def start(me):
    me.inside = False
    me.send_all("hello")


def on_hello(me, port):
    pass


def may_act(me):
    return True


def act(me):
    me.inside = not me.inside


def result(me):
    return "inside" if me.inside else "outside"


def always(results, neighbours):
    return list(results.values()).count("inside") < 2 or "two are inside"
"""
# If node 2 is heard first, the greeting goes round for ever.
ENDLESS = """\
    me.first = me.first or id
    if me.first == 2 or me.id != 1:
        me.send(port, "hi", id)
"""
# Values that Python writes at length, or not at all.
KEEPS = """\
    class Thing:
        pass

    class Fails:
        def __repr__(self):
            raise ValueError

    me.great, me.long, me.list = 10**5000, "x" * 999, list(range(99))
    me.thing, me.fails = Thing(), Fails()
    me.inside = False
"""
FAILS = FIRST.replace("me.first = me.first or id", "me.first = {}[id]")
ROUNDS = (
    "def greet(me):\n    return None\n\n\ndef step(me, pulse, inbox):\n    return None\n\n\n"
    "def result(me):\n    return ''\n"
)


def session_of(*files: str) -> Session:
    own, forms = own_programs(files)
    return Session(own=own, forms=forms)


def sample(name: str) -> str:
    return os.path.join(TOP, "examples", "algorithms", f"{name}.py")


def picture_of(session: Session, **fields: object) -> str:
    return str(CALLS["picture"].answer(fields, session, lambda done=0, of=0, part=None: None))


def answer(session: Session, name: str, **fields: object) -> dict:
    """What a call is answered, as the page has it."""
    found = CALLS[name].answer(fields, session, lambda done=0, of=0, part=None: None)
    return json.loads(json.dumps(found, default=as_object))


class Machine:
    """The machine of a file by its definition, which steps lead from state to state; a put is made at once."""

    def __init__(self, text: str, file: str, rules: str) -> None:
        program = any_program_at(file)
        assert isinstance(program, Reacting)
        self.net, self.program, self.rules = network_in_bytes(text.encode()), program, rules
        self.text = text

    def state(self, steps: list[str]) -> NetState[ReactingNode]:
        state = self.program.start(self.net)
        self.put_all(state)
        for step in steps:
            v, w, place = ([int(part) for part in step.split("-")] + [0, 0])[:3]
            if w:
                link = state.link[w, state.port_to[w, v]]
                link.insert(0, link.pop(place))
            state.step(state.events[TAKE, v, w] if w else state.events[state.nodes[v].own, v, None])
            self.put_all(state)
        return state

    def put_all(self, state: NetState[ReactingNode]) -> None:
        while puts := [event for event in state.possible() if event.kind is PUT]:
            state.step(puts[0])

    def possible(self, state: NetState[ReactingNode]) -> Iterator[str]:
        """The steps that the machine allows, in their words."""
        for event in state.possible():
            if event.port is None:
                yield str(event.node)
                continue
            w = state.neighbours[event.node][event.port]
            yield f"{event.node}-{w}"
            later = len(state.link_to(event.node, event.port)) if self.rules == "fifo" else 1
            yield from (f"{event.node}-{w}-{place}" for place in range(1, later))

    def links(self, state: NetState[ReactingNode]) -> list[list[object]]:
        """What each link holds that holds something, in words."""
        return [
            [v, w, [str(message) for message in state.link[v, port]]]
            for v, ws in state.neighbours.items()
            for port, w in enumerate(ws)
            if state.link[v, port]
        ]


def key_of(state: NetState[ReactingNode]) -> object:
    """Equal for equal states."""
    nodes = tuple(node.key() for node in state.nodes.values())
    return nodes, tuple(tuple(link) for link in state.link.values())


class States(FilesCase):
    is_one_row = True

    def test_what_always_says(self) -> None:
        """The file's word on each state of the network that can be reached, by hand."""
        machine = Machine(EDGE, self.file("inside.py", INSIDE), "")
        found = LocalReactions(machine.net, machine.program, ()).find()
        words = "inside", "outside"
        wanted = {pair: "" for pair in itertools.product(words, words)}
        wanted["inside", "inside"] = "two are inside"
        self.same("by the results", found.always, wanted)
        self.same("it has no end", found.ends, set())

    def test_all_states(self) -> None:
        for name, text, rules, states in WALKS:
            machine = Machine(text, sample(name), rules)
            session = session_of(sample(name))
            count = 0
            for steps in self.walk(machine):
                count += 1
                found = answer(
                    session,
                    "steps",
                    network=text,
                    program=name,
                    without=rules,
                    steps="_".join(steps),
                )
                at = f"{name} without {rules or 'nothing'} after {'_'.join(steps) or 'nothing'}"
                self.look_at(at, machine, steps, found)
            self.same(f"{name}: as many as explore finds", count, states)

    def walk(self, machine: Machine) -> Iterator[list[str]]:
        """A list of steps to each state."""
        known = {key_of(machine.state([]))}
        waiting: list[list[str]] = [[]]
        for steps in waiting:
            yield steps
            for step in machine.possible(machine.state(steps)):
                key = key_of(machine.state([*steps, step]))
                if key not in known:
                    known.add(key)
                    waiting.append([*steps, step])

    def look_at(self, at: str, machine: Machine, steps: list[str], found: dict) -> None:
        state = machine.state(steps)
        possible = list(machine.possible(state))
        self.same(f"{at}: what can come", sorted(found["steps"]), sorted(possible))
        self.same(f"{at}: its messages", found["wires"], machine.links(state))
        self.same(f"{at}: an end", found["ended"], not possible)
        self.note(f"{at}: nothing has failed", not found["over"], found["fault"])
        for v, node in state.nodes.items():
            is_ = found["nodes"][v - 1]
            self.same(f"{at}: node {v}", is_["found"], node.result())
            self.same(f"{at}: node {v} may act", is_["able"], str(v) in possible)
            self.same(f"{at}: node {v} has acted", is_["acts"], steps.count(str(v)))
            kept = {name: repr(value) for name, value in vars(node.me).items()}
            for name, said in is_["keeps"]:
                self.same(f"{at}: node {v}, me.{name}", said, kept[name])
        self.file_says(at, machine, state, found)
        self.ran(at, machine, steps, found)
        for step in possible:
            self.sends(at, machine, steps, step)

    def sends(self, at: str, machine: Machine, steps: list[str], step: str) -> None:
        """The answer to the question what a node sends in a step: what its links hold then and didn't hold before."""
        before, after = machine.state(steps), machine.state([*steps, step])
        v = int(step.split("-", maxsplit=1)[0])
        sent = set()
        for port, w in enumerate(after.neighbours[v]):
            new = after.link[v, port][len(before.link[v, port]) :]
            sent |= {f"{message.word} {w}" for message in new}
        asked = {
            "network": machine.text,
            "program": machine.program.name,
            "without": machine.rules,
            "steps": "_".join(steps),
            "step": step,
        }
        said = ", ".join(sorted(sent, reverse=True)) or "nothing"
        session = session_of(machine.program.file.path)
        found = answer(session, "sends", **asked, guess=said)
        self.note(f"{at}, then {step}: {said}", found["right"], found)
        wrong = answer(session, "sends", **asked, guess=f"{said}, x 1")
        self.same(f"{at}, then {step}: more", wrong["right"], False)

    def file_says(
        self, at: str, machine: Machine, state: NetState[ReactingNode], found: dict
    ) -> None:
        """What `right` and `always` say, asked here once more."""
        functions, name = machine.program.file.functions, machine.net.identifiers
        results = {name[v]: node.result() for v, node in state.nodes.items()}
        near = {name[v]: [name[w] for w in ws] for v, ws in machine.net.neighbours.items()}
        for asked, is_asked in (("always", True), ("right", found["ended"])):
            said = functions[asked](results, near) if asked in functions and is_asked else None
            ok = None if said is None else said is True
            self.same(f"{at}: {asked}", found[asked] and found[asked]["ok"], ok)

    def ran(self, at: str, machine: Machine, steps: list[str], found: dict) -> None:
        """Which function has run last: by the message that the last step has taken."""
        if not steps:
            return self.same(f"{at}: ran", found["ran"], {"function": "start", "node": 0})
        v, w, place = ([int(part) for part in steps[-1].split("-")] + [0, 0])[:3]
        function = "act"
        if w:
            before = machine.state(steps[:-1])
            function = f"on_{before.link[w, before.port_to[w, v]][place].word}"
        self.same(f"{at}: ran", found["ran"], {"function": function, "node": v})


class OwnFiles(FilesCase):
    def found(self, session: Session, **fields: object) -> dict:
        return answer(session, "steps", **{"network": ROW} | fields)

    def refused(self, session: Session, name: str, **fields: object) -> str:
        """The sentence of a refusal; nothing of an answer."""
        try:
            answer(session, name, **fields)
        except Fault as why:
            return str(why)
        return ""

    def test_text(self) -> None:
        """The text, the lines of each function, and nothing of a version that the page has."""
        path = self.file("first.py", FIRST)
        session = session_of(path)
        found = answer(session, "file_text", own="first")
        self.same("the text", found["text"], FIRST)
        lines = FIRST.split("\n")
        for name, (low, high) in found["lines"].items():
            self.note(f"{name} begins", lines[low - 1].startswith(f"def {name}("), lines[low - 1])
            self.note(f"{name} ends", lines[high - 1].startswith("    "), lines[high - 1])
            self.same(f"and nothing is after it: {name}", "".join(lines[high : high + 1]), "")
        self.same("all functions", set(found["lines"]), {"start", "on_hi", "result", "right"})
        again = answer(session, "file_text", own="first", seen=found["version"])
        self.same("nothing new", again, {"version": found["version"]})
        self.file("first.py", FIRST + "\n\ndef more():\n    pass\n")
        changed = answer(session, "file_text", own="first", seen=found["version"])
        self.note("it is another one", "def more" in changed["text"], changed)

    def test_faults(self) -> None:
        """Of a file with a fault only the fault is said, once; and so of one that is gone, or too large."""
        path = self.file("first.py", FIRST)
        session = session_of(path)
        for name, text, sentence in (
            ("no Python", "def start(me:\n", "first.py line 1: "),
            ("no function", "def on_x(me, port):\n    pass\n", "no function start"),
            ("another form", ROUNDS, "end the studio and begin it again"),
            ("too large", "#" * (1 << 20) + "\n", "more than 1 MiB"),
        ):
            self.file("first.py", text)
            found = answer(session, "file_text", own="first", seen="0")
            self.same(f"{name}: no text", set(found), {"version", "fault"})
            said = found["fault"]
            self.note(f"{name}: one line", sentence in said and "\n" not in said, said)
            again = answer(session, "file_text", own="first", seen=found["version"])
            self.same(f"{name}: once", again, {"version": found["version"]})
            if name != "too large":
                self.note(
                    f"{name}: no run",
                    sentence in self.refused(session, "steps", network=ROW, program="first"),
                )
        os.remove(path)
        gone = answer(session, "file_text", own="first")
        self.note("gone", "No such file" in gone["fault"], gone)

    def test_no_call_names_a_file(self) -> None:
        session = session_of(sample("echo"))
        for name in (
            sample("echo"),
            "examples/algorithms/echo.py",
            "../echo",
            "echo.py",
            "colouring",
            "",
        ):
            with mock.patch("builtins.open", side_effect=AssertionError("it opens a file")):
                said = self.refused(session, "file_text", own=name)
            self.note(repr(name), "there is no file of your own of the name" in said, said)

    def test_functions_elsewhere(self) -> None:
        """A function of another module has no lines here; one with a function in it ends with that."""
        text = f"from os.path import join\n\n\n{FIRST}\n\ndef outer():\n    def inner():\n        return 1\n"
        session = session_of(self.file("first.py", text))
        lines = answer(session, "file_text", own="first")["lines"]
        self.note("of another module", "join" not in lines, lines)
        low, high = lines["outer"]
        self.same("with the inner one", high - low, 2)

    def test_what_fails(self) -> None:
        """A function that fails ends the run, and its line is said; what the node had found before is still there."""
        session = session_of(self.file("fails.py", FAILS))
        found = self.found(session, program="fails", steps="1-3")
        self.same("it is over", (found["over"], found["steps"], found["ended"]), (True, [], False))
        self.note("its line", "fails.py line 8: " in found["fault"], found["fault"])
        self.same("no verdict", (found["right"], found["always"]), (None, None))
        self.same("found before", found["nodes"][0]["found"], "first None")
        self.same("the function", found["ran"], {"function": "on_hi", "node": 1})

    def test_what_is_kept(self) -> None:
        """Whatever a node keeps is shown, in few letters, and the same at each call."""
        text = INSIDE.replace("    me.inside = False\n", KEEPS, 1)
        session = session_of(self.file("inside.py", text))
        found = [self.found(session, program="inside")["nodes"][0]["keeps"] for _ in range(2)]
        self.same("twice", found[0], found[1])
        kept = dict(found[0])
        self.same("a number", kept["great"], "a value of the type int")
        self.note("a long text", len(kept["long"]) <= 120 and ".." in kept["long"], kept["long"])
        self.note("a list", len(kept["list"]) <= 120, kept["list"])
        self.same("an object", kept["thing"], "<program.start.<locals>.Thing object>")
        self.same("what fails", kept["fails"], "<Fails instance>")
        known = {"id", "degree", "nodes", "forests", "barred", "greatest_degree", "greatest_bars"}
        self.same("no more than the file keeps", known & set(kept), set())

    def test_what_is_sent(self) -> None:
        """A question is of a step that is possible, and the answer names the function."""
        samples = map(sample, ("echo", "exclusion", "independent_set"))
        session = session_of(self.file("fails.py", FAILS), *samples)
        asked = {"network": TRIANGLE, "program": "echo", "guess": "wave 3"}
        found = answer(session, "sends", **asked, step="2-1")
        self.same("right", (found["right"], found["found"]), (True, "wave 3"))
        self.same("why", found["why"], "`on_wave` runs, and sends `wave` to 3.")
        act = asked | {"program": "exclusion", "step": "1", "guess": "ask 3, ask 2"}
        found = answer(session, "sends", **act)
        self.same("two", (found["right"], found["found"]), (True, "ask 2, ask 3"))
        for step in ("", "1", "1-2", "x"):
            said = self.refused(session, "sends", **asked, step=step)
            self.note(repr(step), "isn't possible there" in said, said)
        said = self.refused(session, "sends", **asked | {"program": "independent_set"}, step="1-2")
        self.note("of rounds", said.startswith("independent_set has rounds"), said)
        failed = {"network": ROW, "program": "fails", "guess": "nothing", "step": "1-3"}
        found = answer(session, "sends", **failed)
        self.note("what fails", found["right"] and "`on_hi` fails: " in found["why"], found)

    def test_picture(self) -> None:
        """Space and time of a run that is made by steps: an arrow for each message that has been sent."""
        session = session_of(sample("echo"))
        asked = {"network": TRIANGLE, "program": "echo", "kind": "run"}
        for steps, messages in (("", 2), ("2-1", 3), ("2-1_3-2", 4)):
            svg = picture_of(session, **asked, steps=steps)
            self.same(f"{steps}: arrows", svg.count('class="message"'), messages)
        said = self.refused(session, "picture", **asked, steps="1")
        self.note("a step that isn't possible", "isn't possible there" in said, said)

    def test_list(self) -> None:
        """The list of events is one that is played again, and `act` is its word."""
        session = session_of(self.file("inside.py", INSIDE))
        found = self.found(session, program="inside", steps="2_1-2_1")
        self.note("it acts", "act 2" in found["list"] and "act 1" in found["list"], found["list"])
        again = self.found(session, program="inside", list="\n".join(found["list"]))
        self.same("the same steps", again["made"], ["2", "1-2", "1"])

    def test_another_end(self) -> None:
        """Of the nodes that have found something else the first is named."""
        results = {1: "a", 2: "b", 3: "c"}
        judged = other_judged(results, {1: "a", 2: "x", 3: "y"}, "5 steps")
        self.same(
            "another", (judged.won, judged.said.split()[:4]), (True, ["node", "2", "has", "b,"])
        )
        self.same("the same", other_judged(results, dict(results), "5 steps").won, False)

    def test_dares(self) -> None:
        """Each dare is won by the steps that win it and by no others, and only what the file says makes one."""
        files = self.file("first.py", FIRST), self.file("inside.py", INSIDE)
        session = session_of(*files)
        rows = (
            ("first", "right", "1-3_1-2", True, "`right` says: node 1 has heard 3 first"),
            ("first", "right", "1-2_1-3", False, "`right` is true at this end"),
            ("first", "right", "1-3", False, "something can still happen"),
            ("first", "other", "1-3_1-2", True, "node 1 has first 3, and first 2 in that order"),
            ("first", "other", "1-2_1-3", False, "the same"),
            ("inside", "always", "1", False, "`always` is true so far, in 1 step"),
            ("inside", "always", "1_2", True, "`always` says: two are inside, in 2 steps"),
            ("inside", "always", "1_2_1", True, "in 3 steps"),
            ("inside", "always", "1_1_2", False, "`always` is true so far, in 3 steps"),
        )
        for name, dare, steps, is_won, sentence in rows:
            found = self.found(session, program=name, dare=dare, steps=steps)["dare"]
            self.same(f"{name} {dare} {steps}", found["won"], is_won)
            self.note(f"{name} {dare} {steps} says", sentence in found["said"], found["said"])
            self.same("nothing is proved of it", found["impossible"], "")
            link = (
                f"x#net=0.0_1.0_0.1~1-2_1-3&tab=adversary&program={name}&dare={dare}&steps={steps}"
            )
            self.same(
                f"{name} {dare} {steps}: its link",
                judged_link(link, session).startswith("won: "),
                is_won,
            )
        endless = FIRST.replace("    me.first = me.first or id\n", ENDLESS)
        session = session_of(self.file("first.py", endless))
        found = self.found(session, program="first", dare="other", steps="1-3_1-2")["dare"]
        self.note("an order without end", "in that order there is no end" in found["said"], found)
        self.same("is no win", found["won"], False)
        session = session_of(*files)
        self.file("first.py", FIRST)
        self.same("of first", self.found(session, program="first")["dares"], ["right", "other"])
        self.same("of inside", self.found(session, program="inside")["dares"], ["always", "other"])
        for name, dare in (("first", "always"), ("first", "apart"), ("inside", "right")):
            said = self.refused(session, "steps", network=ROW, program=name, dare=dare)
            self.note(f"no {dare} of {name}", "no dare" in said, said)

    def test_addresses(self) -> None:
        """An address of such a file has its own dares and rules, and of another program's says that there are none."""
        session = session_of(sample("echo"), sample("independent_set"))
        rows = itertools.product(
            ("echo", "independent_set", "colouring"), ("other", "apart"), ("fifo", "safes")
        )
        for name, dare, rule in rows:
            place = f"example=triangle&tab=adversary&program={name}&dare={dare}&without={rule}"
            values = opened_by(place, session, Here()).address.values
            reacts = name == "echo"
            self.same(f"{place}: dare", values.dare, dare if (dare == "other") == reacts else None)
            self.same(
                f"{place}: rule", values.without, rule if rule == "fifo" or not reacts else None
            )

    def test_without_rounds(self) -> None:
        """What asks for rounds says in one line why there are none, and names no command."""
        session = session_of(sample("echo"))
        asked: dict[str, object] = {"network": TRIANGLE, "program": "echo"}
        rows: tuple[tuple[str, dict[str, object]], ...] = (
            ("rounds", {}),
            ("run", {"policy": "random"}),
            ("picture", {"kind": "rounds"}),
            ("predict", {"node": 1, "pulse": 1, "guess": "x"}),
            ("waits", {"node": 1, "guess": "x"}),
        )
        for name, more in rows:
            said = self.refused(session, name, **asked | more)
            is_said = said.startswith("echo has no rounds: ") and "Adversary" in said
            self.note(name, is_said and "\n" not in said and "simulate" not in said, said)

    def test_in_rounds(self) -> None:
        """Of a file with rounds the function that ran last is its greeting, and then that of the last pulse."""
        session = session_of(sample("independent_set"))
        asked = {"network": EDGE, "program": "independent_set"}
        for steps, wanted in (
            ("", {"function": "greet", "node": 0}),
            ("1-2", {"function": "greet", "node": 0}),
            ("1-2_2-1_1-2_2-1_1-2_2-1_1", {"function": "step", "node": 1}),
            ("1-2_2-1_1-2_2-1_1-2_2-1_1_2-1", {"function": "step", "node": 1}),
        ):
            self.same(steps, answer(session, "steps", **asked, steps=steps)["ran"], wanted)
        built_in = answer(session, "steps", network=EDGE)
        self.note("no file, no function", "ran" not in built_in, built_in)
