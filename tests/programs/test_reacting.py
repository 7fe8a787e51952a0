"""Tests of programs of one's own without rounds, whose nodes react to messages, and of the samples.

Expected counts are formulas of the published algorithms, worked by hand, or come from a search written here, which
plays every list of events on the machine of src/forestplan/definitions/machine.py one by one, without states in
common."""
import copy
import itertools
import json
import os
import re
import unittest.mock
from collections.abc import Iterator

from forestplan.definitions import own_program
from forestplan.definitions.events import PUT, TAKE, Event
from forestplan.definitions.leader import LEADER
from forestplan.definitions.machine import NetState
from forestplan.definitions.programs import any_program_at
from forestplan.definitions.reacting_program import Reacting, ReactingNode, results_in
from forestplan.faults import Fault
from forestplan.networks.network_text import network_in_bytes
from forestplan.networks.sources import network_at
from forestplan.schedules import reacting_space, simulate
from forestplan.schedules.alpha_space import AlphaSpace
from forestplan.schedules.extent import endless, extent_of
from forestplan.schedules.policies import POLICIES
from forestplan.schedules.reacting_space import ReactingSpace
from forestplan.schedules.simulate import played, text_of_run
from forestplan.transcripts.judge import whole_run
from tests import TOP
from tests.cases import Case, called, example, said_by, text_in
from tests.pictures.marks import data_of, marks, parsed, title, titles
from tests.sentences import (
    KEEP,
    NO_PORT,
    NO_RETURN,
    NO_TRUTH,
    NO_WORD,
    NOT_COPIED,
    OTHERWISE,
    OUTSIDE,
)
from tests.settings import PLAY
from tests.tools import needs

SAMPLES = "echo ring_leader ring_phases exclusion async_layers snapshot alpha".split()
# A token that goes round a ring for ever.
TOKEN = """\
def start(me):
    me.has = me.id == 1
    if me.has:
        me.send(0, "token")
def on_token(me, port):
    me.send(1 - port, "token")
def result(me):
    return f"has {me.has}"
"""
# One node may begin; then nothing ends any more.
TRAP = """\
def start(me):
    me.left = 1 if me.id == 1 else 0
def may_act(me):
    return me.left > 0
def act(me):
    me.left = 0
    me.send(0, "WORD")
def on_stop(me, port):
    me.send(port, "stop")
def on_end(me, port):
    pass
def result(me):
    return f"left {me.left}"
"""
# A ring in which the nodes of the identifiers 3 and 4 have only lesser neighbours.
MIXED_TEXT = "p edge 4 4\ne 1 2\ne 2 3\ne 3 4\ne 4 1\ni 1 3\ni 2 1\ni 3 4\ni 4 2\n"
PING = """\
def start(me):
    me.got = []
    if me.id == 1:
        me.send_all("ping", 7, "a")
def on_ping(me, port, number, letter):
    me.got.append((number, letter))
def result(me):
    return f"got {me.got}"
"""


def sample(name: str) -> str:
    return os.path.join(TOP, "examples", "algorithms", f"{name}.py")


def program(path: str) -> Reacting:
    found = any_program_at(path)
    assert isinstance(found, Reacting)
    return found


def put_all(state: NetState[ReactingNode]) -> None:
    """Each message on its link as soon as it is there."""
    while puts := [event for event in state.possible() if event.kind is PUT]:
        state.step(puts[0])


def ends_of(
    state: NetState[ReactingNode], messages: int = 0, acts: int = 0
) -> Iterator[tuple[int, int, tuple[str, ...]]]:
    """Of each list of events that has an end: how many messages and acts it has, and what nodes have found there."""
    put_all(state)
    events = list(state.possible())
    if not events:
        yield messages, acts, tuple(results_in(state).values())
    for event in events:
        after = copy.copy(state)
        after.nodes = {v: node.copied() for v, node in state.nodes.items()}
        after.link = {link: list(held) for link, held in state.link.items()}
        after.step(event)
        is_take = event.kind is TAKE
        yield from ends_of(after, messages + is_take, acts + (not is_take))


class Machine(Case):
    def test_alpha_is_an_instance(self) -> None:
        """Alpha as a file has the states, steps and schedules of alpha that is built in."""
        for name in ("two", "path3", "triangle"):
            net = network_at(name)
            own = ReactingSpace(net, program(sample("alpha"))).search()
            built_in = AlphaSpace(net, program=LEADER).search()
            extent = extent_of(own)
            self.same(
                f"alpha.py on {name}",
                (own.count, len(own.target), extent and extent.schedules),
                (built_in.count, len(built_in.target), built_in.schedules),
            )
            pulses = sum(node.pulse for node in built_in.nodes(built_in.ends[0]).values())
            messages = built_in.depth[built_in.ends[0]] - pulses
            lengths = extent and (extent.messages, extent.acts)
            self.same(f"its length on {name}", lengths, ((messages,) * 2, (pulses,) * 2))

    def test_every_list(self) -> None:
        """The schedules, their lengths and their ends, list by list."""
        for name, network in (
            ("echo", "two"),
            ("echo", "path3"),
            ("echo", "triangle"),
            ("ring_leader", "ring3"),
            ("exclusion", "two"),
            ("async_layers", "path3"),
            ("snapshot", "two"),
            ("alpha", "two"),
        ):
            net, of = network_at(network), program(sample(name))
            lists = list(ends_of(of.start(net)))
            space = ReactingSpace(net, of).search()
            extent = extent_of(space)
            self.same(f"{name} on {network}: schedules", extent and extent.schedules, len(lists))
            for kind, at in (("messages", 0), ("acts", 1)):
                counts = [one[at] for one in lists]
                span = extent and getattr(extent, kind)
                self.same(f"{name} on {network}: {kind}", span, (min(counts), max(counts)))
            found = {tuple(space.results(s).values()) for s in space.ends}
            self.same(f"{name} on {network}: ends", found, {results for _, _, results in lists})
            self.same(f"{name} on {network}: no end is out of reach", endless(space), [])

    def test_without_end(self) -> None:
        """The token that goes round by hand: a link holds it or the next does, three states. A trap that is gone into
        never ends, and one that isn't does."""
        path = self.file("token.py", TOKEN)
        status, text, fault = said_by("explore", "ring3", "--program", path)
        self.same(
            "a token",
            (status, text.splitlines()[:1], fault),
            (0, ["every schedule of ring3: 3 states, 3 steps"], ""),
        )
        self.note("a token has no end", "some schedules never end: there is no end;" in text, text)
        for word, said in (
            ("end", "each has 1 message and 1 act"),
            ("stop", "some schedules never end: there is no end"),
        ):
            path = self.file("trap.py", TRAP.replace("WORD", word))
            done = said_by("explore", "two", "--program", path)
            self.note(f"a trap with {word}", done[0] == 0 and said in done[1], done)
        choice = TRAP.replace('me.send(0, "WORD")', "me.send(0, me.word)").replace(
            "    me.left = 1", "    me.word = 'end'\n    me.left = 1"
        )
        # Node 1 may act before a word comes from node 2, or after it: it ends only before.
        choice += "def on_word(me, port):\n    me.word = 'stop'\n"
        choice = choice.replace(
            "def may_act", "    if me.id == 2:\n        me.send(0, 'word')\ndef may_act"
        )
        done = said_by("explore", "two", "--program", self.file("choice.py", choice))
        self.note(
            "from some states", "never end: from 3 states no end can be reached;" in done[1], done
        )


class Samples(Case):
    def counts(self, name: str, network: str) -> tuple[str, ...]:
        """What `explore` says of a sample that is right."""
        status, text, fault = said_by("explore", network, "--program", sample(name))
        self.same(f"{name} on {network}", (status, fault), (0, ""))
        self.same("names its network", text.startswith(f"every schedule of {network}: "), True)
        self.note("says no more than is so", not re.search("verified|proved|proof", text), text)
        return tuple(text.splitlines())

    def test_the_page(self) -> None:
        """The page has lines of the echo, with comments of its own."""
        page = text_in("docs", "learn", "OWN_ALGORITHM.md")
        rest = page.partition("\n## Without rounds\n")[2].splitlines()
        rest = list(itertools.dropwhile(lambda line: not line.startswith("    "), rest))
        block = list(itertools.takewhile(lambda line: not line or line.startswith("    "), rest))
        lines = [line.partition("#")[0].strip() for line in block]
        self.note("it is there", len(lines) > 20, block)
        source = iter([line.strip() for line in ECHO.splitlines()])
        self.same("other lines", [line for line in lines if line and line not in source], [])

    def test_published_counts(self) -> None:
        """Two messages an edge of the echo (Chang); of the ring 1 + 2 + .. + n for the identifiers, since each goes as
        far as the next greater one, and n to tell it (Chang and Roberts' worst case); 2(n - 1) for each entry of Ricart
        and Agrawala; of Dijkstra and Scholten's an answer for each message; of Chandy and Lamport's a marker for each
        direction of an edge, besides the payments."""
        for name, network, messages in (
            ("echo", "triangle", "6"),
            ("echo", "ring8", "16"),
            ("echo", "complete4", "12"),
            ("ring_leader", "ring3", str(1 + 2 + 3 + 3)),
            ("ring_leader", "ring5", str(1 + 2 + 3 + 4 + 5 + 5)),
            ("exclusion", "two", str(2 * 2 * 1)),
            ("exclusion", "triangle", str(3 * 2 * 2)),
            # Each of three tells two, and node 2 or 3 may be told the longer way first, and then tells two again.
            ("async_layers", "triangle", f"{2 * 6} to {2 * 8}"),
            ("snapshot", "triangle", str(3 + 6)),
            ("snapshot", "ring4", str(4 + 8)),
        ):
            lines = self.counts(name, network)
            self.note(f"{name} on {network}", f"each has {messages} messages" in lines[1], lines)

    def test_few_messages(self) -> None:
        """Hirschberg and Sinclair's bound: at most 4 * 2^k messages for each of n / (2^(k-1) + 1) nodes in phase k, so
        below 8 n (1 + log n), and n to tell it."""
        for n, log in ((3, 2), (4, 2), (5, 3), (6, 3)):
            extent = extent_of(
                ReactingSpace(network_at(f"ring{n}"), program(sample("ring_phases"))).search()
            )
            bound = 8 * n * (1 + log) + n
            self.note(f"ring{n}", extent and extent.messages[1] <= bound, (extent, bound))

    def test_ends(self) -> None:
        """By hand: a ring of n has n spanning trees, by the edge on which the waves meet; a tree has one. In a snapshot
        all coins are there."""
        for network, ends in (("ring5", 5), ("ring8", 8), ("path5", 1), ("star4", 1)):
            lines = self.counts("echo", network)
            said = "one end:" if ends == 1 else f"{ends} ends:"
            self.note(f"the trees of {network}", said in lines, lines)
        space = ReactingSpace(network_at("triangle"), program(sample("snapshot"))).search()
        coins = {
            sum(int(result.split()[1]) for result in space.results(s).values()) for s in space.ends
        }
        self.same("all coins are noted", coins, {30})

    def test_planted_mistakes(self) -> None:
        """Each is a line or two that a smaller network doesn't show and a larger one does."""
        mixed = self.file("mixed.col", MIXED_TEXT)
        for name, changes, right, wrong, said in (
            (
                "echo",
                [("is None and me.id != 1:", "is None:")],
                "path3",
                "triangle",
                "node 1 counts 2",
            ),
            (
                "ring_leader",
                [
                    (
                        '    me.send(1 - port, "leader", id)\n\n\ndef on',
                        '    me.send_all("leader", id)\n\n\ndef on',
                    ),
                    (
                        '    me.send(1 - port, "leader", id)\n\n\ndef result',
                        "    pass\n\n\ndef result",
                    ),
                ],
                "ring3",
                "ring4",
                "not all know the leader",
            ),
            (
                "ring_phases",
                [("        probe(me)", "        announce(me, port, id)")],
                "ring3",
                mixed,
                "there are the leaders ['leader 3']",
            ),
            (
                "exclusion",
                [("    me.time = max(me.time, time)\n", "")],
                "two",
                "triangle",
                "the nodes [1, 2] are inside",
            ),
            (
                "async_layers",
                [("is None or layer < me.layer:", "is None:")],
                "path3",
                "triangle",
                "3 has layer 2, and is in layer 1",
            ),
            (
                "snapshot",
                [("me.open.discard(port)", "me.open.clear()")],
                "two",
                "path3",
                "27 coins are noted of 30",
            ),
            (
                "alpha",
                [("me.safes[me.round] == me.degree", "me.safes[me.round] > 0")],
                "two",
                "path3",
                "KeyError: 0, in `on_safe`",
            ),
        ):
            text = text_in("examples", "algorithms", f"{name}.py")
            for old, new in changes:
                self.same(f"{name} has {old!r}", text.count(old), 1)
                text = text.replace(old, new)
            path = self.file(f"{name}.py", text)
            done = said_by("explore", right, "--program", path)
            self.note(
                f"{name} on {right}", done[0] == 0 and done[1].startswith("every schedule of"), done
            )
            done = said_by("explore", wrong, "--program", path)
            first = done[1].split("\n")[0]
            good = done[0] == 1 and first.startswith("broken after ") and said in first
            self.note(f"{name} on {wrong}", good, done)

    def test_identifiers(self) -> None:
        """The samples of rings are right on a ring in which two nodes have only lesser neighbours, too."""
        mixed = self.file("mixed.col", MIXED_TEXT)
        for name in ("ring_leader", "ring_phases"):
            done = said_by("explore", mixed, "--program", sample(name))
            self.note(name, done[0] == 0 and done[1].startswith("every schedule of mixed"), done)

    def answer(self, name: str, *pairs: str) -> str:
        """A sample with an answer to its exercise (docs/learn/ANSWERS.md)."""
        text = text_in("examples", "algorithms", f"{name}.py")
        for old, new in zip(pairs[::2], pairs[1::2]):
            self.same(f"{name} has {old!r}", text.count(old) > 0, True)
            text = text.replace(old, new, 1)
        return self.file(f"{name}.py", text)

    def test_answers(self) -> None:
        best = self.answer(
            *("ring_leader", "me.leader = None", "me.leader, me.best = None, me.id"),
            *("    if id > me.id:\n", "    if id > me.best:\n        me.best = id\n"),
        )
        done = said_by("explore", "ring5", "--program", best)
        self.note("C (b)", done[0] == 0 and "each has 14 to 20 messages;" in done[1], done)
        twice = self.answer(
            *("exclusion", '"done"\n', '"idle" if me.visits == 1 else "done"\n'),
            *("done (visits 1)", "done (visits 2)"),
            *(
                '        me.state, me.time = "asks"',
                '        me.answers = 0\n        me.state, me.time = "asks"',
            ),
        )
        done = said_by("explore", "two", "--program", twice)
        self.note("C (c)", done[0] == 0 and "each has 8 messages and 8 acts;" in done[1], done)
        awake = self.answer("async_layers", "me.unanswered > 0 or me.id == 1", "True")
        done = said_by("explore", "two", "--program", awake)
        said = "(3 takes): node 1 says that it has ended, and messages are under way\n"
        self.note("D (a)", done[0] == 1 and said in done[1], done)
        at_once = self.answer("alpha", "        me.waits = me.degree\n", "")
        for path, options, status in (
            (at_once, "", 0),
            (at_once, "--without fifo", 1),
            (sample("alpha"), "--without fifo", 0),
        ):
            done = said_by("explore", "two", "--program", path, *options.split())
            self.same(f"D (c) {options}", (done[0], done[2]), (status, ""))
        # Hirschberg and Sinclair's, on an ascending ring of n = 2^m: in phase 0 all send 2, and n are answered; then
        # the greatest is alone, with 4 * 2^k messages in phase k below m, 2 n in phase m, and n to tell it: 10 n - 8.
        for n, name, count in (
            (16, "leader", 16 * 17 // 2 + 16),
            (16, "phases", 10 * 16 - 8),
            (32, "leader", 32 * 33 // 2 + 32),
            (32, "phases", 10 * 32 - 8),
        ):
            done = said_by(
                "explore", f"ring{n}", "--program", sample(f"ring_{name}"), "--runs", "1"
            )
            self.note(f"D (d) {name} {n}", f": each has {count} messages\n" in done[1], done)

    def test_links_without_order(self) -> None:
        """Ricart and Agrawala need no order of the messages of a link, and Chandy and Lamport do."""
        for name, status in (("exclusion", 0), ("snapshot", 1)):
            done = said_by("explore", "two", "--without", "fifo", "--program", sample(name))
            said = "not broken without fifo: two has " if status == 0 else "broken after "
            self.note(name, done[0] == status and done[1].startswith(said), done)

    def test_runs(self) -> None:
        """Runs of a network that is too large for all schedules: two messages an edge, of which petersen has 15; and
        what is wrong in some of them."""
        done = said_by("explore", "petersen", "--program", sample("echo"), "--runs", "40")
        first = "40 runs of petersen, and not every schedule: each has 30 messages"
        self.same("the echo", (done[0], done[1].split("\n")[0]), (0, first))
        text = text_in("examples", "algorithms", "exclusion.py")
        path = self.file("late.py", text.replace("    me.time = max(me.time, time)\n", ""))
        done = said_by("explore", "triangle", "--program", path, "--runs", "300")
        good = done[0] == 1 and " of 300 runs; in a shortest of these after " in done[1]
        self.note("a mistake that runs show", good and "are inside\n" in done[1], done)
        again = said_by("explore", "triangle", "--program", path, "--runs", "300", "--seed", "1")
        self.same("the same seed has the same runs", again, done)

    def test_no_run_is_right(self) -> None:
        path = self.file("never.py", PING + "def right(results, neighbours):\n    return 'never'\n")
        status, said, _ = said_by("explore", "path2", "--program", path, "--runs", "7")
        counts = re.findall(r"\d+", said.partition("run")[0])
        self.same("all are counted", (status, counts), (1, ["7", "7"]))


class Lists(Case):
    def test_a_list_leads_there(self) -> None:
        """The list of events that goes wrong, played here one by one: each is possible, and it is wrong at the end."""
        text = text_in("examples", "algorithms", "exclusion.py")
        path = self.file("late.py", text.replace("    me.time = max(me.time, time)\n", ""))
        arguments = ["explore", "triangle", "--program", path]
        found = json.loads(said_by(*arguments, "--json")[1])
        self.same(
            "--list writes it", said_by(*arguments, "--list")[1].split("\n")[:-1], found["events"]
        )
        net = network_at("triangle")
        state = program(path).start(net)
        kinds = {kind.value: kind for kind, _, _ in state.events}
        for line in found["events"]:
            kind, *numbers = line.split()
            v, *port = map(int, numbers)
            state.step(Event(kinds[kind], v, port[0] if port else None))
        inside = [v for v, result in results_in(state).items() if result == "inside"]
        self.same("two are inside", len(inside), 2)

    def test_messages(self) -> None:
        """What `always` is given, by hand: (sender, receiver, message) by identifier, ascending; and what a node has
        once it has taken one."""
        text = PING + (
            "def always(results, neighbours, messages):\n"
            "    return results[1] != 'got []' or f'{results} {neighbours} {messages}'\n"
        )
        net = "p edge 3 2\ne 1 2\ne 1 3\ni 1 9\ni 2 1\ni 3 4\n"
        arguments = ["explore", self.file("net.col", net), "--program"]
        done = said_by(*arguments, self.file("ping.py", text))
        told = "{9: 'got []', 1: 'got []', 4: 'got []'} {9: [1, 4], 1: [9], 4: [9]} "
        first = f"broken after 0 events (0 takes): {told}[(1, 9, ('ping', 7, 'a'))]"
        self.same("one is sent", done[1].split("\n")[0], first)
        text = text.replace("me.id == 1", "me.id == 9")
        done = said_by(*arguments, self.file("ping.py", text))
        told += "[(9, 1, ('ping', 7, 'a')), (9, 4, ('ping', 7, 'a'))]"
        self.note("two are sent", f": {told}\n" in done[1], done)
        taken = PING + (
            "def always(results, neighbours):\n    return results[2] == 'got []' or results[2]\n"
        )
        done = said_by("explore", "path3", "--program", self.file("taken.py", taken))
        lines = [
            "broken after 2 events (1 take): got [(7, 'a')]",
            "  at first 1 got [], 2 got [], 3 got []",
            "put 1 0: ping 7 a for 2",
            "take 2 0: ping 7 a from 1; has got [(7, 'a')]",
        ]
        self.same("one is taken", done[1].split("\n")[:-1], lines)


ECHO = text_in("examples", "algorithms", "echo.py")


def echo(*pairs: str) -> str:
    """The sample with words changed."""
    text = ECHO
    for old, new in zip(pairs[::2], pairs[1::2]):
        assert old in text, old
        text = text.replace(old, new, 1)
    return text


ACTS = "def act(me):\n    pass\n\n\ndef result"


def line_of(text: str) -> int:
    """The line of the sample that has these words."""
    return 1 + ECHO[: ECHO.index(text)].count("\n")


# The lines that are changed.
LINES = {
    "start": line_of('send_all("wave")'),
    "start_more": line_of('send_all("wave")') + 1,
    "sends": line_of("send(me.parent"),
    "hears": line_of("me.waits -= 1"),
    "parent": line_of("if me.parent is"),
    "result": line_of("    return f"),
}
# What the file has, and parts of the first line that is said.
WRONG: list[tuple[str, ...]] = [
    (
        echo('send_all("wave")', 'send_all("wav")'),
        " line {start}: `wav` is sent, and the file has no function `on_wav`, in `start` of the node of identifier 1",
    ),
    (
        echo('send_all("wave")', 'send("wave")'),
        f" line {{start}}: {NO_PORT.format(repr('wave'))}, in `start`",
    ),
    (
        echo("send(me.parent", "send(7"),
        "broken after 6 events (3 takes): ",
        f" line {{sends}}: {NO_PORT.format(7)}, in `on_wave`",
    ),
    (
        echo('"echo", me.count', '"echo", me.count / 2'),
        " line {sends}: `echo` is sent with 0.5: after the word come numbers from 0, below 2^128, and words",
    ),
    (echo('"echo", me.count', '"echo", True'), " line {sends}: `echo` is sent with True: "),
    (echo('"echo", me.count', '"echo", 2**128'), " line {sends}: `echo` is sent with 3402823"),
    (echo('"echo", me.count', '"echo", "Two"'), " line {sends}: `echo` is sent with 'Two': "),
    (
        echo('"echo", me.count', '"echo"'),
        " line {sends}: `echo` is sent with 0 fields, and its function is `on_echo(me, port, count)`, in `on_",
    ),
    (echo('"echo", me.count', "1"), f" line {{sends}}: {NO_WORD.format(1)}"),
    (
        echo(', "echo", me.count', ""),
        " line {sends}: a message begins with a word, and here is none",
    ),
    (
        echo("heard(me, 0)", 'return "wave"'),
        f": `on_wave` of the node of identifier 2 returns 'wave': {NO_RETURN}",
    ),
    (
        echo("    return f", '    me.send_all("wave")\n    return f'),
        " line {result}: `me.send` is called here, and only `start`, `act` and the functions `on_WORD` may send",
    ),
    (
        echo("    return f", "    me.waits += 1\n    return f"),
        ": `result` of the node of identifier 1 changes `me`",
    ),
    (
        echo("def start", "def begin"),
        " has no function start; it has `on_wave`, so its nodes react to messages",
    ),
    (echo("def result", "def results"), " has no function result; it has `on_wave`"),
    (
        echo("def result", ACTS),
        ": it has a function `act` and no function `may_act`: a step of a node's own needs both",
    ),
    (
        echo("def result", "def may_act(me):\n    return False\n\n\ndef result"),
        ": it has a function `may_act` and no function `act`: a step",
    ),
    (
        echo("def result", f"def may_act(me):\n    me.count > 3\n\n\n{ACTS}"),
        ": `may_act` returns None: it must be True or False",
    ),
    (
        echo("def result", f"def may_act(me):\n    me.count += 1\n    return False\n\n\n{ACTS}"),
        ": `may_act` of the node of identifier 1 changes `me`",
    ),
    (
        echo("def result", "def on_Big(me, port):\n    pass\n\n\ndef result"),
        ": the function `on_Big` is of no word: a word has small letters alone",
    ),
    (
        echo("me.parent, me", "me.chance = __import__('random').random()\n    me.parent, me"),
        f": the node of identifier 1 {OTHERWISE}",
    ),
    (
        echo(
            "def heard(me, count):",
            "total = 0\n\n\ndef heard(me, count):\n    global total\n    total += 1",
        ),
        f": `on_wave` of the node of identifier 2 {OUTSIDE.format('total')}{KEEP}",
    ),
    (
        echo(
            "    return f",
            "    seen.append(1)\n    return f",
            "def result",
            "seen = []\n\n\ndef result",
        ),
        f": `result` of the node of identifier 1 {OUTSIDE.format('seen')}",
    ),
    (
        echo("def heard(me, count):", "def heard(me, count, seen=[]):\n    seen.append(count)"),
        f": `on_wave` of the node of identifier 2 {OUTSIDE.format('seen of heard')}",
    ),
    (
        echo(
            "def heard(me, count):",
            "class Seen:\n    n = 0\n\n\ndef heard(me, count):\n    Seen.n += 1",
        ),
        f": `on_wave` of the node of identifier 2 {OUTSIDE.format('Seen.n')}",
    ),
    (
        echo("    return f", "    return str(__import__('random').random())\n    return f"),
        f": the node of identifier 1 {OTHERWISE}",
    ),
    (echo("me.parent, me", "me.kept = (n for n in [1])\n    me.parent, me"), f": {NOT_COPIED}"),
    (
        echo('me.send_all("wave")', 'while True:\n            me.send_all("wave")'),
        " line {start_more}: more than 10,000 messages are sent in one call, in `start`",
    ),
    (
        echo("    me.waits -= 1", "    me.waits -= {0: 1, 1: 1}[count]"),
        "broken after ",
        " line {hears}: KeyError: 2, in `on_echo` of the node of identifier",
    ),
    (
        echo("if me.parent is", "if me.parrent is"),
        "broken after 2 events (1 take): ",
        " line {parent}: AttributeError: `me` has no `parrent`, in `on_wave` of the node of identifier 2",
    ),
    (echo("    return right(", "    right("), f": `always` returns None: {NO_TRUTH}"),
]


class Refused(Case):
    def test_misuses(self) -> None:
        for number, (text, *said) in enumerate(WRONG):
            parts = [text.format(**LINES) for text in said]
            path = self.file(f"wrong{number}.py", text)
            status, out, fault = said_by("explore", "triangle", "--program", path)
            first = (out or fault).split("\n")[0]
            lines = (out or fault).count("\n")
            good = status == 1 and all(part in first for part in parts) and "Traceback" not in fault
            self.note(parts[-1], good and (out or lines == 1), (status, out, fault))

    def test_commands(self) -> None:
        """What needs rounds or the synchroniser refuses such a file in one line."""
        path = sample("echo")
        react = "has a function `on_wave`, so its nodes make no rounds"
        for line, said in (
            ("picture rounds triangle", react),
            ("picture results triangle", react),
            ("picture player triangle", react),
            ("picture schedules triangle", react),
            ("explore --networks 5", react),
            ("explore triangle --reduce", "--reduce is for nodes under the synchroniser"),
            ("explore triangle --without safes", "of its rules only fifo can be left out"),
            (
                "explore complete5 --limit 50",
                "there are more than 50 states: --runs 100 plays a hundred runs instead, and --limit allows more",
            ),
        ):
            self.refusal(line, said_by(*line.split(), "--program", path), 1, said)
        done = said_by("explore", "two", "--program", "leader", "--runs", "3")
        said = "--runs is for a file whose nodes react to messages, and leader has rounds"
        self.refusal("--runs of rounds", done, 1, said)

    def test_a_run_without_end(self) -> None:
        path = self.file("token.py", TOKEN)
        done = said_by("explore", "ring3", "--program", path, "--runs", "1")
        self.refusal(
            "a run", done, 1, "a run under the policy random hasn't ended after 100,000 events"
        )

    def test_a_call_without_end(self) -> None:
        path = self.file("loops.py", echo("    me.waits -= 1\n", "    while True:\n        pass\n"))
        with unittest.mock.patch.object(own_program, "LONGEST", 0.2):
            space = ReactingSpace(network_at("two"), program(path)).search()
        said = "it hasn't ended after 0.2 seconds, in `on_wave` of the node of identifier 2"
        self.note("said", said in space.faults[space.first_fault()], space.faults)

    def test_growing(self) -> None:
        """What a node keeps, and what a link holds, may not grow for ever."""
        kept = TOKEN.replace("me.send(1 - port", "me.kept.append(me.id)\n    me.send(1 - port")
        kept = kept.replace("    me.has =", "    me.kept = []\n    me.has =")
        held = TRAP.replace("me.left = 0", "pass").replace('"WORD"', '"end"')
        for name, text, network in (("kept", kept, "ring3"), ("held", held, "two")):
            with unittest.mock.patch.object(reacting_space, "MOST_KEPT", 20_000):
                space = ReactingSpace(network_at(network), program(self.file(f"{name}.py", text)))
                space.search()
                self.same(name, (space.is_cut, space.is_full), (True, True))
        path = self.file("kept.py", kept)
        done = said_by("explore", "ring3", "--program", path)
        self.refusal(
            "said",
            done,
            1,
            "explore: what the nodes keep or the links hold grows too large: after ",
        )

    def test_own_chance(self) -> None:
        """Of chance by `me.random` it is said which seed that is."""
        text = echo("me.parent, me", "me.kept = me.random.randrange(3)\n    me.parent, me")
        path = self.file("draws.py", text)
        done = said_by("explore", "two", "--program", path, "--lots", "4")
        self.same("--lots", done[1].split("\n")[-2], "all this of the draws of --lots 4 alone")
        self.same("none in the sample", self_said("echo"), False)


def of_alpha(text: str) -> str:
    """A transcript of alpha.py as one of the leader under the synchroniser that is built in."""
    return text.replace("transcript 4 alpha ", "transcript 3 leader ", 1).replace(
        " act ", " pulse "
    )


class Transcripts(Case):
    def test_runs(self) -> None:
        """Each policy gives a whole run of each sample, whose messages are those of the formulas above."""
        for name, network, messages in (
            ("echo", "complete4", "12"),
            ("ring_leader", "ring5", "20"),
            ("exclusion", "triangle", "12"),
            ("snapshot", "ring4", "12"),
            ("async_layers", "path3", None),
            ("alpha", "triangle", None),
        ):
            net, of = network_at(network), program(sample(name))
            for policy in POLICIES:
                text = text_of_run(net, played(net, policy, "7", program=of), of)
                self.same(f"{name}: head", text.split("\n")[0], f"transcript 4 {name} {net.nodes}")
                said = whole_run(net, text.encode(), of)[1]
                entries = text.count("\n") - 1
                wanted = f"whole run of {net.nodes} nodes, {entries} entries, "
                self.note(f"{name}, {policy}", said.startswith(wanted), said)
                counted = said.removeprefix(wanted)
                is_right = counted.endswith(" messages") and messages in (None, counted.split()[0])
                self.note(f"{name}, {policy}: messages", is_right, said)

    def test_the_runs_of_alpha(self) -> None:
        """A seed gives alpha.py the run that it gives the synchroniser that is built in."""
        of = program(sample("alpha"))
        for network in ("petersen", "star4", "path3"):
            net = network_at(network)
            for policy in ("random", "slow-link", "bursts", "newest", "in-turn", "late-acks"):
                own = text_of_run(net, played(net, policy, "3", program=of), of)
                built_in = text_of_run(net, played(net, policy, "3", program=LEADER), LEADER)
                self.same(f"{network}, {policy}", of_alpha(own), built_in)

    def test_refused(self) -> None:
        """A run of two by hand that is whole, and what is said of it with a line changed or left out."""
        lines = [
            "transcript 4 exclusion 2",
            "1 1 act 1",
            "2 1 put 2 ask 1 1",
            "3 2 take 1 ask 1 1",
            "4 2 put 1 yes",
            "5 1 take 2 yes",
            "6 1 act 2",
            "4 2 act 1",
        ]
        text = "\n".join(lines) + "\n"
        arguments = ["transcript", "check", "two", "-", "--program", sample("exclusion")]
        for name, old, new, said in (
            (
                "another field",
                "put 2 ask 1 1",
                "put 2 ask 2 1",
                "line 3: WrongWire: node 1 puts ask 2 1 for 2, but the next one there is ask 1 1\n",
            ),
            (
                "another number",
                "6 1 act 2",
                "6 1 act 3",
                "line 7: WrongWire: node 1 makes act 3, but the next one there is 2\n",
            ),
            (
                "another stamp",
                "5 1 take",
                "7 1 take",
                "line 6: WrongStamp: node 1 takes yes from 2 with stamp 7, but the clock there gives 5\n",
            ),
            (
                "too early",
                "1 1 act 1",
                "1 1 act 1\n2 1 act 2",
                "line 3: NotReady: node 1 makes act 2: `may_act` says that it may not\n",
            ),
            (
                "nothing to put",
                "4 2 put 1 yes",
                "4 2 put 1 yes\n5 2 put 1 yes",
                "line 6: NothingToPut: node 2 puts yes for 1, for which it has nothing\n",
            ),
            (
                "not put",
                "2 1 put 2 ask 1 1\n",
                "",
                "line 3: LinkEmpty: node 2 takes ask 1 1 from 1, and 1 never puts it",
            ),
            (
                "a pulse",
                "6 1 act 2",
                "6 1 pulse 2",
                "line 7: X1: not an entry: `1 pulse 2` after its stamp is neither `V act K`, `V put W MESSAGE`",
            ),
            (
                "no word",
                "put 1 yes",
                "put 1 7",
                "line 5: X1: not an entry: `7` is no word that a message begins with\n",
            ),
            (
                "no field",
                "put 2 ask 1 1",
                "put 2 ask 1 One",
                "line 3: X1: not an entry: `One` is no number of a message",
            ),
            (
                "cut",
                "6 1 act 2\n4 2 act 1\n",
                "",
                "line 6: NotWhole: after the last entry node 1 may still act (is the text cut?)\n",
            ),
            (
                "another name",
                "4 exclusion",
                "4 echo",
                "line 1: WrongProgram: a transcript of echo, not of exclusion",
            ),
            (
                "an edition of rounds",
                "4 exclusion",
                "3 exclusion",
                "line 1: WrongProgram: edition 3 is of rounds",
            ),
            (
                "another node",
                "1 1 act 1",
                "1 3 act 1",
                "line 2: NoSuch: node 3 makes act 1, but there is no such node",
            ),
        ):
            assert old in text, old
            done = said_by(*arguments, data=text.replace(old, new, 1).encode())
            self.refusal(name, done, 1, said)
        head = "transcript 4 leader 3\n"
        done = said_by(
            "transcript", "check", "triangle", "-", "--program", "leader", data=head.encode()
        )
        self.refusal(
            "rounds", done, 1, "line 1: WrongProgram: edition 4 is of nodes that react to messages"
        )

    def test_not_right(self) -> None:
        """A run in which two are inside goes on to an end; one whose end `right` refuses is said so, twice."""
        text = text_in("examples", "algorithms", "echo.py").replace(
            "is None and me.id != 1:", "is None:"
        )
        path = self.file("echo.py", text)
        found = json.loads(said_by("explore", "triangle", "--program", path, "--json")[1])
        events = "\n".join(found["events"]).encode()
        arguments = ["simulate", "triangle", "--program", path, "--events", "-", "--to-the-end"]
        status, run, fault = said_by(*arguments, data=events)
        said = "what the nodes find at the end isn't right: node 1 counts "
        self.note("simulate", status == 1 and said in fault, (status, fault))
        done = said_by("transcript", "check", "triangle", "-", "--program", path, data=run.encode())
        self.refusal("check", done, 1, "NotRight: whole run of 3 nodes, ")

    def test_lists(self) -> None:
        """A list of events of such nodes: `act`, and no `pulse`; and what is said of one that ends early."""
        arguments = ["simulate", "two", "--program", sample("exclusion"), "--events", "-"]
        for data, status, said in (
            (
                b"act 1\n",
                0,
                "simulate: after the last event node 2 may still act; --to-the-end plays the rest\n",
            ),
            (
                b"act 1\nact 1\n",
                1,
                "line 2: `act 1` isn't possible there: `may_act` says that it may not (NotReady)\n",
            ),
            (b"pulse 1\n", 1, "line 1: `pulse 1` is no event (NoEvent)\n"),
            (
                b"put 1 0\n",
                1,
                "line 1: `put 1 0` isn't possible there: list of 1 for 2 (NothingToPut)\n",
            ),
        ):
            done = said_by(*arguments, data=data)
            self.note(said, done[0] == status and said in done[2], done)
        done = said_by("simulate", "two", "--events", "-", data=b"act 1\n")
        self.refusal("act in rounds", done, 1, "line 1: `act 1` is no event (NoEvent)")

    def test_without_end(self) -> None:
        of = program(self.file("token.py", TOKEN))
        with unittest.mock.patch.object(simulate, "MOST_ENTRIES", 500), self.assertRaises(
            Fault
        ) as caught:
            played(network_at("ring3"), program=of)
        wanted = "the run can't end within 500 entries (messages sent and not yet taken: 1)"
        self.same("said", str(caught.exception), wanted)

    def test_other_forms(self) -> None:
        """By hand: the first act and the first put of the run above."""
        text = b"transcript 4 exclusion 2\n1 1 act 1\n2 1 put 2 ask 1 1\n"
        lines = said_by("transcript", "convert", "json", data=text)[1].splitlines()
        rows = [
            {"edition": 4, "nodes": 2, "program": "exclusion"},
            {"line": 2, "stamp": 1, "node": 1, "kind": "act", "act": 1},
            {
                "line": 3,
                "stamp": 2,
                "node": 1,
                "kind": "put",
                "neighbour": 2,
                "message": "ask",
                "fields": [1, 1],
            },
        ]
        self.same("json", list(map(json.loads, lines)), rows)
        found = said_by("transcript", "convert", "shiviz", data=text)[1].splitlines()
        self.same(
            "shiviz",
            found,
            ['node1 {"node1": 1}', "act 1", 'node1 {"node1": 2}', "put ask 1 1 to 2"],
        )


class Bridge(Case):
    """A synchroniser in a file, whose runs the proved replay judges."""

    def rounds(self, text: str) -> tuple[int, str, str]:
        return said_by(
            "transcript", "convert", "rounds", "-", "--program", "leader", data=text.encode()
        )

    def test_converted(self) -> None:
        net, of = network_at("star4"), program(sample("alpha"))
        text = text_of_run(net, played(net, program=of), of)
        self.same("rounds", self.rounds(text), (0, of_alpha(text), ""))
        done = self.rounds(text.replace("payload 0 leader", "payload 0 hops", 1))
        self.refusal(
            "another word",
            done,
            1,
            "X1: not a wire of the synchroniser: `hops` is no payload of leader",
        )
        done = self.rounds("transcript 4 echo 2\n1 1 put 2 wave\n")
        self.refusal(
            "no wire", done, 1, "line 2: X1: not a wire of the synchroniser: `wave` is no wire"
        )
        done = self.rounds(of_alpha(text))
        self.refusal("rounds already", done, 1, "line 1: X1: edition 3 has pulses already")
        for arguments in (["json", "-", "--program", "leader"], ["rounds"]):
            done = said_by("transcript", "convert", *arguments, data=text.encode())
            self.refusal(
                " ".join(arguments), done, 1, "--program is for the form rounds, and rounds need it"
            )

    @needs("forestplay")
    def test_replayed(self) -> None:
        """Four runs are accepted, and one with a changed number is refused with its line."""
        of = program(sample("alpha"))
        for name in ("triangle", "petersen", "path", "star"):
            net = network_in_bytes(example(name))
            text = self.rounds(text_of_run(net, played(net, "bursts", program=of), of))[1]
            arguments, data = ["replay", "--program", "leader"], example(name) + b"\n"
            status, out, fault = called(PLAY, *arguments, data=data + text.encode())
            self.same(
                f"{name} is accepted", (status, fault, out.count(b"leader")), (0, b"", net.nodes)
            )
            wrong = text.replace("payload 0 leader 2", "payload 0 leader 1", 1)
            status, out, fault = called(PLAY, *arguments, data=data + wrong.encode())
            lines = text.splitlines()
            line = 1 + next(at for at, words_ in enumerate(lines) if "payload 0 leader 2" in words_)
            line += example(name).count(b"\n") + 1
            said = f"forestplay: WrongWire line {line}: expected payload 0 leader 2\n".encode()
            self.same(f"{name} with another number", (status, out, fault), (1, b"", said))


# By hand: two enter one after the other.
ENTRIES = [
    "transcript 4 exclusion 2",
    "1 1 act 1",
    "2 1 put 2 ask 1 1",
    "3 2 take 1 ask 1 1",
    "4 2 put 1 yes",
    "5 1 take 2 yes",
    "5 2 act 1",
    "6 1 act 2",
    "6 2 put 1 ask 2 2",
    "7 1 take 2 ask 2 2",
    "8 1 put 2 yes",
    "9 2 take 1 yes",
    "10 2 act 2",
]


class Pictures(Case):
    def test_a_run(self) -> None:
        """Each message from its put to its take, each act, and what changes."""
        lines = ENTRIES
        path = self.file("run.transcript", "\n".join(lines) + "\n")
        arguments = ["picture", "run", "two", "--program", sample("exclusion")]
        status, svg, fault = said_by(*arguments, "--transcript", path)
        self.same("it is drawn", (status, fault), (0, ""))
        root = parsed(svg)
        messages = ["1 to 2: ask 1 1", "2 to 1: yes", "2 to 1: ask 2 2", "1 to 2: yes"]
        self.same("the messages", titles(root, "message"), messages)
        self.same("the acts", len(marks(root, "tick")), 4)
        # By node, and from right to left.
        found = ["done (visits 1)", "inside", "asks", "idle"] * 2
        self.same("what is found", [mark.text for mark in marks(root, "result")], found)
        places = {}
        for group in marks(root, "message"):
            line = next(part for part in group if part.tag.endswith("line"))
            places[titles(root, "message").index(title(group))] = float(line.get("x1") or 0)
        at = [places[number] for number in range(4)]
        self.same("by stamp", [round((x - at[0]) / (at[1] - at[0]) * 2) for x in at], [0, 2, 4, 6])
        wrong = "\n".join(lines).replace("ask 2 2", "ask 3 2", 1)
        done = said_by(*arguments, "--transcript", self.file("wrong.transcript", wrong))
        self.refusal("a wrong run", done, 1, "line 9: WrongWire: node 2 puts ask 3 2 for 1")

    def test_a_page(self) -> None:
        """What is shown of each node after each entry, by hand: acts, whether it may act, and what it has found."""
        path = self.file("run.transcript", "\n".join(ENTRIES) + "\n")
        arguments = ["picture", "watch", "two"]
        own = ["--program", sample("exclusion")]
        status, page, fault = said_by(*arguments, path, *own)
        self.same("it is made", (status, fault), (0, ""))
        run = data_of(page)["run"]
        idle = {"acts": 0, "able": True, "found": "idle"}
        self.same("at first", run["start"], [idle, idle])
        # From the stamp before the first entry on.
        self.same("its stamps", run["stamps"], [0, run["rows"][-1][0]])
        shown = [tuple(run["looks"][row[2]].values()) for row in run["rows"]]
        asks, inside = (1, False, "asks"), (1, True, "inside")
        done = (2, False, "done (visits 1)")
        first = [asks, asks, (0, True, "idle"), (0, True, "idle"), inside, asks, done]
        self.same("each node", shown, first + [asks, done, done, inside, done])
        said = [[row[0], row[1], run["texts"][row[3]]] for row in run["rows"]]
        self.same(
            "entries",
            [[one[0], one[1]] for one in said[:6]],
            [[1, 1], [2, 1], [3, 2], [4, 2], [5, 1], [5, 2]],
        )
        self.same(
            "what is said", [one[2] for one in said[:2]], ["makes act 1", "puts ask 1 1 for 2"]
        )
        wires = [[*one[:2], run["texts"][one[2]], *one[3:]] for one in run["wires"]]
        wanted = [
            [1, 2, "ask 1 1", 1, 2, 2, 3],
            [2, 1, "yes", 3, 4, 4, 5],
            [2, 1, "ask 2 2", 7, 6, 8, 7],
            [1, 2, "yes", 9, 8, 10, 9],
        ]
        self.same("messages", wires, wanted)
        cut = self.file("cut.transcript", "\n".join(ENTRIES[:4]) + "\n")
        run = data_of(said_by(*arguments, cut, *own)[1])["run"]
        self.same("one is taken", [one[3:] for one in run["wires"]], [[1, 2, 2, 3]])
        cut = self.file("cut.transcript", "\n".join(ENTRIES[:3]) + "\n")
        run = data_of(said_by(*arguments, cut, *own)[1])["run"]
        self.same("one is under way", [one[3:] for one in run["wires"]], [[1, 2, None, None]])
        done = said_by(*arguments, path, path, *own)
        self.refusal("two", done, 1, "pulse by pulse, and the nodes of exclusion make none")

    def test_one_is_made(self) -> None:
        """Without a stored text a run is made; the options of rounds are refused."""
        arguments = ["picture", "run", "triangle", "--program", sample("echo")]
        status, svg, fault = said_by(*arguments)
        self.same("the echo", (status, len(marks(parsed(svg), "message")), fault), (0, 6, ""))
        for options in (["--pulses", "0..1"], ["--only", "ack"], ["--wrong"]):
            done = said_by(*arguments, *options)
            self.refusal(
                options[0],
                done,
                1,
                f"{options[0]} is for runs of rounds, and the nodes of echo make none",
            )
        done = said_by("picture", "run", "path13", "--program", sample("echo"))
        self.refusal("too many nodes", done, 1, "run draws at most 12 nodes, and here are 13")


def self_said(name: str) -> bool:
    return "--lots" in said_by("explore", "two", "--program", sample(name))[1]
