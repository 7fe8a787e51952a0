"""Tests of programs of one's own, from a Python file, and of those that have a name, in `explore`, `simulate`,
`transcript` and `picture`. test_sequels.py has what nodes find."""
import itertools
import re
import subprocess
import textwrap
import time

from forestplan.definitions.program import synchronous_run
from forestplan.definitions.programs import program_at
from forestplan.network import Network
from forestplan.networks.network_text import network_in_bytes
from forestplan.networks.texts import plain_text
from forestplan.schedules import own_rounds
from tests import FORESTLAB
from tests.cases import Case, forestlab, said_by, text_in
from tests.pictures.marks import data_of
from tests.programs.test_plain_networks import reached
from tests.programs.test_sequels import SAMPLES
from tests.sentences import KEEP, NO_LINE, NO_TRUTH, NOT_COPIED, OTHERWISE, OUTSIDE

SET = SAMPLES[0]
FLOOD = """\
def greet(me):
    me.best = me.id
    return ("best", me.id)
def next(me, pulse, inbox):
    heard = max((number for word, number in filter(None, inbox)), default=0)
    if heard <= me.best:
        return None
    me.best = heard
    return ("best", heard) if pulse < me.nodes else None
def result(me):
    return f"best {me.best}"
"""
DRAWS = FLOOD.replace("me.best = me.id", "me.best = me.random.randrange(1000)").replace(
    "me.id)", "me.best)"
)
# What one node keeps, all nodes would know.
SHARED = """\
import builtins
def greet(me):
    builtins.kept = max(getattr(builtins, "kept", 0), me.id)
    return ("best", builtins.kept)
def next(me, pulse, inbox):
    return None
def result(me):
    return f"best {builtins.kept}"
"""
TREE = """\
def greet(me):
    me.layer, me.by = (0, None) if me.id == 1 else (None, None)
    return ("hops", 0) if me.id == 1 else None
def next(me, pulse, inbox):
    came = [(slot[1], port) for port, slot in enumerate(inbox) if slot]
    if me.layer is not None or not came:
        return None
    me.layer, me.by = min(came)[0] + 1, min(came)[1]
    return ("hops", me.layer) if pulse < me.nodes else None
def result(me):
    return f"layer {me.layer} by the port {me.by}" if me.layer else f"layer {me.layer}"
def drawn(me):
    return (me.layer - 1 if me.layer else None), me.by
def right(results, neighbours):
    return RIGHT
"""
# An election without a message, if nodes had one variable in common.
ELECTION = """\
best = 0
def greet(me):
    global best
    best = max(best, me.id)
    return ("n", me.id)
def step(me, pulse, inbox):
    return None
def result(me):
    return f"leader {best}"
"""
RIGHT = (
    FLOOD
    + """\
def right(results, neighbours):
    return set(results.values()) == {f"best {max(results)}"} or "no leader"
"""
)
# Three rounds reach three links far.
TOO_SHORT = (
    RIGHT.replace("me.nodes", "3")
    + """\
def last_pulse(nodes, degree):
    return 3
"""
)
TOKEN = """\
def greet(me):
    me.has = False
    return [("token", 0)] + [None] * (me.degree - 1) if me.id == 1 else None
def step(me, pulse, inbox):
    me.has = any(inbox)
    if me.has and pulse < me.nodes:
        me.has = False
        return [None] * (me.degree - 1) + [("token", pulse)]
    return None
def result(me):
    return f"token {me.has}"
def always(results, neighbours, messages):
    there = [words for words in results.values() if words == "token True"]
    return len(there) + len(messages) == 1 or f"{len(there)} held, under way: {messages}"
"""
TWICE = f"{OTHERWISE}, or a variable"
# What counts its calls where no value shows it.
LATE = "import builtins\nbuiltins.calls = getattr(builtins, 'calls', 0)\n" + FLOOD.replace(
    "    if heard", "    builtins.calls += 1\n    if heard"
)


def keeping(what):
    """The flood, whose nodes keep something besides."""
    return FLOOD.replace("me.best = me.id", f"me.kept = {what}\n    me.best = me.id")


def sending(what):
    """The flood, whose nodes send something else first."""
    return FLOOD.replace('("best", me.id)', what)


# What the file has, and parts of the one line that is said of it.
WRONG = [
    ("def greet(me:\n", " line 1: '(' was never closed"),
    ("x = 1 / 0\n", " line 1: ZeroDivisionError: division by zero"),
    (
        keeping("__import__('sys').exit(0)"),
        " line 2: SystemExit: 0, in `greet` at pulse 0 of the node of identifier 1\n",
    ),
    (keeping("me.colour"), " line 2: AttributeError: `me` has no `colour`, in `greet`"),
    (
        FLOOD.replace("    heard =", "    heard = inbox[7]\n    heard ="),
        " line 5: IndexError: list index out of range, in `next` at pulse 1 of the node of identifier 1, "
        "whose inbox is [('best', 2)]\n",
    ),
    (
        sending("{0: ('best', 1)}"),
        ": `greet` at pulse 0 of the node of identifier 1 returns a dict: one payload for all ports, a list "
        "with a payload or None for each port, or None can be sent\n",
    ),
    (FLOOD.replace("def result", "def results"), " has no function result"),
    ("greet = 1\n", " has no function greet and no function step or next and no function result"),
    (
        sending("('Word', 1)"),
        ": `greet` at pulse 0 of the node of identifier 1 sends ('Word', 1): a payload is a pair, "
        "a word of small letters and a number from 0",
    ),
    (
        sending("[None] * 9"),
        ": `greet` at pulse 0 of the node of identifier 1 returns a list of 9 for 1 ports",
    ),
    (
        FLOOD.replace("return None", "return ('best', 1)"),
        ": `next` at pulse 2 of the node of identifier 1 sends something, and 2 is the last pulse",
    ),
    (FLOOD.replace('f"best {me.best}"', "7"), f": {NO_LINE.format(7)}"),
    (
        FLOOD + "def last_pulse(nodes, degree):\n    return -1\n",
        ": `last_pulse` returns -1, which is no pulse",
    ),
    *(
        (keeping(what), NOT_COPIED, named)
        for what, named in (
            ("(n for n in [1])", "generator"),
            ("open(__file__)", "TextIOWrapper"),
            ("{1: [lambda: 0, (n for n in [1])]}", "generator"),
        )
    ),
    # A place for each node in one variable.
    (
        "KEPT = {}\n" + FLOOD.replace("me.best", "KEPT[me.id]"),
        f": `greet` at pulse 0 of the node of identifier 1 {OUTSIDE.format('KEPT')}{KEEP}",
    ),
    (ELECTION, OUTSIDE.format("best")),
    # Chance that is only kept would make more states, and ends that no seed repeats.
    (keeping("__import__('random').random()"), "`greet` at pulse 0 of the node of ", TWICE),
    # The rounds, played twice and once more, have 12 calls, so they can't show this one.
    (
        LATE.replace('("best", heard)', '("best", heard + (builtins.calls > 12))'),
        "does something else in another order of events: ",
    ),
    *(
        (FLOOD + f"def right(results, neighbours):\n    return {returned}\n", NO_TRUTH)
        for returned in ("None", "7", "''")
    ),
]


class OwnAlgorithms(Case):
    def test_commands(self):
        """Every order on a few nodes ends, by hand, as the rounds do; a run by seed is checked, and with another wire
        refused; and pictures say the end."""
        for asked, name, ends in (
            ("layers --root 3", "path3", "1 layer 2 by 0, 2 layer 1 by 1, 3 layer 0"),
            # The first pass begins with channel 2, so the two swap; the second begins with channel 1: all stays.
            ("recolouring --passes 2", "path2", "1 channel 2, 2 channel 1"),
            (SET, "path2", "1 set out, 2 set in"),
        ):
            arguments = ["--program", *asked.split()]
            status, text, fault = said_by("explore", name, *arguments)
            last = text.splitlines()[-1:]
            self.same(
                f"every order of {asked}", (status, last, fault), (0, [f"one end: {ends}"], "")
            )
            run = said_by("simulate", name, *arguments, "--seed", "3")[1]
            check = ["transcript", "check", name, "-", *arguments]
            done = said_by(*check, data=run.encode())
            good = done[::2] == (0, "") and done[1].startswith("whole run of ")
            self.note(f"a run of {asked}", good, done)
            wrong = run.replace(" safe 0", " safe 1", 1).encode()
            self.refusal(f"a wrong wire of {asked}", said_by(*check, data=wrong), 1, "WrongWire")
            found = ends.split(", ")[-1][2:]
            for kind in ("results", "player"):
                done = said_by("picture", kind, name, *arguments)
                self.note(
                    f"picture {kind} of {asked}", done[::2] == (0, "") and found in done[1], done
                )
        for line, status, said in (
            (
                "explore path3 --program layers --root 4",
                1,
                "explore: there is no node 4 that could be the root: the network has 3\n",
            ),
            ("picture player path3 --program layers --root 9", 1, "there is no node 9"),
            ("explore path3 --root 1", 1, "--root is for --program layers, not for colouring\n"),
            ("simulate path3 --program layers --passes 2", 1, "not for layers"),
            ("simulate path2 --program recolouring --passes 0", 2, "--passes"),
            ("simulate two --program tree", 1, "simulate: there is no program tree: there are "),
            ("simulate two --program no.py", 1, "simulate: no.py: No such file or directory\n"),
        ):
            self.refusal(line, said_by(*line.split()), status, said)

    def test_what_me_knows(self):
        """By hand: a row of three whose middle is the greatest has one forest, and two channels are barred at node
        1."""
        text = FLOOD.replace(
            'f"best {me.best}"',
            "f'{me.id} {me.degree} {me.nodes} {me.greatest_degree} {me.forests} "
            "{me.greatest_bars} {me.barred} {last(me)}'",
        )
        text += (
            "def last_pulse(nodes, degree, forests, bars):\n    return 10 * nodes + degree + forests + bars\n"
            "def last(me):\n    return last_pulse(me.nodes, me.greatest_degree, me.forests, me.greatest_bars)\n"
        )
        net = Network(3, [(1, 2), (2, 3)], {1: 4, 2: 9, 3: 5}, {1: [1, 7]})
        found = [
            node.result()
            for node in synchronous_run(net, program_at(self.file("knows.py", text))).values()
        ]
        self.same(
            "what `me` knows",
            found,
            ["4 1 3 2 1 2 (1, 7) 35", "9 2 3 2 1 2 () 35", "5 1 3 2 1 2 () 35"],
        )

    def test_what_me_may_keep(self):
        """Nodes are compared by value: an object, chance or an iterator in `me` makes no more states than plain numbers
        do. By hand: of two nodes the greater identifier is the leader, in every order."""
        plain = self.told(FLOOD)
        self.note(
            "a number", plain[0] == 0 and "\none end: 1 best 2, 2 best 2\n" in plain[1], plain
        )
        in_object = FLOOD.replace("me.best", "me.table.best").replace(
            "def greet(me):\n", "class Table:\n    pass\ndef greet(me):\n    me.table = Table()\n"
        )
        self.same("an object", self.told(in_object), plain)
        for kept in (
            "__import__('random').Random(1)",
            "iter([1, 2, 3])",
            "[]\n    me.kept.append(me.kept)",
        ):
            self.same(f"kept: {kept}", self.told(keeping(kept)), plain)

    def test_chance(self):
        """Chance by the seed is the same in the rounds and in each order, and the seed is named."""
        for seed, arguments in (("1", ()), ("other", ("--lots", "other"))):
            status, said, _ = self.told(DRAWS, *arguments)
            good = status == 0 and f"of the draws of --lots {seed} alone\n" in said
            self.note(f"me.random by {seed}", good and "one end" in said, said)
        self.note("another seed", said != self.told(DRAWS)[1])
        self.note("none is named without chance", "draws" not in self.told(FLOOD)[1])

    def test_refused(self):
        """What is no program, can't be copied or isn't the same the second time, in one line; other chance and shared
        variables are named."""
        for text, *said in WRONG:
            status, out, fault = self.told(text)
            is_line = (status, out, fault.count("\n")) == (1, "", 1) and fault.startswith(
                f"explore: {self.folder}/"
            )
            self.note(f"{said} of {text}", is_line and all(part in fault for part in said), fault)
        chance = "import random\n" + DRAWS.replace("me.random", "random")
        for text, where in (
            (chance, "`greet` at pulse 0 of the node of "),
            (SHARED, "`greet` at pulse 0 of the node of identifier 1 "),
        ):
            for command, network in (("explore", "path"), ("simulate", "chain6")):
                got = self.told(text, command=command, network=network)
                self.note(
                    f"{where} in {command}",
                    got[0] == 1 and where in got[2] and TWICE in got[2],
                    got,
                )

    def test_what_has_to_hold(self):
        """`right` is asked at the end and `always` in each state; the list is as short as there is one. By hand: node 1
        of two learns of node 2 in its pulse 1, before which it takes a payload, an acknowledgement and a safe; and for
        these node 2 takes a payload and an acknowledgement."""
        for text, first in (
            (
                FLOOD
                + "def right(results, neighbours):\n    return len(set(results.values())) == 1\n",
                "every schedule",
            ),
            (
                FLOOD
                + "def right(results, neighbours):\n    return f'{results[1]} and {neighbours[2]}'\n",
                "not right after 2 pulses of two: best 2 and [1]\n",
            ),
            (
                FLOOD + "def always(results, neighbours):\n    return results[1] != 'best 2'\n",
                "broken after 11 events (6 takes and pulses): `always` says that it isn't right\n",
            ),
        ):
            got = self.told(text)
            is_wrong = not first.startswith("every")
            self.note(first, got[0] == is_wrong and got[1].startswith(first), got)
        text = FLOOD + "def right(results, neighbours):\n    return False\n"
        listed = self.told(text, "--list")
        self.same("its list of events", (listed[0], len(listed[1].splitlines())), (1, 28))
        page = text_in("docs", "learn", "OWN_ALGORITHM.md")
        rest = re.split(r"For an\s+independent\s+set:\n\n", page)[1].splitlines(keepends=True)
        block = "".join(itertools.takewhile(lambda line: line.startswith("    "), rest))
        text = text_in(SET) + "\n" + textwrap.dedent(block) + "\n"
        for change, first in (
            (("", ""), "every schedule of two"),
            (('words == "set in"', "words"), "not right after 3 pulses of two: 1 is in, and so is"),
        ):
            got = self.told(text.replace(*change))
            good = got[0] == first.startswith("not") and got[1].startswith(first)
            self.note(f"the function of the page, {change}", good, got)

    def test_verdicts(self):
        """By hand: in three rounds of a row of six, node 1 hears of 4 and no further. A file that is wrong in the
        rounds is shown with them, pulse by pulse; `simulate` and `transcript check` end with 1."""
        status, text, fault = self.told(TOO_SHORT, network="path6")
        rows = text.splitlines()
        self.same(
            "explore",
            (status, rows[0], fault),
            (1, "not right after 3 pulses of path6: no leader", ""),
        )
        for row in (
            "  node 1 sends best 1 to 2; has best 1",
            "  node 2 hears best 1 from 1, best 3 from 3; sends best 3 to 1 and 3; has best 3",
            "  node 1 has best 4",
        ):
            self.note(f"a line of the rounds: {row.strip()}", row in rows, text)
        self.same(
            "pulses",
            [row for row in rows if row.startswith("pulse")],
            [f"pulse {p}" for p in range(4)],
        )
        status, text, _ = self.told(RIGHT, network="path6")
        wanted = "right after 6 pulses of path6: " + ", ".join(f"{v} best 6" for v in range(1, 7))
        self.same("a right one on six nodes", (status, text.splitlines()[0]), (0, wanted))
        self.refusal(
            "without `right`", self.told(FLOOD, network="path6"), 1, "of more the rounds are, if"
        )
        # A name of digits alone would be a number of nodes.
        own = ["--program", self.file("12.py", TOO_SHORT)]
        status, run, fault = said_by("simulate", "path6", *own)
        self.note("simulate", status == 1 and run.startswith("transcript 3 _12 6\n"), run[:40])
        self.note("simulate says why", fault.endswith(" isn't right: no leader\n"), fault)
        arguments = ["transcript", "check", "path6", "-", *own, "--json"]
        status, text, _ = said_by(*arguments, data=run.encode())
        good = status == 1 and '"right": false' in text and "NotRight" in text
        self.note("transcript check --json", good, text)

    def test_networks_by_chance(self):
        """A smallest network on which a file is wrong: by hand, three rounds are one too few for a row of five whose
        greatest is at an end, and two apart nodes have no leader."""
        path = self.file("flood.py", TOO_SHORT)
        status, text, _ = said_by("explore", "--program", path, "--networks", "60", "--connected")
        self.note("connected", status == 1 and "\np edge 5 4\n" in text, text)
        self.note("its rounds", "\npulse 3\n" in text and "\nthe end\n" in text, text)
        status, text, _ = said_by("explore", "--program", path, "--networks", "60")
        self.note("any", status == 1 and "\np edge 2 0\n" in text, text)
        path = self.file("right.py", RIGHT)
        done = said_by("explore", "--program", path, "--networks", "60", "--connected")
        self.same("a right one", done, (0, "right on 60 networks of up to 12 nodes\n", ""))
        for arguments, status, said in (
            (["--networks", "9", "--program", self.file("flood.py", FLOOD)], 1, "has none"),
            (["--networks", "0", "--program", path], 2, "no number from 1 to"),
            (["two", "--connected"], 2, "--connected is for --networks"),
        ):
            self.refusal(" ".join(arguments[:2]), said_by("explore", *arguments), status, said)

    def test_made_by_chance(self):
        """Each network is one that a file could have, written and read back. Some have bars and some none; some aren't
        connected, unless that is asked for."""
        for wanted in (False, True):
            nets = list(own_rounds.by_chance(60, "1", wanted))
            back = [network_in_bytes(plain_text(net).encode()) for net in nets]
            for name, net, other in zip(range(60), nets, back):
                got, read = (
                    (one.nodes, one.edges, one.identifiers, one.barred) for one in (net, other)
                )
                self.same(f"network {name}", got, read)
            are_joined = [len(reached(net, 1)) == net.nodes for net in nets]
            self.same("is_connected", list(map(own_rounds.is_connected, nets)), are_joined)
            self.same(f"connected: {wanted}", set(are_joined), {True, wanted})
            self.same("bars", {bool(net.bars) for net in nets}, {True, False})
            self.same(
                "nodes", {net.nodes for net in nets}, set(range(1, own_rounds.MOST_NODES + 1))
            )

    def test_messages(self):
        """One token walks along a row: held, or under way; a second one is found at once."""
        status, text, _ = self.told(TOKEN, network="path3")
        self.note("one token", status == 0 and text.startswith("every schedule of path3"), text)
        twice = TOKEN.replace(
            "[None] * (me.degree - 1) + [", "[('token', pulse)] * (me.degree - 1) + ["
        )
        status, text, _ = self.told(twice, network="path3")
        said = "0 held, under way: [(2, 1, ('token', 1)), (2, 3, ('token', 1))]"
        self.note("two tokens", status == 1 and text.splitlines()[0].endswith(said), text)

    def test_what_nodes_share(self):
        """Nothing: a class of the file is another one at each node, so nobody is elected without a message."""
        text = ELECTION.replace("best = 0\n", "class Shared:\n    best = 0\n").replace(
            "    global best\n", ""
        )
        text = text.replace("    best = max(best,", "    Shared.best = max(Shared.best,")
        got = self.told(text.replace("{best}", "{Shared.best}"))
        good = got[0] == 0 and got[1].endswith("one end: 1 leader 1, 2 leader 2\n")
        self.note("a class of the file", good, got)

    def test_how_it_ends(self):
        """What the file does can't end the command with another status: an end of the process, a signal, a loop."""
        for what, status, said in (
            ("__import__('os')._exit(0)", 1, "has ended the command by itself"),
            ("__import__('os').kill(__import__('os').getpid(), 9)", 1, "by signal 9"),
            ("[0 for _ in iter(int, 1)]", 143, ""),
        ):
            arguments = [
                FORESTLAB,
                "explore",
                "two",
                "--program",
                self.file("ends.py", keeping(what)),
            ]
            with subprocess.Popen(
                arguments, stdout=subprocess.PIPE, stderr=subprocess.PIPE
            ) as process:
                if status == 143:
                    time.sleep(2)
                    process.terminate()
                out, fault = process.communicate(timeout=60)
            self.note(
                f"the file ends: {what}",
                (process.returncode, out) == (status, b"") and said in fault.decode(),
                (process.returncode, fault),
            )

    def test_what_it_prints(self):
        """It goes to standard error, and leaves what the command writes as it was."""
        prints = "print('HERE')\ndef greet(me):\n    print('THERE')"
        for name in ("explore", "simulate"):
            plain, loud = (
                self.told(text, command=name)
                for text in (FLOOD, FLOOD.replace("def greet(me):", prints))
            )
            good = loud[:2] == plain[:2] and "HERE\n" in loud[2] and "THERE\n" in loud[2]
            self.note(f"{name} with prints", good, (plain, loud))

    def told(self, text, *arguments, command="explore", network="two"):
        """Status, output and errors of a command with a file of this text."""
        return said_by(command, network, "--program", self.file("flood.py", text), *arguments)

    def test_pictures(self):
        """Node 3 is in at pulse 1, 2 out at 2, and 1 in at 3."""
        _, text, _ = forestlab("picture", "rounds", "path", "--program", SET)
        self.note("what is found", text.count(b'class="found"') == 6, text)
        status, text, fault = forestlab("picture", "run", "chain6", "--program", SET)
        self.note("picture run", (status, fault) == (0, b"") and b"</svg>" in text, fault)

    def test_drawn(self):
        """A row of six, whose nodes say a colour and the port to the node before: by hand, in pulse 6 five edges are
        drawn, all nodes have their colours, and only what is too long to be read below a node is shortened.
        """
        for right, said in (("True", False), ("'no tree'", True)):
            path = self.file("tree.py", TREE.replace("RIGHT", right))
            _, page, fault = forestlab("picture", "player", "chain6", "--program", path)
            last = data_of(page.decode())["film"]["pulses"][-1]
            wanted = {"1": [None, None]} | {str(v): [v - 2, v - 1] for v in range(2, 7)}
            self.same(f"a tree, {right}", (last["drawn"], fault), (wanted, b""))
            self.same(f"words of it, {right}", last["results"][5], "layer 5 by the port 0")
            _, picture, _ = forestlab("picture", "rounds", "chain6", "--program", path)
            for text in (page, picture):
                is_said = b"right: no tree" in text or b"the end: no tree" in text
                self.note(f"what isn't right, {right}", is_said == said, text)
        for returned, why in (
            ("1", "a pair"),
            ("(9, None)", "a colour below 8"),
            ("(1, 5)", "a port"),
        ):
            text = TREE.replace(
                "return (me.layer - 1 if me.layer else None), me.by", f"return {returned}"
            )
            done = forestlab("picture", "player", "chain6", "--program", self.file("tree.py", text))
            self.refusal(f"drawn returns {returned}", done, 1, why.encode())
