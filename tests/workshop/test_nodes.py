"""Nodes, and what is found of each: right ones in each language, with and without a clock, alone and together, and each
typical mistake with its verdict, node and pulse.

What is right of other programs on path4, a row of the nodes 1 to 4: of the layers node 1 sends `hops 0` in pulse 0,
node 2 `hops 1` in pulse 1, node 3 `hops 2` in pulse 2, and pulse 3 is the last. On a triangle after the colouring: in
forest 0 node 1 is below 2, and 2 below 3, and in forest 1 node 1 is below 3. The colours of 1, 2, 3 are 0, 1, 0 in
forest 0, and 1, 2, 0 in the plan, after pulse 30. So node 3 takes node 2 in pulse 14. Node 3 joins the set in pulse 31,
and the others hear of it. Node 2 chooses anew in pulse 31 and takes 0, node 1 in pulse 32 and takes 1, node 3 in
pulse 33."""
import os
import re
import sys

from forestplan.network import Network
from forestplan.schedules.policies import POLICIES
from forestplan.workshop.cases import cases_of
from forestplan.workshop.protocol import SEQUELS
from forestplan.workshop.right_rounds import RightRounds
from forestplan.workshop.reasons import FOUND, RULES
from tests.sentences import ACK, NO_ACK, PULSE, SAFE
from tests.tools import needs
from tests.workshop.base import (
    ALPHA,
    C,
    GREEDY,
    JAVA,
    ROUNDS,
    MISTAKES,
    Played,
    answering,
    call,
    ending_with,
    compiled,
    network,
    options_of,
    played,
)

NODES = {"rounds": ROUNDS, "alpha": ALPHA}
# A ring of four whose root is node 3: node 1 is two edges away on both sides, and its port 0 leads to node 2. Node 5
# has no neighbour.
RING = Network(
    5, [(1, 2), (2, 3), (3, 4), (1, 4)], {1: 40, 2: 1 << 100, 3: 1, 4: 7, 5: 2}, name="ring and one"
)
BARRED_RING = Network(5, RING.edges, RING.given_identifiers, {1: [1], 4: [2]}, name="barred ring")
# Its colour is 1, since 0 is barred, and 1 again. The last pulse is 14, two after those of the colouring.
BARRED = Network(1, [], bars={1: [1]}, name="barred one")

# By mistake, one of each kind, what is found on most4 and on rest3: (node, pulse) of a difference, or None where all is
# right. On rest3
# by hand: node 2 has the parents 3 and 13, in this order, and as texts in the other. The bit steps of 13, 3 and 2 give
# 1, 3 and 0, and then the same again; the shift gives node 2 the 3, which is dropped in pulse 12 and not in pulse 8.
COLOURING = {
    "no_shift": ((3, 7), (2, 7)),
    "bit_highest": ((3, 3), (2, 3)),
    "label_falling": ((3, 1), (2, 1)),
    "names_64": ((1, 0), None),
    "merge_old": ((2, 38), (3, 19)),
    # On the row of eight 4 is dropped at node 2 (the network's own comment).
    "drop_four": (None, None, (2, 10)),
}
# By mistake, what is found on alone4; what else the node could do there, why it can't do that, and what came early.
SYNCHRONISER: dict[str, tuple] = {
    "acks_own_pulse": ("WrongWire", 2, 2, "put 1 ack 3", ACK),
    "acks_first": (
        "NothingToPut",
        2,
        0,
        "waits for ack 0 by port 0; safe 0 by ports 0 and 1",
        f"{SAFE}; it can't have",
    ),
    "early_lost": (
        "WrongWire",
        2,
        23,
        "one of: put 0 safe 23; put 1 safe 23",
        "`chosen 0` came by port 0 in pulse 23",
        "\ncame   chosen 0 by port 0, chosen 0 by port 1\nearly  `take 1 payload 22 chosen 0` came at pulse "
        "21, and is to be kept until pulse 22 is made\nearly  `take 1 safe 23` came at pulse 22, and is to "
        "be kept until pulse 23 is made\n",
    ),
    "early_safe_lost": (
        "stuck",
        2,
        1,
        f"{PULSE}, and this node has",
        "\nearly  `take 1 safe 1` came at pulse 0, and " "is to be kept until pulse 1 is made\n",
        "\nwaits  node 1 for safe 2 by port 0 | node 3 for safe 2 by port 0\n",
    ),
    "safes_none": (
        "NotReady",
        3,
        0,
        "waits for safe 0 by port 0",
        f"{PULSE}; it lacks safe 0 by port 0",
    ),
    "safe_unsaid": (
        "NotReady",
        2,
        1,
        "waits for ack 1 by port 0",
        f"{PULSE}; {NO_ACK.format(1, 'by port 0')}",
    ),
    "safe_twice": (
        "NothingToPut",
        3,
        0,
        "waits for safe 0 by port 0",
        f"{SAFE}; it has put safe 0 by port 0 already",
    ),
    "safe_with_ack": (
        "WrongWire",
        1,
        1,
        "put 0 safe 1",
        "this link has to get safe 1 before: safe P is said as",
    ),
    "close_early": (
        "NothingToPut",
        1,
        29,
        "waits for safe 29 by port 0",
        "its last pulse, 30; it is at pulse 29",
    ),
    "close_safe": ("WrongWire", 1, 30, "put 0 close", "its pulse, 30, is the last"),
    "close_never": ("stuck", 1, 30, "close is put on each link as the node makes its last pulse"),
    "leaves": ("ended", 2, 29, "waits for safe 29 by port 0"),
    "no_channel": (
        "result",
        1,
        30,
        f"wrong  no line `channel 1`\nright  channel 1\nwhy    {FOUND['colouring']}",
    ),
    # Here acknowledgements come last: node 2 takes both payloads, then one acknowledgement, and says safe.
    "acks_any": (
        "NothingToPut",
        2,
        0,
        "waits for ack 0 by port",
        "it lacks the acknowledgement of pulse 0 by port",
    ),
}
# Where a mistake shows, or one of a program, if that isn't the triangle.
SHOWN_ON = {"anew_bars": BARRED, "matching_greatest": "star4", "layers": "path4"}
# By program and mistake, (node, pulse) of what is found with a clock on path4 or a triangle, the verdict and the pulse
# without one, the rule that is said, and the numbers of this node that are said after it. test_words.py has the words.
NO_NUMBERS: list[int] = []
LAYER = (2, 3, "result", 3, FOUND["layers"], NO_NUMBERS)
OTHERS: dict[str, dict[str, tuple]] = {
    "layers": {"layers_last": LAYER, "layers_port": LAYER},
    "matching": {
        # In forest 0 it had 1, its parent is by port 1, and its children by port 0. It sent `free 0` by 1 in 13, and by
        # 0 came `free 0` in 14, by 1 `take 0` in 15, by 0 `free 0` in 16.
        "matching_again": (
            *(2, 16, "WrongWire", 16),
            RULES["take"].format(p=16, colour=1, forest=0),
            [*(0, 1, 1, 0), *(0, 1, 13), *(0, 0, 14), *(0, 1, 15), *(0, 0, 16)],
        ),
        # Node 4 has the colour 1 in forest 0, as all others have 0, so it takes one of three in the second turn. It is
        # the root, with children by the ports 0 to 2, by each of which `free 0` came in 14 and in 16.
        "matching_greatest": (
            *(4, 16, "NothingToPut", 16),
            RULES["take"].format(p=16, colour=1, forest=0),
            [*(0, 1, 0, 1, 2), *(0, 0, 14, 0, 1, 14, 0, 2, 14), *(0, 0, 16, 0, 1, 16, 0, 2, 16)],
        ),
        # Up to the cut the words are those of the colouring.
        "label_falling": (
            *(1, 1, "WrongWire", 1),
            RULES["orient"].format(name=1, higher="2 (port 0) in forest 0, 3 (port 1) in forest 1"),
            [],
        ),
    },
    "independent-set": {
        # It had merged colour 1, and `joined 0` came by port 1 in pulse 32.
        "set_beside": (
            *(1, 32, "WrongWire", 32),
            RULES["independent-set"].format(p=32, turn=1, channel=2),
            [1, 0, 1, 32],
        )
    },
    "recolouring": {
        # Two sweeps of two colours. It had merged colour 1, and 0 is barred at it.
        "anew_bars": (1, 16, "result", 16, FOUND["recolouring"], [1, 0]),
        # It had merged colour 0, and `anew 0` came by port 1 in pulse 32, `anew 1` by port 0 in 33.
        "anew_last": (3, 33, "result", 33, FOUND["recolouring"], [0, *(0, 1, 32), *(1, 0, 33)]),
    },
}


@needs("bin/forestplan", "bin/forestplay")
class RightNodes(Played):
    def test_with_a_clock(self):
        for name in ("path1", "two", "most4", "rest3", "alone4", "random6", "drops", "barred"):
            self.right("rounds", name, ROUNDS)
            with self.subTest(f"{name} in C"):
                self.right("rounds", name, compiled(C))

    def test_without_a_clock(self):
        for name in ("alone4", "triangle"):
            for policy in POLICIES:
                self.right("alpha", name, ALPHA, policy=policy, one_process=True)
        for name in ("path1", "two", "most4"):
            self.right("alpha", name, ALPHA)

    def test_of_other_programs(self):
        for program in ("layers", *SEQUELS):
            for given in (
                "path1",
                "two",
                "triangle",
                "most4",
                "rest3",
                "drops",
                BARRED_RING,
                BARRED,
            ):
                for assignment, command in NODES.items():
                    self.right(
                        assignment, given, [*command, program], one_process=True, program=program
                    )
        # A node alone is silent, and says its result in the last pulse.
        for program, line in (
            ("leader", "leader 01"),
            ("layers", "layer 00"),
            ("matching", "partner none"),
            ("independent-set", "in"),
            ("recolouring", "channel 001"),
        ):
            self.right("rounds", "path1", ending_with(line), program=program)
        self.right("rounds", "alone4", ending_with("layer none"), program="layers")

    def test_nodes_of_several_programs(self):
        self.right("rounds", "ring5", ROUNDS, ROUNDS, one_process=True)
        with self.subTest("Python and C"):
            self.right("rounds", "star4", ROUNDS, compiled(C))
        with self.subTest("Python and Java"):
            self.right("alpha", "path3", ALPHA, compiled(JAVA))

    def test_the_same_seed_gives_the_same_run(self):
        """Whatever the language, and in one process or several."""

        def run(command, seed, is_shared):
            more = {"policy": "bursts", "seed": seed, "one_process": is_shared}
            return played("alpha", "path3", command, **more).run.in_order()

        first = run(ALPHA, "5", False)
        self.same("in one process", run(ALPHA, "5", True), first)
        self.note("another seed", run(ALPHA, "6", True) != first)
        with self.subTest("in Java"):
            self.same("in Java", run(compiled(JAVA), "5", False), first)

    def test_an_own_algorithm(self):
        """In a row whose identifiers ascend the last node chooses in pulse 1, and each other one a pulse after its
        higher neighbour; the last message is heard a pulse later. Each node sends its name and its channel by
        each port."""
        for name, league in (
            ("path5", (6, 16, 2)),
            ("ring6", (7, 24, 2)),
            ("complete4", (5, 24, 4)),
            ("path1", (0, 0, 1)),
        ):
            case = played("open", name, GREEDY)
            self.same(name, (case.finding, tuple(case.league.values())), (None, league))

    def test_from_how_many_nodes_on_the_lessons_are_faster(self):
        """The teacher's answer to exercise 5: from 21 on a row and from 30 on a ring, each with one node less not yet.
        A node more makes the greedy run a pulse longer, and the last pulse of the rounds stays."""
        for kind, first, last in (("path", 21, 21), ("ring", 30, 30)):
            for nodes, pulses in ((first - 1, last), (first, last + 1)):
                case = played("open", f"{kind}{nodes}", GREEDY, one_process=True)
                self.same(f"{kind} {nodes}", (case.finding, case.league["pulses"]), (None, pulses))
                self.same(
                    f"rounds of {kind} {nodes}",
                    RightRounds(network(f"{kind}{nodes}")).work_out().last,
                    last,
                )


# By how the other mistakes begin, the program, and the networks on which WORKSHOP has it tried.
COLOURED = ("two", "triangle", "star4", "most4", "barred")
TRIED = {
    "layers": ("layers", ("path5", "alone4")),
    "matching": ("matching", COLOURED),
    "set": ("independent-set", COLOURED),
    "anew": ("recolouring", COLOURED),
}
# A node that says nothing of its colours.
RESERVED = ("sh", "-c", '"$@" | grep -Ev --line-buffered "^(colour|chose)"', "sh")


def tried(name):
    """How the pages have a mistake tried: the kind of node, the words of its command, and those of the workshop."""
    if name in MISTAKES.ALPHA:
        networks = ["alone4", "triangle", "triangle", "alone4"]
        return "alpha", [], [*networks, "--policies", "newest,late-acks"]
    if name in MISTAKES.COLOURING:
        return "rounds", [], ["path1", "most4", "rest3", "drops8"]
    program, given = TRIED[name.partition("_")[0]]
    return "rounds", [program], [*given, "--program", program]


@needs("bin/forestplan", "bin/forestplay")
class Mistakes(Played):
    def is_right(self, name):
        """Whether a mistake shows in none of the runs with which the pages have it tried."""
        kind, program, text = tried(name)
        node = self.wrong_node(name, f"{kind}_node.py", *program)
        done = call(kind, *text, "--one-process", "--first", "--", *RESERVED, *node)
        return done.returncode == 0

    def test_all_but_two_show(self):
        """Those change nothing: what nobody does, and what nothing comes after."""
        self.same(
            "right", list(filter(self.is_right, MISTAKES.MISTAKES)), ["merge_last", "acks_after"]
        )

    def test_of_the_colouring(self):
        for name, rights in COLOURING.items():
            for given, right in zip(("most4", "rest3", "drops8"), rights):
                self.found(
                    right and ("differs", *right),
                    "rounds",
                    given,
                    self.wrong_node(name, "rounds_node.py"),
                    one_process=True,
                )

    def test_of_the_synchroniser(self):
        for name, row in SYNCHRONISER.items():
            found = self.found(
                row[:3],
                "alpha",
                "alone4",
                self.wrong_node(name, "alpha_node.py"),
                policy="late-acks" if name == "acks_any" else "newest",
                one_process=name != "leaves",
            )
            text = "\n".join(found.text())
            is_early = not re.search(
                r"came at pulse (\d+), and is to be kept until pulse \1 ", text
            )
            self.note(name, is_early and all(sentence in text for sentence in row[3:]), text)

    def test_of_other_programs(self):
        for program, names in OTHERS.items():
            for name, (node, pulse, verdict, later, rule, numbers) in names.items():
                given = SHOWN_ON.get(name) or SHOWN_ON.get(program, "triangle")
                more = {"program": program, "one_process": True, "policy": "newest"}
                found = self.found(
                    ("differs", node, pulse),
                    "rounds",
                    given,
                    self.wrong_node(name, "rounds_node.py", program),
                    **more,
                )
                why = dict(found.lines)["why"]
                self.same(f"the rule of {name}", why[: len(rule)], rule)
                said = [int(word) for word in re.findall(r"\d+", why[len(rule) :])]
                self.same(f"the numbers of {name}", said, numbers)
                # Which of two nodes that are wrong in one pulse is the first is the policy's matter.
                found = played(
                    "alpha", given, self.wrong_node(name, "alpha_node.py", program), **more
                ).finding
                self.same(f"{name} without a clock", (found.kind, found.pulse), (verdict, later))

    def test_a_whole_report(self):
        wrong = self.wrong_node("layers_port", "rounds_node.py", "layers")
        self.same(
            "its words",
            played("rounds", "path4", wrong, program="layers").finding.text(),
            [
                "where  node 2, pulse 3",
                "came   hops 2 by port 1",
                "wrong  layer 1",
                "right  layer 1 by 0",
                f"why    {FOUND['layers']}",
                "also   in the same pulse nodes 3 and 4",
            ],
        )

    def test_a_choice_too_many(self):
        self.found(("differs", 1, 0), "rounds", "path1", answering("chose 0"))

    def test_a_node_that_does_nothing(self):
        found = self.found(("stuck", 1, 0), "alpha", "triangle", answering())
        self.same("why", dict(found.lines)["why"], RULES["greet"].format(name=1))
        self.same("who else", [label for label, _ in found.lines].count("wrong"), 3)

    def test_blame_is_of_the_node_whose_mistake_it_is(self):
        """Two right nodes, and one at the end of the row that makes pulses without its neighbours' safes; or the wrong
        one is in the middle, and both others have one program."""
        wrong = self.wrong_node("safes_none", "alpha_node.py")
        for commands, node, others in (
            ([ALPHA, ALPHA, wrong], 3, [["1"], ["2"]]),
            ([ALPHA, wrong], 2, [["1", "3"]]),
        ):
            found = self.found(("NotReady", node, 0), "alpha", "path3", *commands)
            named = [
                re.findall(r"\d+", part.partition(":")[0])
                for part in dict(found.lines)["others"].split("; ")
            ]
            self.same(f"others than node {node}", named, others)


# A right node whose answers are changed: `asked` counts the messages before, `found` is the result if it is in this
# answer, and `done` what it has said by then.
CHANGED = """\
import sys
sys.path[:0] = [{path!r}]
sys.argv[1:] = []
import talk
from {file} import {node}
right, done, asked = talk.answer, [], 0
def answer(lines):
    global asked
    found = [line for line in lines if line.startswith("channel")]
    done.extend(found)
    if {when}:
        lines = {lines}
    asked += 1
    right(lines)
talk.answer = answer
talk.serve({node})
"""
# By assignment, when and how an answer on `two` is changed: the verdict with its node and pulse, and words of it. There
# 18 is the last pulse of the rounds; of the own algorithm node 2 chooses in pulse 1, and node 1 hears of it in pulse 2.
RESULTS = (
    ("rounds", "asked == 17", "[*lines, 'channel 1']", ("differs", 1, 17), "channel 1"),
    ("rounds", "found", "[*lines, *found]", ("garbage", 1, 18), "already"),
    ("rounds", "found", "['channel 9', *lines]", ("garbage", 1, 18), "`channel 9` in this answer"),
    ("alpha", "not done", "[*lines, 'channel 99']", ("garbage", 1, 0), "its last pulse, 18"),
    (
        "alpha",
        "found",
        "found + [line for line in lines if line not in found]",
        ("garbage", 2, 17),
        "at pulse 17",
    ),
    (
        "alpha",
        "done and not found",
        "[*lines, 'channel 9']",
        ("garbage", 1, 18),
        "a result is final",
    ),
    ("open", "done and not found", "[*lines, 'channel 9']", ("garbage", 2, 2), "a result is final"),
)


@needs("bin/forestplan", "bin/forestplay")
class Results(Played):
    """A result is said once, in its pulse, and is final."""

    def test_each_row(self):
        names = {
            "rounds": ("rounds_node", "RoundsNode"),
            "alpha": ("alpha_node", "AlphaNode"),
            "open": ("greedy_node", "GreedyNode"),
        }
        for assignment, when, lines, right, sentence in RESULTS:
            file, node = names[assignment]
            told = {"path": os.path.dirname(ROUNDS[-1]), "file": file, "node": node}
            code = CHANGED.format(when=when, lines=lines, **told)
            command = [sys.executable, "-S", "-c", code]
            found = self.found(right, assignment, "two", command, policy="oldest")
            said = dict(found.lines)["wrong"]
            self.note(f"{assignment}, {when}: {lines}", sentence in said, said)


@needs("bin/forestplan", "bin/forestplay")
class Lines(Played):
    def test_what_is_no_line_or_no_wire_of_the_program(self):
        forms = "`layer N by PORT`, `layer 0`, `layer none` and `end`"
        for program, assignment, line, sentence in (
            ("layers", "rounds", "colour 0 1", f"which are `put PORT WORD NUMBER`, {forms}"),
            (
                "layers",
                "alpha",
                "put 0 payload 0 hello 1",
                "`hello` is no payload of layers, which has hops",
            ),
            (
                "colouring",
                "alpha",
                "put 0 safe",
                "`safe` is no wire, which are `payload P WORD NUMBER`",
            ),
            (
                "colouring",
                "rounds",
                "put 0 hello 1\nput 0 hello 1",
                "is a second payload by this port in one pulse",
            ),
            (
                "colouring",
                "rounds",
                "put 7 hello 1",
                "there is no port 7; the node has port 0 alone",
            ),
            (
                "colouring",
                "open",
                f"put 0 {'x' * 1001}",
                "x ..` is no line of an answer, which are `put PORT WORDS..`",
            ),
            ("colouring", "rounds", "", "an empty line is no line of an answer"),
        ):
            found = played(assignment, "two", answering(line), program=program).finding
            said = dict(found.lines)["wrong"]
            self.note(
                f"{assignment} of {program}: {line}",
                found.kind == "garbage" and sentence in said,
                found.text(),
            )


class Cases(Played):
    def test_most_networks_have_a_root(self):
        """And bars come by chance where they count."""
        made = cases_of(options_of("rounds", "--program", "layers"))
        self.assertIn(sum(1 in case.network.identifiers.values() for case in made), range(80, 100))
        same = [
            case for case in made if len({*case.network.identifiers.values()}) < case.network.nodes
        ]
        self.same("identifiers differ", same, [])
        for program, has_bars in (
            ("colouring", True),
            ("matching", False),
            ("independent-set", True),
            ("recolouring", True),
        ):
            made = cases_of(options_of("rounds", "ring5", "--runs", "20", "--program", program))
            self.same(f"bars of {program}", any(case.network.bars for case in made), has_bars)
