"""What the workshop says, against numbers that are worked by hand. The words of reasons.py are pinned here alone: other
tests take them from its tables."""
import contextlib
import io
import re
from unittest import mock

from forestplan.network import Network
from forestplan.workshop.player import PROGRESS_SECONDS, CasePlayer
from forestplan.workshop.processes import last_errors
from forestplan.workshop.right_rounds import RightRounds
from forestplan.workshop.reasons import RULES, Why
from tests.cases import Case
from tests.tools import needs
from tests.workshop.base import network, options_of

# A row in which node 1 is in the middle, and node 3 is the root: identifiers 2 - 7 - 11. By hand: bit steps of 2, 7 and
# 11 (0010, 0111, 1011) give 2*0+0, 2*2+1 and 2*0+1, so 0, 5 and 1, and the next three keep them. The shift gives node 2
# the 5, node 1 the 1, and the root 0. Node 2 drops 5: it had 0, its parent has 1, so it takes 2.
ROW = Network(3, [(1, 2), (1, 3)], {1: 7, 2: 2, 3: 11}, name="row")
# Node, pulse, what `Why` is asked of besides, and this node's numbers at the end of what it says.
Rows = tuple[tuple[int, int | None, dict[str, int], str], ...]
OF_ROW: Rows = (
    (
        1,
        1,
        {"port": 1},
        "its parents are the neighbours above its own identifier, 7, by ascending identifier: 11 (port "
        "1) in forest 0; each gets the label of its forest",
    ),
    (
        2,
        2,
        {"port": 0},
        "its identifier, 2, and sends it to its children there; in forest 0 its parent is by port 0 "
        "and it has no child",
    ),
    (
        1,
        3,
        {"forest": 0},
        "in forest 0 it had 7 (binary 111), its parent is by port 1 and sent 11 (binary 1011) and "
        "its children are by port 0",
    ),
    (
        1,
        8,
        {"port": 0},
        "drop of 5: who has 5 takes the least of 0, 1, 2 that neither its parent nor its children "
        "have; these have what it had itself before the shift. In pulse 12 nothing is sent, before "
        "that its children get it; in forest 0 it had 1, its parent is by port 1 and sent "
        "0 and its children are by port 0 and have 5",
    ),
    (1, 12, {}, "nodes choose in the pulses after 12 alone"),
)
OF_TWO: Rows = (
    (
        2,
        15,
        {},
        "pulse 15 is the turn of the nodes that have colour 1 in forest 0 and had merged colour 0 before this "
        "merge: such a node takes the least colour that isn't barred at it and that didn't come in this merge, "
        "and sends it to its neighbours in forests 0 to 0, but nothing in the last pulse of a merge; in forest "
        "0 it had 1, it is a root and its children are by port 0; it had merged colour 0; `chosen 0` came by "
        "port 0 in pulse 14",
    ),
    (1, 0, {"port": 0}, "in pulse 0 a node sends `hello` and its identifier, 1, by each port"),
    (
        1,
        None,
        {},
        "the channel is the merged colour and one: the colour that it chose last, or, if it never chose, the "
        "least that isn't barred to it",
    ),
)
# Of other programs, on the networks of test_nodes.py, which works the numbers out.
OF_LAYERS: Rows = (
    (
        2,
        None,
        {},
        "the node of identifier 1 is in layer 0, any other in layer N + 1 where N is the number of the first "
        "`hops N` that comes, by the least port by which it comes; if none comes, in none",
    ),
)
OF_MATCHING: Rows = (
    (
        2,
        16,
        {},
        "pulse 16 is the second of the turn of colour 1 in forest 0: a node of this colour there that has no "
        "partner takes the child of the least port by which `free 0` has come, and sends it `take 0`; in forest "
        "0 it had 1, its parent is by port 1 and its children are by port 0; it sent `free 0` by port 1 in pulse "
        "13, `free 0` came by port 0 in pulse 14, `take 0` came by port 1 in pulse 15, `free 0` came by port 0 in "
        "pulse 16",
    ),
)
OF_SET: Rows = (
    (
        1,
        32,
        {},
        "pulse 32 is the turn of the nodes of colour 1, channel 2: one of them joins if no neighbour has sent "
        "`joined`, and then sends `joined 1` by each port, but nothing in the last pulse; it had merged colour 1; "
        "`joined 0` came by port 1 in pulse 32",
    ),
)
OF_BARRED: Rows = (
    (
        1,
        None,
        {},
        "a node's channel is the colour that it has chosen again, plus one; it had merged colour 1, and barred at "
        "it: colour 0; nothing has come",
    ),
)
ASKED = (
    (ROW, "colouring", OF_ROW),
    (network("two"), "colouring", OF_TWO),
    (network("path4"), "layers", OF_LAYERS),
    (network("triangle"), "matching", OF_MATCHING),
    (network("triangle"), "independent-set", OF_SET),
    (Network(1, [], bars={1: [1]}, name="barred one"), "recolouring", OF_BARRED),
)


class Words(Case):
    @needs("bin/forestplan", "bin/forestplay")
    def test_why(self):
        """Of two nodes by hand: their three-colours are 0 and 1, both have the merged colour 0, and there are 2
        colours. So node 1 chooses in the first pulse, and node 2, which hears of it, in the third.
        """
        for given, program, rows in ASKED:
            rounds = RightRounds(given, program).work_out()
            for v, p, of, sentence in rows:
                said = Why(rounds, v).of(p, **of)
                name = f"{program} on {given.name}: node {v} in pulse {p}"
                self.same(name, said[-len(sentence) :], sentence)

    @needs("bin/forestplan", "bin/forestplay")
    def test_each_drop(self):
        """What the middle node of the row is told in the three drops. By hand: before them it had 1, 0 and 1, its
        parent 0, 1 and 0, and its child 5, which is dropped, 1 and 0."""
        rounds = RightRounds(ROW, "colouring").work_out()
        for p, dropped, own, above, below in ((8, 5, 1, 0, 5), (10, 4, 0, 1, 1), (12, 3, 1, 0, 0)):
            said = Why(rounds, 1).of(p, port=0)
            rule = RULES["drop"].format(p=p, dropped=dropped)
            self.same(f"pulse {p}: the rule", said[: len(rule)], rule)
            numbers = list(map(int, re.findall(r"\d+", said[len(rule) :])))
            # In a forest its colour, the port and the colour of its parent, and the port and colour of its child.
            self.same(f"pulse {p}: the numbers", numbers, [0, own, 1, above, 0, below])


PYTHON = """\
Traceback (most recent call last):
  File "my_node.py", line 19, in pulse
    return self.to(self.ports[0]) + self.to(port)
           ~~~~~~~^^^^^^^^^^^^^^^
  File "my_node.py", line 31, in to
    return "put " + port
           ~~~~~~~^~~~~~
TypeError: can only concatenate str (not "int") to str
"""
JAVA = """\
debugging
Exception in thread "main" java.lang.NullPointerException: Cannot read "String.length()"
\tat AlphaNode.take(AlphaNode.java:28)
\tat AlphaNode.read(AlphaNode.java:35)
\tat java.base/java.util.List.forEach(List.java:15)
\tat AlphaNode.main(AlphaNode.java:52)
"""


class StandardError(Case):
    def test_the_place_of_a_mistake_is_among_the_last_lines(self):
        for text, sentence in (
            (
                PYTHON,
                '`File "my_node.py", line 19, in pulse | return self.to(self.ports[0]) + self.to(port) | File '
                '"my_node.py", line 31, in to | return "put " + port | TypeError: can only concatenate str (not '
                '"int") to str`',
            ),
            (
                JAVA,
                '`debugging | Exception in thread "main" java.lang.NullPointerException: Cannot read '
                '"String.length()" | at AlphaNode.take(AlphaNode.java:28) | at AlphaNode.read(AlphaNode.java:35)`',
            ),
            ("\n  ^^^ \n", ""),
        ):
            self.same(repr(text[:20]), last_errors(text.encode()), sentence)

    def test_how_far_it_is_is_said_now_and_then(self):
        errors = io.StringIO()
        times = [0, 1, PROGRESS_SECONDS + 1, PROGRESS_SECONDS + 1, PROGRESS_SECONDS + 2]
        with mock.patch("time.monotonic", side_effect=times), contextlib.redirect_stderr(errors):
            player = CasePlayer(options_of("rounds"), is_shown=True)
            for number in (1, 2, 3):
                player.say(f"run {number} of 9")
        self.assertEqual(errors.getvalue(), "workshop: run 2 of 9\n")
