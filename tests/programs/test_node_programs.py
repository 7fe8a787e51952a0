"""Black-box tests of `forestplay --program`, with `--root` and `--passes`, and of `forestplay run`: each answer is
worked by hand; each text of one program is refused by the others. test_sequel_runs.py has networks by chance, beside
the definitions."""
import re

from forestplan.definitions.programs import program_at
from tests.cases import Case, called, text
from tests.commands import EDGE, commands_of
from tests.settings import PLAY
from tests.tools import needs
from tests.workshop.test_transcripts import OF_FILES

ROW, ALONE, NONE = "p edge 3 2|e 1 2|e 2 3|", "p edge 1 0|", "p edge 0 0|"
# Node 1 has the identifier 9 and no neighbour, and nobody the identifier 1; a path of five with the identifier 1 at
# vertex 2, and vertex 6 alone; a square whose root is vertex 4.
APART, BARRED = "p edge 3 1|i 1 9|e 2 3|", EDGE + "b 1 1|"
LONG = "p edge 6 4|i 1 9|i 2 1|i 3 20|i 4 5|i 5 8|e 1 2|e 2 3|e 3 4|e 4 5|"
SQUARE = "p edge 4 4|i 1 8|i 2 6|i 4 1|e 1 2|e 1 3|e 2 4|e 3 4|"
# The port is a number of the network, and not of an order of identifiers: vertex 3 is between 5 and 1.
BETWEEN = "p edge 5 2|i 1 4|i 2 3|i 3 2|i 4 9|i 5 1|e 3 5|e 1 3|"
# All that print what the nodes end with: by one worker, by three, on one thread without a clock, and in rounds.
RUNS = ("run", "--workers", 1), ("run", "--workers", 3), ("alone",), ("ends",)
# What the nodes end with: by program and network, the last pulse, and the result of each node as `run` prints it.
ENDS = [
    ("colouring", EDGE, 18, "channel 1|channel 2"),
    ("leader", ROW, 3, "leader 3|leader 3|leader 3 elected"),
    ("leader", APART, 3, "leader 9 elected|leader 3|leader 3 elected"),
    ("leader", NONE, 0, ""),
    ("layers", APART, 2, "layer none|layer none|layer none"),
    # A node alone has no pulse to make before it knows its layer.
    ("layers", ALONE, 0, "layer 0"),
    # Two ways lead from vertex 1 to the root, and the one by the lesser port is taken.
    ("layers", SQUARE, 3, "layer 2 by 0 to 2|layer 1 by 1 to 4|layer 1 by 1 to 4|layer 0"),
    ("layers --root 3", ROW, 2, "layer 2 by 0 to 2|layer 1 by 1 to 3|layer 0"),
    # The vertex has the identifier already.
    ("layers --root 1", ROW, 2, "layer 0|layer 1 by 0 to 1|layer 2 by 0 to 2"),
    (
        "layers --root 4",
        LONG,
        5,
        "layer 3 by 0 to 2|layer 2 by 1 to 3|layer 1 by 1 to 4|layer 0|layer 1 by 0 to 4|layer none",
    ),
    (
        "layers --root 5",
        BETWEEN,
        4,
        "layer 2 by 0 to 3|layer none|layer 1 by 1 to 5|layer none|layer 0",
    ),
    # Of an edge node 2 is the parent, in whose turn it takes node 1. 19 is 13 + 6 U, and 20 is R + D + B + 1.
    ("matching", EDGE, 19, "partner 0 to 2|partner 0 to 1"),
    ("independent-set", EDGE, 20, "in|out"),
    # The plan is 1 2. Node 2 has the greater channel, chooses first and takes 1. In the second pass channel 1, colour
    # 0, is first again, and node 2 with it; in the third channel 2, and so node 1.
    ("recolouring", EDGE, 20, "channel 2|channel 1"),
    ("recolouring --passes 2", EDGE, 22, "channel 2|channel 1"),
    ("recolouring --passes 3", EDGE, 24, "channel 1|channel 2"),
    # The fourth pass is as the first, from 1 2 again; so each third pass leads to 1 2, and each after it to 2 1.
    ("recolouring --passes 63", EDGE, 144, "channel 1|channel 2"),
    ("recolouring --passes 64", EDGE, 146, "channel 2|channel 1"),
    # Node 1 of a row is left over, and its neighbour isn't.
    ("matching", ROW, 19, "partner none|partner 1 to 3|partner 0 to 2"),
    ("independent-set", ROW, 24, "in|out|in"),
    ("recolouring --passes 2", ROW, 27, "channel 2|channel 1|channel 2"),
    # The plan is 2 1, since channel 1 is barred at node 1: it can't take another one, and node 2 has the least. A pass
    # has two sweeps of D + B + 1 pulses.
    ("recolouring --passes 3", BARRED, 39, "channel 2|channel 1"),
    ("recolouring --passes 2", ALONE, 14, "channel 1"),
    ("matching", NONE, 13, ""),
]
# The rounds of programs; test_sequel_runs.py has all of them. Of an edge, node 2 has the greater identifier, and node 1
# is the root. No node sends at the last pulse.
ROUNDS = [
    (
        "leader",
        EDGE,
        "rounds 3 leader 2 1 2|pulse 0|1 put 2 payload 0 leader 1|2 put 1 payload 0 leader 2|pulse 1|"
        "1 put 2 payload 1 leader 2|pulse 2|1 leader 2|2 leader 2|",
    ),
    (
        "layers",
        EDGE,
        "rounds 3 layers 2 1 1|pulse 0|1 put 2 payload 0 hops 0|pulse 1|1 layer 0|2 layer 1 by 0|",
    ),
    (
        "layers --root 2",
        EDGE,
        "rounds 3 layers 2 1 1|pulse 0|2 put 1 payload 0 hops 0|pulse 1|1 layer 1 by 0|2 layer 0|",
    ),
    (
        "layers",
        "p edge 4 2|i 2 5|i 3 4|i 4 3|e 1 2|e 2 3|",
        "rounds 3 layers 4 2 3|pulse 0|1 put 2 payload 0 hops 0|pulse 1|2 put 1 payload 1 hops 1|"
        "2 put 3 payload 1 hops 1|pulse 2|3 put 2 payload 2 hops 2|pulse 3|"
        "1 layer 0|2 layer 1 by 0|3 layer 2 by 0|4 layer none|",
    ),
]
# Node 2 sends nothing in pulse 0, so it said safe 0 before node 1's payload came: that is put first. From node 2 it is
# the other way round.
EVENTS = [
    (
        "layers",
        "put 1 0|take 2 0|put 2 0|",
        "node 1 pulse 0|link 1 2 taken 1|node 2 pulse 0|link 2 1 taken 0 safe 0|",
    ),
    (
        "layers --root 2",
        "put 2 0|take 1 0|put 1 0|",
        "node 1 pulse 0|link 1 2 taken 0 safe 0|node 2 pulse 0|link 2 1 taken 1|",
    ),
]
# A node alone makes 14 pulses in two passes.
PULSES_OF_TWO = "".join(f"1 pulse {p}|" for p in range(1, 15))
# A command, its program, its input and the fault: the text comes first, then the root, then what is wrong in later
# lines, and the network last. test_codes.py has one of each other fault.
REFUSED = [
    *((command, "layers --root 4", ROW, "NoRoot vertex 4") for command in ("run", "alone", "ends")),
    ("rounds", "layers --root 9", "p edge 2 1|e 1 1|", "F6 line 2"),
    # Two vertices of identifier 1 stay two of one identifier, whichever is the root.
    ("rounds", "layers --root 2", "p edge 3 0|i 1 1|i 2 1|", "N2 vertices 1 2"),
    ("events", "layers --root 3", EDGE + "put 9 0|", "NoRoot vertex 3"),
    # No proved program has such a name; test_hostile.py has other first lines.
    *(("replay", "leader", f"{EDGE}transcript 3 {name} 2|", "X1 line 3") for name in OF_FILES),
    # A transcript of a run with another root, and of one with another number of passes.
    (
        "replay",
        "layers --root 2",
        EDGE + "transcript 1 2|1 put 2 payload 0 hops 0|",
        "WrongWire line 4: expected safe 0",
    ),
    (
        "replay",
        "recolouring --passes 1",
        f"{ALONE}transcript 1 1|{PULSES_OF_TWO}",
        "NotReady line 16: pulse 13 is the last",
    ),
]
# Words of any command that takes a program, and a part of what is said of them. A root is looked at before the passes.
WRONG = [
    ("--program recolouring --passes 1 --passes 1", "'--passes <N>' cannot be used multiple times"),
    (
        "--program layers --passes 2 --root 1",
        "error: the argument '--passes <N>' cannot be used with '--program layers'\n"
        "  [only with: --program recolouring]\n\nFor more information, try '--help'.\n",
    ),
    *(
        (f"--program {name} --root 1", f"'--root <V>' cannot be used with '--program {name}'")
        for name in ("colouring", "leader", "matching", "independent-set", "recolouring")
    ),
    ("--passes 2", "'--passes <N>' cannot be used with '--program colouring'"),
    *(
        (
            f"--program={word}",
            f"error: invalid value '{word}' for '--program <NAME>'\n  [possible values: colouring, "
            "leader, layers, matching, independent-set, recolouring]\n",
        )
        for word in ("", "Leader", "layers2")
    ),
]
# Programs of their own, and those that go on after the colouring.
PLAIN, SEQUELS = ("colouring", "leader", "layers"), ("matching", "independent-set", "recolouring")


def play(command, asked, *arguments, data):
    """The status and both outputs of `forestplay` with a program, of a text in which '|' is a line feed, or bytes."""
    return called(
        PLAY,
        command,
        "--program",
        *asked.split(),
        *arguments,
        data=data if isinstance(data, bytes) else text(data),
    )


def program_of(asked):
    """The definition of a program as it is asked for."""
    name, *option = asked.replace("--", "").split()
    return program_at(name, "1", **({option[0]: int(option[1])} if option else {}))


@needs("forestplan", "forestplay")
class Programs(Case):
    def test_ends(self):
        """By each run; and where the run ends that one thread writes down, the same each time. test_sequel_runs.py has
        the definitions beside the runs."""
        for asked, net, last, said in ENDS:
            ends = said.split("|") if said else []
            wanted = "".join(f"node {v} pulse {last} {end}|" for v, end in enumerate(ends, 1))
            for command, *arguments in RUNS:
                self.same(
                    f"{command} {asked} on {net} {arguments}",
                    play(command, asked, *arguments, data=net),
                    (0, text(wanted), b""),
                )
            run = play("alone", asked, "--transcript", data=net)
            again = play("alone", asked, "--transcript", data=net)
            self.same(f"transcript of {asked} on {net}, once more", again, (0, run[1], b""))
            status, state, errors = play("replay", asked, data=text(net) + run[1])
            nodes = b"".join(re.findall(rb"^node .*\n", state, re.M))
            replayed = (status, nodes, errors)
            self.same(f"{asked} on {net} replayed", replayed, (0, text(wanted), b""))

    def test_long_transcript(self, leaves=24):
        """Stamps pass 65,535. The node in the middle of a star makes R = 12 + 3·24·25 pulses, and by each port it puts
        and takes a safe for each of them; each of these events has a stamp of its own."""
        edges = "".join(f"e 1 {leaf}|" for leaf in range(2, leaves + 2))
        net = f"p edge {leaves + 1} {leaves}|{edges}"
        least = (12 + 3 * leaves * (leaves + 1)) * (1 + 2 * leaves)
        status, run, errors = play("alone", "colouring", "--transcript", data=net)
        self.same("a long run", (status, errors), (0, b""))
        last = int(run.splitlines()[-1].split()[0]) if run else 0
        self.note(f"its last stamp is at least {least}", last >= least > 65_535, last)
        replayed = play("replay", "colouring", data=text(net) + run)
        self.same("replayed", replayed[::2], (0, b""))

    def test_texts(self):
        for asked, net, wanted in ROUNDS:
            self.same(
                f"rounds of {asked} on {net}",
                play("rounds", asked, data=net),
                (0, text(wanted), b""),
            )
        for asked, events, wanted in EVENTS:
            self.same(
                f"events of {asked}",
                play("events", asked, data=EDGE + events),
                (0, text(wanted), b""),
            )

    def test_transcripts(self):
        """The transcript of a run is one run, which its own program replays and another one refuses: by the name in the
        first line, and without it by the first payload; of programs that begin with the colouring's payloads, by the
        first word of their own."""
        for (program, payload), other in zip(
            zip((*PLAIN, *SEQUELS), ("hello 1", "leader 1", "hops 0", *["hello 1"] * 3)),
            ("leader", "layers", "colouring", "independent-set", "recolouring", "matching"),
        ):
            head = "2 2" if program == "colouring" else f"3 {program} 2"
            _, run, _ = play("run", program, "--transcript", "--workers", 1, data=EDGE)
            begins = text(f"transcript {head}|1 1 put 2 payload 0 {payload}|")
            self.note(f"transcript of {program}", run.startswith(begins), run)
            replayed = play("replay", program, data=text(EDGE) + run)
            self.same(f"{program} replayed", replayed[::2], (0, b""))
            fault = b"X1 line 4" if program == "colouring" else b"WrongProgram line 3: "
            self.refusal(f"as {other}", play("replay", other, data=text(EDGE) + run), 1, fault)
            unnamed = b"transcript 2 2\n" + run.split(b"\n", 1)[1]
            done = play("replay", other, data=text(EDGE) + unnamed)
            fault = b"X1 line " + b"4\n" * (program in PLAIN)
            self.refusal(f"{program} without its name as {other}", done, 1, fault)

    def test_refused(self):
        for command, asked, data, fault in REFUSED:
            self.same(
                f"{command} {asked} {data}",
                play(command, asked, data=data),
                (1, b"", f"forestplay: {fault}\n".encode()),
            )

    def test_words(self):
        """Only one program takes each option, given once."""
        for command in (it.name for it in commands_of("forestplay")):
            for arguments, said in WRONG:
                done = called(PLAY, command, *arguments.split())
                self.refusal(f"{command} {arguments}", done, 2, said.encode())
        self.same(
            "no turns",
            play("run", "leader", "--turns", 0, data=EDGE),
            (3, b"", b"forestplay: stopped\n"),
        )
        self.same("turns of no node", play("run", "leader", "--turns", 0, data=NONE), (0, b"", b""))
