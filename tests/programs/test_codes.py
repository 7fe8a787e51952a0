"""Tests of `forestlab network tell CODE`, beside the codes that docs/claim/FORMATS.md lists and those that the programs
report."""
import re

from forestplan.networks.codes import told_of_text
from forestplan.sentences import Sentence
from tests.cases import Case, called, forestlab, text, text_in
from tests.commands import EDGE, PROGRAM_OF, TRIANGLE
from tests.programs.test_own_networks import FAULTS as NETWORK_FAULTS, call
from tests.settings import PATHS
from tests.tools import needs

RUN = EDGE + "transcript 2 2|"
# Words that say what a fault of a network is; test_own_networks.py has inputs.
OF_NETWORKS = {
    "F1": "there is no line `p edge NODES EDGES`",
    "F2": "is a second `p` line",
    "F3": "is an `e` line before the `p`",
    "F4": "a field is missing",
    "F5": "a node is 0",
    "F6": "joins a node to itself",
    "F7": "NODES is above 20,000",
    "F8": "a word that begins no line",
    "F10": "is an `i` or a `b` line before",
    "F11": "identifier is 2^128 or more",
    "F12": "is a second `i` line",
    "F13": "barred channel is 0 or above 2,048",
    "F14": "bars one more than 1,024",
    "N1": "has more than 1,023 neighbours",
    "N2": "have the same identifier",
}
# (command, input, the line of its fault by FORMATS, words that say what it is)
FAULTS = [
    ("check", TRIANGLE + "plan|1 2|3 1|", "C1 vertex 2", "node 2 has no line in the plan"),
    (
        "check",
        TRIANGLE + "plan|4 2|",
        "C2 vertex 4",
        "a line of node 4, which isn't in the network",
    ),
    ("check", TRIANGLE + "plan|1 2|1 3|", "C3 vertex 1", "node 1 has a second line"),
    (
        "check",
        TRIANGLE + "plan|1 2|2 1|3 2|",
        "C4 vertices 1 3",
        "nodes 1 and 3 are neighbours, and have the same",
    ),
    ("check", TRIANGLE + "plan|1 4|", "C5 vertex 1", "node 1 has a channel above D + B + 1"),
    (
        "check",
        TRIANGLE + "plan|1 x|",
        "C6 line 2",
        "line 2 of the plan is neither `plan` nor `V CHANNEL`",
    ),
    (
        "check",
        TRIANGLE + "b 1 2|plan|1 2|",
        "C8 vertex 1",
        "node 1 has a channel that is barred at it",
    ),
    ("events", EDGE + "put 1 0: hello|", "NoEvent line 3", "line 3 is no event"),
    (
        "events",
        EDGE + "pulse 1|",
        "NotReady line 3: ack 0 of 2; safe 0 of 2",
        "in line 3 a node can't make its next",
    ),
    (
        "events",
        EDGE + "put 1 0|put 1 0|",
        "NothingToPut line 4: list of 1 for 2",
        "in line 4 a node has nothing to put",
    ),
    (
        "events",
        EDGE + "take 1 0|",
        "LinkEmpty line 3: link from 2 to 1",
        "in line 3 the link has no wire",
    ),
    ("events", EDGE + "put 1 2|", "NoSuch line 3", "in line 3 there is no such node or port"),
    ("replay", RUN + "1 1 puts 2 close|", "X1 line 4", "line 4 isn't a line of a transcript"),
    (
        "replay",
        EDGE + "transcript 3 leader 2|",
        "WrongProgram line 3: leader",
        "line 3, the first one of the transcript, names another program",
    ),
    (
        "replay",
        RUN + "1 1 put 2 payload 0 hello 7|",
        "WrongWire line 4: expected payload 0 hello 1",
        "the event of line 4 is possible, but with another wire",
    ),
    (
        "replay",
        RUN + "2 1 put 2 payload 0 hello 1|",
        "WrongStamp line 4",
        "in line 4 the stamp isn't what",
    ),
    (
        "replay",
        RUN + "1 1 put 2 payload 0 hello 1|",
        "NotWhole line 4",
        "but after line 4 a node isn't done",
    ),
    ("plan", TRIANGLE, "stopped", "the workers had made all their looks"),
]
# Codes that the programs print as `memory`, and words for which no input is wrong.
WITHOUT_INPUT = {"F9", "N3", "C7", "X2", "Memory", "memory", "threads", "stream", "NoRoot"}


def tell(*arguments):
    """In this process: status, output and what is said."""
    status, output, errors = call("tell", *arguments)
    return status, output.decode(), errors.decode()


class Codes(Case):
    def test_all_of_formats(self):
        """Each code of the page, and its number in DEFINITIONS, has a sentence and what to do."""
        page = text_in("docs", "claim", "FORMATS.md")
        events = page.partition("### Events after a network")[2].partition("\n## ")[0]
        codes = {
            *re.findall(r"^\| ([FNC]\d+) \|", page, re.M),
            *re.findall(r"^\| `(\w+)` \|", events, re.M),
            *re.findall(r"nothing \| `forestplan: (\w+)` \|", page),
        }
        for name in codes:
            status, said, fault = tell(name)
            good = re.fullmatch(r"\w+( \(.+\))?, a fault of an?y? .+: .+\nwhat to do: .+\n", said)
            self.note(
                name,
                (status, fault) == (0, "")
                and good
                and name in re.findall(r"\w+", said.split(":")[0]),
                (status, said, fault),
            )
        numbers = re.findall(r"^\| `(\w+)` \|.*\b(E\d)\b", events, re.M)
        for name, number in numbers:
            self.same(number, tell(number), tell(name))
        told = {fault.split(" ")[0] for _, _, fault, _ in reported()} | WITHOUT_INPUT
        self.note(
            "each of them is tried here",
            codes <= told and len(codes) > 35 and len(numbers) > 5,
            codes - told,
        )

    def test_what_is_no_code(self):
        for arguments, wanted, said in (
            (["C9"], 1, "network: C9: No such file or directory\n"),
            (["C8", "and", "C9"], 2, "one FILE, or a code and where it is, as `C8 vertex 1`\n"),
        ):
            self.refusal(" ".join(arguments), tell(*arguments), wanted, said)

    def test_what_is_said_of_some_alone(self):
        """What follows a question mark in a sentence is left out where there is nothing to name."""
        for name, said in ((None, "none"), ("", "none"), ("C8", "none, or C8!")):
            found = Sentence().format("none{name:?, or ~!}", name=name)
            self.same(f"{name!r}", found, said)

    def test_other_words(self):
        """What isn't written as a fault is none."""
        for said in ("", "out of memory", "C8 vertex x", "8", "C"):
            self.assertIsNone(told_of_text(said), said)

    def test_a_file_of_that_name(self):
        self.file("C8", "p edge 2 1\ne 1 2\n")
        done = forestlab("network", "tell", "C8", cwd=self.folder)
        self.note("a file C8", done[0] == 0 and done[1].startswith(b"nodes: 2\n"), done)


def reported():
    """The rows of FAULTS and those of networks."""
    return FAULTS + [
        ("forests", data, fault, OF_NETWORKS[fault.split(" ")[0]])
        for data, fault, _ in NETWORK_FAULTS
    ]


@needs("forestplan", "forestplay")
class Faults(Case):
    def test_what_the_programs_report(self):
        """The program's line of a fault, given as it stands, is told in words with its place."""
        for command, data, fault, sentence in reported():
            program = PROGRAM_OF[command]
            more = ("--turns", "0") if fault == "stopped" else ()
            line = f"{program}: {fault}"
            data = data.encode() if command == "forests" else text(data)
            self.same(
                f"the program reports {fault} of {data[:40]}",
                called(PATHS[program], command, *more, data=data),
                (3 if more else 1, b"", f"{line}\n".encode()),
            )
            here = fault.partition(": ")[2]
            place = fault.partition(":")[0].partition(" ")[2].replace(" 1 ", " 1 and ")
            place = place.replace("vertices", "nodes").replace("vertex", "node")
            for given in ([line], line.split(" ")[1:]):
                status, said, errors = tell(*given)
                name, first = f"tell {' '.join(given)}", said.split("\n")[0]
                self.same(f"{name}: ends", (status, errors), (0, ""))
                self.note(f"{name}: what and where", sentence in first and place in first, said)
                self.note(f"{name}: here", not here or f"\nhere: {here}\n" in said, said)
