"""Tests of `forestlab picture` whatever the kind: what is refused, and the command line."""
import os
import re
from xml.etree import ElementTree

from forestplan.definitions.colours import plan_text
from forestplan.networks.network_text import network_in_bytes
from forestplan.schedules.simulate import played, text_of_run
from tests.cases import example, examples
from tests.pictures.base import APART, PictureCase, painter, transcript
from tests.programs.made_transcripts import transcript_text

PLAN_OF_PETERSEN = plan_text(network_in_bytes(example("petersen")))
RUN_OF_APART = transcript(APART, "refused")
RUN_OF_TRIANGLE = transcript(example("triangle"), "refused")
# What rows name: networks and texts by the names of their files.
FILES = {
    "net": APART,
    "none": b"p edge 0 0\n",
    "wrong": b"p edge 2 1\ne 1 1\n",
    "one": b"p edge 1 0\n",
    "run": RUN_OF_APART,
    "plan": PLAN_OF_PETERSEN,
    "short1": b"transcript 2 1\n",
}
# Words of a call, the text on standard input, and what is in the picture.
SAID = [
    ("--help", b"", "forestlab picture plan - <"),
    ("plan - --plan {plan}", example("petersen"), "Channel plan of this network"),
    ("bits petersen --vertex 6 --forest 1", b"", "node 6 and its parent 9 in forest 1"),
    ("schedules star4", b"", "Here are those after 0 to 23 of 336 events."),
    ("results drops --program recolouring", b"", "2 channels; before there were 3."),
    ("why barred --vertex 1 --text", b"", "\n  channel 1 is barred at it\n"),
    ("why petersen --vertex 6 --text", b"", "\n4 told 3 colour 0 in pulse 10, in forest 0\n"),
    ("why petersen --vertex 6", b"", "petersen: why node 6 has channel"),
    ("watch {one} {short1}", b"", "<h1>one: a run without a clock</h1>"),
    (
        "watch {net} -",
        RUN_OF_APART[: RUN_OF_APART.index(b"\n", 900) + 1],
        "standard input ends before the nodes are through.",
    ),
    ("broken --without pair,earlier", b"", "pair’ and ‘earlier"),
    (
        "broken --program recolouring --passes 2 --without anew",
        b"",
        "After pulse 22 the neighbours 1 and 2 both have channel 1",
    ),
]
# Words of a call, the text on standard input, the status, and a part of the line that says why.
REFUSED = [
    ("", b"", 2, "picture: error: "),
    ("plan", b"", 2, "picture plan: error: "),
    ("maps x", b"", 2, "invalid choice"),
    ("run x --pulses 3..", b"", 2, "a number, or two, as 3..5"),
    ("run x --only hello", b"", 2, "some of payload,ack,safe,"),
    ("bits x --vertex y", b"", 2, "invalid int value"),
    ("rounds x --forest a", b"", 2, "a number"),
    ("broken", b"", 2, "--without"),
    ("broken x --without safes", b"", 2, "some of "),
    ("schedules two --without safe", b"", 2, "safes"),
    ("broken --without partner", b"", 2, "only --program matching has the rules partner,last"),
    (
        "broken --program matching --without last",
        b"",
        1,
        "not broken: 1,094 networks of up to 5 nodes go right without last\n",
    ),
    ("broken chain6 --without shift", b"", 1, "not broken: the rounds of chain6 go"),
    (
        "broken path41 --program independent-set --without class",
        b"",
        1,
        "at most 40 nodes of a merge or of another program",
    ),
    ("broken disk100 --without pair", b"", 1, "at most 40 nodes of a merge"),
    ("plan nowhere.col", b"", 1, "nowhere.col"),
    ("plan {wrong}", b"", 1, "(F6)"),
    ("plan {none}", b"", 1, "no node"),
    ("results ring401", b"", 1, "at most 400 nodes"),
    ("schedules complete4", b"", 1, "at most 200,000 states"),
    ("schedules two --columns 0..105", b"", 1, "0 to 104"),
    ("schedules two --columns 3..2", b"", 1, "0 to 104"),
    ("schedules star4 --columns 0..109", b"", 1, "at most 108 events"),
    ("schedules star4 --columns 0..108", b"", 1, "use fewer events"),
    *((f"{kind} {{one}}", b"", 1, "has no edge") for kind in ("rounds", "bits")),
    ("why {one} --vertex 1", b"", 1, "no message decided"),
    ("why triangle --vertex 4", b"", 1, "has no node 4"),
    *((f"rounds queen5_5 --forest {asked}", b"", 1, "0 to 11") for asked in ("3..12", "12..12")),
    ("run star12 --transcript - --pulses 1..2", b"transcript 1 12\n", 1, "no node"),
    ("plan - --plan -", b"", 1, "standard input has one text"),
    ("watch {net} a b c", b"", 1, "a page has room for two runs"),
    ("watch {net} {run} --pulses 3..99", b"", 1, "pulses 3 to 99 are not among 0"),
    ("watch two -", RUN_OF_APART, 1, "line 1: 5 nodes, and two has 2 (Nodes)"),
    ("watch two -", b"plan\n", 1, "X1"),
    ("watch triangle -", RUN_OF_TRIANGLE.replace(b"\n1 ", b"\n2 ", 1), 1, "WrongStamp"),
    ("plan petersen --plan -", b"", 1, "(C6)"),
    ("plan petersen --plan -", PLAN_OF_PETERSEN.replace(b"3 1", b"3 2"), 1, "share channel"),
    *(
        (f"run {{net}} --transcript {{run}} --pulses {pulses}", b"", 1, "among 0 to 30\n")
        for pulses in ("3..2", "0..31")
    ),
]


class Pictures(PictureCase):
    def test_said_and_refused(self):
        """Nothing is drawn, and one line says why; of words that are refused it is the last one."""
        paths = {name: self.file(name, data) for name, data in FILES.items()}
        for arguments, given, said in SAID:
            status, picture, fault = painter(*arguments.format(**paths).split(), data=given)
            self.same(f"{arguments} is drawn", (status, fault), (0, b""))
            self.note(f"{arguments}: {said}", said in picture.decode(), picture)
        for arguments, given, status, said in REFUSED:
            found, picture, fault = painter(*arguments.format(**paths).split(), data=given)
            *others, last = fault.decode().splitlines(keepends=True)
            name = f"refused: {arguments} < {given[:30]}"
            self.same(name, (found, picture), (status, b""))
            self.note(f"{name}: {said}", said in last and (status == 2 or not others), fault)

    def test_stamped(self):
        """A transcript of edition 2 is drawn as the same entries without stamps are, but for what the caption says of
        time."""
        apart = network_in_bytes(APART)
        entries = played(apart, seed="stamped")
        wanted, got = (
            self.drawn("run", APART, text=text).split("\n")
            for text in (transcript_text(5, entries), text_of_run(apart, entries).encode())
        )
        others = [line for line in got if line not in wanted]
        self.same("as many marks", len(got), len(wanted))
        self.note("time alone", len(others) == 1 and "Lamport's clock" in others[0], others[:3])

    def test_places(self):
        network = re.sub(rb"(?m)^c at .*\n", b"", example("petersen"))
        for more, said in ((b"", b""), (b"c at 1 0 0\n", b"for 1 of 10 nodes")):
            status, _, fault = self.called("plan", network + more)
            self.note(f"places {more!r}", status == 0 and bool(fault) == bool(more), fault)
            self.note(f"places {more!r}: {said!r}", said in fault, fault)

    def test_file_names(self):
        """A file's name that is no UTF-8, or has letters that XML hasn't, draws a picture all the same."""
        for name in (b"K\xf6ln.col", b"a\x07\x1b.col", b'"x" <b>&.col'):
            status, picture, fault = painter("rounds", self.file(os.fsdecode(name), example("two")))
            self.same(f"a file {name!r}", (status, fault), (0, b""))
            ElementTree.fromstring(picture)

    def test_examples(self):
        """What the examples say of their places, and that each says what it shows."""
        for name, network in examples().items():
            placed = {int(v) for v in re.findall(rb"c at (\d+) \S+ \S+", network)}
            self.note(
                f"{name} has a place for each node",
                placed == {*network_in_bytes(network).node_numbers},
            )
            self.note(f"{name} says what it shows", re.match(rb"c [A-Z][^\n]{20,}", network))
