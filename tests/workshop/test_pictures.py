"""Pictures of runs that aren't possible are refused; with --wrong they are drawn up to what is wrong."""
import os
import re

from tests.cases import example, found_in, text_in
from tests.pictures.base import painter, transcript
from tests.tools import needs
from tests.workshop.base import Played, call, python

GREETED = """\
transcript 2 2
1 1 put 2 payload 0 hello 1
1 2 put 1 payload 0 hello 2
2 1 take 2 payload 0 hello 2
2 2 take 1 payload 0 hello 1
3 1 put 2 ack 0
3 2 put 1 ack 0
4 2 take 1 ack 0
"""
# What comes then, and what the judge says of it.
ROWS = (
    ("5 2 pulse 1\n6 2 pulse 2\n", "NotReady: node 2 makes pulse 1, but it lacks safe 0 of 1;"),
    (
        "5 2 put 1 safe 1\n",
        "WrongWire: node 2 puts safe 1 for 1, but the next one there is safe 0;",
    ),
    (
        "5 2 put 1 payload 1 label 0\n",
        "WrongWire: node 2 puts payload 1 label 0 for 1, but the next one there is safe 0;",
    ),
    ("5 2 take 1 safe 0\n", "LinkEmpty: node 2 takes safe 0 from 1, and 1 never puts it"),
    (
        "9 2 put 1 safe 0\n",
        "WrongStamp: node 2 puts safe 0 for 1 with stamp 9, but the clock there gives 5.",
    ),
)
NOT_POSSIBLE = ["line 9, not possible"]
# The options, what comes after GREETED, what the picture says, and the titles of what is red.
DRAWN = (
    *(("--wrong", more, f"Red: line 9: {said}", NOT_POSSIBLE) for more, said in ROWS),
    # A run that is only cut is drawn as far as it goes, and the node at which it stopped is marked.
    ("", "", "Payloads that are put in these pulses, as far as this text goes: 2.", []),
    ("--wrong", "", "the run doesn't reach its end (NotWhole)", []),
    *(
        (
            f"--wrong --stopped {v}",
            "",
            f"(NotWhole): it stops at node {v}.",
            [f"node {v}, where the run stops"],
        )
        for v in (1, 2)
    ),
    # An entry that isn't possible says more than where the run ended.
    ("--wrong --stopped 1", ROWS[0][0], "NotReady: ", NOT_POSSIBLE),
)
# The kind and options, the text, the status, and what is said.
REFUSED = (
    *(("run", GREETED + more, 1, " line 9: ") for more, _ in ROWS),
    *((f"run --wrong --stopped {v}", GREETED, 1, f"two has no node {v}") for v in (0, 3)),
    ("run --stopped 1", GREETED, 2, "--stopped is for --wrong"),
    *(
        ("run --wrong", GREETED + f"5 2 {line}\n", 1, f" line 9: {code}: ")
        for line, code in (("hello", "X1"), ("put 9 safe 0", "NoSuch"))
    ),
)


def picture(arguments, text):
    kind, *options = arguments.split()
    status, drawn, fault = painter(kind, "two", "--transcript", "-", *options, data=text.encode())
    return status, drawn.decode(), fault.decode()


class Pictures(Played):
    def test_drawn(self):
        for options, more, said, red in DRAWN:
            _, drawn, _ = picture(f"run {options}", GREETED + more)
            self.same(
                f"{options} {more!r}: red",
                re.findall('<g class="wrong"><title>([^<]*)<', drawn),
                red,
            )
            # What is said, and the acknowledgement that node 2 put last, and nothing else that isn't taken.
            self.note(
                f"{options} {more!r}: {said}",
                said in drawn
                and "All payloads of these pulses" not in drawn
                and ("it stops at" in drawn) == ("it stops at" in said),
                drawn,
            )
            self.same(
                f"{options} {more!r}: not taken",
                re.findall("<title>([^<]*), not taken</title>", drawn),
                ["2 to 1: ack 0"] * bool(options),
            )
        # What comes after the wrong entry isn't drawn, though it is possible.
        text = GREETED.replace("\n4 2", "\n4 1 pulse 1\n4 2")
        drawn = picture("run --wrong", text)[1]
        titles = re.findall("<title>([^<]*), not ", drawn)
        self.same("up to what is wrong", titles, ["1 to 2: ack 0", "2 to 1: ack 0", "line 8"])
        self.note("around what is wrong", "pulses 0 to 0 of 18" in drawn, drawn)

    def test_a_right_run(self):
        """It is drawn as always."""
        run = transcript(example("two"), "right").decode()
        right, *others = (picture(f"run {it}", run)[1] for it in ("", "--wrong --stopped 1"))
        self.same("drawn", others, [right])
        self.note("said", "All payloads of these pulses: " in right, right)

    def test_refused(self):
        for arguments, text, status, said in REFUSED:
            self.refusal(f"{arguments} of {text[-30:]!r}", picture(arguments, text), status, said)

    @needs("bin/forestplan", "bin/forestplay")
    def test_the_workshop_draws_what_is_wrong(self):
        """A skeleton that acknowledges nothing is stuck, and its two greetings are drawn."""
        file = os.path.join(self.folder, "run.svg")
        done = call("alpha", "two", "--picture", file, "--", *python("skeletons", "node.py"))
        self.assertEqual(done.returncode, 1)
        svg = text_in(file)
        self.assertRegex(svg, r"\(NotWhole\): it stops at node [12]\.")
        self.assertRegex(
            done.stdout,
            f"node {found_in(r'it stops at node ([12])', svg)[1]} at pulse 0 doesn't put",
        )
        self.assertEqual(
            len(re.findall('<g class="payload"', svg[: svg.index('<g class="lower"')])), 2
        )
        wrong = self.wrong_node("layers_again", "alpha_node.py", "layers")
        call("alpha", "path3", "--program", "layers", "--picture", file, "--", *wrong)
        self.assertIn(">Red: line ", text_in(file))
