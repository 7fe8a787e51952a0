"""Black-box tests of `forestplay`: plays lists of events and transcripts by the program as each of two compilers builds
it (the gate leaves that of Rattle's own beside the other), and compares standard output, standard error and status byte
by byte. Expected answers are worked by hand."""
import itertools

from tests.cases import Case, called, text
from tests.commands import EDGE
from tests.settings import PLAY, SECOND_PLAY
from tests.tools import needs

# (name, input, output), in which '|' is a line feed
WORKED = [
    (
        "a node alone with a bar at its last pulse",
        "p edge 1 0|b 1 1|b 1 3|" + 12 * "pulse 1|",
        "node 1 pulse 12 channel 2|",
    ),
    (
        "an odd layout",
        "c x|" + EDGE + "n 1|\t put  01\t0 \r||c put 1 0|comment|take 2 000|put 2 0|put 2 0|",
        "node 1 pulse 0|link 1 2 taken 1|node 2 pulse 0|link 2 1 taken 0 payload 0 hello 2 ack 0|",
    ),
    (
        "a safe",
        EDGE + "put 1 0|take 2 0|put 2 0|put 2 0|take 1 0|take 1 0|put 1 0|put 1 0|take 2 0|",
        "node 1 pulse 0|link 1 2 taken 2 safe 0|node 2 pulse 0|link 2 1 taken 2|",
    ),
]

# the same of `replay`: (name, what comes after the edge's lines, output)
REPLAYED = [
    (
        "a greeting",
        "transcript 1 2|1 put 2 payload 0 hello 1|2 take 1 payload 0 hello 1|2 put 1 payload 0 hello 2|2 put 1 ack 0|",
        "node 1 pulse 0|link 1 2 taken 1|node 2 pulse 0|link 2 1 taken 0 payload 0 hello 2 ack 0|",
    ),
    (
        "an odd layout, with another number of nodes",
        "n 1|\t transcript 1  9 \r| \t||1 put 002 payload\t0 hello 01\r",
        "node 1 pulse 0|link 1 2 taken 0 payload 0 hello 1|node 2 pulse 0|link 2 1 taken 0|",
    ),
]


@needs("forestplay", "forestplay.by-rattle")
class Events(Case):
    def test_worked(self):
        """What each fault is, is proved; test_codes.py has one of each."""
        waits = "p edge 4 3|e 1 2|e 1 3|e 1 4|pulse 1|"
        fault = b"forestplay: NotReady line 5: ack 0 of 2, 3 and 4; safe 0 of 2, 3 and 4\n"
        rows = [("events", waits, (1, b"", fault))]
        rows += [("events", data, (0, text(output), b"")) for _, data, output in WORKED]
        rows += [("replay", EDGE + it, (0, text(output), b"")) for _, it, output in REPLAYED]
        for (command, data, wanted), program in itertools.product(rows, (PLAY, SECOND_PLAY)):
            done = called(program, command, data=text(data))
            self.same(f"{program} {command} of {data!r}", done, wanted)
