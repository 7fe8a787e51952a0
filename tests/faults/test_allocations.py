"""Counts allocations: running a node program takes memory for the nodes, and none for its pulses; nor does a node under
the synchroniser, but as it starts, nor a worker that runs such nodes. And links take memory for one wire or for two.

No contract says that: a list in working space can grow without an allocator in its call's hands. So the counts of two
runs that differ in their pulses alone are compared; and the bytes of runs that differ in their capacity alone."""
from tests.cases import Case, text
from tests.commands import EDGE, TRIANGLE
from tests.faults.test_refused_memory import build_front, under
from tests.settings import CRATE_TESTS, PLAN, PLAY
from tests.tools import needs

# Six nodes, five edges and the degrees 1 and 5 each. With the greatest node in the middle there is one forest, and 30
# rounds; with the least there are five, and 102 rounds.
STAR_AT_6 = b"p edge 6 5\ne 1 6\ne 2 6\ne 3 6\ne 4 6\ne 5 6\n"
STAR_AT_1 = b"p edge 6 5\ne 1 2\ne 1 3\ne 1 4\ne 1 5\ne 1 6\n"
# The runs on worker threads that keep no transcript.
RUNS = ([PLAN, "plan", "--workers", "1"], [PLAY, "run", "--workers", "1"])

CAPACITIES = (1, 2, 3, 4, 32, 63, 64)


@needs("forestplan", "forestplay", "checks_tests", "cc")
class Allocations(Case):
    def setUp(self):
        self.front = build_front(self.folder, "refuse_growth")

    def asked(self, arguments, data=b"", status=0):
        """How often a run asks for memory, and for how many bytes in all."""
        answer, counts = under(self.front, arguments, data)
        self.assertEqual(answer[0], status, answer)
        return counts

    def test_pulses(self):
        for arguments in ([PLAN, "plain"], *RUNS):
            few, more = (self.asked(arguments, star)[0] for star in (STAR_AT_6, STAR_AT_1))
            self.same(f"{arguments[1]}: allocations of 30 rounds and 102", few, more)
        for test in (
            "sync_rounds_checks::greatest_within_{}_link{}",
            "alpha_core_checks::runs::a_node_of_{}_pulse{}",
        ):
            one, fifty = (
                self.asked([CRATE_TESTS, test.format(*which)])[0] for which in ((1, ""), (50, "s"))
            )
            self.same(f"{test}: allocations of 1 pulse and 50", one, fifty)

    def test_capacity(self):
        """Each direction of a link takes the same memory more with a capacity of 2 than with 1, and with any greater
        capacity what it takes with 2, since no link ever holds more than two wires. No node is looked at.
        """
        for arguments in RUNS:
            sizes = set()
            for directions, network in ((2, text(EDGE)), (6, text(TRIANGLE))):
                asked = [
                    self.asked(
                        [*arguments, "--turns", "0", "--capacity", str(capacity)], network, status=3
                    )
                    for capacity in CAPACITIES
                ]
                self.same(
                    f"{arguments[1]}: calls by {directions} directions",
                    len({calls for calls, _ in asked}),
                    1,
                )
                one, *others = [size for _, size in asked]
                self.same(
                    f"{arguments[1]}: memory of {CAPACITIES[1:]} by {directions} directions",
                    len(set(others)),
                    1,
                )
                sizes.add((others[0] - one) / directions)
            self.note(
                f"{arguments[1]}: memory of the second wire in a direction",
                len(sizes) == 1 and min(sizes) > 0,
                sizes,
            )
