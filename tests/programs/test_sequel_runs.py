"""The programs that nodes run, on networks by chance: `forestplay rounds` is, byte for byte, what the slow definitions
of src/forestplan/ give; each run by some workers and capacity ends as their nodes do, and so does one on one thread,
without a clock or in rounds. A checker that has nothing but the edges and the bars finds what the theorems say of those
that go on after the colouring.

  ./test programs.test_sequel_runs                              a few networks
  TESTS_SEQUELS=1000 python3 -m tests programs.test_sequel_runs     many of them"""
import itertools
import re

from forestplan.definitions.colours import colours, joined_lines
from forestplan.definitions.program import synchronous_run
from forestplan.networks.network_text import network_in_bytes
from forestplan.pictures.program_rounds import rounds_of
from tests.cases import Case
from tests.programs.test_node_programs import play, program_of
from tests.programs.test_plain_networks import networks_by_chance
from tests.programs.test_sequels import CHECKERS, last_of
from tests.settings import setting
from tests.tools import needs

NODES, SEED = 14, 79
# By how many workers and with which capacity, one after the other over the networks.
THREADS = [
    ("run", "--workers", workers, "--capacity", capacity)
    for workers, capacity in ((1, 4), (2, 1), (3, 2), (4, 4), (2, 3), (8, 1))
]
PLAYED = (
    "colouring",
    "leader",
    "layers",
    "layers --root 1",
    "matching",
    "independent-set",
    "recolouring",
    "recolouring --passes 2",
    "recolouring --passes 3",
    "recolouring --passes 9",
    "recolouring --passes 64",
)


def ended(net, v, result):
    """A result as `run` prints it: it adds that a leader is elected, and the neighbour to which a port leads."""
    if result == f"leader {net.identifiers[v]}":
        return f"{result} elected"
    port = re.search(r"(?:partner|by) (\d+)$", result)
    return f"{result} to {net.neighbours[v][int(port[1])]}" if port else result


@needs("forestplan", "forestplay")
class SequelRuns(Case):
    def test_networks_by_chance(self):
        threads = itertools.cycle(THREADS)
        for k, data in enumerate(networks_by_chance(int(setting("sequels")), NODES, SEED)):
            net = network_in_bytes(data)
            plan = {v: colour + 1 for v, colour in colours(net).items()}
            for asked in PLAYED:
                program, name = program_of(asked), f"{asked} on network {k}"
                wanted = joined_lines(rounds_of(net, program).lines())
                self.same(f"rounds of {name}", play("rounds", asked, data=data), (0, wanted, b""))
                nodes = synchronous_run(net, program)
                said = (
                    [*CHECKERS[program.name](net, last_of(nodes), plan)]
                    if program.name in CHECKERS
                    else []
                )
                self.note(f"what {name} has found", not said, said)
                ends = [
                    f"node {v} pulse {program.last_pulse(net)} {ended(net, v, node.result())}"
                    for v, node in nodes.items()
                ]
                for command, *arguments in (("alone",), ("ends",), next(threads), next(threads)):
                    done = play(command, asked, *arguments, data=data)
                    self.same(
                        f"{command} of {name} {arguments}", done, (0, joined_lines(ends), b"")
                    )
