"""The runs of an assignment: which network, identifiers, bars and policy each has, by seed."""
import re
from argparse import Namespace
from dataclasses import dataclass, field, replace
from functools import lru_cache
from itertools import combinations
from random import Random

from forestplan.network import Network
from forestplan.networks.sources import network_at
from forestplan.workshop.alpha_run import AlphaRun
from forestplan.workshop.clock_run import ClockRun
from forestplan.workshop.findings import Finding
from forestplan.workshop.protocol import COLOURING

# Each mistake of the colouring that can be caught shows on most4, rest3 or drops8, and each of the synchroniser on
# alone4 or triangle.
NETWORKS = "path1,two,path3,triangle,rest3,alone4,most4,drops8,star4,ring5,complete4,random6"
# How the identifiers of a varied run are chosen; on the networks that are there for their bit steps and drops by the
# first two ways, which leave these as they are.
HOW = ("own", "moved", "mixed", "sparse", "long")
KEPT = ("rest3", "most4", "drops8")
# The programs whose nodes heed bars.
WITH_BARS = (COLOURING, "independent-set", "recolouring")


@dataclass
class Case:
    """One run of an assignment on a `network`, under a `policy` and a `seed`. `number` counts the runs of a seed;
    `owners`, by node from 1 on, the numbers of the commands that run there; `finding` is None if it was right; `run`
    is what was played, and `league` what a right run of an own algorithm took; `is_part`, whether its network is what
    was left of a greater one.

    >>> case = Case(number=0, network=network_at("triangle"), policy="newest", seed="1 0")
    >>> case.finding is None, case.network.nodes
    (True, 3)
    """

    number: int
    network: Network
    policy: str
    seed: str
    owners: list[int] = field(default_factory=list)
    finding: Finding | None = None
    run: ClockRun | AlphaRun | None = field(default=None, repr=False)
    league: dict[str, int] | None = None
    is_part: bool = False

    @property
    def wrong(self) -> Finding:
        """What is wrong, of a case that is."""
        assert self.finding
        return self.finding

    @property
    def played_run(self) -> ClockRun | AlphaRun:
        """What was played, of a case that was."""
        assert self.run
        return self.run

    def size(self) -> tuple[int, int, int, int]:
        """What makes a case that isn't right small."""
        place = self.wrong.pulse if self.wrong.entry is None else self.wrong.entry
        bars = sum(map(len, self.network.bars.values()))
        return self.network.nodes, len(self.network.edges), bars, place


# Each is read once, standard input too.
known = lru_cache(network_at)


def case_network(name: str, chance: Random) -> Network:
    """The network of a name: one by chance, or what all commands mean by it."""
    found = re.fullmatch(r"random([1-9][0-9]{0,2})", name)
    if not found:
        return known(name)
    nodes = int(found[1])
    pairs = list(combinations(range(1, nodes + 1), 2))
    # About one or two edges a node.
    count = min(len(pairs), nodes - 1 + chance.randrange(nodes + 2))
    return Network(nodes, chance.sample(pairs, count), name=name)


def varied(network: Network, chance: Random, program: str) -> Network:
    """The same edges with other identifiers; for programs that heed bars also sometimes with other bars, and for the
    layers with identifier 1, their root, at one node in most networks."""
    nodes = list(network.node_numbers)
    own = [network.identifiers[v] for v in network.node_numbers]
    names = identifiers(own, chance.choice(HOW[:2] if network.name in KEPT else HOW), chance)
    if program == "layers" and 1 not in names and chance.random() < 0.8:
        names[chance.randrange(len(names))] = 1
    bars = network.bars
    if program in WITH_BARS and network.greatest_degree and chance.random() < 0.4:
        channels = range(1, network.greatest_degree + 2)
        bars = {
            v: chance.sample(channels, 1 + chance.randrange(2))
            for v in nodes
            if chance.random() < 0.3
        }
    return replace(network, given_identifiers=dict(zip(nodes, names)), bars=bars)


def identifiers(own: list[int], how: str, chance: Random) -> list[int]:
    """The identifiers of the nodes in order, chosen in a way of `HOW`."""
    count = len(own)
    match how:
        case "moved":
            return moved_identifiers(own, chance)
        case "mixed":
            return chance.sample(range(1, count + 1), count)
        case "sparse":
            return chance.sample(range(max(100, 4 * count)), count)
        case "long":
            return [chance.getrandbits(128) for _ in own]
    return own


def moved_identifiers(own: list[int], chance: Random) -> list[int]:
    """Other identifiers whose low digits are as before, so that they take the same bit steps and drops."""
    more = chance.getrandbits(100) << 20
    return [name + more for name in own] if max(own, default=0) >> 120 == 0 else own


def cases_of(options: Namespace) -> list[Case]:
    """All runs that the `options` of a command line ask for, as `parsed` returns them, or that of --case. Each network
    has its own identifiers in the first run, and varied ones later. The policies change from network to network, and
    for each network from run to run: so a hundred runs play all ten, and ten for each network play each on it once.
    Smaller networks come first.

    >>> from forestplan.workshop.options import parsed
    >>> cases = cases_of(parsed(["alpha", "--runs", "100", "--", "./my_node"]))
    >>> len(cases), cases[0].network.name, len({case.policy for case in cases})
    (100, 'path1', 10)

    Raises `Fault` of a network that can't be read.
    """
    cases = []
    names = options.networks
    policies = options.policies
    for number in range(options.runs) if options.case is None else [options.case]:
        own_seed = f"{options.seed} {number}"
        chance = Random(own_seed)
        at = number % len(names)
        network = case_network(names[at], chance)
        if number >= len(names):
            network = varied(network, chance, options.program)
        cases.append(
            Case(number, network, policies[(number // len(names) + at) % len(policies)], own_seed)
        )
    return sorted(
        cases, key=lambda case: (case.network.nodes, len(case.network.edges), case.number)
    )
