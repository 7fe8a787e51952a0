"""The runs that the workshop makes by chance: what varies from run to run, and what has to stay as it is."""
from collections import Counter
from dataclasses import replace
from random import Random

from forestplan.definitions.colours import bit, three
from forestplan.workshop import cases as runs
from forestplan.workshop.cases import KEPT, NETWORKS, cases_of, case_network, varied
from forestplan.workshop.clock_run import OpenRun
from forestplan.workshop.findings import Finding
from forestplan.workshop.player import CasePlayer
from tests.cases import Case
from tests.workshop.base import options_of

SEEDS = [str(number) for number in range(300)]
BITS = 128


def names_of(net) -> list[int]:
    return [*net.identifiers.values()]


def varieties(name: str, program: str = "colouring") -> list:
    return [varied(case_network(name, Random("1")), Random(seed), program) for seed in SEEDS]


def way_of(own: list[int], names: list[int]) -> str:
    """In which of the five ways identifiers were chosen, by the numbers that each way gives."""
    if names == own:
        return "own"
    if len({name - before for name, before in zip(names, own)}) == 1:
        return "moved"
    if sorted(names) == sorted(own):
        return "mixed"
    return "sparse" if max(names) < max(100, 4 * len(names)) else "long"


def share(count: int) -> float:
    return count / len(SEEDS)


class Varied(Case):
    def test_identifiers(self):
        """They differ, are in their bounds, and are chosen in each of five ways in about a fifth of the runs."""
        own = names_of(case_network("ring5", Random("1")))
        ways = Counter(way_of(own, names_of(net)) for net in varieties("ring5"))
        self.assertEqual(set(ways), {"own", "moved", "mixed", "sparse", "long"})
        for way, count in ways.items():
            self.note(f"{way} in about a fifth", 0.1 < share(count) < 0.3, count)
        for net in varieties("ring5"):
            names = names_of(net)
            is_good = len({*names}) == len(names) and all(0 <= name < 2**BITS for name in names)
            self.note("identifiers that nothing refuses", is_good, names)

    def test_networks_that_are_there_for_their_bit_steps(self):
        """Their identifiers are their own or moved, so that each forest has the same colours after the bit steps and
        the drops."""
        for name in KEPT:
            own = case_network(name, Random("1"))
            wanted = [
                (bit(own, f, own.identifiers), three(own, f)) for f in range(own.forest_count)
            ]
            ways: Counter[str] = Counter()
            for net in varieties(name):
                ways[way_of(names_of(own), names_of(net))] += 1
                plain = replace(net, bars=own.bars)
                found = [
                    (bit(plain, f, plain.identifiers), three(plain, f))
                    for f in range(plain.forest_count)
                ]
                self.note(f"{name}: the same bit steps and drops", found == wanted, names_of(net))
            # What is nearly as long as an identifier may be isn't moved.
            is_long = max(names_of(own)) >= 2**120
            self.same(name, set(ways), {"own"} if is_long else {"own", "moved"})
            is_half = is_long or 0.35 < share(ways["moved"]) < 0.65
            self.note(f"{name}: moved in about half", is_half, ways)

    def test_long_identifiers_stay_below_their_bound(self):
        net = replace(
            case_network("ring5", Random("1")),
            given_identifiers={v: 2**BITS - v for v in range(1, 6)},
        )
        for seed in SEEDS:
            names = names_of(varied(net, Random(seed), "colouring"))
            self.note("identifiers below 2^128", max(names) < 2**BITS, names)

    def test_roots(self):
        """The layers have a root in most networks, but not in all of them."""
        with_root = share(sum(1 in names_of(net) for net in varieties("ring5", "layers")))
        self.note("with identifier 1", 0.75 < with_root < 1, with_root)
        others = share(sum(1 in names_of(net) for net in varieties("ring5", "leader")))
        self.note("of another program", others < with_root, others)

    def test_bars(self):
        """Programs that heed them sometimes have them: one or two channels at a node, of one more than there are
        neighbours."""
        for program, heeds in (("colouring", True), ("recolouring", True), ("leader", False)):
            bars = [barred for net in varieties("star4", program) for barred in net.bars.values()]
            self.same(f"{program}: there are some", bool(bars), heeds)
            if heeds:
                self.same("how many at a node", {len(barred) for barred in bars}, {1, 2})
                self.same("which", {c for barred in bars for c in barred}, set(range(1, 5)))
                nets = sum(bool(net.bars) for net in varieties("star4", program))
                self.note("in less than half of the networks", 0.1 < share(nets) < 0.5, nets)


class Networks(Case):
    def test_by_chance(self):
        """About one or two edges a node, and never more than there are pairs."""
        for nodes in (1, 2, 3, 6, 9):
            counts = set()
            for seed in SEEDS:
                net = case_network(f"random{nodes}", Random(seed))
                counts.add(len(net.edges))
                self.note("nodes", net.nodes == nodes, net.nodes)
                self.note(
                    "edges between two", all(1 <= v < w <= nodes for v, w in net.edges), net.edges
                )
            pairs = nodes * (nodes - 1) // 2
            wanted = {min(pairs, count) for count in range(nodes - 1, 2 * nodes + 1)}
            self.same(f"numbers of edges of {nodes} nodes", counts, wanted)

    def test_how_long_an_own_algorithm_may_take(self):
        """20 pulses for each node and each pulse of the lessons' algorithm, by the greatest number of neighbours."""
        # The row of three has 12 + 3·2·3 = 30 pulses, and the star of four 12 + 3·3·4 = 48.
        for name, most in (("path3", 20 * (3 + 30)), ("star4", 20 * (4 + 48))):
            self.same(name, OpenRun(case_network(name, Random("1"))).most_pulses, most)


class Cases(Case):
    def test_first_runs_have_their_own_identifiers(self):
        names = NETWORKS.split(",")
        cases = cases_of(options_of("alpha", "--runs", "30"))
        for case in cases:
            if case.number < len(names) and not case.network.name.startswith("random"):
                own = case_network(case.network.name, Random("1"))
                self.same(f"case {case.number}", case.network.identifiers, own.identifiers)
        self.assertTrue(any(case.number >= len(names) for case in cases))

    def test_smaller_networks_come_first(self):
        cases = cases_of(options_of("alpha", "--runs", "40"))
        sizes = [(case.network.nodes, len(case.network.edges)) for case in cases]
        self.assertEqual(sizes, sorted(sizes))
        self.assertEqual(sorted(case.number for case in cases), [*range(40)])

    def test_a_case_by_its_number(self):
        cases = {case.number: case for case in cases_of(options_of("alpha", "--runs", "40"))}
        for number in (0, 7, 39):
            [case] = cases_of(options_of("alpha", "--case", str(number)))
            found, wanted = (
                (one.network.identifiers, one.network.edges, one.policy, one.seed)
                for one in (case, cases[number])
            )
            self.same(f"case {number}", found, wanted)


class Silent(CasePlayer):
    """Plays programs that never answer, and keeps the numbers of the runs that were played."""

    def __init__(self) -> None:
        super().__init__(options_of("rounds", "--", "nothing"))
        self.made: list[int] = []

    def play(self, case: runs.Case) -> bool:
        self.made.append(case.number)
        case.run = OpenRun(case.network)
        case.finding = Finding("silent", 1, 0, is_first=True)
        return False


class Mute(Case):
    def test_two_runs_are_enough(self):
        """They are on two networks, if there are two; and all others count as silent, too."""
        for names, wanted in (
            ("two two two two", [0, 3]),
            ("two two path3 two", [0, 2]),
            ("two", [0]),
        ):
            cases = [
                runs.Case(number, case_network(name, Random("1")), "", "1")
                for number, name in enumerate(names.split())
            ]
            player = Silent()
            kinds = {case.wrong.kind for case in player.play_all(cases)}
            self.same(names, (player.made, kinds), (wanted, {"silent"}))
