"""The rounds with rules left out (rules.OF_PROGRAMS), and the smallest network on which they go wrong. Those of the
colouring are lists over the nodes, by the definitions. Programs that go on where it ends are played as nodes, whose
rules are `without`; what isn't right at their end is looked for of the theorems (docs/claim/DEFINITIONS.md) that these
rules break, so not that an edge may be added, or a channel lowered.

Rounds of the colouring go wrong if a node has its parent's colour in a forest after a pulse, or if neighbours in the
forests merged so far have one merged colour after a merge. What a forest's colours are depends, at each node, on its
ancestors there alone, whose identifiers ascend. So if any network of N nodes goes wrong in a forest, then some row of
ascending identifiers of 1 to N does, and rows are enough to try; the merging may need any network."""
import copy
import itertools
from collections.abc import Callable, Collection, Iterator
from dataclasses import replace
from functools import cached_property
from typing import NamedTuple

from forestplan.definitions.colours import (
    Colours,
    at_parent,
    bit,
    first_colours,
    merged,
    other_than,
    shift,
)
from forestplan.definitions.independent_set import IndependentSet
from forestplan.definitions.matching import Matching
from forestplan.definitions.nodes import COLOURING, DROPPED
from forestplan.definitions.program import Payload, Program, RoundsNode, Slot, synchronous_run
from forestplan.definitions.recolouring import Recolouring
from forestplan.network import Edge, Network
from forestplan.schedules.rules import OF_FORESTS, OF_PROGRAMS, OF_ROUNDS, rules_named

# Rows of so many nodes are tried, or networks.
MOST_ROW = 12
MOST_MERGED = 5
Nodes = dict[int, RoundsNode]


class Clash(NamedTuple):
    """Nodes v and w have one colour in a forest after a pulse, w being v's parent; or after the merge of it, if `pulse`
    is None."""

    pulse: int | None
    forest: int
    v: int
    w: int
    colour: int


class RuledRounds:
    """The rounds of the colouring without rules, once `work_out` was called. `colours[f]` are the lists of a forest
    from pulse 2 on, up to the first clash; `merged` those after each merge, and `plan` the last of these, if the rounds
    get that far; `clash` is the first one, or None."""

    def __init__(self, net: Network, without: Collection[str]) -> None:
        self.net = net
        self.without = rules_named(without, OF_ROUNDS)
        self.colours: list[list[Colours]] = [[net.identifiers] for _ in range(net.forest_count)]
        self.merged = [first_colours(net)]
        self.plan: Colours | None = None
        self.clash: Clash | None = None

    def work_out(self) -> "RuledRounds":
        for pulse in range(3, 13):
            for f, lists in enumerate(self.colours):
                lists.append(self.next_colours(pulse, f))
            if self.clash is None:
                self.clash = next(self.forest_clashes(pulse), None)
            if self.clash and pulse < 12:
                return self
        for f in range(self.net.forest_count):
            self.merged.append(self.next_merged(f))
            if self.clash is None:
                self.clash = next(self.merge_clashes(f), None)
        self.plan = self.merged[-1]
        return self

    def next_colours(self, pulse: int, f: int) -> Colours:
        """A bit step, twice the place and the digit there; a shift; or a drop of 5, 4 or 3."""
        net = self.net
        without = self.without
        c = self.colours[f][-1]
        if pulse <= 6:
            return {
                v: colour - colour % 2 if "digit" in without else colour
                for v, colour in bit(net, f, c).items()
            }
        if pulse % 2 == 1:

            def is_kept(v: int) -> bool:
                return "shift" in without or "root" in without and net.parent(f, v) is None

            return {v: c[v] if is_kept(v) else colour for v, colour in shift(net, f, c).items()}
        return {v: self.dropped(f, v) if c[v] == DROPPED[pulse] else c[v] for v in c}

    def dropped(self, f: int, v: int) -> int:
        """The colour of a node that drops its own: other than its children's, which is its own before the shift, and
        than its parent's."""
        before, c = self.colours[f][-2:]
        taken: list[int | None] = []
        if "children" not in self.without:
            taken.append(before[v])
        if "parent" not in self.without:
            taken.append(at_parent(self.net, f, c, v))
        return other_than(*taken)

    def next_merged(self, f: int) -> Colours:
        net = self.net
        old = self.merged[-1]
        if "pair" in self.without:
            old = dict.fromkeys(old, 0)
        if "earlier" in self.without:
            net = copy.copy(net)
            net.neighbours = {
                v: [w for w in ws if net.number[frozenset((v, w))] == f]
                for v, ws in net.neighbours.items()
            }
        return merged(net, f, old, self.colours[f][-1])

    def forest_clashes(self, pulse: int) -> Iterator[Clash]:
        for f, lists in enumerate(self.colours):
            for v, colour in lists[-1].items():
                parent = self.net.parent(f, v)
                if parent is not None and colour == lists[-1][parent]:
                    yield Clash(pulse, f, v, parent, colour)

    def merge_clashes(self, f: int) -> Iterator[Clash]:
        for v, w in self.net.edges:
            if self.net.number[frozenset((v, w))] <= f and self.merged[-1][v] == self.merged[-1][w]:
                yield Clash(None, f, v, w, self.merged[-1][v])

    def sentence(self) -> str:
        """What goes wrong, in a sentence or two; nothing if nothing does."""
        clash = self.clash
        if clash is None:
            return ""
        v, w = clash.v, clash.w
        if clash.pulse is None:
            said = (
                f"after the merge of forest {clash.forest} the neighbours {v} and {w} both have "
                f"colour {clash.colour}"
            )
        else:
            said = (
                f"after pulse {clash.pulse} node {v} and its parent {w} in forest {clash.forest} "
                f"both have colour {clash.colour}"
            )
            if self.plan is None:
                again = f"node {v} hears its own colour in pulse {clash.pulse + 1}, and can't go on"
                return f"{said}\n{again}"
        plan = self.merged[-1]
        same = [(a, b) for a, b in self.net.edges if plan[a] == plan[b]]
        return said + "".join(
            f"\nthe plan gives {a} and {b} channel {plan[a] + 1}" for a, b in same[:1]
        )


class WrongResult(NamedTuple):
    """What isn't right at one node, or at two that are neighbours."""

    nodes: tuple[int, ...]
    sentence: str


class RuledMatching(Matching):
    def __init__(self, net: Network, v: int, without: frozenset[str]) -> None:
        super().__init__(net, v)
        self.without = without

    def take(self, forest: int, colour: int, came: int | None) -> list[Slot]:
        partner = self.partner
        if "partner" in self.without:
            self.partner = None
        sent = super().take(forest, colour, came)
        self.partner = self.partner if partner is None else partner
        return sent


def matching_faults(net: Network, nodes: Nodes) -> Iterator[WrongResult]:
    """Each node whose partner has another one."""
    partner = {
        v: None if node.partner is None else net.neighbours[v][node.partner]
        for v, node in nodes.items()
        if isinstance(node, Matching)
    }
    for v, w in partner.items():
        if w and partner[w] != v:
            yield WrongResult(
                (v, w),
                f"the partner of node {v} is {w}, and that of node {w} is {partner[w] or 'none'}",
            )


class RuledSet(IndependentSet):
    def __init__(self, net: Network, v: int, without: frozenset[str]) -> None:
        super().__init__(net, v)
        self.without = without

    def go_on(self, pulse: int, inbox: list[Slot]) -> list[Slot]:
        self.is_beside = (self.is_beside or any(inbox)) and "beside" not in self.without
        joins = any if "class" in self.without else all
        if not joins((self.first.merged == pulse, not self.is_beside)):
            return [None] * self.degree
        self.is_in = True
        return [Payload("joined", self.first.merged) if pulse < self.span else None] * self.degree


def set_faults(net: Network, nodes: Nodes) -> Iterator[WrongResult]:
    """Each edge of which both ends are in."""
    members = {v for v, node in nodes.items() if isinstance(node, IndependentSet) and node.is_in}
    for v, w in net.edges:
        if v in members and w in members:
            yield WrongResult((v, w), f"the neighbours {v} and {w} are both in")


class RuledRecolouring(Recolouring):
    def __init__(self, net: Network, v: int, without: frozenset[str]) -> None:
        super().__init__(net, v)
        self.without = without

    def go_on(self, pulse: int, inbox: list[Slot]) -> list[Slot]:
        if "bars" in self.without:
            # The colouring has ended, so nothing else looks at them.
            self.first.barred = frozenset()
        sent = super().go_on(pulse, inbox)
        if "anew" not in self.without:
            return sent
        return [slot and Payload("anew", self.first.merged) for slot in sent]


def recolouring_faults(net: Network, nodes: Nodes) -> Iterator[WrongResult]:
    """Each edge whose ends have one channel, and each node with a channel that is barred at it."""
    colour = {v: node.present() for v, node in nodes.items() if isinstance(node, Recolouring)}
    for v, w in net.edges:
        if colour[v] == colour[w]:
            yield WrongResult(
                (v, w), f"the neighbours {v} and {w} both have channel {colour[v] + 1}"
            )
    for v, c in colour.items():
        if c in net.barred[v]:
            yield WrongResult((v,), f"node {v} has channel {c + 1}, which is barred at it")


class Ruled(NamedTuple):
    """Of a program that goes on where the colouring ends: its node with rules left out, and what isn't right at the
    end, the nodes being as they are after the last pulse."""

    node: Callable[[Network, int, frozenset[str]], RoundsNode]
    faults: Callable[[Network, Nodes], Iterator[WrongResult]]


RULED = {
    "matching": Ruled(RuledMatching, matching_faults),
    "independent-set": Ruled(RuledSet, set_faults),
    "recolouring": Ruled(RuledRecolouring, recolouring_faults),
}


def without_rules(program: Program, without: Collection[str]) -> Program:
    """A program that goes on where the colouring ends, with rules of its rounds left out."""
    rules = rules_named(without, OF_PROGRAMS[program.name])
    node = RULED[program.name].node
    # Without the rule `last`, the pulse after the last turn isn't made.
    missing = 1 if "last" in rules else 0
    return replace(
        program,
        node=lambda net, v: node(net, v, rules),
        last_pulse=lambda net: program.last_pulse(net) - missing,
        without=rules,
    )


class RuledSequel:
    """The rounds of a program that goes on where the colouring ends, without rules, played once they are asked for:
    `nodes` after the last pulse, `faults`, what isn't right there, and `clash`, the first of them, or None.
    """

    def __init__(self, net: Network, without: Collection[str], program: Program) -> None:
        self.net = net
        self.program = without_rules(program, without)

    @cached_property
    def nodes(self) -> dict[int, RoundsNode]:
        return synchronous_run(self.net, self.program)

    @cached_property
    def faults(self) -> list[WrongResult]:
        return list(RULED[self.program.name].faults(self.net, self.nodes))

    @property
    def clash(self) -> WrongResult | None:
        return self.faults[0] if self.faults else None

    def sentence(self) -> str:
        """What goes wrong, in a sentence; nothing if nothing does."""
        if self.clash is None:
            return ""
        return f"after pulse {self.program.last_pulse(self.net)} {self.clash.sentence}"


def ruled(program: Program, net: Network, without: Collection[str]) -> RuledRounds | RuledSequel:
    """The rounds of a `program` on a network `net` `without` some of its rules, which `schedules.rules.OF_PROGRAMS`
    names. Their `sentence` says what goes wrong, and is empty if nothing does. Raises ValueError for another rule.

    >>> ruled(COLOURING, Network(3, [(1, 2), (2, 3)]), ["digit"]).sentence().partition("\\n")[0]
    'after pulse 3 node 1 and its parent 2 in forest 0 both have colour 0'
    >>> ruled(COLOURING, Network(2, [(1, 2)]), []).sentence()
    ''
    """
    if program == COLOURING:
        return RuledRounds(net, without).work_out()
    return RuledSequel(net, without, program)


def networks(nodes: int, without: Collection[str]) -> Iterator[list[Edge]]:
    """The networks of a number of nodes that are enough to try, with fewer edges first: (edges)."""
    if set(without) <= set(OF_FORESTS):
        for count in range(1, nodes):
            for lower in itertools.combinations(range(1, nodes), count):
                row = (*lower, nodes)
                yield list(zip(row, row[1:]))
    else:
        pairs = list(itertools.combinations(range(1, nodes + 1), 2))
        for count in range(1, len(pairs) + 1):
            yield from (list(chosen) for chosen in itertools.combinations(pairs, count))


def smallest_wrong_rounds(
    without: Collection[str], program: Program = COLOURING
) -> tuple[RuledRounds | RuledSequel | None, int, str, int]:
    """(rounds, how many networks were tried, what these are called, of how many nodes at most) of a smallest network
    on which the rounds of a program go wrong; the rounds are None if there is none. Channel 1 is barred at node 1 if
    the bars are left out."""
    most, what = (
        (MOST_ROW, "rows") if set(without) <= set(OF_FORESTS) else (MOST_MERGED, "networks")
    )
    tried = 0
    bars = {1: [1]} if "bars" in without else {}
    for nodes in range(2, most + 1):
        for edges in networks(nodes, without):
            tried += 1
            rounds = ruled(program, Network(nodes, edges, bars=bars, name="found"), without)
            if rounds.clash:
                return rounds, tried, what, most
    return None, tried, what, most


def looked_at(
    network: Network | None, without: Collection[str], program: Program = COLOURING
) -> tuple[RuledRounds | RuledSequel | None, str]:
    """The rounds of a program on a network, or on a smallest one, if they go wrong without these rules, or None; and in
    words whether they do, and where."""
    if network is not None:
        rounds = ruled(program, network, without)
        if rounds.clash:
            return rounds, f"broken on {network.name}"
        return None, f"not broken: the rounds of {network.name} go right"
    smallest, tried, what, most = smallest_wrong_rounds(without, program)
    if smallest is None:
        return None, f"not broken: {tried:,} {what} of up to {most} nodes go right"
    edges = ", ".join(f"{v}-{w}" for v, w in smallest.net.edges)
    bar = ", channel 1 barred at node 1" if smallest.net.greatest_bars else ""
    smaller = f"; {tried - 1} smaller {what} go right" if tried > 1 else ""
    return smallest, f"broken on {smallest.net.nodes} nodes with the edges {edges}{bar}{smaller}"
