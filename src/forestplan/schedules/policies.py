"""Policies: who decides what happens next in a run without a clock, by a seed. The adversary's ten habits.

A run of nodes without a common clock is a list of steps: a node takes a wire from a link, puts one on a link, or
makes a pulse. Whoever plays a run keeps a list of the steps that are possible, and asks a policy which comes next:

    policy = Policy("slow-link", network.node_numbers, network.edges, seed="7")
    step = policy.choose(steps)         # one of the list

All chance comes from the seed. So a run depends on the network, the policy, the seed and what the nodes do, and not
on how fast they are. A policy decides nothing about what is right: any order of possible steps is a run. So the slow
definitions (simulate.py) and students' nodes (the workshop's driver) are played under the same policies."""
import random
from collections.abc import Callable, Collection, Sequence
from dataclasses import dataclass
from typing import TypeVar

from forestplan.definitions.events import TAKE, Kind
from forestplan.network import Edge


@dataclass
class Step:
    """One step that is possible now, of a `kind`.

    `node` makes it, from 1; `neighbour` is the other end of a take's or put's link, and
    0 of a pulse. `wire` is the kind of the wire: payload, ack, safe or close, and empty of a pulse. `since` says when
    the step became possible, so of a take when its wire was put: a number that grows over the run. `latest` says of a
    take when the newest wire of its link was put; of other steps it is `since`.

    >>> Step(TAKE, node=2, neighbour=1, wire="ack").link
    (1, 2)
    """

    kind: Kind
    node: int
    neighbour: int = 0
    wire: str = ""
    since: int = 0
    latest: int = 0

    @property
    def link(self) -> Edge:
        """(from, to); of a pulse the node, twice."""
        if self.kind is TAKE:
            return self.neighbour, self.node
        return self.node, self.neighbour or self.node

    @property
    def place_in_cycle(self) -> tuple[Edge, str]:
        """When it comes, among others, under the policy `in-turn`: links come one after the other, and then again."""
        return self.link, self.kind.value


# What each policy does, in words; and what waits under it until no other step is possible: of a step, and of the edge
# or the node that the seed chooses.
POLICIES = {
    "random": "any step that is possible, each as likely as any other",
    "slow-link": "what goes over one edge, in either direction, waits",
    "slow-node": "what one node does waits",
    "fast-node": "what one node does comes first",
    "bursts": "one link until nothing is possible on it, then another",
    "newest": "the link that was put on last",
    "oldest": "the step that has been possible for longest: the friendliest order",
    "in-turn": "each link in turn",
    "late-acks": "acknowledgements wait",
    "late-safes": "safes wait",
}
# What the seed chooses, of policies by which something waits or comes first.
CHOSEN = {"slow-link": "edge", "slow-node": "node", "fast-node": "node"}
WAITS: dict[str, Callable[[Step, int | Edge | None], bool]] = {
    "slow-link": lambda step, edge: tuple(sorted(step.link)) == edge,
    "slow-node": lambda step, v: step.node == v,
    "fast-node": lambda step, v: step.node != v,
    "late-acks": lambda step, _: step.wire == "ack",
    "late-safes": lambda step, _: step.wire == "safe",
}


Thing = TypeVar("Thing")


class Policy:
    """Chooses steps by the policy of a `name` of POLICIES, and all chance comes from the `seed`. `nodes` and `edges`
    (pairs, the lower node first) are the network's; `chosen` is the edge or the node that waits or comes first, or
    None. Whatever the policy is, what goes over a `slow` edge and what a `lazy` node does waits until no other step is
    possible.

    >>> steps = [Step(TAKE, 2, 1, since=5, latest=5), Step(TAKE, 1, 2, since=3, latest=7)]
    >>> [Policy(name, [1, 2], [(1, 2)], seed="1").choose(steps).node for name in ("oldest", "newest")]
    [1, 1]

    Raises ValueError if no policy has this name.
    """

    def __init__(
        self,
        name: str,
        nodes: Collection[int],
        edges: Collection[tuple[int, int]],
        seed: str | int,
        slow: Collection[Edge] = (),
        lazy: Collection[int] = (),
    ) -> None:
        if name not in POLICIES:
            raise ValueError(f"no policy is called {name!r}; these are: {', '.join(POLICIES)}")
        self.name = name
        # Of a seed's generator only random() gives the same numbers in all versions of Python.
        self.source = random.Random(f"{seed} {name}")
        self.last: Step | None = None
        among: dict[str, list[int | Edge]] = {"edge": [*edges], "node": [*nodes]}
        choices = among.get(CHOSEN.get(name, ""), [])
        self.chosen = self.any_of(choices) if choices else None
        self.slow = {tuple(sorted(edge)) for edge in slow}
        self.lazy = set(lazy)

    def any_of(self, things: Sequence[Thing]) -> Thing:
        """One of these things, each as likely as any other."""
        return things[int(self.source.random() * len(things))]

    def choose(self, steps: Sequence[Step]) -> Step:
        """One of the steps, of which there is at least one."""
        if self.slow or self.lazy:
            steps = [
                step
                for step in steps
                if step.node not in self.lazy and tuple(sorted(step.link)) not in self.slow
            ] or steps
        step = self.chosen_of(steps)
        self.last = step
        return step

    def chosen_of(self, steps: Sequence[Step]) -> Step:
        """One of these steps, by the policy alone."""
        if self.name == "newest":
            # It pulls the older wires of its link with it.
            return max(steps, key=lambda step: step.latest)
        if self.name == "oldest":
            return min(steps, key=lambda step: step.since)
        if self.name == "in-turn":
            return self.next_in_turn(steps)
        if self.name == "bursts":
            link = self.last_link()
            same = [step for step in steps if step.link == link]
            return same[0] if same else self.any_of(steps)
        if self.name in WAITS:
            waits = WAITS[self.name]
            steps = [step for step in steps if not waits(step, self.chosen)] or steps
        return self.any_of(steps)

    def last_link(self) -> Edge | None:
        """The link of the step that was chosen last, if one was."""
        return self.last.link if self.last else None

    def next_in_turn(self, steps: Sequence[Step]) -> Step:
        """The step whose link comes next after that of the last one."""
        last = self.last.place_in_cycle if self.last else ((0, 0), "")
        after = [step for step in steps if step.place_in_cycle > last]
        return min(after or steps, key=lambda step: step.place_in_cycle)
