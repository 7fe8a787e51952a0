"""Every schedule of a tiny network under synchroniser alpha, whose nodes run a program by rounds.

    space = AlphaSpace(net, without=("safes",), limit=200_000).search()

It is a `Space` (space.py) of nodes whose own steps are pulses. `program` is what they run. Each pulse is compared with
the round's, and something has to be possible until all nodes are through. `without` has rules of rules.OF_SCHEDULES.

With `reduce`, a safe or a close that comes next on its link is taken at once and alone, which leaves most states out
(see `alone`). What each pulse finds, what is refused, and the ends stay; the number of schedules, shortest lists, how
far neighbours are apart and how much a link holds don't.

    space.last            the last pulse of each node
    space.nodes(s)        {v: Status}: pulse, stage (asks, safe, ready, last, whole), waits (what it waits for, as
                          (wire, w)), wrong (it has made a pulse with another inbox than the round's), colour (merged
                          so far, of the colouring alone) and result (what it has found so far, in words)
    space.schedules       how many lists of events lead from the start to an end; None if events are possible in
                          different numbers, which they are not if no rule is left out
    space.farthest        the most pulses that two neighbours are apart in any state
"""
from collections.abc import Collection
from functools import partial
from typing import NamedTuple

from forestplan.definitions.events import Message
from forestplan.definitions.nodes import COLOURING, Colouring
from forestplan.definitions.own_program import UnderWay
from forestplan.definitions.program import Program
from forestplan.network import Network
from forestplan.schedules.ruled_node import InboxRounds, RuledNode, synchronous_rounds
from forestplan.schedules.space import REFUSED, Move, Progress, Space, State


class Status(NamedTuple):
    """What is told of a node in a state."""

    pulse: int
    stage: str
    waits: list[tuple[str, int]]
    wrong: bool
    colour: int | None
    result: str


class AlphaSpace(Space[RuledNode]):
    """Every schedule of a tiny network `net` whose nodes run a `program` by rounds, once `search` has found them: its
    states, the steps between them, and what goes wrong. Four nodes are many, for six programs.

    Rules of the synchroniser can be left out: `without` has some of `schedules.rules.OF_SCHEDULES`. A search ends at
    its first fault, and at more than `limit` states, and then `is_cut` is true. With `reduce` it leaves most states
    out, and finds the same ends and faults.

    >>> space = AlphaSpace(Network(1, []), reduce=True).search()
    >>> space.count, space.depth[space.ends[0]], space.results(space.ends[0])
    (13, 12, {1: 'channel 1'})
    >>> wrong = AlphaSpace(Network(2, [(1, 2)]), without=["safes"]).search()
    >>> [str(event) for event in wrong.path_to_fault()][-1], len(wrong.faults) > 0
    ('pulse 2', True)
    """

    rounds: InboxRounds

    def __init__(
        self,
        net: Network,
        without: Collection[str] = (),
        limit: int = 1_000_000,
        reduce: bool = False,
        program: Program = COLOURING,
    ) -> None:
        node_of = partial(RuledNode, without=without, program=program)
        super().__init__(net, node_of, program.file, without, limit)
        self.program = program
        self.reduce = reduce
        self.last = program.last_pulse(net)

    def search(self, progress: Progress | None = None) -> "AlphaSpace":
        """Finds all states; `progress` is told now and then how many states and events there are. Returns the space."""
        self.rounds = synchronous_rounds(self.net, self.program)
        super().search(progress)
        return self

    def fault_of_act(self, v: int, node: RuledNode) -> tuple[str | None, bool]:
        return node.fault_of_pulse(v, self.rounds)

    def alone(self, moves: list[Move]) -> Move | None:
        """With `reduce`, the take of a safe or a close that comes next on its link, if a node has one among its moves.

        Such a take sends nothing. It stays possible, with the same effect, whatever else happens first: others only add
        to the end of the link, and at its node a pulse or a take from another link neither needs what it changes to be
        as it was nor makes it impossible. So each list of events can be changed into one in which it
        comes first, by exchanging neighbours that don't depend on each other, and what each pulse finds and whatever
        is refused stays as it is. Without `safes` or `fifo` that isn't so. (A take that is refused isn't meant.)
        """
        for move in moves if self.reduce else ():
            wire = self.events[move.event].message
            if move.value is not None and wire and wire.word in ("safe", "close"):
                return move
        return None

    def under_way(self, state: State) -> list[UnderWay]:
        """(sender, receiver, payload) by identifier, ascending, of what is sent and not yet read: on its link, or taken
        for this pulse's inbox or the next."""
        name = self.net.identifiers
        found: list[tuple[int, int, tuple[str, int]]] = []
        for a, v in enumerate(self.node_numbers):
            for w, port in zip(self.ports[v], self.locals[a][state[a]].ports):
                for number in self.contents[state[self.slot[v, w]]]:
                    match self.wires[number]:
                        case Message("payload", (_, str(word), int(value))):
                            found.append((name[v], name[w], (word, value)))
                for slot in (port.present, port.early):
                    if slot is not None:
                        found.append((name[w], name[v], (slot.word, slot.number)))
        return [*sorted(found)]

    def fault_of_end(self, s: int) -> str:
        return "" if self.is_whole(self.states[s]) else self.stuck_words(s)

    def is_whole(self, state: State) -> bool:
        """Whether all nodes are through, and all links empty."""
        return all(
            self.locals[a][state[a]].drained() for a in range(len(self.node_numbers))
        ) and not any(state[len(self.node_numbers) :])

    def stuck_words(self, s: int) -> str:
        """That nothing is possible in a state before the end, and who waits for what."""
        waiting = [
            f"node {v} waits for {' and '.join(f'{wire} from {w}' for wire, w in node.waits)}"
            for v, node in self.nodes(s).items()
            if node.waits
        ]
        said = "nothing is possible before the end"
        return f"{said}, and {', '.join(waiting)}" if waiting else said

    # What is read off.

    def nodes(self, s: int) -> dict[int, Status]:
        """Where each node is in a state, by its node."""
        return {
            v: self.status_of(v, self.locals[a][self.states[s][a]])
            for a, v in enumerate(self.node_numbers)
        }

    def status_of(self, v: int, node: RuledNode) -> Status:
        """Where a node is."""
        simulated = node.simulated
        colour = simulated.merged if isinstance(simulated, Colouring) else None
        stage, waits = self.stage_of(v, node)
        return Status(node.pulse_number, stage, waits, node.wrong, colour, simulated.result())

    def stage_of(self, v: int, node: RuledNode) -> tuple[str, list[tuple[str, int]]]:
        """How far a node is in its pulse, and the wires for which it waits there."""
        p = node.pulse_number
        ports = list(zip(self.ports[v], node.ports))
        if p == self.last:
            waits = [("close", w) for w, port in ports if not port.closed]
            return ("last" if waits else "whole"), waits
        if not node.safe_sent:
            return "asks", [(f"ack {p}", w) for w, port in ports if port.waits]
        if "safes" in self.without:
            return "ready", []
        waits = [(f"safe {p}", w) for w, port in ports if not port.safe]
        return ("safe" if waits else "ready"), waits

    @property
    def farthest(self) -> int:
        """The most pulses that two neighbours are apart in any state."""
        places = [
            (self.node_numbers.index(v), self.node_numbers.index(w)) for v, w in self.links if v < w
        ]
        pulses = [[node.pulse_number for node in nodes] for nodes in self.locals]
        return max(
            (
                abs(pulses[a][state[a]] - pulses[b][state[b]])
                for state in self.states
                for a, b in places
            ),
            default=0,
        )

    @property
    def schedules(self) -> int | None:
        """How many lists of events lead from the start to an end; None if they have different numbers of events."""
        if self.expanded < self.count:
            return None
        ways = [0] * self.count
        found = 0
        ways[0] = 1
        for s in range(self.count):
            targets = self.target[self.first[s] : self.first[s + 1]]
            for t in targets:
                if t == REFUSED or self.depth[t] != self.depth[s] + 1:
                    return None
                ways[t] += ways[s]
            found += 0 if targets else ways[s]
            ways[s] = 0
        return found
