"""The runs of a small network by the states of its single nodes: so all runs that the tab Adversary can make are a
table of a few thousand rows, in which a page looks up what each step leads to.

A step changes one node, and what is on its links. What it does depends on that node's state and on the wire that it
takes alone, so the table has for each node its states, and for each of these what every wire leads to that its
neighbours ever put. With all rules it leaves out what no run has: a pulse with another inbox than its round's, which
is proved not to happen. Without a rule a wire that a state has no row for is one that the node refuses."""
from collections.abc import Collection
from dataclasses import dataclass, field
from functools import cached_property

from forestplan.definitions.events import Message
from forestplan.definitions.machine import NetState, NotPossible
from forestplan.definitions.program import Program
from forestplan.network import Network
from forestplan.pictures.page_data import Look
from forestplan.pictures.watch_page import look_of
from forestplan.schedules.ruled_node import InboxRounds, RuledNode, synchronous_rounds

# States of all nodes together: more are no small table.
MOST_STATES = 60_000
# The row of a node's own step, its next pulse.
OWN_STEP = 0, ""


@dataclass
class LocalStep:
    """What a step leads to: the number of the node's state, or None if its program refuses the pulse; the wires that it
    puts, each with the neighbour; and what is wrong with it, if something is."""

    to: int | None
    puts: tuple[tuple[int, str], ...]
    fault: str | None = None


@dataclass
class LocalState:
    """A state of a node: what is shown of it, and its rows by (neighbour, wire); `OWN_STEP` is its next pulse."""

    look: Look
    rows: dict[tuple[int, str], LocalStep] = field(default_factory=dict)


class TooMany(Exception):
    """There are more states than `MOST_STATES`."""


class LocalStates:
    """All states of the nodes of a network; `found[v]` are those of a node, the first one its state at the start, and
    `starts[v]` what it puts then."""

    def __init__(self, network: Network, program: Program, without: Collection[str]) -> None:
        self.network = network
        self.program = program
        self.without = frozenset(without)
        self.state: NetState[RuledNode] = NetState(
            network, lambda net, v: RuledNode(net, v, without, program)
        )
        self.last = self.state.nodes[1].last
        self.found: dict[int, list[LocalState]] = {v: [] for v in network.node_numbers}
        self.starts: dict[int, tuple[tuple[int, str], ...]] = {}
        # The nodes themselves and their numbers, the wires that come to each by each neighbour, and what is to be done.
        self.nodes: dict[int, list[RuledNode]] = {v: [] for v in network.node_numbers}
        self.numbers: dict[tuple[int, object], int] = {}
        self.wires: dict[tuple[int, int], list[Message]] = {
            (v, w): [] for v, ws in network.neighbours.items() for w in ws
        }
        self.todo: list[tuple[int, int]] = []

    @cached_property
    def rounds(self) -> InboxRounds:
        """The rounds that the nodes simulate."""
        return synchronous_rounds(self.network, self.program)

    def find(self) -> "LocalStates":
        for v in self.network.node_numbers:
            node = self.state.nodes[v]
            self.starts[v] = self.put(v, node)
            self.number(v, node)
        while self.todo:
            v, number = self.todo.pop()
            self.pulse(v, number)
            for w in self.network.neighbours[v]:
                for wire in list(self.wires[v, w]):
                    self.take(v, number, w, wire)
        return self

    def put(self, v: int, node: RuledNode) -> tuple[tuple[int, str], ...]:
        """What a node has to put, which is put at once. A wire that is new comes to all states of the neighbour."""
        found = []
        for w, port in zip(self.network.neighbours[v], node.ports):
            for wire in port.out:
                found.append((w, str(wire)))
                if wire not in self.wires[w, v]:
                    self.wires[w, v].append(wire)
                    for number in range(len(self.nodes[w])):
                        self.take(w, number, v, wire)
            port.out.clear()
        return tuple(found)

    def number(self, v: int, node: RuledNode) -> int:
        """The number of a node's state, which is looked into if it is new."""
        key = v, node.key()
        if key not in self.numbers:
            if len(self.numbers) >= MOST_STATES:
                raise TooMany
            self.numbers[key] = len(self.nodes[v])
            self.nodes[v].append(node)
            self.state.nodes[v] = node
            self.found[v].append(LocalState(look_of(self.state, v)))
            self.todo.append((v, self.numbers[key]))
        return self.numbers[key]

    def pulse(self, v: int, number: int) -> None:
        if not self.nodes[v][number].may_act():
            return
        node = self.nodes[v][number].copied()
        fault, is_over = node.fault_of_pulse(v, self.rounds)
        rows = self.found[v][number].rows
        if is_over:
            rows[OWN_STEP] = LocalStep(None, (), fault)
        elif self.without or not fault:
            node.act()
            puts = self.put(v, node)
            rows[OWN_STEP] = LocalStep(self.number(v, node), puts, fault)

    def take(self, v: int, number: int, w: int, wire: Message) -> None:
        rows = self.found[v][number].rows
        if (w, str(wire)) in rows:
            return
        node = self.nodes[v][number].copied()
        port = self.network.neighbours[v].index(w)
        try:
            node.on_wire(port, wire)
        except NotPossible:
            return
        if self.without or self.can_be(v, node, port, wire):
            # It is there before what it puts comes back to it.
            rows[w, str(wire)] = row = LocalStep(None, ())
            row.puts = self.put(v, node)
            row.to = self.number(v, node)

    def can_be(self, v: int, node: RuledNode, port: int, wire: Message) -> bool:
        """Whether a run with all rules has it: what has come by a port is what the round has sent there."""
        if wire.word not in ("payload", "safe"):
            return True
        pulse = int(wire.fields[0])
        is_here = pulse == node.pulse_number
        got = node.ports[port].present if is_here else node.ports[port].early
        return got == self.rounds.inbox[v, pulse + 1][port]
