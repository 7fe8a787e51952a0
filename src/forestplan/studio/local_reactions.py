"""The runs of a small network whose nodes react to messages, by the states of its single nodes: as local_states.py has
the runs under the synchroniser. A step changes one node, and what is on its links, so the table has for each node its
states, and for each of these what its own step and every message lead to that comes to it in a run. What the file says
of where a run is depends on what the nodes have found there, and is kept by that."""
from collections.abc import Collection, Iterator
from dataclasses import dataclass, field

from forestplan.definitions.events import PUT, Message
from forestplan.definitions.own_program import asks_for_messages, what_is_wrong
from forestplan.definitions.reacting_program import Reacting, ReactingNode
from forestplan.faults import Fault
from forestplan.network import Network
from forestplan.schedules.reacting_stepwise import ReactingStepwise
from forestplan.studio.answers import Reacted
from forestplan.studio.local_states import OWN_STEP, LocalStep, TooMany
from forestplan.studio.reactions import reacted

# States of a whole network: the exclusion of three nodes has 2,332.
MOST_STATES = 10_000

Wires = tuple[Message, ...]


@dataclass(frozen=True)
class WholeState:
    """A state of the network: the number of each node's state, and the messages on each link, by the order of
    `LocalReactions.links`."""

    nodes: tuple[int, ...]
    wires: tuple[Wires, ...]


@dataclass
class LocalReaction:
    """A state of a node: what is shown of it, but for how often it has acted; and its rows, as those of a
    `LocalState`."""

    look: Reacted
    rows: dict[tuple[int, str], LocalStep] = field(default_factory=dict)


class LocalReactions:
    """All states of the nodes of a network; `found[v]` are those of a node, the first one its state at the start, and
    `starts[v]` what it puts then. `results` are those of all states of the network, and `ends` those in which nothing
    can happen; `always` says by results what the file refuses."""

    def __init__(self, network: Network, program: Reacting, without: Collection[str]) -> None:
        self.network = network
        self.program = program
        self.without = frozenset(without)
        self.player = ReactingStepwise(network, program, without)
        self.links = [(v, w) for v, ws in network.neighbours.items() for w in ws]
        self.found: dict[int, list[LocalReaction]] = {v: [] for v in network.node_numbers}
        self.nodes: dict[int, list[ReactingNode]] = {v: [] for v in network.node_numbers}
        self.numbers: dict[tuple[int, object], int] = {}
        self.sent: dict[tuple[int, int, tuple[int, str]], list[tuple[int, Message]]] = {}
        self.starts: dict[int, tuple[tuple[int, str], ...]] = {}
        self.always: dict[tuple[str, ...], str] = {}
        self.ends: set[tuple[str, ...]] = set()

    def find(self) -> "LocalReactions":
        """Raises `TooMany` if there are too many states, or if a function of the file fails in one of them."""
        if asks_for_messages(self.program.file) or self.player.is_over:
            raise TooMany
        try:
            self.search()
        except Fault:
            raise TooMany from None
        return self

    def search(self) -> None:
        todo = [self.start()]
        seen = set(todo)
        while todo:
            at = todo.pop()
            nexts = dict.fromkeys(self.steps_from(at))
            self.look_at(at, not nexts)
            todo += [one for one in nexts if one not in seen]
            seen.update(nexts)
            if len(seen) > MOST_STATES:
                raise TooMany

    def start(self) -> WholeState:
        """The state in which a run begins; what each node has put then is noted."""
        state = self.player.state
        made = [entry for entry in self.player.made if entry.kind is PUT]
        for v in self.network.node_numbers:
            own = [entry for entry in made if entry.node == v]
            self.starts[v] = tuple((entry.neighbour or 0, str(entry.what)) for entry in own)
        nodes = tuple(self.number(v, state.nodes[v]) for v in self.network.node_numbers)
        wires = tuple(tuple(state.link[v, state.port_to[v, w]]) for v, w in self.links)
        return WholeState(nodes, wires)

    def number(self, v: int, node: ReactingNode) -> int:
        """The number of a node's state."""
        key = v, node.key()
        if key not in self.numbers:
            self.numbers[key] = len(self.nodes[v])
            self.nodes[v].append(node)
            self.player.state.nodes[v] = node
            self.player.results[v] = node.result()
            self.found[v].append(LocalReaction(reacted(self.player, v)))
        return self.numbers[key]

    def look_at(self, at: WholeState, is_end: bool) -> None:
        """What the file says of a state of the network."""
        looks = [self.found[v][k].look for v, k in zip(self.network.node_numbers, at.nodes)]
        results = tuple(look.found for look in looks)
        if results not in self.always:
            by_node = dict(zip(self.network.node_numbers, results))
            self.always[results] = what_is_wrong(self.network, self.program.file, by_node, "always")
        if is_end:
            self.ends.add(results)

    def steps_from(self, at: WholeState) -> Iterator[WholeState]:
        """The states to which the steps lead that are possible in one."""
        for v, k in zip(self.network.node_numbers, at.nodes):
            if self.nodes[v][k].may_act():
                yield self.after(at, v, OWN_STEP, None)
        for slot, (w, v) in enumerate(self.links):
            wires = at.wires[slot]
            places = len(wires) if "fifo" in self.without else min(1, len(wires))
            for place in range(places):
                left = wires[:place] + wires[place + 1 :]
                taken = at.wires[:slot] + (left,) + at.wires[slot + 1 :]
                rest = WholeState(at.nodes, taken)
                yield self.after(rest, v, (w, str(wires[place])), wires[place])

    def after(
        self, at: WholeState, v: int, row: tuple[int, str], wire: Message | None
    ) -> WholeState:
        """The state after a node's own step, or after it has taken a message that is on no link any more."""
        a = v - 1
        key = v, at.nodes[a], row
        if key not in self.sent:
            self.sent[key] = self.react(v, at.nodes[a], row, wire)
        to = self.found[v][at.nodes[a]].rows[row].to
        wires = list(at.wires)
        for w, put in self.sent[key]:
            wires[self.links.index((v, w))] += (put,)
        nodes = list(at.nodes)
        nodes[a] = to or 0
        return WholeState(tuple(nodes), tuple(wires))

    def react(
        self, v: int, number: int, row: tuple[int, str], wire: Message | None
    ) -> list[tuple[int, Message]]:
        """What a node sends in a step, which is noted with its new state."""
        node = self.nodes[v][number].copied()
        near = self.network.neighbours[v]
        if wire is None:
            node.act()
        else:
            node.on_wire(near.index(row[0]), wire)
        sent = [(w, put) for w, port in zip(near, node.ports) for put in port.out]
        for port in node.ports:
            port.out.clear()
        puts = tuple((w, str(put)) for w, put in sent)
        self.found[v][number].rows[row] = LocalStep(self.number(v, node), puts)
        return sent
