"""The event machine: a network of nodes without a common clock, event by event, by its definition
(docs/claim/DEFINITIONS.md), slow and plain. What a caller may only do wrong (an event that isn't possible) raises
`NotPossible`.

A node reacts to each message that it takes, and may have steps of its own, as the pulses of a node under synchroniser
alpha are (`AlphaNode` of src/forestplan/definitions/nodes.py). Messages and events are as in
src/forestplan/definitions/events.py."""
from collections.abc import Callable, Iterator, Sequence
from dataclasses import dataclass, field
from typing import Generic, Protocol, TypeVar

from forestplan.definitions.events import PUT, TAKE, Entry, Event, Kind, Message
from forestplan.fault_codes import Code
from forestplan.network import Network


class NotPossible(Exception):
    """Why an event isn't possible: a code; of a message that isn't due, which it is."""

    def __init__(self, code: Code, message: str = "") -> None:
        super().__init__(code, message)
        self.code = code


@dataclass(eq=False)
class Outgoing:
    """What a node keeps for one neighbour: `out` are the messages that are to be put on the link, the first one
    next."""

    out: list[Message] = field(default_factory=list)


class Node(Protocol):
    """A node of the event machine: what it puts on its links, it has in lists by port, and takes what comes by them.
    `own` is the kind of its own steps."""

    own: Kind
    ports: Sequence[Outgoing]

    def may_act(self) -> bool:
        """Whether it may make a step of its own."""

    def act(self) -> None:
        """It makes a step of its own."""

    def next_act(self) -> int:
        """The number of its next step of its own."""

    def on_wire(self, at: int, wire: Message) -> None:
        """It takes a message by a port; raises `NotPossible` if that isn't due."""

    def lacks(self, neighbours: list[int]) -> str:
        """What its next step of its own waits for, or why there is none."""

    def undone(self) -> str:
        """What it has to do before it is through, in words; nothing if it may stop where it is."""

    def result(self) -> str:
        """What it has found so far, in words."""


AnyNode = TypeVar("AnyNode", bound=Node, covariant=True)


class NetState(Generic[AnyNode]):
    """A network `net` of nodes without a common clock, event by event: every node at its start, as `node_of(net, v)`
    makes it; `link[v, port]` holds what was put on the link out of v by that port and not taken. `events[kind, v, w]`
    are all events that there are, by the node and its neighbour, which is None of a node's own step.

    >>> from forestplan.definitions.nodes import alpha_start
    >>> state = alpha_start(Network(2, [(1, 2)]))
    >>> [str(event) for event in state.possible()]
    ['put 1 0', 'put 2 0']
    >>> str(state.step(state.events[PUT, 1, 2])), len(state.link[1, 0])
    ('payload 0 hello 1', 1)

    Its methods raise `Refused` of an event that isn't possible.
    """

    neighbours: dict[int, list[int]]
    port_to: dict[tuple[int, int], int]
    nodes: dict[int, AnyNode]
    link: dict[tuple[int, int], list[Message]]
    events: dict[tuple[Kind, int, int | None], Event]

    def __init__(self, net: Network, node_of: Callable[[Network, int], AnyNode]) -> None:
        self.neighbours = net.neighbours
        self.port_to = {
            (v, w): port for v, ws in self.neighbours.items() for port, w in enumerate(ws)
        }
        self.nodes = {v: node_of(net, v) for v in net.neighbours}
        self.link = {(v, port): [] for (v, _), port in self.port_to.items()}
        self.events = {(node.own, v, None): Event(node.own, v) for v, node in self.nodes.items()}
        for (v, w), port in self.port_to.items():
            for kind in (PUT, TAKE):
                self.events[kind, v, w] = Event(kind, v, port)

    def link_to(self, v: int, port: int) -> list[Message]:
        """What the link holds that comes to v by that port."""
        w = self.neighbours[v][port]
        return self.link[w, self.port_to[w, v]]

    def carried(self, event: Event) -> int | Message:
        """What an event carries that is possible now: the number of a node's own step, or the message that is put or
        taken."""
        v = event.node
        port = event.port
        if v not in self.nodes or port is not None and port >= len(self.nodes[v].ports):
            raise NotPossible(Code.NO_SUCH)
        node = self.nodes[v]
        if port is None:
            if not node.may_act():
                raise NotPossible(Code.NOT_READY)
            return node.next_act()
        wires = node.ports[port].out if event.kind is PUT else self.link_to(v, port)
        if not wires:
            raise NotPossible(Code.NOTHING_TO_PUT if event.kind is PUT else Code.LINK_EMPTY)
        return wires[0]

    def step(self, event: Event, what: int | Message | None = None) -> int | Message:
        """Makes an event that is possible, and carries this if that is given; returns what it carries."""
        carried = self.carried(event)
        if what is not None and what is not carried and what != carried:
            raise NotPossible(Code.WRONG_WIRE)
        v = event.node
        port = event.port
        if port is None or isinstance(carried, int):
            self.nodes[v].act()
        elif event.kind is PUT:
            self.link[v, port].append(self.nodes[v].ports[port].out.pop(0))
        else:
            self.nodes[v].on_wire(port, carried)
            self.link_to(v, port).pop(0)
        return carried

    def possible(self) -> Iterator[Event]:
        """All events that are possible now."""
        for v, node in self.nodes.items():
            if node.may_act():
                yield self.events[node.own, v, None]
            for port, w in enumerate(self.neighbours[v]):
                if node.ports[port].out:
                    yield self.events[PUT, v, w]
                if self.link_to(v, port):
                    yield self.events[TAKE, v, w]


def missing_words(state: NetState[Node], event: Event) -> str:
    """What comes after the line of an event that isn't possible: what a node's own step waits for, or the out-list or
    the link that is empty."""
    v = event.node
    port = event.port
    if v not in state.nodes or port is not None and port >= len(state.nodes[v].ports):
        return ""
    if port is not None:
        w = state.neighbours[v][port]
        return f": list of {v} for {w}" if event.kind is PUT else f": link from {w} to {v}"
    return f": {state.nodes[v].lacks(state.neighbours[v])}"


def event_of(state: NetState[Node], entry: Entry) -> Event:
    """The event of an entry of a transcript."""
    event = state.events.get((entry.kind, entry.node, entry.neighbour))
    if event is None:
        raise NotPossible(Code.NO_SUCH)
    return event


def entry_words(state: NetState[Node], entry: Entry, refused: NotPossible) -> str:
    """What comes after the line of a refused entry: what its event lacks, or the step or message to which its event
    comes."""
    if refused.code is Code.NO_SUCH:
        return ""
    event = event_of(state, entry)
    if refused.code is not Code.WRONG_WIRE:
        return missing_words(state, event)
    due = state.carried(event)
    return f": expected {entry.kind.value} {due}" if isinstance(due, int) else f": expected {due}"


def make_entry(state: NetState[Node], entry: Entry) -> None:
    """The event of an entry of a transcript, if it is possible with what the entry says; otherwise nothing is
    changed."""
    state.step(event_of(state, entry), entry.what)
