"""The rounds of the colouring at one node, and a node under synchroniser alpha, by their definitions
(docs/claim/DEFINITIONS.md), slow and plain. A wire that is refused, which a caller may only do wrong, raises
`NotPossible`.

The node under alpha is of any program (src/forestplan/definitions/program.py, which says what nodes, ports, pulses
and payloads are; src/forestplan/definitions/programs.py has all programs). Wires are as in
src/forestplan/definitions/events.py, and a network of such nodes, event by event, is `NetState` of
src/forestplan/definitions/machine.py."""
from collections.abc import Iterable
from dataclasses import dataclass
from functools import partial

from forestplan.definitions.colours import other_than
from forestplan.definitions.events import CLOSE, PULSE, Message, ack, safe
from forestplan.definitions.machine import NetState, Node, Outgoing, NotPossible
from forestplan.definitions.program import Payload, Program, RoundsNode, Slot
from forestplan.fault_codes import Code
from forestplan.network import Network
from forestplan.wording import in_words

# Up to the parent or down to a child, and the forest.
Role = tuple[str, int]


# The colour that is dropped, by the pulse.
DROPPED = {8: 5, 10: 4, 12: 3}


def last_pulse(net: Network) -> int:
    """The last pulse R of every node of the colouring on a network `net`; the pulses are 0 to R.

    >>> last_pulse(Network(2, [(1, 2)]))
    18
    """
    return 12 + 3 * net.forest_count * net.channels


class Colouring:
    """A node of the colouring; on a synchronous run nothing is refused, so refusals are left out.

    `roles[port]` is ("Up", f) if the neighbour there is the node's parent in forest f, and ("Down", f) if the node is
    the neighbour's parent there; it is None before pulse 1, and below a port of the second kind before pulse 2.
    `colours[f]` is the node's colour in forest f, `before[f]` the one before the last shift. `merged` is its colour in
    the forests merged so far, `old` the one before this merge, and `chosen` has what neighbours chose in this merge.
    """

    id: int
    degree: int
    span: int
    forests: int
    barred: frozenset[int]
    roles: list[Role | None]
    colours: list[int]
    before: list[int]
    old: int
    merged: int
    chosen: set[int]

    def __init__(self, net: Network, v: int) -> None:
        self.id = net.identifiers[v]
        self.degree = len(net.neighbours[v])
        self.span = net.span
        self.forests = net.forest_count
        self.barred = net.barred[v]
        self.roles = [None] * self.degree
        self.colours = [0] * self.forests
        self.before = [0] * self.forests
        self.old = 0
        self.merged = self.least_free(())
        self.chosen = set()

    def least_free(self, chosen: Iterable[int]) -> int:
        """The least colour of 0 to the span that is neither barred at the node nor chosen."""
        return min(set(range(self.span + 1)) - self.barred - set(chosen))

    def greet(self) -> list[Slot]:
        """What it sends at pulse 0, by port."""
        return [Payload("hello", self.id)] * self.degree

    def next(self, pulse: int, inbox: list[Slot]) -> list[Slot]:
        """What it sends at a pulse of 1 to R, by port, on what came by each port in the pulse before."""
        if pulse == 1:
            return self.orient(inbox)
        if pulse == 2:
            return self.seed(inbox)
        if pulse <= 12:
            return self.work(pulse, inbox)
        return self.merge(pulse - 13, inbox)

    def result(self) -> str:
        """What it has found after the last pulse, in the words of a state."""
        return f"channel {self.merged + 1}"

    def drawn(self) -> tuple[int | None, int | None]:
        """For pictures: the colour that the node has, and the port of the edge that it has chosen."""
        return self.merged, None

    def orient(self, inbox: list[Slot]) -> list[Slot]:
        """Pulse 1: the higher neighbours, by ascending identifier, are the parents in forests 0, 1, 2 and so on."""
        names = [slot.number for slot in inbox if slot]
        higher = sorted(number for number in names if number > self.id)
        self.roles = [
            ("Up", higher.index(number)) if number in higher else None for number in names
        ]
        return [Payload("label", role[1]) if role else None for role in self.roles]

    def seed(self, inbox: list[Slot]) -> list[Slot]:
        """Pulse 2: the forests of the other edges are known, and each colour is the identifier."""
        self.roles = [
            ("Down", slot.number) if slot and not role else role
            for role, slot in zip(self.roles, inbox)
        ]
        self.colours = [self.id] * self.forests
        return self.colours_sent()

    def colours_sent(self) -> list[Slot]:
        """Its colour in the edge's forest to each child."""
        return [
            Payload("colour", self.colours[f]) if way == "Down" else None for way, f in self.ends()
        ]

    def ends(self) -> list[Role]:
        """Its roles by port, which are all known from pulse 2 on."""
        return [role for role in self.roles if role]

    def work(self, pulse: int, inbox: list[Slot]) -> list[Slot]:
        """Pulses 3 to 12: four bit steps, and then a shift and a drop for each of 5, 4 and 3."""
        parents = {
            f: slot.number for (way, f), slot in zip(self.ends(), inbox) if way == "Up" and slot
        }
        for f, own in enumerate(self.colours):
            parent = parents.get(f)
            if pulse <= 6:
                self.colours[f] = bit_step(own, parent)
            elif pulse % 2 == 1:
                self.before[f] = own
                self.colours[f] = other_than(own) if parent is None else parent
            elif own == DROPPED[pulse]:
                self.colours[f] = other_than(self.before[f], parent)
        return [None] * self.degree if pulse == 12 else self.colours_sent()

    def merge(self, t: int, inbox: list[Slot]) -> list[Slot]:
        """Merge step t, from 0, so pulse 13 + t: a node whose colours are the step's pair chooses, and sends its
        choice to its neighbours in the forests merged so far."""
        width = self.span + 1
        forest, step = divmod(t, 3 * width)
        if step == 0:
            self.old = self.merged
            self.chosen = set()
        self.chosen |= {slot.number for slot in inbox if slot}
        if not self.has_turn((forest, *divmod(step, width))):
            return [None] * self.degree
        self.merged = self.least_free(self.chosen)
        is_last = step == 3 * width - 1
        return [
            Payload("chosen", self.merged) if f <= forest and not is_last else None
            for _, f in self.ends()
        ]

    def has_turn(self, step: tuple[int, int, int]) -> bool:
        """Whether it chooses in the merge step of a forest, a three-colour and an old colour."""
        forest, three, old = step
        return (self.colours[forest], self.old) == (three, old)


def bit_step(own: int, parent: int | None) -> int:
    """Twice the least place in which two numbers below 2^128 differ, plus the own digit there; at a root the place is
    0.

    >>> bit_step(4, 6), bit_step(7, None)
    (2, 1)
    """
    i = 0 if parent is None else next(i for i in range(128) if (own ^ parent) >> i & 1)
    return 2 * i + (own >> i & 1)


COLOURING = Program("colouring", Colouring, last_pulse)


@dataclass(eq=False)
class Port(Outgoing):
    """What a node under alpha keeps for one neighbour, with the wires that are to be put on the link.

    `waits`: the acknowledgement of its payload is still to come. `safe`, `present`: the neighbour's safe and payload of
    this pulse, if they came; `early_safe`, `early`: the same of the next pulse. `closed`: the neighbour's last wire
    came."""

    waits: bool = False
    safe: bool = False
    early_safe: bool = False
    closed: bool = False
    present: Slot = None
    early: Slot = None

    def safes(self) -> int:
        """How many safes came, of this pulse and of the next: 0 to 2."""
        return self.safe + self.early_safe

    def paid(self) -> bool:
        """Whether the payload came that the next safe comes after."""
        return self.safes() < 2 and (self.present, self.early)[self.safes()] is not None


class AlphaNode(Node):
    """A node under synchroniser alpha. It simulates the rounds of a node of a program, `simulated`: `pulse_number` is 0
    to `last`, and `safe_sent` means that it has said safe for this pulse. Its own steps are its pulses.
    """

    own = PULSE
    simulated: RoundsNode
    last: int
    ports: list[Port]
    pulse_number: int
    safe_sent: bool

    def __init__(self, net: Network, v: int, program: Program = COLOURING) -> None:
        self.simulated = program.node(net, v)
        self.last = program.last_pulse(net)
        self.ports = [Port() for _ in net.neighbours[v]]
        self.pulse_number = 0
        self.safe_sent = False
        self.enter(self.simulated.greet())

    def enter(self, sent: list[Slot]) -> None:
        """It begins a pulse: its payloads, or at the last pulse the closing marks, are to be put."""
        for port, payload in zip(self.ports, sent):
            if self.pulse_number == self.last:
                port.out.append(CLOSE)
            elif payload is not None:
                fields = (self.pulse_number, payload.word, payload.number)
                port.out.append(Message("payload", fields))
                port.waits = True
        self.settle()

    def settle(self) -> None:
        """Without an acknowledgement still to come, it says safe to all neighbours."""
        if self.pulse_number < self.last and not any(port.waits for port in self.ports):
            self.safe_sent = True
            for port in self.ports:
                port.out.append(safe(self.pulse_number))

    def can_take(self) -> bool:
        """Whether there is room for an answer to whatever comes."""
        return all(len(port.out) <= 3 for port in self.ports)

    def may_act(self) -> bool:
        """Whether it may begin its next pulse: it has said safe, and all neighbours have."""
        return (
            self.pulse_number != self.last
            and self.safe_sent
            and all(port.safe for port in self.ports)
            and self.can_take()
        )

    def next_act(self) -> int:
        return self.pulse_number + 1

    def lacks_safe(self, port: Port) -> bool:
        """Whether its next pulse waits for the safe of a neighbour."""
        return not port.safe

    def lacks(self, neighbours: list[int]) -> str:
        if self.pulse_number == self.last:
            return f"pulse {self.last} is the last"
        return lacks_words(self.pulse_number, *lacks_of(self, neighbours))

    def undone(self) -> str:
        is_last = self.pulse_number == self.last
        return "" if is_last else f"is at pulse {self.pulse_number} of {self.last}"

    def drained(self) -> bool:
        """Whether it is through with everything."""
        return self.pulse_number == self.last and all(
            port.closed and not port.out for port in self.ports
        )

    def act(self) -> None:
        """It begins its next pulse."""
        if not self.may_act():
            raise NotPossible(Code.NOT_READY)
        sent = self.simulated.next(self.pulse_number + 1, [port.present for port in self.ports])
        self.pulse_number = self.pulse_number + 1
        self.safe_sent = False
        for port in self.ports:
            port.present = port.early
            port.early = None
            port.safe = port.early_safe
            port.early_safe = False
        self.enter(sent)

    def is_due(self, port: Port, wire: Message) -> bool:
        """Whether a wire may come by a port that isn't closed: the 36 cells, as one condition for each word. Which
        refusal it is isn't said."""
        p = self.pulse_number
        expected = self.pulse_number + port.safes()
        # The pulse to which a neighbour may have come.
        horizon = min(p + 1, self.last) if self.safe_sent else p
        match wire.word, wire.fields:
            case "safe", (q,):
                return q == expected <= horizon and expected < self.last
            case "ack", (q,):
                return q == p and port.waits
            case "payload", (q, _, _):
                return q == expected <= horizon and expected < self.last and not port.paid()
            case "close", ():
                return expected == self.last == horizon
        return False

    def on_wire(self, at: int, wire: Message) -> None:
        """It takes a wire by a port."""
        port = self.ports[at]
        if port.closed or not self.is_due(port, wire):
            raise NotPossible(Code.NOT_DUE, f"{wire} at port {at}")
        match wire.word, wire.fields:
            case "safe", (q,):
                if q == self.pulse_number:
                    port.safe = True
                else:
                    port.early_safe = True
            case "ack", _:
                port.waits = False
                self.settle()
            case "payload", (int(q), str(word), int(number)):
                if q == self.pulse_number:
                    port.present = Payload(word, number)
                else:
                    port.early = Payload(word, number)
                port.out.append(ack(q))
            case _:
                port.closed = True

    def result(self) -> str:
        return self.simulated.result()


def lacks_of(node: AlphaNode, neighbours: list[int]) -> tuple[list[int], list[int]]:
    """The neighbours whose acknowledgements, and those whose safes, are still to come in a node's pulse."""
    ports = list(zip(neighbours, node.ports))
    return [w for w, port in ports if port.waits], [w for w, port in ports if node.lacks_safe(port)]


def lacks_words(pulse: int, acks: list[int], safes: list[int]) -> str:
    """`ack 0 of 2; safe 0 of 2 and 3`."""
    lacks = [("ack", acks), ("safe", safes)]
    return "; ".join(f"{word} {pulse} of {in_words(names)}" for word, names in lacks if names)


def text_of_wire(wire: Message) -> str:
    """A wire as DEFINITIONS writes it."""
    match wire:
        case Message("payload", (pulse, str(word), number)):
            return f"Payload({pulse}, {word.title()}({number}))"
        case Message(word, (pulse,)):
            return f"{word.title()}({pulse})"
    return wire.word.title()


def alpha_start(net: Network, program: Program = COLOURING) -> NetState[AlphaNode]:
    """The event machine of a network `net` at its start, whose nodes run a `program` under synchroniser alpha.

    >>> state = alpha_start(Network(2, [(1, 2)]))
    >>> [str(event) for event in state.possible()]
    ['put 1 0', 'put 2 0']
    >>> str(state.step(next(state.possible())))
    'payload 0 hello 1'
    """
    return NetState(net, partial(AlphaNode, program=program))
