"""A node under the synchroniser with rules left out, and the rounds that it should simulate, of any program.
rules.OF_SCHEDULES has the rules; `fifo` is one of the links, so it is in space.py.

What a pulse does with an inbox that no round has is the program's own matter. The colouring refuses a payload that
isn't due, and a missing one that is (docs/claim/DEFINITIONS.md, refusals of the colouring), and goes on otherwise. A
program of one's own goes on with any."""
from collections.abc import Callable, Collection, Hashable
import copy
from dataclasses import dataclass
from typing import TypeVar

from forestplan.definitions.events import Message, ack
from forestplan.definitions.layers import Layers
from forestplan.definitions.leader import Leader
from forestplan.definitions.machine import NotPossible
from forestplan.definitions.nodes import COLOURING, AlphaNode, Colouring, Port, Role
from forestplan.definitions.own_program import OwnNode
from forestplan.definitions.program import Payload, Program, RoundsNode, Slot, synchronous_pulses
from forestplan.definitions.sequel import Sequel
from forestplan.definitions.values import frozen
from forestplan.fault_codes import Code
from forestplan.faults import Fault, InText
from forestplan.network import Network
from forestplan.schedules.space import SearchedNode


class RuledNode(AlphaNode, SearchedNode):
    """`wrong` says that it has made a pulse with another inbox than the round's. A node of its program that it has come
    to is never changed: a pulse makes another one."""

    def __init__(
        self, net: Network, v: int, without: Collection[str], program: Program = COLOURING
    ) -> None:
        self.without = frozenset(without)
        self.wrong = False
        super().__init__(net, v, program)
        self.key_of_simulated = kept(frozen, self.simulated)

    def settle(self) -> None:
        if "acks" in self.without:
            for port in self.ports:
                port.waits = False
        super().settle()

    def may_act(self) -> bool:
        if "safes" in self.without:
            return self.pulse_number != self.last and self.safe_sent and self.can_take()
        return super().may_act()

    def lacks_safe(self, port: Port) -> bool:
        return "safes" not in self.without and super().lacks_safe(port)

    def act(self) -> None:
        self.simulated = kept(copy_of, self.simulated)
        super().act()
        self.key_of_simulated = kept(frozen, self.simulated)

    def on_wire(self, at: int, wire: Message) -> None:
        without = self.without
        port = self.ports[at]
        match wire:
            case Message("payload") if without & {"safes", "early"}:
                self.take_payload(port, wire)
            case Message("ack") if "acks" in without:
                return
            case Message("safe") if "safes" in without:
                return
            case Message("close") if "safes" in without:
                port.closed = True
            case _:
                super().on_wire(at, wire)

    def fault_of_pulse(self, v: int, rounds: "InboxRounds") -> tuple[str | None, bool]:
        """What is wrong with its next pulse, or None; and whether its program refuses that pulse."""
        pulse = self.pulse_number + 1
        inbox = [port.present for port in self.ports]
        fault = rounds.fault(v, pulse, inbox)
        if (fault or self.wrong) and inbox_refused(self.simulated, pulse, inbox):
            return fault or f"the program of node {v} refuses the inbox of pulse {pulse}", True
        self.wrong = self.wrong or fault is not None
        return fault, False

    def take_payload(self, port: Port, wire: Message) -> None:
        """Without safes a payload may come a pulse too late, and is thrown away, or too early for its place."""
        match wire:
            case Message("payload", (int(pulse), str(word), int(number))):
                ahead = pulse - self.pulse_number
                if ahead > 1 or ahead < 0 and "safes" not in self.without:
                    raise NotPossible(Code.NOT_DUE, f"{wire}: no place for it")
                if ahead == 0 or ahead == 1 and "early" in self.without:
                    port.present = Payload(word, number)
                elif ahead == 1:
                    port.early = Payload(word, number)
                port.out.append(ack(pulse))

    def copied(self) -> "RuledNode":
        node = copy.copy(self)
        node.ports = [copy.copy(port) for port in self.ports]
        for port in node.ports:
            port.out = list(port.out)
        return node

    def key(self) -> Hashable:
        """Equal for equal states of one node."""
        return (
            self.pulse_number,
            self.safe_sent,
            self.wrong,
            self.key_of_simulated,
            tuple(
                (
                    port.waits,
                    port.safe,
                    port.early_safe,
                    port.closed,
                    port.present,
                    port.early,
                    tuple(port.out),
                )
                for port in self.ports
            ),
        )


def copy_of(node: RoundsNode) -> RoundsNode:
    return copy.deepcopy(node)


Made = TypeVar("Made")


def kept(function: Callable[[RoundsNode], Made], node: RoundsNode) -> Made:
    """What copies or compares a node of a program, if all that it keeps can be copied and compared."""
    try:
        return function(node)
    except Exception as why:
        if not isinstance(node, OwnNode):
            raise
        raise Fault(Code.CANT_BE_COPIED, InText(node.of_file.path), why=why) from None


@dataclass(eq=False)
class InboxRounds:
    """The synchronous run of a program: `inbox[v, p]` of each node and pulse from 1."""

    ports: dict[int, list[int]]
    inbox: dict[tuple[int, int], list[Slot]]

    def fault(self, v: int, p: int, inbox: list[Slot]) -> str | None:
        """How an inbox differs from the round's, at the first port at which it does; None if it doesn't."""
        for w, got, due in zip(self.ports[v], inbox, self.inbox[v, p]):
            if got is None and due is not None:
                return f"node {v} makes pulse {p} without `{due}` from {w}"
            if got is not None and got != due:
                instead = f", not with `{due}`" if due else ", which is of another round"
                return f"node {v} makes pulse {p} with `{got}` from {w}{instead}"
        return None


def synchronous_rounds(net: Network, program: Program = COLOURING) -> InboxRounds:
    """The synchronous run of a program, played here."""
    inbox: dict[tuple[int, int], list[Slot]] = {}
    for p, _, inboxes, _ in synchronous_pulses(net, program):
        inbox |= {(v, p): slots for v, slots in inboxes.items()}
    return InboxRounds(net.neighbours, inbox)


def inbox_refused(node: RoundsNode, pulse: int, inbox: list[Slot]) -> bool:
    """Whether a node refuses an inbox; one of a file refuses none."""
    match node:
        case Colouring():
            return refused_by_colouring(node, pulse, inbox)
        case Sequel():
            return pulse <= node.cut and (
                any(slot and slot.word in node.words for slot in inbox)
                or refused_by_colouring(node.first, pulse, inbox)
            )
        case Leader() | Layers():
            return node.refuses(pulse, inbox)
    return False


def refused_by_colouring(node: Colouring, pulse: int, inbox: list[Slot]) -> bool:
    """Whether the colouring refuses an inbox: what is due and missing, or not due, or a value that can't be. (A role is
    None before pulse 2, or the way and the forest.)"""
    if pulse == 1:
        return names_refused(node, inbox)
    if pulse == 2:
        return any(map(label_refused, [node.forests] * node.degree, node.roles, inbox))
    if pulse > 12:
        return choices_refused(node, pulse, inbox)
    bound = BOUNDS[pulse]
    if pulse >= 7 and max(node.colours, default=0) > bound:
        return True
    return any(colour_refused(node, bound, *pair) for pair in zip(node.ends(), inbox))


# The greatest colour of a parent, by the pulse in which a node hears it.
BOUNDS = {3: 2**128, 4: 255, 5: 15, 6: 7, 7: 5, 8: 5, 9: 4, 10: 4, 11: 3, 12: 3}


def names_refused(node: Colouring, inbox: list[Slot]) -> bool:
    """Each neighbour sends an identifier; they and the node's own differ, and not too many are higher."""
    if any(slot is None or slot.word != "hello" for slot in inbox):
        return True
    numbers = [slot.number for slot in inbox if slot]
    higher = [number for number in numbers if number > node.id]
    return len({*numbers, node.id}) <= len(numbers) or len(higher) > node.forests


def label_refused(forests: int, role: Role | None, slot: Slot) -> bool:
    """A child sends the label of a forest, and a parent nothing."""
    if role:
        return slot is not None
    return slot is None or slot.word != "label" or slot.number >= forests


def colour_refused(node: Colouring, bound: int, role: Role, slot: Slot) -> bool:
    """A parent sends a colour other than the node's own, and a child nothing."""
    way, forest = role
    if way == "Down":
        return slot is not None
    if slot is None or slot.word != "colour":
        return True
    return slot.number > bound or slot.number == node.colours[forest]


def choices_refused(node: Colouring, pulse: int, inbox: list[Slot]) -> bool:
    """In a merge neighbours in the forests merged so far send what they choose, but not before its first step; and a
    node whose turn it is finds a colour that is free."""
    width = node.span + 1
    forest, step = divmod(pulse - 13, 3 * width)
    heard = [(of_edge, slot) for (_, of_edge), slot in zip(node.ends(), inbox) if slot]
    if heard and step == 0:
        return True
    for of_edge, slot in heard:
        if slot.word != "chosen" or slot.number > node.span or of_edge > forest:
            return True
    chosen = {slot.number for _, slot in heard}
    old, taken = (node.merged, chosen) if step == 0 else (node.old, node.chosen | chosen)
    has_turn = (node.colours[forest], old) == divmod(step, width)
    return has_turn and set(range(width)) <= taken | node.barred
