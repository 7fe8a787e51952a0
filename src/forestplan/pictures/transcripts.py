"""The transcript of a run (docs/claim/FORMATS.md) as pictures need it: its entries by stamp, which is their place in
time, and of each wire when it was put and taken. src/forestplan/transcripts reads it, finds an order and judges it,
here for all pictures."""
from collections import deque
from copy import copy
from typing import NamedTuple

from forestplan.definitions.events import Entry, Kind, Message
from forestplan.definitions.program import Program
from forestplan.definitions.reacting_program import AnyProgram
from forestplan.fault_codes import Code
from forestplan.faults import Fault, InText
from forestplan.network import Edge, Network
from forestplan.transcripts.judge import FoundOrder, check_form, find_order
from forestplan.transcripts.reading import WrongEntry, read_to_fault

# How many steps of time a pulse of the rounds takes.
OF_ROUND = 100


class Wire(NamedTuple):
    """A wire from `v` to `w`, and the stamps of its put and of its take; the latter is None if nobody took it."""

    v: int
    w: int
    message: Message
    put: int
    take: int | None

    @property
    def kind(self) -> str:
        return self.message.word

    @property
    def pulse(self) -> int | None:
        """The pulse that it speaks of; None of a close."""
        match self.message.fields:
            case [int(pulse), *_]:
                return pulse
        return None

    def taken(self) -> int:
        """The stamp of its take, of a wire that was taken."""
        if self.take is None:
            raise ValueError(f"{self.title()} isn't taken")
        return self.take

    def of_pulse(self) -> int:
        """The pulse that it speaks of, of a wire that isn't a close."""
        if self.pulse is None:
            raise ValueError(f"{self.title()} speaks of no pulse")
        return self.pulse

    def title(self) -> str:
        return f"{self.v} to {self.w}: {self.message}"


def stamp_of(entry: Entry) -> int:
    """The stamp of an entry of a run, each of which has one."""
    if entry.stamp is None:
        raise ValueError(f"the entry of line {entry.line} has no stamp")
    return entry.stamp


class Run:
    """A run of nodes that run `program`: its entries, `made`, by stamp, and its `wires`; `ticks[v]` has the stamp at
    which v begins each pulse, and `reached[v]` is its last one; `last` is R. `is_stamped` says whether the text is, and
    `whole`, whether every node is through with its last pulse. `wrong` are the first entry that isn't possible, which
    ends the run, and what is wrong with it."""

    def __init__(
        self,
        name: str,
        network: Network,
        program: Program,
        order: FoundOrder,
        wrong: tuple[Entry, WrongEntry] | None,
    ) -> None:
        self.name = name
        self.network = network
        self.program = program
        self.is_stamped = order.is_stamped
        self.whole = order.is_whole()
        self.wrong = wrong
        # With stamps what comes after the fault isn't drawn.
        line = wrong[1].line if wrong and self.is_stamped else None
        self.made = [entry for entry in order.made if line is None or entry.line < line]
        self.last = program.last_pulse(network)
        self.wires = wires_by_stamp(self.made)
        self.ticks = {v: {0: 0} for v in network.node_numbers}
        self.reached = dict.fromkeys(network.node_numbers, 0)
        for entry in self.made:
            self.reached[entry.node] = stamp_of(entry)
            if isinstance(entry.what, int):
                self.ticks[entry.node][entry.what] = stamp_of(entry)

    def in_rounds(self, first: int, last: int) -> "Run":
        """The payloads of these pulses in a run whose nodes make all pulses at once: the synchronous rounds."""
        run = copy(self)
        run.ticks = dict.fromkeys(
            self.ticks, {pulse: OF_ROUND * pulse for pulse in range(first, last + 2)}
        )
        payloads = [
            wire._replace(put=OF_ROUND * wire.of_pulse(), take=OF_ROUND * (wire.of_pulse() + 1))
            for wire in self.wires
            if wire.kind == "payload" and first <= wire.of_pulse() <= last
        ]
        run.wires = sorted(payloads, key=lambda wire: (wire.v, wire.w, wire.of_pulse()))
        return run


def window_of(
    name: str, greatest: int, asked: tuple[int, int] | None, usual: int, what: str = "pulses"
) -> tuple[int, int]:
    """The first and the last pulse to be drawn, if the run has them: those asked for, or else the `usual` first
    ones."""
    first, last = asked or (0, min(greatest, usual - 1))
    if not 0 <= first <= last <= greatest:
        raise Fault(
            Code.OUTSIDE_OF_RUN, InText(name), what=what, first=first, last=last, greatest=greatest
        )
    return first, last


def wires_by_stamp(made: list[Entry]) -> list[Wire]:
    """The wires of entries by stamp. A link hands them over in the order in which they were put."""
    taken: dict[Edge, deque[int | None]] = {}
    for entry in made:
        if entry.kind is Kind.TAKE and entry.neighbour is not None:
            taken.setdefault((entry.neighbour, entry.node), deque()).append(entry.stamp)
    found = []
    for entry in made:
        v = entry.node
        w = entry.neighbour
        put = entry.stamp
        if w is None or put is None or entry.kind is not Kind.PUT:
            continue
        if isinstance(entry.what, Message):
            takes = taken.get((v, w))
            found.append(Wire(v, w, entry.what, put, takes.popleft() if takes else None))
    return found


def ordered(
    text: str, name: str, network: Network, program: AnyProgram, is_wrong_drawn: bool | None = False
) -> tuple[FoundOrder, tuple[Entry, WrongEntry] | None]:
    """The order that is found of the entries, which are then by stamp; and the first one that isn't possible, with what
    is wrong, if that is drawn, and else refused."""
    try:
        head, read, fault = read_to_fault(text.encode(), program.name)
        check_form(head, program)
    except WrongEntry as why:
        raise Fault(Code.TRANSCRIPT_REFUSED, name=name, why=why) from None
    if head.nodes != network.nodes:
        raise Fault(
            Code.NODES_OF_TRANSCRIPT,
            InText(name, head.line),
            nodes=head.nodes,
            name=network.name,
            of_network=network.nodes,
        )
    order = find_order(network, read, program)
    wrong = order.wrong(fault)
    is_drawn = is_wrong_drawn and order.first_refused() is not None
    if wrong and not (is_drawn and wrong.word not in ("X1", "NoSuch")):
        raise Fault(Code.TRANSCRIPT_REFUSED, name=name, why=wrong)
    order.made = order.stamped()
    first = order.first_refused()
    return order, (first, wrong) if wrong and first else None
