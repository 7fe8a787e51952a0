"""The page on which a run without a clock is watched: wires move on their edges, and each node shows its pulse, what it
waits for, what it keeps, and its channel. One run, or two of one network side by side.

The page has no algorithm in it: what a node is after each entry is worked out here, by the slow definitions
(src/forestplan/definitions/machine.py), and written into the page as rows. page/watch.js draws it."""
import os
from collections import deque
from collections.abc import Iterator
from dataclasses import replace
from typing import NamedTuple

from forestplan.definitions.events import Entry, Kind, Message
from forestplan.definitions.machine import NetState, make_entry
from forestplan.definitions.nodes import COLOURING, AlphaNode, Colouring, alpha_start, lacks_of
from forestplan.definitions.program import Program
from forestplan.definitions.rounds import FIRST_MERGE
from forestplan.fault_codes import Code
from forestplan.faults import Fault, InText
from forestplan.network import Edge, Network
from forestplan.pictures.page_data import Look, Row, RunTable, WatchData, WireRow
from forestplan.pictures.pages import net_of, page
from forestplan.pictures.transcripts import ordered, stamp_of, window_of
from forestplan.transcripts.reading import entry_text

MOST_ENTRIES = 20_000
ORDER = (
    "The order is one of those that are possible, not that of real time: a stamp is Lamport’s clock, "
    "and it only says that a node’s own steps, and a take after its put, come one after the other."
)


# An entry, the pulse during which it is made, and what it leads to.
Step = tuple[Entry, int, Look]


def look_of(state: NetState[AlphaNode], v: int) -> Look:
    """What is shown of a node: its pulse; of whom it awaits which wire; what it has taken for its next pulse, and what
    came a pulse early; and its channel, once it has chosen one."""
    node = state.nodes[v]
    ports = list(zip(state.neighbours[v], node.ports))
    early = [(str(port.early), w) for w, port in ports if port.early]
    early += [("safe", w) for w, port in ports if port.early_safe]
    return Look(
        pulse=node.pulse_number,
        safe=node.safe_sent,
        done=node.drained(),
        waits=tuple(waits_of(state, v)),
        has=tuple((str(port.present), w) for w, port in ports if port.present),
        keeps=tuple(early),
        found=found(node),
    )


def waits_of(state: NetState[AlphaNode], v: int) -> list[tuple[str, int]]:
    """Of whom a node awaits which wire."""
    node = state.nodes[v]
    if node.pulse_number == node.last:
        ports = zip(state.neighbours[v], node.ports)
        return [("close", w) for w, port in ports if not port.closed]
    acks, safes = lacks_of(node, state.neighbours[v])
    return [("ack", w) for w in acks] + [("safe", w) for w in safes]


def found(node: AlphaNode) -> int | str:
    """Its channel once it has chosen one, or 0; of another program than the colouring the words for what it found."""
    simulated = node.simulated
    if not isinstance(simulated, Colouring):
        return simulated.result()
    # Its turn in the first merge; if nothing is merged, it has a channel at the end.
    turn = (
        FIRST_MERGE + simulated.colours[0] * (simulated.span + 1) + simulated.least_free(())
        if simulated.forests
        else node.last
    )
    return simulated.merged + 1 if node.pulse_number >= turn else 0


class Flight(NamedTuple):
    """A wire on its way: the numbers and the stamps of its put and of its take, if it is taken."""

    v: int
    w: int
    wire: Message
    put: int
    put_stamp: int
    take: int | None = None
    take_stamp: int | None = None


class Steps:
    """A run as it is played: `every` has each entry, the pulse during which it was made, and what is shown of its node
    after it; `start` is what is shown of each node before the first one."""

    def __init__(self, state: NetState[AlphaNode]) -> None:
        self.state = state
        self.start = {v: look_of(state, v) for v in state.nodes}
        self.every: list[Step] = []

    def add(self, entry: Entry) -> None:
        """The entry with its stamp that the state has just made."""
        during = self.state.nodes[entry.node].pulse_number
        self.every.append((entry, during, look_of(self.state, entry.node)))

    def by_stamp(self) -> "Steps":
        """The same in the order in which a transcript has the entries of a player."""
        self.every.sort(key=lambda row: (row[0].stamp, row[0].node))
        return self


def steps_of_text(
    name: str,
    network: Network,
    text: str,
    pulses: tuple[int, int] | None = None,
    program: Program = COLOURING,
) -> Steps:
    """The steps of a transcript, as far as they are needed for these pulses; or its first fault in words."""
    order, _ = ordered(text, name, network, program)
    state = alpha_start(network, program)
    made = dict.fromkeys(network.node_numbers, 0)
    steps = Steps(state)
    for entry in order.made:
        make_entry(state, entry)
        steps.add(entry)
        if isinstance(entry.what, int):
            made[entry.node] = entry.what
        if (
            not pulses
            and len(steps.every) > MOST_ENTRIES
            or pulses
            and min(made.values()) > pulses[1]
        ):
            break
    return steps


class ShownRun:
    """The entries of a run that are shown, `moments`, the wires among them, and the nodes before the first one. `steps`
    are those of a text, or of an `AlphaPlayer` by stamp."""

    def __init__(
        self, name: str, network: Network, steps: Steps, pulses: tuple[int, int] | None = None
    ) -> None:
        self.name = name
        self.network = network
        nodes = steps.state.nodes
        self.last = nodes[1].last
        self.is_whole = all(node.drained() for node in nodes.values())
        every = steps.every if pulses else steps.every[: MOST_ENTRIES + 1]
        self.at_pulse = {v: {0: 0} for v in network.node_numbers}
        for entry, *_ in every:
            if isinstance(entry.what, int):
                self.at_pulse[entry.node][entry.what] = stamp_of(entry)
        first, end = self.window(every, pulses)
        self.moments = every[first:end]
        self.start = steps.start | {entry.node: look for entry, _, look in every[:first]}
        self.wires = flights_of(every[:end], first)
        self.sent: dict[int, list[tuple[int, int, str]]] = {}
        for v, w, wire, *_ in self.wires:
            match wire:
                case Message("payload", (int(pulse), word, number)):
                    self.sent.setdefault(pulse, []).append((v, w, f"{word} {number}"))
        self.stamps = (0, 0)
        if self.moments:
            self.stamps = stamp_of(self.moments[0][0]) - 1, stamp_of(self.moments[-1][0])

    def window(self, every: list[Step], pulses: tuple[int, int] | None) -> tuple[int, int]:
        """Which entries are shown: from where a first node begins the first pulse to where the last one ends the
        last."""
        reached = [max(during) for during in self.at_pulse.values()]
        if pulses:
            window_of(self.name, min(self.last, *reached), pulses, 1)
        self.is_too_long = not pulses and len(every) > MOST_ENTRIES
        if self.is_too_long:
            pulses = 0, max(0, min(reached) - 1)
        self.pulses = pulses or (0, min(self.last, max(reached)))
        self.is_cut = pulses is not None and pulses != (0, self.last)
        shown = [
            at
            for at, (_, during, _) in enumerate(every)
            if self.pulses[0] <= during <= self.pulses[1]
        ]
        first, end = (shown[0], shown[-1] + 1) if shown else (0, 0)
        if end - first > MOST_ENTRIES:
            raise Fault(
                Code.TOO_MANY_ENTRIES,
                InText(self.name),
                first=self.pulses[0],
                last=self.pulses[1],
                entries=end - first,
                most=MOST_ENTRIES,
            )
        return first, end

    def payloads(self, pulse: int) -> list[tuple[int, int, str]]:
        """What was put in a pulse, in words, in one order for all runs."""
        return sorted(self.sent.get(pulse, []))

    def table(self) -> RunTable:
        """The rows that the page follows; what comes again and again has a number."""
        looks: dict[Look, int] = {}
        texts: dict[str, int] = {}

        def text(said: str) -> int:
            return texts.setdefault(said, len(texts))

        def row(entry: Entry, look: Look) -> Row:
            said = entry_text(entry).split(" ", 2)[2]
            return Row(stamp_of(entry), entry.node, looks.setdefault(look, len(looks)), text(said))

        rows = [row(entry, look) for entry, _, look in self.moments]
        wires = [
            WireRow(
                one.v, one.w, text(str(one.wire)), one.put, one.put_stamp, one.take, one.take_stamp
            )
            for one in self.wires
        ]
        return RunTable(
            name=self.name,
            start=[self.start[v] for v in self.network.node_numbers],
            rows=rows,
            wires=wires,
            looks=list(looks),
            texts=list(texts),
            stamps=self.stamps,
            all=list(self.all_at()),
        )

    def all_at(self) -> Iterator[tuple[int, int]]:
        """When the last node makes each pulse, as far as it is shown: the stamp, and how many entries are made then."""
        made = {
            entry.what: at
            for at, (entry, *_) in enumerate(self.moments, 1)
            if entry.kind is Kind.PULSE
        }
        for pulse in range(self.pulses[0], self.pulses[1] + 1):
            stamps = [reached[pulse] for reached in self.at_pulse.values() if pulse in reached]
            if len(stamps) < len(self.at_pulse):
                yield self.stamps[1], len(self.moments)
            else:
                yield min(max(*stamps, self.stamps[0]), self.stamps[1]), made.get(pulse, 0)


def run_of_text(
    name: str,
    text: str,
    network: Network,
    pulses: tuple[int, int] | None = None,
    program: Program = COLOURING,
) -> ShownRun:
    """The run of a transcript, as far as these pulses need it."""
    return ShownRun(name, network, steps_of_text(name, network, text, pulses, program), pulses)


def flights_of(every: list[Step], first: int) -> list[Flight]:
    """The wires that are on their links at or after the first entry shown; an entry before it has a negative number,
    and one after those shown none."""
    flying: dict[Edge, deque[int]] = {}
    found: list[Flight] = []
    for at, (entry, *_) in enumerate(every, -first):
        v = entry.node
        w = entry.neighbour
        wire = entry.what
        if w is None or not isinstance(wire, Message):
            continue
        if entry.kind is Kind.PUT:
            flying.setdefault((v, w), deque()).append(len(found))
            found.append(Flight(v, w, wire, at, stamp_of(entry)))
        else:
            number = flying[w, v].popleft()
            found[number] = found[number]._replace(take=at, take_stamp=stamp_of(entry))
    return [flight for flight in found if flight.take is None or flight.take >= 0]


def watch_html(runs: list[ShownRun]) -> str:
    """The page of one run, or of two of one network."""
    network = runs[0].network
    first = runs[0]
    pulses = max(run.pulses[0] for run in runs), min(run.pulses[1] for run in runs)
    title = "a run without a clock" if len(runs) == 1 else "two orders of events, the same rounds"
    each = range(pulses[0], pulses[1] + 1) if len(runs) == 2 else ()
    data = WatchData(
        net=net_of(network),
        last=first.last,
        pulses=pulses,
        runs=[replace(run.table(), name=name) for run, name in zip(runs, names_of_runs(runs))],
        same=[all(run.payloads(p) == first.payloads(p) for run in runs) for p in each],
        sent=[[(v, w, said) for v, w, said in first.payloads(p)] for p in each],
    )
    return page(
        "alone.html",
        "watch",
        data,
        title=f"{network.name}: {title}",
        about=f"{page_sentence(runs, pulses)} {ORDER}",
    )


def page_sentence(runs: list[ShownRun], pulses: tuple[int, int]) -> str:
    run = runs[0]
    shown_ = f"Pulses {pulses[0]} to {pulses[1]} of {run.last}"
    entries = " and ".join(f"{len(one.moments):,}" for one in runs)
    said = f"{shown_}, {entries} entries: each is a pulse, a put or a take of one node."
    if len(runs) == 2:
        said += (
            " At a whole number of the slider each run is at the moment when the last of its nodes makes that "
            "pulse; its other nodes may be ahead."
        )
    if any(one.is_too_long for one in runs):
        said += f" A page shows at most {MOST_ENTRIES:,} entries of a run; --pulses A..B shows other pulses."
    cut = [one for one in runs if not one.is_whole and not one.is_cut]
    return said + (f" {names_of_runs(cut)[0]} ends before the nodes are through." if cut else "")


def names_of_runs(runs: list[ShownRun]) -> list[str]:
    """What a page calls its runs: by their files, without the folders of the machine that they are on."""
    names = [os.path.basename(run.name) for run in runs]
    if len(set(names)) == len(names):
        return names
    return [f"{name} ({number})" for number, name in enumerate(names, 1)]
