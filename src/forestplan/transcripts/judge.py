"""The judge of transcripts of nodes without a common clock. It is written from the pages in docs/ alone.

A transcript of edition 1 has the entries of each node in that node's own order, and says nothing of the order
between nodes. This program looks for an order of all entries that is a run, and demands that the run is whole. One
of edition 2, 3 or 4 has an order, and stamps."""
from collections import deque
from dataclasses import replace
from typing import NamedTuple

from forestplan.definitions.events import ACT, PUT, Entry, Message
from forestplan.definitions.machine import NotPossible, make_entry
from forestplan.definitions.nodes import COLOURING
from forestplan.definitions.own_program import what_is_wrong
from forestplan.definitions.program import Program
from forestplan.definitions.reacting_program import AnyProgram, Reacting, results_in, start_of
from forestplan.fault_codes import Code
from forestplan.network import Network
from forestplan.transcripts.fields import fields_in_bytes
from forestplan.transcripts.reading import Head, WrongEntry, bytes_of, read_to_fault
from forestplan.transcripts.stamps import Clock, check_whole, refusal, unfinished


class FoundOrder:
    """What is found of entries: those `made`, in an order that is a run, their `stamps`, and the `state` after them;
    and of each node whose entries can't all be made, those that are `left`, and the code of the refusal of the
    first one."""

    def __init__(self, net: Network, entries: list[Entry], program: AnyProgram) -> None:
        self.entries = entries
        self.is_stamped = bool(entries) and entries[0].stamp is not None
        self.state = start_of(net, program)
        self.clock = Clock(net.neighbours)
        self.made: list[Entry] = []
        self.stamps: list[int] = []
        self.left: dict[int, deque[Entry]] = {}
        self.refusals: dict[int, Code] = {}
        for entry in entries:
            self.left.setdefault(entry.node, deque()).append(entry)

    def make_next(self, v: int) -> None:
        """Makes the next entry of a node of which none was refused, if that is possible with what it says."""
        entry = self.left[v][0]
        try:
            make_entry(self.state, entry)
        except NotPossible as refused:
            self.refusals[v] = refused.code
            return
        stamp = self.clock.next(entry.kind, v, entry.neighbour)
        if self.is_stamped:
            last = self.made[-1] if self.made else entry
            if entry.stamp != stamp or (last.stamp or 0, last.node) > (stamp, v):
                self.refusals[v] = Code.WRONG_STAMP
                return
        self.left[v].popleft()
        self.made.append(entry)
        self.stamps.append(stamp)

    def stamped(self) -> list[Entry]:
        """The entries that were made, each with its stamp, by stamp and then by node."""
        made = [replace(entry, stamp=stamp) for entry, stamp in zip(self.made, self.stamps)]
        return sorted(made, key=lambda entry: (entry.stamp, entry.node))

    def first_refused(self) -> Entry | None:
        """Of the entries that are next and not possible: with stamps the first. Else the first that its own node can't
        make, whatever the others do; if they all wait for a neighbour, the first that waits for one which is through;
        else the first."""

        def rank(entry: Entry) -> tuple[bool, bool, int]:
            waits = self.waits(entry)
            w = entry.neighbour
            return waits, waits and w is not None and bool(self.left.get(w)), entry.line

        following = [own[0] for own in self.left.values() if own]
        return min(following, key=rank) if following else None

    def waits(self, entry: Entry) -> bool:
        """Whether others could still make it possible."""
        return self.refusals[entry.node] is Code.LINK_EMPTY and not self.is_stamped

    def wrong(self, fault: WrongEntry | None = None) -> WrongEntry | None:
        """What is wrong first, if something is: `fault` is that of a line after the entries, which comes before an
        entry that waits for a neighbour."""
        entry = self.first_refused()
        if entry is None or fault and self.waits(entry):
            return fault
        return refusal(self.state, entry, self.refusals[entry.node], self.entries, self.clock)

    def is_whole(self) -> bool:
        return not self.refusals and not any(unfinished(self.state))


def find_order(net: Network, entries: list[Entry], program: AnyProgram = COLOURING) -> FoundOrder:
    """Makes the entries in their order, if they have stamps, and else the next one of any node as long as one is
    possible.

    If any order of all entries is a run, this finds one. The entries of a node come in a given order, so what the node
    does and puts follows from how many of them were made. Whether its next entry is possible depends on the node alone,
    and for a take also on the wire that is next on the link: it is there once the neighbour has put it, and nobody else
    takes it. So an entry that is possible stays so, with the same wire, whatever the other nodes do first. Suppose that
    an order is a run, and that this search stops earlier. The first entry of that order that the search hasn't made has
    all those before it made: so it is possible, and the search wouldn't have stopped. The entries that are left, and
    why, are the same in every search.

    A node is looked at again only if a neighbour has put the wire that it waits for; so the time is linear.
    """
    found = FoundOrder(net, entries, program)
    if found.is_stamped:
        for entry in entries:
            if entry.node not in found.refusals:
                found.make_next(entry.node)
        return found
    left = found.left
    refusals = found.refusals
    work = sorted(found.left, reverse=True)
    while work:
        v = work.pop()
        refusals.pop(v, None)
        while left[v] and v not in refusals:
            entry = left[v][0]
            found.make_next(v)
            w = entry.neighbour
            if w is None or entry.kind is not PUT or refusals.get(w) is not Code.LINK_EMPTY:
                continue
            if left[w][0].neighbour == v:
                work.append(w)
    return found


def check_form(head: Head, program: AnyProgram) -> None:
    """Refuses a transcript of rounds for a program without rounds, and the other way round."""
    if isinstance(program, Reacting) and head.own is not ACT:
        names = {"edition": head.edition, "program": program.name}
        raise WrongEntry(head.line, Code.EDITION_OF_ROUNDS, **names)
    if isinstance(program, Program) and head.own is ACT:
        raise WrongEntry(head.line, Code.EDITION_OF_REACTIONS, program=program.name)


class JudgedRun(NamedTuple):
    """What is found of a transcript that is right: the `lines` of its entries, in an order that is a run, and the
    `verdict` in words.

    >>> JudgedRun([2, 3], "whole run of 1 nodes, 2 entries").lines
    [2, 3]
    """

    lines: list[int]
    verdict: str


def whole_run(net: Network, text: str | bytes, program: AnyProgram = COLOURING) -> JudgedRun:
    """Judges the `text` of a transcript of a `program` on a network `net`: returns the verdict, and the lines of the
    entries in an order that is a run. Here a network of one node makes its pulses alone.

    >>> pulses = "".join(f"1 pulse {p}\\n" for p in range(1, 13))
    >>> whole_run(Network(1, []), "transcript 1 1\\n" + pulses).verdict
    'whole run of 1 nodes, 12 entries, 0 payloads, 0 wires'

    Raises `WrongEntry` of the first entry that isn't possible, of a run that isn't whole, and of nodes that react to
    messages if their end isn't right.
    """
    head, entries, fault = read_to_fault(text, program.name)
    check_form(head, program)
    if head.nodes != net.nodes:
        raise WrongEntry(head.line, Code.NODES, nodes=head.nodes, of_network=net.nodes)
    found = find_order(net, entries, program)
    if wrong := found.wrong(fault):
        raise wrong
    check_whole(found.state, entries[-1] if entries else head)
    said = verdict(net, entries, head)
    if isinstance(program, Reacting):
        if why := what_is_wrong(net, program.file, results_in(found.state)):
            raise not_right(said, why)
    return JudgedRun([entry.line for entry in found.made], said)


def not_right(said: str, why: str) -> WrongEntry:
    """Of a whole run whose end the file of the program doesn't call right."""
    return WrongEntry(None, Code.NOT_RIGHT, run=said, why=why)


def verdict(net: Network, entries: list[Entry], head: Head) -> str:
    """Of a whole run: each wire is put once."""
    puts = [
        entry.what for entry in entries if entry.kind is PUT and isinstance(entry.what, Message)
    ]
    whole = f"whole run of {net.nodes} nodes, {len(entries)} entries"
    if head.own is ACT:
        return f"{whole}, {len(puts)} messages"
    payloads = sum(wire.word == "payload" for wire in puts)
    return f"{whole}, {payloads} payloads, {len(puts)} wires"


def transcript_in_order(made: list[int], text: str | bytes) -> bytes:
    """The `text` of a transcript with the entries of the lines `made` in this order, as `whole_run` has found them, in
    bytes.

    >>> transcript_in_order([3, 2], "transcript 1 2\\n1 pulse 1\\n2 pulse 1\\n")
    b'transcript 1 2\\n2 pulse 1\\n1 pulse 1\\n'
    """
    lines = bytes_of(text).split(b"\n")
    head = next(line for line in lines if fields_in_bytes(line))
    return b"".join(line + b"\n" for line in [head] + [lines[line - 1] for line in made])
