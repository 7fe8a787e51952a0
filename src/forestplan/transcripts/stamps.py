"""Why an entry isn't possible, or a run not whole, in words; and Lamport's clock, which counts the stamps."""
from collections import deque
from collections.abc import Iterable, Iterator
from typing import TYPE_CHECKING

from forestplan.definitions.events import PULSE, PUT, TAKE, Entry, Kind
from forestplan.definitions.machine import NetState, Node, event_of, missing_words
from forestplan.definitions.nodes import AlphaNode, lacks_of
from forestplan.fault_codes import Code
from forestplan.transcripts.reading import Head, WrongEntry, entry_text

# Only what is refused pays for what the import takes: so functions import it.
if TYPE_CHECKING:
    from forestplan.transcripts.rules import Standing


class Clock:
    """Lamport's clock: the counter of each of the `nodes`, from 0, and of each link the stamps of the wires that
    were put and not taken.

    >>> clock = Clock([1, 2])
    >>> clock.next(PULSE, 1, None), clock.next(PUT, 1, 2), clock.next(TAKE, 2, 1)
    (1, 2, 3)
    """

    def __init__(self, nodes: Iterable[int]) -> None:
        self.counters = dict.fromkeys(nodes, 0)
        self.links: dict[tuple[int | None, int | None], deque[int]] = {}

    def next(self, kind: Kind, v: int, neighbour: int | None) -> int:
        """The stamp of the next entry of v: one more than the counter, and of a take also than the stamp of the
        put."""
        stamp = self.counters[v]
        if kind is TAKE:
            stamp = max(stamp, self.links[neighbour, v].popleft())
        self.counters[v] = stamp + 1
        if kind is PUT:
            self.links.setdefault((v, neighbour), deque()).append(stamp + 1)
        return stamp + 1


def check_whole(state: NetState[Node], last: Entry | Head) -> None:
    """Refuses a run that ends too early: what isn't done yet, or who owes what if nothing is on its way. `last` is its
    last entry, or the first line."""
    if undone := next(unfinished(state), None):
        is_on_its_way = any(state.link.values())
        stand = [(v, at) for v in state.nodes if (at := standing(state, v))]
        if is_on_its_way or not stand:
            raise WrongEntry(last.line, Code.NOT_WHOLE, undone=undone[1])
        from forestplan.transcripts.rules import stuck_words

        raise WrongEntry(last.line, Code.STUCK, owing=stuck_words(stand))


def standing(state: NetState[Node], v: int) -> "Standing | None":
    """Where a node under the synchroniser is, for the words on its next entry; None of another node."""
    from forestplan.transcripts.rules import Standing

    node = state.nodes[v]
    if not isinstance(node, AlphaNode):
        return None
    puts = {w: str(port.out[0]) for w, port in zip(state.neighbours[v], node.ports) if port.out}
    is_at_the_end = node.pulse_number == node.last
    lacks = ([], []) if is_at_the_end or node.may_act() else lacks_of(node, state.neighbours[v])
    return Standing(node.pulse_number, node.last, node.may_act(), *lacks, puts, "for {}")


# The refusals of a pulse or a put that break a rule.
OF_RULES = (Code.NOT_READY, Code.NOTHING_TO_PUT, Code.WRONG_WIRE)


def refusal(
    state: NetState[Node], entry: Entry, code: Code, entries: list[Entry], clock: Clock
) -> WrongEntry:
    """Of an entry that isn't possible: what it lacks or what is due there, and the rule that a pulse or a put
    breaks."""
    if code is Code.LINK_EMPTY:
        return why_link_empty(entry, entries)
    if code is Code.WRONG_STAMP:
        due = clock.counters[entry.node]
        code = Code.OUT_OF_ORDER if entry.stamp == due else code
        return WrongEntry(entry.line, code, entry=entry_text(entry), stamp=entry.stamp, due=due)
    if code is Code.NO_SUCH:
        return WrongEntry(entry.line, code, entry=entry_text(entry))
    at = standing(state, entry.node)
    due_wire = state.carried(event_of(state, entry)) if code is Code.WRONG_WIRE else None
    if at:
        rule = rule_broken(at, entry) if code in OF_RULES else ""
        lacks = at.lacks
        return WrongEntry(
            entry.line, code, entry=entry_text(entry), lacks=lacks, due=due_wire, rule=rule
        )
    if code is Code.NOT_READY:
        lacks = missing_words(state, event_of(state, entry))
        return WrongEntry(entry.line, Code.STEP_NOT_READY, entry=entry_text(entry), lacks=lacks)
    return WrongEntry(entry.line, code, entry=entry_text(entry), lacks="", due=due_wire, rule="")


def rule_broken(at: "Standing", entry: Entry) -> str:
    """The rule that a pulse or a put breaks, in words; a take breaks none."""
    if entry.kind is TAKE:
        return ""
    what = "pulse" if entry.kind is PULSE else f"put {entry.neighbour}"
    from forestplan.transcripts.rules import rule_of

    return rule_of(at, f"{what} {entry.what}", says_lacks=False)


def why_link_empty(entry: Entry, entries: list[Entry]) -> WrongEntry:
    """Of a wire that isn't there: where it is put, or that it never is."""
    link = entry.neighbour, entry.node
    taken = sum(
        e.kind is TAKE and (e.neighbour, e.node) == link and e.line < entry.line for e in entries
    )
    puts = [e for e in entries if e.kind is PUT and (e.node, e.neighbour) == link][taken:]
    put = next((e for e in puts if e.what == entry.what), None)
    if put:
        return WrongEntry(entry.line, Code.PUT_LATER, entry=entry_text(entry), put=put.line)
    never = {"entry": entry_text(entry), "neighbour": entry.neighbour}
    return WrongEntry(entry.line, Code.LINK_EMPTY, **never)


def unfinished(state: NetState[Node]) -> Iterator[tuple[int, str]]:
    """What a state lacks for a whole run: a node, and what it hasn't done."""
    for v, node in state.nodes.items():
        if undone := node.undone():
            yield v, f"node {v} {undone}"
    for (v, w), port in state.port_to.items():
        for wire in state.nodes[v].ports[port].out:
            yield v, f"node {v} hasn't put {wire} for {w}"
        for wire in state.link[v, port]:
            yield w, f"node {w} hasn't taken {wire} from {v}"
