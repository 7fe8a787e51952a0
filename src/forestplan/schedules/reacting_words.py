"""What is said of all schedules, or of many runs, of nodes that react to messages, and of a list of events that goes
wrong. It is said of one network, and nothing is proved of it."""
from collections import Counter
from collections.abc import Callable, Iterator

from forestplan.definitions.events import PUT, Event
from forestplan.definitions.machine import NetState
from forestplan.definitions.reacting_program import Reacting, ReactingNode, results_in
from forestplan.faults import Fault
from forestplan.network import Network
from forestplan.schedules.extent import Span, endless, extent_of
from forestplan.schedules.reacting_runs import Runs
from forestplan.schedules.reacting_space import ReactingSpace
from forestplan.wording import counted

# So many ends are written out.
MOST_ENDS = 6


def whole_words(space: ReactingSpace, rounded: Callable[[int], str]) -> Iterator[str]:
    """All of a network: nothing that the file asks for went wrong."""
    size = f"{counted(space.count, 'state')}, {counted(len(space.target), 'step')}"
    head = f"every schedule of {space.net.name}: {size}"
    if "fifo" in space.without:
        head = f"not broken without fifo: {space.net.name} has {size}"
    extent = extent_of(space)
    under_way = f"a link has at most {space.most_wires} under way"
    if extent:
        schedules = (
            "1 schedule" if extent.schedules == 1 else f"{rounded(extent.schedules)} schedules"
        )
        acts = f" and {span_words(extent.acts, 'act')}" if extent.acts[1] else ""
        yield f"{head}, {schedules}"
        yield f"each has {span_words(extent.messages, 'message')}{acts}; {under_way}"
    else:
        yield head
        yield f"some schedules never end: {endless_words(space)}; {under_way}"
    found = Counter(tuple(space.results(s).values()) for s in space.ends)
    yield from ends_words(found)
    yield from asked_words(space.program, bool(space.ends))


def endless_words(space: ReactingSpace) -> str:
    """How far an end is, of schedules of which some never come to one."""
    stuck = len(endless(space))
    if not space.ends:
        asks = ", so `right` isn't asked" if "right" in space.program.file.functions else ""
        return f"there is no end{asks}"
    if not stuck:
        return "from each state an end can be reached, and needn't be"
    return f"from {counted(stuck, 'state')} no end can be reached"


def span_words(bounds: Span, what: str) -> str:
    """`6 messages`, or `12 to 16 messages`."""
    least, most = bounds
    return counted(most, what) if least == most else f"{least:,} to {counted(most, what)}"


def ends_words(found: Counter[tuple[str, ...]]) -> Iterator[str]:
    """What nodes have found at the ends, the most frequent first."""
    if not found:
        return
    yield "one end:" if len(found) == 1 else f"{len(found):,} ends:"
    for results, _ in found.most_common(MOST_ENDS):
        yield f"  {', '.join(f'{v} {result}' for v, result in enumerate(results, 1))}"
    if len(found) > MOST_ENDS:
        yield f"  and {len(found) - MOST_ENDS:,} more"


def asked_words(program: Reacting, has_end: bool) -> Iterator[str]:
    """What the file was asked, and said yes to."""
    asked = []
    if "right" in program.file.functions and has_end:
        asked.append("`right` is true at each end")
    if "always" in program.file.functions:
        asked.append("`always` in each state" if asked else "`always` is true in each state")
    if asked:
        yield ", and ".join(asked)


def runs_words(runs: Runs) -> Iterator[str]:
    """What runs came to."""
    messages = span_words((min(runs.messages), max(runs.messages)), "message")
    yield f"{counted(runs.count, 'run')} of {runs.net.name}, and not every schedule: each has {messages}"
    yield from ends_words(runs.ends)
    yield from asked_words(runs.program, True)


def lines_of_list(net: Network, program: Reacting, listed: list[Event]) -> Iterator[str]:
    """The events with the messages that they put or take, and what the node has found if that is something else."""
    state = program.start(net)
    has = results_in(state)
    yield f"  at first {', '.join(f'{v} {result}' for v, result in has.items())}"
    for event in listed:
        v = event.node
        try:
            make_out_of_turn(state, event)
            now = state.nodes[v].result()
        except Fault:
            now = has[v]  # this is what goes wrong, and it is said before
        news = "" if now == has[v] else f"; has {now}"
        has[v] = now
        if event.port is None:
            yield f"{event}: node {v} acts{news}"
        else:
            way = "for" if event.kind is PUT else "from"
            order = ", out of turn" if event.place else ""
            yield f"{event}: {event.message} {way} {net.neighbours[v][event.port]}{news}{order}"


def make_out_of_turn(state: NetState[ReactingNode], event: Event) -> None:
    """Makes an event, which may overtake others."""
    if event.place and event.port is not None:
        link = state.link_to(event.node, event.port)
        link.insert(0, link.pop(event.place))
    state.step(state.events[event.kind, event.node, neighbour_of(state, event)])


def neighbour_of(state: NetState[ReactingNode], event: Event) -> int | None:
    return None if event.port is None else state.neighbours[event.node][event.port]
