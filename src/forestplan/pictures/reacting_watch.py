"""The page on which a run of nodes that react to messages is watched, without rounds: messages move on their edges, and
below each node is what it has found. What a node is after each entry is worked out here; page/watch_reactions.js draws
it."""
from collections import deque
from collections.abc import Iterator

from forestplan.definitions.events import PUT, Entry, Message
from forestplan.definitions.machine import NetState, make_entry
from forestplan.definitions.reacting_program import Reacting, ReactingNode
from forestplan.faults import at_most
from forestplan.network import Edge, Network
from forestplan.pictures.page_data import ReactedLook, ReactionsData, ReactionsTable, Row, WireRow
from forestplan.pictures.pages import net_of, page
from forestplan.pictures.transcripts import stamp_of
from forestplan.pictures.watch_page import MOST_ENTRIES, ORDER
from forestplan.transcripts.reading import entry_text
from forestplan.wording import counted


def reacted_look(node: ReactingNode) -> ReactedLook:
    """What is shown of a node."""
    return ReactedLook(acts=node.acts, able=node.may_act(), found=node.result())


class Watched:
    """A run's entries, by stamp, as the rows that the page follows; what comes again and again has a number."""

    def __init__(self, state: NetState[ReactingNode]) -> None:
        self.state = state
        self.start = [reacted_look(node) for node in state.nodes.values()]
        self.looks: dict[ReactedLook, int] = {}
        self.texts: dict[str, int] = {}
        self.rows: list[Row] = []

    def text(self, said: str) -> int:
        return self.texts.setdefault(said, len(self.texts))

    def add(self, entry: Entry) -> None:
        """Makes the event of an entry, and writes its row."""
        make_entry(self.state, entry)
        look = reacted_look(self.state.nodes[entry.node])
        said = entry_text(entry).split(" ", 2)[2]
        number = self.looks.setdefault(look, len(self.looks))
        self.rows.append(Row(stamp_of(entry), entry.node, number, self.text(said)))

    def wires(self, made: list[Entry]) -> Iterator[WireRow]:
        """Each message, with its put and its take, if it is taken."""
        takes: dict[Edge, deque[int]] = {}
        for at, entry in enumerate(made):
            if entry.neighbour is not None and entry.kind is not PUT:
                takes.setdefault((entry.neighbour, entry.node), deque()).append(at)
        for at, entry in enumerate(made):
            if entry.neighbour is None or entry.kind is not PUT:
                continue
            assert isinstance(entry.what, Message)
            v = entry.node
            w = entry.neighbour
            later = takes.get((entry.node, entry.neighbour))
            take = later.popleft() if later else None
            stamp = None if take is None else stamp_of(made[take])
            yield WireRow(v, w, self.text(str(entry.what)), at, stamp_of(entry), take, stamp)


def reacting_html(name: str, network: Network, program: Reacting, made: list[Entry]) -> str:
    """The page of a run's entries, which are by stamp."""
    at_most("watch", len(made), "entries", MOST_ENTRIES, "a smaller network")
    watched = Watched(program.start(network))
    for entry in made:
        watched.add(entry)
    wires = list(watched.wires(made))
    stamps = [row.stamp for row in watched.rows] or [1]
    table = ReactionsTable(
        name=name,
        start=watched.start,
        rows=watched.rows,
        wires=wires,
        looks=list(watched.looks),
        texts=list(watched.texts),
        stamps=(stamps[0] - 1, stamps[-1]),
    )
    return page(
        "alone.html",
        "watch_reactions",
        ReactionsData(net=net_of(network), run=table),
        title=f"{name}: a run of {program.name}",
        about=(
            f"{counted(len(made), 'entry', 'entries')}, {counted(len(wires), 'message')}. An entry is a put, a take, "
            f"or an act: a step of the node's own. {ORDER}"
        ),
    )
