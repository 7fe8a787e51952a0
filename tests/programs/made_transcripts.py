"""The run of one worker by the definitions (src/forestplan/definitions/nodes.py).

A run is held as its entries (src/forestplan/definitions/events.py), in the order in which they were made."""
from collections import deque

from forestplan.definitions.events import Event, Kind
from forestplan.definitions.nodes import COLOURING
from forestplan.schedules.simulate import AlphaPlayer, text_of_run
from forestplan.transcripts.reading import line_of

MOST_TAKES = 4


def turn(state, v, capacity):
    """What a worker does with a node in a look, by the definition of a turn (docs/claim/DEFINITIONS.md): each event is
    made by the caller before the next one is asked for. After a first take from a port, another one is tried if the
    port isn't closed, and safe of this pulse wasn't taken there or its own payload waits."""
    node = state.nodes[v]
    for port, other in enumerate(node.ports):
        for taken in range(MOST_TAKES):
            has_all = other.closed or other.safe and not other.waits
            if taken and has_all or not can_take(state, v, port):
                break
            yield Event(Kind.TAKE, v, port)
    if node.may_act():
        yield Event(Kind.PULSE, v)
    for port, other in enumerate(node.ports):
        while other.out and len(state.link[v, port]) < capacity:
            yield Event(Kind.PUT, v, port)


def can_take(state, v, port):
    return state.link_to(v, port) and state.nodes[v].can_take()


def transcript_text(nodes, entries):
    """As the program writes edition 1: the nodes ascend."""
    lines = [line_of(entry) for entry in sorted(entries, key=lambda entry: entry.node)]
    return "".join(line + "\n" for line in [f"transcript 1 {nodes}", *lines]).encode()


def entries_of(text):
    """{node: fields of each entry in its order}, from the node on: in edition 2 a stamp is before it."""
    head, *lines = map(str.split, text.decode().splitlines())
    found: dict[int, list[list[str]]] = {}
    for line in lines:
        node, *entry = line[int(head[1]) - 1 :]
        found.setdefault(int(node), []).append([node, *entry])
    return found


class Run:
    """The run of one worker thread, by the definition of looks and turns: it is the same each time, and the number of
    looks that it needs shows whether capacity and turns reached the run."""

    def __init__(self, net, capacity, program=COLOURING):
        self.player, self.nodes, self.looks = AlphaPlayer(net, program), net.nodes, 0
        self.net = net
        self.program = program
        state, pool = self.player.state, deque(net.node_numbers)
        while pool:
            self.looks, v = self.looks + 1, pool.popleft()
            for event in turn(state, v, capacity):
                self.player.make(event)
            if not state.nodes[v].drained():
                pool.append(v)

    def text(self):
        return transcript_text(self.nodes, self.player.made)

    def merged(self):
        return text_of_run(self.net, self.player.made, self.program).encode()
