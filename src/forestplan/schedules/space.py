"""Every schedule of a tiny network: all states that lists of events lead to, and the steps between them.

    space = Space(net, node_of, without=("fifo",), limit=200_000).search()

`net` is a network of the definitions, and `node_of(net, v)` the node v at its start. A put is made as soon as
it can be, so that a state has no messages that wait to be put, and no event is a put. Without the rule `fifo` a take
may overtake others. The search ends at the first event or state that goes wrong, which a shortest list of events leads
to. If there are more than `limit` states it ends there, and `is_cut`: states from `expanded` on have no steps.

    space.node_numbers        [1, 2, 3]; space.ports[v] are v's neighbours, ascending (port 0 first)
    space.links           [(v, w), ..]: what v puts for w
    space.count           how many states there are; they are numbered from 0, the start, by width
    space.depth[s]        the least number of events that lead to state s
    space.steps(s)        [(event, target)], the events possible in state s; target is None if the event is refused
    space.events[e]       an Event, a take with its message or a node's own step; str(event) is its line for `forestplay
                          events`
    space.results(s)      {v: what v has found so far, in words}
    space.ends            the states in which nothing is possible
    space.faults          {(s, e): what goes wrong in words}, e being the event's number in steps(s); and {(s, None):
                          words} for a state in which something isn't right
    space.broken          those of the latter of which the file of a program says that they aren't right
    space.first_fault()   the key of a fault that the fewest events lead to
    space.path(s)         a shortest list of events from the start to state s; space.path_to_fault() one that ends with
                          the event of the first fault
    space.with_puts(events)
                          the events of a list, and between them the puts that they need, each with its message
    space.most_wires      the most messages that any link holds in any state
"""
import time
from array import array
from collections import Counter
from collections.abc import Callable, Collection, Hashable, Iterable
from functools import cache
from typing import Generic, NamedTuple, Protocol, TypeVar

from forestplan.definitions.events import Event, Kind, Message
from forestplan.definitions.machine import Node, NotPossible
from forestplan.definitions.own_program import (
    UnderWay,
    asks_for_messages,
    placed_among,
    what_is_wrong,
)
from forestplan.definitions.program import ProgramFile
from forestplan.network import Edge, Network
from forestplan.schedules.rules import OF_SCHEDULES, rules_named

REFUSED = 2**32 - 1

# By node and then by link, the number of what it is.
State = tuple[int, ...]
# The messages that go on links, by the number of the link in a state and the number of their list.
Gone = tuple[tuple[int, int], ...]
# The number of the node's value after an event, or None if it refuses that; the messages that go on links; and what
# goes wrong.
After = tuple[int | None, Gone, str | None]
Progress = Callable[[int, int], None]
# The key of a fault: a state, and the number of the event in it, if it is one event's fault.
Place = tuple[int, int | None]


class Move(NamedTuple):
    """An event that is possible: the place of its node among the nodes, its number, the number of the node's value
    after it or None, the link that it takes from or None, the number of what that holds then, the messages that go on
    links, and what goes wrong."""

    node: int
    event: int
    value: int | None
    link: int | None
    rest: int
    gone: Gone
    fault: str | None


Moves = tuple[list[Move], Move | None]
Thing = TypeVar("Thing")


class Numbered(list[Thing]):
    """Things, each once: the number of a thing is its place."""

    def __init__(self) -> None:
        super().__init__()
        self.places: dict[Hashable, int] = {}

    def number(self, thing: Thing, key: Hashable = None) -> int:
        """The number of a thing, which is new if no equal one, or none of its key, is there."""
        found = self.places.setdefault(thing if key is None else key, len(self))
        if found == len(self):
            self.append(thing)
        return found


class SearchedNode(Node, Protocol):
    """A node of which a search makes copies, and compares them."""

    def copied(self: "Same") -> "Same":
        """A node that is changed alone."""

    def key(self) -> Hashable:
        """Equal for equal states of one node."""


Same = TypeVar("Same", bound=SearchedNode)
AnySearched = TypeVar("AnySearched", bound=SearchedNode)


class Space(Generic[AnySearched]):
    """The states of a network, which are there once `search` has found them. What its nodes have found is asked of the
    `file` of their program, if they have one."""

    def __init__(
        self,
        net: Network,
        node_of: Callable[[Network, int], AnySearched],
        file: ProgramFile | None = None,
        without: Collection[str] = (),
        limit: int = 1_000_000,
    ) -> None:
        self.net = net
        self.node_of = node_of
        self.file = file
        self.without = tuple(without)
        rules_named(without, OF_SCHEDULES)
        self.limit = limit
        self.asks_for_messages = asks_for_messages(file)
        self.node_numbers = net.node_numbers
        self.ports = net.neighbours
        self.links = [(v, w) for v in self.node_numbers for w in self.ports[v]]
        self.slot = {link: k for k, link in enumerate(self.links, len(self.node_numbers))}
        self.arriving = [[self.slot[w, v] for w in self.ports[v]] for v in self.node_numbers]
        # The parts of a state, each kept once and known by its number; a link's content are the numbers of its
        # messages, and content 0 is empty.
        self.locals: list[Numbered[AnySearched]] = [Numbered() for _ in self.node_numbers]
        self.wires: Numbered[Message] = Numbered()
        self.contents: Numbered[tuple[int, ...]] = Numbered()
        self.contents.number(())
        self.events: Numbered[Event] = Numbered()
        # Each is worked out once for the same parts of a state.
        self.moves_of = cache(self.find_moves)
        self.act = cache(self.find_act)
        self.take = cache(self.find_take)
        self.with_wires = cache(self.find_with_wires)
        self.result = cache(self.find_result)
        self.faults: dict[Place, str] = {}
        self.ends: list[int] = []
        self.broken: set[int] = set()
        self.verdicts: dict[tuple[Hashable, ...], str] = {}
        self.states: Numbered[State] = Numbered()
        self.expanded = 0
        self.first_puts: list[tuple[int, int]] = []
        self.first = array("I", [0])
        self.event_of = array("I")
        self.target = array("I")
        self.depth = array("I", [0])
        self.from_state = array("I", [0])
        self.from_event = array("I", [0])

    # What a node can do.

    def after(self, a: int, node: AnySearched) -> tuple[int, Gone]:
        """(number of the node's value, messages that go on its links), its out-lists being put."""
        gone = []
        for w, port in zip(self.ports[self.node_numbers[a]], node.ports):
            if port.out:
                content = self.contents.number(tuple(map(self.wires.number, port.out)))
                gone.append((self.slot[self.node_numbers[a], w], content))
                port.out = []
        return self.locals[a].number(node, node.key()), tuple(gone)

    def find_act(self, a: int, i: int) -> After:
        """What a step of its own of the node with this value comes to."""
        node = self.locals[a][i].copied()
        fault, is_refused = self.fault_of_act(self.node_numbers[a], node)
        if is_refused:
            return None, (), fault
        node.act()
        return *self.after(a, node), fault

    def fault_of_act(self, v: int, node: AnySearched) -> tuple[str | None, bool]:
        """What is wrong with the next step of its own of a node, or None; and whether the node refuses it."""
        return None, False

    def find_take(self, a: int, i: int, port: int, number: int) -> After:
        """What the take of the message of a number comes to."""
        node = self.locals[a][i].copied()
        wire = self.wires[number]
        try:
            node.on_wire(port, wire)
        except NotPossible:
            v = self.node_numbers[a]
            return None, (), f"node {v} refuses `{wire}` from {self.ports[v][port]}"
        return *self.after(a, node), None

    def find_result(self, a: int, i: int) -> str:
        """What the node with this value has found."""
        return self.locals[a][i].result()

    def find_moves(self, a: int, i: int, *arriving: int) -> Moves:
        """The moves of a node with this value and these contents of the links to it, and which is made `alone`."""
        v = self.node_numbers[a]
        node = self.locals[a][i]
        moves = []
        if node.may_act():
            j, gone, fault = self.act(a, i)
            e = self.events.number(Event(node.own, v))
            moves.append(Move(a, e, j, None, 0, gone, fault))
        for p, (w, c) in enumerate(zip(self.ports[v], arriving)):
            wires = self.contents[c]
            for place in range(len(wires) if "fifo" in self.without else min(1, len(wires))):
                j, gone, fault = self.take(a, i, p, wires[place])
                taken = Event(Kind.TAKE, v, p, self.wires[wires[place]], place)
                e = self.events.number(taken)
                rest = self.contents.number(wires[:place] + wires[place + 1 :])
                moves.append(Move(a, e, j, self.slot[w, v], rest, gone, fault))
        return moves, self.alone(moves)

    def alone(self, moves: list[Move]) -> Move | None:
        """Which of a node's moves is made before anything else, so that nothing else is tried; None of most nodes."""
        return None

    # The search.

    def start(self) -> State:
        """The first state; `first_puts` are the messages that are put by then."""
        state = [0] * (len(self.node_numbers) + len(self.links))
        for a, v in enumerate(self.node_numbers):
            state[a], gone = self.after(a, self.node_of(self.net, v))
            self.first_puts += gone
        return self.with_all(state, self.first_puts)

    def with_all(self, state: list[int], gone: Iterable[tuple[int, int]]) -> State:
        """The state with these messages on its links."""
        for slot, wires in gone:
            state[slot] = self.with_wires(state[slot], wires)
        return tuple(state)

    def find_with_wires(self, c: int, wires: int) -> int:
        """The number of what a link holds once these messages are put on it, too."""
        return self.contents.number(self.contents[c] + self.contents[wires])

    def search(self, progress: Progress | None = None) -> "Space[AnySearched]":
        """Finds the states and the steps between them; `progress` is told now and then how many states there are, and
        how many events lead to the last one."""
        self.states.number(self.start())
        said = time.monotonic()
        s = 0
        while s < len(self.states) and not self.is_cut:
            if self.faults and self.depth[s] > self.depth[next(iter(self.faults))[0]]:
                break
            self.expand(s)
            s += 1
            if progress and s % 1024 == 0 and time.monotonic() - said > 0.5:
                said = time.monotonic()
                progress(len(self.states), self.depth[s - 1])
        self.expanded = s
        return self

    def moves_in(self, state: State, a: int) -> Moves:
        """The moves of a node in a state, and which is made alone."""
        return self.moves_of(a, state[a], *[state[k] for k in self.arriving[a]])

    def moved(self, state: State, value: int, move: Move) -> State:
        """The state after a move, whose node then has a value."""
        after = list(state)
        after[move.node] = value
        if move.link is not None:
            after[move.link] = move.rest
        return self.with_all(after, move.gone)

    def expand(self, s: int) -> None:
        """Notes the steps of a state, and the new states that they lead to."""
        state = self.states[s]
        possible: list[Move] = []
        for a in range(len(self.node_numbers)):
            moves, alone = self.moves_in(state, a)
            if alone:
                possible = [alone]
                break
            possible += moves
        for move in possible:
            if move.fault:
                self.faults[s, len(self.target) - self.first[s]] = move.fault
            self.event_of.append(move.event)
            if move.value is None:
                self.target.append(REFUSED)
            else:
                after = self.moved(state, move.value, move)
                self.target.append(self.reached(after, s, move.event))
        self.first.append(len(self.target))
        if not possible:
            self.ends.append(s)
            if sentence := self.fault_of_end(s):
                self.faults[s, None] = sentence
        if self.file is not None and (sentence := self.wrong_words(state, not possible)):
            self.faults[s, None] = sentence
            self.broken.add(s)

    def fault_of_end(self, s: int) -> str:
        """What is wrong with a state in which nothing is possible, whatever the nodes have found; or nothing."""
        return ""

    def wrong_words(self, state: State, is_end: bool) -> str:
        """What the file of a program says of what its nodes have found in a state."""
        found = tuple(self.result(a, state[a]) for a in range(len(self.node_numbers)))
        messages = tuple(self.under_way(state)) if self.asks_for_messages else ()
        key = found, messages, is_end
        if key not in self.verdicts:
            results = dict(zip(self.node_numbers, found))
            sentence = what_is_wrong(self.net, self.file, results, "always", messages)
            if is_end and not sentence:
                sentence = what_is_wrong(self.net, self.file, results)
            self.verdicts[key] = sentence
        return self.verdicts[key]

    def under_way(self, state: State) -> list[UnderWay]:
        """(sender, receiver, message) by identifier, ascending, of what is sent and not yet taken."""
        name = self.net.identifiers
        found: list[UnderWay] = []
        for (v, w), slot in self.slot.items():
            for number in self.contents[state[slot]]:
                message = self.wires[number]
                found.append((name[v], name[w], (message.word, *message.fields)))
        return sorted(found, key=placed_among)

    def reached(self, state: State, s: int, e: int) -> int:
        """The number of a state to which event e leads from state s."""
        t = self.states.number(state)
        if t == len(self.depth):
            self.depth.append(self.depth[s] + 1)
            self.from_state.append(s)
            self.from_event.append(e)
        return t

    # What is read off.

    @property
    def count(self) -> int:
        return len(self.states)

    @property
    def is_cut(self) -> bool:
        """Whether there are more states than the search may find."""
        return self.count > self.limit or self.is_full

    @property
    def is_full(self) -> bool:
        """Whether what nodes keep or links hold has grown too much to go on."""
        return False

    def steps(self, s: int) -> list[tuple[Event, int | None]]:
        """The events that are possible in a state, each with the state after it, or None if it is refused."""
        if s >= self.expanded:
            return []
        return [
            (self.events[self.event_of[k]], None if self.target[k] == REFUSED else self.target[k])
            for k in range(self.first[s], self.first[s + 1])
        ]

    def results(self, s: int) -> dict[int, str]:
        """What each node has found in a state."""
        return {v: self.result(a, self.states[s][a]) for a, v in enumerate(self.node_numbers)}

    @property
    def most_wires(self) -> int:
        """The most messages that any link holds in any state."""
        return max(map(len, self.contents))

    # Lists of events.

    def path(self, s: int) -> list[Event]:
        """A shortest list of events from the start to a state."""
        events = []
        while s:
            events.append(self.events[self.from_event[s]])
            s = self.from_state[s]
        return events[::-1]

    def first_fault(self) -> Place:
        """The key of a fault that the fewest events lead to."""
        return min(self.faults, key=lambda fault: self.depth[fault[0]] + (fault[1] is not None))

    def path_to_fault(self) -> list[Event]:
        """A shortest list of events that ends with the first fault."""
        s, e = self.first_fault()
        return self.path(s) + ([] if e is None else [self.events[self.event_of[self.first[s] + e]]])

    def with_puts(self, events: list[Event]) -> list[Event]:
        """The events with the puts between them, each only as a take needs its message."""
        sent: dict[Edge, list[Message]] = {link: [] for link in self.links}
        held: dict[Edge, list[int]] = {link: [] for link in self.links}
        put: Counter[Edge] = Counter()
        listed: list[Event] = []
        state = self.states[0]
        gone = tuple(self.first_puts)
        for event in events:
            for slot, number in gone:
                link = self.links[slot - len(self.node_numbers)]
                wires = [self.wires[wire] for wire in self.contents[number]]
                held[link] += range(len(sent[link]), len(sent[link]) + len(wires))
                sent[link] += wires
            if event.port is not None:
                w = self.ports[event.node][event.port]
                link = w, event.node
                number = held[link].pop(event.place)
                port = self.ports[w].index(event.node)
                listed += [
                    Event(Kind.PUT, w, port, wire) for wire in sent[link][put[link] : number + 1]
                ]
                put[link] = max(put[link], number + 1)
            listed.append(event)
            state, gone = self.after_event(state, event)
        return listed

    def after_event(self, state: State, event: Event) -> tuple[State, Gone]:
        """The state after an event, which stays as it is if a node refuses that; and the messages that go on links."""
        a = self.node_numbers.index(event.node)
        move = next(move for move in self.moves_in(state, a)[0] if self.events[move.event] == event)
        return state if move.value is None else self.moved(state, move.value, move), move.gone
