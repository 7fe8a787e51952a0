"""A run that someone makes step by step: whoever does is the network, and chooses which message is taken next and which
node makes its pulse. A put is made as soon as it can be. Rules may be left out (rules.OF_SCHEDULES).

A step is written as `3`, node 3 makes its next pulse; `2-1`, node 2 takes the next wire from node 1; or `2-1-4`, it
takes the wire that overtakes four others, without the rule `fifo`."""
import random
import re
from collections.abc import Collection, Iterable
from functools import cached_property

from forestplan.definitions.events import PULSE, PUT, TAKE, Event, Kind
from forestplan.definitions.machine import AnyNode, NetState, NotPossible
from forestplan.definitions.nodes import COLOURING, AlphaNode
from forestplan.definitions.program import Program
from forestplan.fault_codes import Code
from forestplan.faults import Fault, InText
from forestplan.network import Edge, Network
from forestplan.schedules.policies import Step
from forestplan.schedules.ruled_node import InboxRounds, RuledNode, synchronous_rounds
from forestplan.schedules.rules import OF_SCHEDULES, rules_named
from forestplan.schedules.simulate import Player, events_of, start_without


class ByHand(Player[AnyNode]):
    """Such a run, of any nodes: `own` is the kind of their own steps. `chosen` are the steps so far, `lines` the events
    as a list has them. `fault` says what went wrong first; after `is_over` nothing goes on, since a node has failed.
    """

    own: Kind

    def __init__(self, state: NetState[AnyNode], without: Collection[str] = ()) -> None:
        super().__init__(state)
        self.without = rules_named(without, OF_SCHEDULES)
        self.chosen: list[str] = []
        self.lines: list[str] = []
        self.last_step = ""
        self.fault: str | None = None
        self.is_over = False
        for v in self.state.nodes:
            self.put_all(v)

    def own_step_words(self, v: int) -> str:
        """What a node does in its next own step."""
        raise NotImplementedError

    def fault_of_own_step(self, v: int) -> str | None:
        """What is wrong with the next own step of a node, if something is; it may end the run."""
        raise NotImplementedError

    def fault_of_making(self, event: Event) -> str | None:
        """Makes an event and the puts that it makes possible, and says what went wrong; that may end the run."""
        raise NotImplementedError

    def put_all(self, v: int) -> None:
        """Makes all puts of a node that are possible."""
        for w, port in zip(self.state.neighbours[v], self.state.nodes[v].ports):
            while port.out:
                event = self.state.events[PUT, v, w]
                self.lines.append(str(event))
                self.make(event)

    def words_on(self, v: int, w: int) -> list[str]:
        """What the link from v to w holds, in words."""
        return [str(wire) for wire in self.state.link[v, self.state.port_to[v, w]]]

    def words_under_way(self) -> list[tuple[int, int, list[str]]]:
        """What each link holds that holds something, in words: (from, to, messages)."""
        links = [(v, w, self.words_on(v, w)) for v, ws in self.state.neighbours.items() for w in ws]
        return [link for link in links if link[2]]

    def possible(self) -> list[str]:
        """The steps that can come next."""
        found = []
        for v, own in self.steps.items():
            found += [str(v) for step in own if step.kind is self.own]
            for step in (step for step in own if step.kind is TAKE):
                found.append(f"{v}-{step.neighbour}")
                if "fifo" in self.without:
                    later = range(1, len(self.words_on(step.neighbour, v)))
                    found += [f"{v}-{step.neighbour}-{place}" for place in later]
        return found

    def follow(self, steps: Iterable[str]) -> None:
        """Makes these steps; raises `Fault` of the first one that isn't possible."""
        for number, step in enumerate(filter(None, steps), 1):
            fields = re.fullmatch("([0-9]{1,5})(?:-([0-9]{1,5}))?(?:-([0-9]{1,5}))?", step)
            v, w, place = (int(field or 0) for field in fields.groups()) if fields else (0, 0, 0)
            if not self.makes(TAKE if w else self.own, v, w, place):
                raise Fault(Code.STEP_NOT_POSSIBLE, number=number, step=step)

    def follow_list(self, text: str) -> None:
        """The events of a list. Puts make themselves as soon as they can, so one of the list has been made before."""
        puts: list[str] = []
        for line, event in events_of(text, "the list", "fifo" in self.without, self.own):
            near = self.state.neighbours.get(event.node, ())
            if event.kind is PUT:
                puts.append(str(event))
                is_made = puts.count(str(event)) <= self.lines.count(str(event))
            elif event.port is None:
                is_made = self.makes(event.kind, event.node, 0, 0)
            else:
                is_made = event.port < len(near) and self.makes(
                    event.kind, event.node, near[event.port], event.place
                )
            if not is_made:
                raise Fault(Code.EVENT_NOT_POSSIBLE, InText("the list", line), event=event)

    def makes(self, kind: Kind, v: int, w: int, place: int) -> bool:
        """Makes a step if it is possible now, and says whether it was; a take may overtake `place` wires."""
        own = [one for one in self.steps.get(v, ()) if (one.kind, one.neighbour) == (kind, w)]
        if self.is_over or not own:
            return False
        if place and ("fifo" not in self.without or place >= len(self.words_on(w, v))):
            return False
        self.step(own[0], place)
        return True

    def step(self, step: Step, place: int = 0) -> None:
        """One step, and the puts that it makes possible."""
        v = step.node
        w = step.neighbour
        event = self.event_of(step)
        fault = None
        if event.port is None:
            self.last_step = self.own_step_words(v)
            fault = self.fault_of_own_step(v)
        else:
            wires = self.state.link_to(v, event.port)
            wires.insert(0, wires.pop(place))
            self.last_step = f"node {v} takes {wires[0]} from {w}"
        self.note_step(step, event, place)
        self.fault = self.fault or fault
        if not self.is_over:
            fault = self.fault_of_making(event)
            self.fault = self.fault or fault

    def note_step(self, step: Step, event: Event, place: int) -> None:
        """Writes a step down, as the page has it and as a list of events has it."""
        chosen = [step.node]
        line = str(event)
        if step.neighbour:
            chosen.append(step.neighbour)
        if place:
            chosen.append(place)
            line += f" {place}"
        self.chosen.append("-".join(map(str, chosen)))
        self.lines.append(line)

    def free(self, slow: Collection[Edge], lazy: Collection[int]) -> list[Step]:
        """The steps that can come next and that nothing holds: what goes over a slow edge, (v, w) with v < w, and the
        own step of a node that waits."""
        return [
            step
            for own in self.steps.values()
            for step in own
            if not (
                step.node in lazy
                if step.kind is self.own
                else (min(step.link), max(step.link)) in slow
            )
        ]

    def by_chance(
        self, count: int, seed: str, slow: Collection[Edge], lazy: Collection[int]
    ) -> None:
        """As many steps more, each as likely as any other."""
        source = random.Random(f"{seed} {len(self.chosen)}")
        for _ in range(count):
            steps = self.free(slow, lazy)
            if self.is_over or not steps:
                return
            self.step(steps[int(source.random() * len(steps))])


class Stepwise(ByHand[AlphaNode]):
    """A run under the synchroniser of a `program` on a network `net`, which someone makes step by step. Puts make
    themselves. A step `3` is node 3's next pulse, and `2-1` has node 2 take the next message from node 1; `possible`
    lists those that can come next, and `follow` makes some. Rules of the synchroniser can be left out: `without` has
    some of `schedules.rules.OF_SCHEDULES`. `lines` is the list of events so far, which `forestplay events` reads.

    >>> run = Stepwise(Network(2, [(1, 2)]))
    >>> run.follow(["2-1"])
    >>> run.lines, run.words_on(2, 1)
    (['put 1 0', 'put 2 0', 'take 2 0', 'put 2 0'], ['payload 0 hello 2', 'ack 0'])
    """

    own = PULSE

    def __init__(
        self, net: Network, program: Program = COLOURING, without: Collection[str] = ()
    ) -> None:
        super().__init__(start_without(net, program, without), without)
        self.net = net
        self.program = program

    @cached_property
    def rounds(self) -> InboxRounds:
        """The rounds that the nodes simulate."""
        return synchronous_rounds(self.net, self.program)

    def own_step_words(self, v: int) -> str:
        return f"node {v} makes pulse {self.state.nodes[v].pulse_number + 1}"

    def fault_of_own_step(self, v: int) -> str | None:
        """What is wrong with the next pulse of a node, if something is; all is over if its program refuses it."""
        node = self.state.nodes[v]
        fault = None
        if isinstance(node, RuledNode):
            fault, self.is_over = node.fault_of_pulse(v, self.rounds)
        return fault

    def fault_of_making(self, event: Event) -> str | None:
        v = event.node
        try:
            self.make(event)
            self.put_all(v)
        except NotPossible:
            self.is_over = True
            w = self.state.neighbours[v][event.port or 0]
            return f"node {v} can't take what came from {w}"
        return None

    def in_step(self, slow: Collection[Edge], lazy: Collection[int]) -> None:
        """All nodes make one pulse: what can come comes first, and then those that are behind make theirs."""
        goal = 1 + self.lowest()
        last = self.state.nodes[1].last
        while not self.is_over and not (goal <= last and self.lowest() >= goal):
            steps = self.free(slow, lazy)
            takes = [step for step in steps if step.kind is TAKE]
            behind = [
                step
                for step in steps
                if step.kind is PULSE and self.state.nodes[step.node].pulse_number < goal
            ]
            if not takes and not behind:
                return
            self.step((takes or behind)[0])

    def lowest(self) -> int:
        """The least pulse that any node has made."""
        return min(node.pulse_number for node in self.state.nodes.values())
