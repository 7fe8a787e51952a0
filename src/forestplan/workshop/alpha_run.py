"""A run without a clock: the workshop holds the links and delivers one wire at a time. What the nodes put, take and
make is written down with Lamport's stamps, and `forestplay replay` judges it."""
from collections import deque
from typing import NamedTuple

from forestplan.definitions.events import Kind
from forestplan.networks.texts import plain_text
from forestplan.networks.verdicts import Verdict
from forestplan.schedules.policies import Policy, Step
from forestplan.transcripts.fields import first_line
from forestplan.transcripts.proved_judge import verdict_on_run
from forestplan.wording import as_text
from forestplan.workshop.findings import NoAnswer
from forestplan.workshop.nodes import PATIENCE, Nodes
from forestplan.workshop.protocol import (
    answer_fields,
    forms_of,
    own_data,
    start_of_output,
    wire_text,
)
from forestplan.workshop.right_rounds import RightRounds, program_option

OWN_DATA = "its own data"


class StampedText(NamedTuple):
    """What a node did: `words` as a transcript has them, with the neighbour's number; `stamp` is Lamport's."""

    stamp: int
    node: int
    text: str


class Link(Step):
    """A link that isn't empty, as the step that takes its oldest wire. `wires` has of each its words as a transcript
    has them, the stamp of its put, and how many puts there were, up to it."""

    def __init__(self, v: int, w: int) -> None:
        super().__init__(Kind.TAKE, w, v)
        self.wires: deque[tuple[str, int, int]] = deque()

    def renew(self) -> None:
        """Says of the step what the link holds now."""
        text, _, self.since = self.wires[0]
        _, _, self.latest = self.wires[-1]
        self.wire = text.split()[0]


class AlphaRun:
    """`entries` in the order in which they happened; `pulses[v]`, the last one that v said; `results[v]`, what it said
    that it has found; `stop`, of a node that gave no answer (node, fault, the last line of the message).
    """

    kept = "run.transcript"

    def __init__(self, rounds: RightRounds, policy: Policy) -> None:
        self.rounds = rounds
        self.network = rounds.network
        self.policy = policy
        self.links: dict[tuple[int, int], Link] = {}
        self.count = 0
        self.counters = dict.fromkeys(self.network.node_numbers, 0)
        self.entries: list[StampedText] = []
        self.results: dict[int, str] = {}
        self.pulses = dict.fromkeys(self.network.node_numbers, 0)
        self.stop: tuple[int, NoAnswer, str] | None = None

    def play(self, nodes: Nodes) -> None:
        """Until nothing is on its way, a node gives no answer, or there are more entries than any right run has: then
        one of them is wrong, for certain."""
        for v in self.network.node_numbers:
            if not self.is_answered(
                nodes, v, own_data(self.network, v, "alpha", self.rounds.own_lines), OWN_DATA
            ):
                return
        while self.links and len(self.entries) <= self.rounds.events:
            w, v = self.policy.choose(list(self.links.values())).link
            link = self.links[w, v]
            text, stamp, _ = link.wires.popleft()
            if link.wires:
                link.renew()
            else:
                del self.links[w, v]
            self.write(v, f"take {w} {text}", stamp)
            line = f"take {self.rounds.ports[v][w]} {text}"
            if not self.is_answered(nodes, v, [line], f"`{line}`"):
                return
        nodes.stop(PATIENCE)

    def is_answered(self, nodes: Nodes, v: int, lines: list[str], asked: str) -> bool:
        """Sends a node a message and writes down what it does; False if there is no answer."""
        try:
            for line in nodes.ask(v, lines):
                self.answered(v, line)
        except NoAnswer as fault:
            self.stop = v, fault, asked
        return self.stop is None

    def answered(self, v: int, line: str) -> None:
        program = self.rounds.program
        neighbours = self.network.neighbours[v]
        match answer_fields(line, forms_of("alpha", program), len(neighbours)):
            case "pulse", pulse:
                self.pulses[v] = int(pulse)
                self.write(v, f"pulse {pulse}")
            case "put", port, wire:
                w = neighbours[int(port)]
                text = wire_text(line, wire, program)
                self.write(v, f"put {w} {text}")
                self.count += 1
                link = self.links.setdefault((v, w), Link(v, w))
                link.wires.append((text, self.counters[v], self.count))
                link.renew()
            case result:
                self.hear_result(v, line)
                self.results[v] = " ".join(result)

    def hear_result(self, v: int, line: str) -> None:
        """Refuses what isn't the one result of a node that has made its last pulse."""
        if v in self.results:
            sentence = f"it has said `{self.results[v]}` before, and a result is final"
            raise NoAnswer("garbage", f"{start_of_output(line)}: {sentence}")
        if self.pulses[v] != self.rounds.last:
            sentence = f"a node says that once it has made its last pulse, {self.rounds.last}"
            raise NoAnswer(
                "garbage", f"{start_of_output(line)} at pulse {self.pulses[v]}: {sentence}"
            )

    def write(self, v: int, text: str, after: int = 0) -> None:
        self.counters[v] = 1 + max(self.counters[v], after)
        self.entries.append(StampedText(self.counters[v], v, text))

    def in_order(self) -> list[StampedText]:
        """The entries in the order of a transcript: by stamp, and then by node."""
        return sorted(self.entries, key=lambda entry: entry[:2])

    def text(self) -> str:
        head = first_line(self.network.nodes, self.rounds.program)
        return as_text([head, *(f"{stamp} {v} {text}" for stamp, v, text in self.in_order())])

    def verdict(self) -> Verdict:
        """What the judge says of it."""
        arguments = program_option(self.rounds.program)
        return verdict_on_run(plain_text(self.network), self.text(), arguments)
