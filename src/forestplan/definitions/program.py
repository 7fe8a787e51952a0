"""What the nodes of a network run, as rounds: a program, which each node runs.

A node is a number from 1. Its ports are numbers from 0: port 0 goes to its neighbour with the least number, as entry
0 of `neighbours`. A pulse is a number from 0, a forest and a colour too. All nodes make pulse 0, then pulse 1, and so
on, up to the last pulse of the program."""
from collections.abc import Callable, Iterable, Iterator, Mapping
from dataclasses import dataclass, field
from types import CodeType
from typing import Protocol, TypeVar, runtime_checkable

from forestplan.network import Network


@dataclass(frozen=True, slots=True)
class Payload:
    """What a node sends by a port in a pulse: a `word` of small letters, and a `number` from 0.

    >>> str(Payload("hello", 7))
    'hello 7'
    """

    word: str
    number: int

    def __str__(self) -> str:
        """The payload as texts have it."""
        return f"{self.word} {self.number}"


# What is sent by a port, or has come by it, in one pulse.
Slot = Payload | None


class RoundsNode(Protocol):
    """A node of a program, in the rounds: it is greeted once, and then asked pulse by pulse. Ports count from 0, in the
    order of the neighbours' numbers.

    >>> from forestplan.definitions.leader import LEADER
    >>> node = LEADER.node(Network(3, [(1, 2), (1, 3)]), 1)
    >>> [str(slot) for slot in node.greet()]
    ['leader 1', 'leader 1']
    >>> [str(slot) for slot in node.next(1, [Payload("leader", 2), None])], node.result()
    (['leader 2', 'leader 2'], 'leader 2')
    """

    def greet(self) -> list[Slot]:
        """What it sends at pulse 0, by port."""

    def next(self, pulse: int, inbox: list[Slot]) -> list[Slot]:
        """What it sends at a pulse from 1 on, by port, on what came by each port in the pulse before."""

    def result(self) -> str:
        """What it has found so far, in words."""


@runtime_checkable
class DrawnNode(Protocol):
    """A node of which pictures show more than words."""

    def drawn(self) -> tuple[int | None, int | None]:
        """The colour that it has, and the port of the edge that it has chosen."""


@dataclass(frozen=True, eq=False)
class ProgramFile:
    """The file of a program of one's own: its path; its `functions` by name, as they are after it is run; its `code`,
    which is run again for each node; the `seed` of its nodes' chance; and the names of all `others` that it defines.
    """

    path: str
    functions: Mapping[str, Callable[..., object]]
    code: CodeType
    seed: str
    others: frozenset[str] = frozenset()


@dataclass(frozen=True)
class Program:
    """A program of nodes that make rounds, called `name`: `node(net, v)` is the node v before pulse 0, and
    `last_pulse(net)` the last pulse R of every node. `PROGRAMS` has six, and `program_at` those with options.

    Its options are `root`, the node that is the root of layers, if it isn't the node of identifier 1; `passes`, how
    often recolouring chooses again; `file`, that of a program of one's own; and `without`, the rules that its nodes
    leave out. `reads_bars` says whether its nodes look at the channels that are barred at them.

    >>> from forestplan.definitions.programs import PROGRAMS
    >>> PROGRAMS["leader"].last_pulse(Network(3, [(1, 2), (2, 3)]))
    3
    """

    name: str
    node: Callable[[Network, int], RoundsNode] = field(compare=False, repr=False)
    last_pulse: Callable[[Network], int] = field(compare=False, repr=False)
    root: int | None = None
    passes: int = 1
    file: ProgramFile | None = None
    without: frozenset[str] = frozenset()
    reads_bars: bool = True

    def __repr__(self) -> str:
        """What a prompt and a signature show of it: its name, and those of its options that are chosen.

        >>> from forestplan.definitions.programs import PROGRAMS, program_at
        >>> PROGRAMS["leader"], program_at("layers", root=3)
        (<Program leader>, <Program layers root=3>)
        """
        options = {"root": self.root, "passes": self.passes if self.passes > 1 else None}
        chosen = [f"{name}={value}" for name, value in options.items() if value is not None]
        chosen += [f"without={rule}" for rule in sorted(self.without)]
        return f"<{' '.join(['Program', self.name, *chosen])}>"


AnyNode = TypeVar("AnyNode", bound=RoundsNode)
Slots = dict[int, list[Slot]]


def pulses_of(
    net: Network, nodes: dict[int, AnyNode], last: int
) -> Iterator[tuple[int, dict[int, AnyNode], Slots, Slots]]:
    """(pulse, nodes, inboxes, sent) of each pulse of the synchronous run of these nodes, from 0 to the last: the nodes
    after it, and what each read in it and sends at each port. They are called in their order."""
    ports = net.neighbours
    # Where each port leads: the neighbour, and its port back.
    ends = {v: [(w, ports[w].index(v)) for w in ws] for v, ws in ports.items()}
    inboxes: Slots = {}
    sent = {v: node.greet() for v, node in nodes.items()}
    yield 0, nodes, inboxes, sent
    for pulse in range(1, last + 1):
        inboxes = {v: [sent[w][back] for w, back in ends[v]] for v in nodes}
        sent = {v: node.next(pulse, inboxes[v]) for v, node in nodes.items()}
        yield pulse, nodes, inboxes, sent


def synchronous_pulses(
    net: Network, program: Program, order: Iterable[int] = ()
) -> Iterator[tuple[int, dict[int, RoundsNode], Slots, Slots]]:
    """(pulse, nodes, inboxes, sent) of each pulse, from 0 to the last, of the nodes of a `program` on a network `net`:
    the nodes after it, what each has read in it, and what each sends at each port. They are made and called in an
    `order` of the nodes, by default that of the network.

    >>> from forestplan.definitions.leader import LEADER
    >>> for pulse, nodes, inboxes, sent in synchronous_pulses(Network(2, [(1, 2)]), LEADER):
    ...     print(pulse, [[str(slot) for slot in slots] for slots in sent.values()])
    0 [['leader 1'], ['leader 2']]
    1 [['leader 2'], ['None']]
    2 [['None'], ['None']]
    """
    nodes = {v: program.node(net, v) for v in order or net.neighbours}
    return pulses_of(net, nodes, program.last_pulse(net))


def synchronous_run(net: Network, program: Program) -> dict[int, RoundsNode]:
    """Runs the rounds of a `program` on a network `net`; returns its nodes, by node, after the last pulse.

    >>> from forestplan.definitions.programs import PROGRAMS
    >>> nodes = synchronous_run(Network(2, [(1, 2)]), PROGRAMS["leader"])
    >>> {v: node.result() for v, node in nodes.items()}
    {1: 'leader 2', 2: 'leader 2'}

    Raises `Fault` if a program of one's own fails, or sends what is no payload.
    """
    nodes: dict[int, RoundsNode] = {}
    for _, nodes, _, _ in synchronous_pulses(net, program):
        pass
    return nodes
