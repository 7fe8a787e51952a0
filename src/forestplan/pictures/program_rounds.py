"""The rounds of any program as pictures need them, pulse by pulse, by its definition
(src/forestplan/definitions/programs.py)."""
from collections.abc import Iterator
from dataclasses import dataclass
from typing import ClassVar

from forestplan.definitions.nodes import COLOURING
from forestplan.definitions.own_program import check_repeats, what_is_wrong
from forestplan.definitions.program import DrawnNode, Program, RoundsNode, synchronous_pulses
from forestplan.definitions.rounds import Pulse, ColouringRounds, puts_of
from forestplan.fault_codes import Code
from forestplan.faults import Fault, InText
from forestplan.network import Network

# Rounds of more steps of nodes than this take minutes to work out.
MOST_STEPS = 2_000_000


@dataclass(eq=False)
class ProgramRounds:
    """A synchronous run of a program: `pulses` are those from 0 to `last`, and `nodes` the nodes after the last one. It
    has no forests. `wrong` is what the file of a program says isn't right at its end, or nothing.
    """

    network: Network
    program: Program
    pulses: list[Pulse]
    nodes: dict[int, RoundsNode]
    wrong: str
    forests: ClassVar[int] = 0
    first: ClassVar[dict[int, int]] = {}

    @property
    def last(self) -> int:
        return self.pulses[-1].number

    def lines(self) -> Iterator[str]:
        """The text of rounds, line by line."""
        yield f"rounds 3 {self.program.name} {self.network.nodes} {self.network.greatest_degree} {self.last}"
        for pulse in self.pulses:
            yield from pulse.lines("", pulse.results.items() if pulse.number == self.last else ())


def program_rounds(network: Network, program: Program) -> ProgramRounds:
    """The synchronous run of a program, played here. Raises `Fault` if it would take minutes."""
    last = program.last_pulse(network)
    if last * network.nodes > MOST_STEPS:
        raise Fault(Code.TOO_MANY_PULSES, InText(network.name), last=last, nodes=network.nodes)
    check_repeats(network, program)
    pulses: list[Pulse] = []
    nodes: dict[int, RoundsNode] = {}
    for p, nodes, _, sent in synchronous_pulses(network, program):
        puts = puts_of(network, sent)
        drawn = drawn_after(network, nodes)
        results = {v: node.result() for v, node in nodes.items()}
        pulses.append(Pulse(p, puts, results=results, drawn=drawn))
    wrong = what_is_wrong(network, program.file, pulses[-1].results)
    return ProgramRounds(network, program, pulses, nodes, wrong)


def drawn_after(
    network: Network, nodes: dict[int, RoundsNode]
) -> dict[int, tuple[int | None, int | None]]:
    """Of each node that says it: a colour, and the node at the other end of the edge that it has chosen."""
    ports = network.neighbours
    return {
        v: (colour, None if port is None else ports[v][port])
        for v, node in nodes.items()
        if isinstance(node, DrawnNode)
        for colour, port in [node.drawn()]
    }


def rounds_of(network: Network, program: Program) -> ColouringRounds | ProgramRounds:
    """The rounds of any program."""
    return ColouringRounds(network) if program == COLOURING else program_rounds(network, program)


def least_wires(network: Network, program: Program) -> int:
    """The wires of a whole run without the two for each payload: a safe for each pulse but the last, each edge and each
    end, and a close for each edge and each end."""
    return 2 * len(network.edges) * (program.last_pulse(network) + 1)


def is_of_file(program: Program) -> bool:
    """Whether no proved program runs a program: it is from a file."""
    return program.file is not None
