"""Programs that go on where the colouring ends, at one node, by their definition
(docs/claim/DEFINITIONS.md), slow and plain. Payloads, ports and pulses are as in
src/forestplan/definitions/program.py."""
from forestplan.definitions.nodes import Colouring
from forestplan.definitions.program import Slot
from forestplan.network import Network


class Sequel:
    """A node that runs the colouring up to a pulse, the cut; from then on its node of the colouring, `first`, stays,
    and it makes pulses of its own, counted from 0."""

    # The words of its own payloads: up to the cut it refuses them.
    words: tuple[str, ...]

    first: Colouring
    degree: int
    cut: int

    def __init__(self, net: Network, v: int) -> None:
        self.first = Colouring(net, v)
        self.degree = len(net.neighbours[v])
        self.cut = self.cut_of(net)

    @staticmethod
    def cut_of(net: Network) -> int:
        """The last pulse of the colouring that is made."""
        raise NotImplementedError

    def greet(self) -> list[Slot]:
        return self.first.greet()

    def next(self, pulse: int, inbox: list[Slot]) -> list[Slot]:
        return (
            self.first.next(pulse, inbox)
            if pulse <= self.cut
            else self.go_on(pulse - self.cut - 1, inbox)
        )

    def go_on(self, pulse: int, inbox: list[Slot]) -> list[Slot]:
        """What it sends at a pulse of its own, by port."""
        raise NotImplementedError

    def result(self) -> str:
        """What it has found so far, in words."""
        raise NotImplementedError
