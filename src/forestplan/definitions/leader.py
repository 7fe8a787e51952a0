"""Electing a leader by flooding (OptFloodMax: Lynch, Distributed Algorithms, 1996, section 4.1), at one node, by its
definition (docs/claim/DEFINITIONS.md), slow and plain. Payloads, ports and pulses are as in
src/forestplan/definitions/program.py."""
from forestplan.definitions.program import Payload, Program, Slot
from forestplan.network import Network


class Leader:
    """A node that learns the greatest identifier of its component: `best` is the greatest that it knows."""

    degree: int
    last: int
    best: int

    def __init__(self, net: Network, v: int) -> None:
        self.degree = len(net.neighbours[v])
        self.last = self.last_pulse(net)
        self.best = net.identifiers[v]

    @staticmethod
    def last_pulse(net: Network) -> int:
        """No two nodes of a component are further apart than the number of nodes."""
        return net.nodes

    def greet(self) -> list[Slot]:
        """What it sends at pulse 0, by port: its own identifier."""
        return [Payload("leader", self.best)] * self.degree

    def next(self, pulse: int, inbox: list[Slot]) -> list[Slot]:
        """What it sends at a pulse, by port: a greater identifier if one came, and otherwise nothing."""
        heard = max((slot.number for slot in inbox if slot), default=0)
        if heard <= self.best:
            return [None] * self.degree
        self.best = heard
        return [Payload("leader", heard) if pulse < self.last else None] * self.degree

    def refuses(self, pulse: int, inbox: list[Slot]) -> bool:
        """Whether no round has this inbox: nothing is sent for a pulse after the last."""
        return pulse > self.last and any(inbox)

    def result(self) -> str:
        return f"leader {self.best}"


LEADER = Program("leader", Leader, Leader.last_pulse, reads_bars=False)
