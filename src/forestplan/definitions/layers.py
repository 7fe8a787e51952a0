"""Layers around a root, the node of identifier 1 unless another one is named (breadth-first search in rounds: Lynch,
Distributed Algorithms, 1996, section 4.2), at one node, by its definition (docs/claim/DEFINITIONS.md), slow and plain.
Payloads, ports and pulses are as in src/forestplan/definitions/program.py."""
from functools import partial

from forestplan.definitions.program import Payload, Program, Slot
from forestplan.network import Network

# The identifier of the node in layer 0.
ROOT = 1


class Layers:
    """A node that learns its distance from the root, in edges, and a port that leads there: `layer` is None as long as
    nothing has come, and `by` is None then and at the root. `root` is the node that is the root, whatever its
    identifier is; None if it is the node of identifier 1."""

    degree: int
    last: int
    is_root: bool
    layer: int | None
    by: int | None

    def __init__(self, net: Network, v: int, root: int | None = None) -> None:
        self.degree = len(net.neighbours[v])
        self.last = self.last_pulse(net)
        self.is_root = net.identifiers[v] == ROOT if root is None else v == root
        self.layer = 0 if self.is_root else None
        self.by = None

    @staticmethod
    def last_pulse(net: Network) -> int:
        """No two nodes of a component are as many edges apart as there are nodes."""
        return max(net.nodes - 1, 0)

    def greet(self) -> list[Slot]:
        """What it sends at pulse 0, by port: its layer, if it is the root."""
        return [Payload("hops", 0) if self.is_root else None] * self.degree

    def next(self, pulse: int, inbox: list[Slot]) -> list[Slot]:
        """What it sends at a pulse, by port: its layer at the pulse at which it learns it, and otherwise nothing."""
        if self.layer is not None or not any(inbox):
            return [None] * self.degree
        hops, self.by = min((slot.number, port) for port, slot in enumerate(inbox) if slot)
        self.layer = hops + 1
        return [Payload("hops", self.layer) if pulse < self.last else None] * self.degree

    def refuses(self, pulse: int, inbox: list[Slot]) -> bool:
        """Whether no round has this inbox: what comes at pulse p was sent at distance p - 1, and after the last pulse
        nothing comes."""
        return any(slot and (pulse > self.last or slot.number != pulse - 1) for slot in inbox)

    def result(self) -> str:
        if self.layer is None:
            return "layer none"
        return f"layer {self.layer}" if self.by is None else f"layer {self.layer} by {self.by}"


def layers(root: int | None = None) -> Program:
    """The program, with a node that is the root if it isn't the node of identifier 1."""
    return Program("layers", partial(Layers, root=root), Layers.last_pulse, root, reads_bars=False)
