"""The classes of a plan choose anew (J. C. Culberson, Iterated greedy graph coloring and the difficulty landscape,
1992), at one node, by its definition (docs/claim/DEFINITIONS.md), slow and plain."""
from functools import partial

from forestplan.definitions.nodes import last_pulse
from forestplan.definitions.program import Payload, Program, Slot
from forestplan.definitions.sequel import Sequel
from forestplan.network import Network, order


class Recolouring(Sequel):
    """A node that chooses its colour anew, once in each sweep: `old` is the colour with which it came into the sweep,
    `colour` the one that it chose last, None before it has chosen, and `held` has the colours of the neighbours that
    have chosen in this sweep. A pass is a sweep, or two if a node of the network has bars (`barring`): in the first the
    classes rise."""

    words = ("anew",)
    cut_of = staticmethod(last_pulse)

    span: int
    barring: bool
    old: int | None
    colour: int | None
    held: set[int]

    def __init__(self, net: Network, v: int) -> None:
        super().__init__(net, v)
        self.span = net.span
        self.barring = net.greatest_bars > 0
        self.old = None
        self.colour = None
        self.held = set()

    @staticmethod
    def last_pulse(net: Network, passes: int) -> int:
        """After the colouring each colour has a pulse, in each sweep."""
        sweeps = 2 if net.greatest_bars else 1
        return last_pulse(net) + passes * sweeps * net.channels

    def go_on(self, pulse: int, inbox: list[Slot]) -> list[Slot]:
        """The pulse of the nodes of a colour. When all have had theirs, a sweep begins."""
        sweep, later = divmod(pulse, 1 + self.span)
        if not later:
            self.old = self.present()
            self.held = set()
        self.held |= {slot.number for slot in inbox if slot}
        if self.old != order(self.span, self.barring, sweep)[later]:
            return [None] * self.degree
        rises = self.barring and sweep % 2 == 0
        self.colour = self.risen() if rises else self.first.least_free(self.held)
        return [Payload("anew", self.colour) if later < self.span else None] * self.degree

    def risen(self) -> int:
        """The greatest colour that is neither barred at it nor a chosen neighbour's, and below one of these; or its
        own, if none above that is so."""
        own = self.present()
        free = set(range(own, max(self.held, default=0))) - self.first.barred - self.held
        return max(free, default=own)

    def present(self) -> int:
        """The colour that it has: that of the colouring until it chooses again, and then what it chose last."""
        return self.first.merged if self.colour is None else self.colour

    def result(self) -> str:
        return f"channel {self.present() + 1}"

    def drawn(self) -> tuple[int | None, int | None]:
        return self.present(), None


def recolouring(passes: int = 1) -> Program:
    """The program of so many passes, 1 to 64."""
    last = partial(Recolouring.last_pulse, passes=passes)
    return Program("recolouring", Recolouring, last, passes=passes)
