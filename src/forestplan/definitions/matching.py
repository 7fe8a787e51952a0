"""A maximal matching (A. Panconesi and R. Rizzi, Some simple distributed algorithms for sparse networks, 2001), at one
node, by its definition (docs/claim/DEFINITIONS.md), slow and plain."""
from forestplan.definitions.program import Payload, Program, Slot
from forestplan.definitions.sequel import Sequel
from forestplan.network import Network

# The last pulse at which the colours of the forests are made.
COLOURED = 12


class Matching(Sequel):
    """A node that finds a partner: `partner` is the port that leads to it, or None."""

    words = ("free", "take")

    partner: int | None

    def __init__(self, net: Network, v: int) -> None:
        super().__init__(net, v)
        self.partner = None

    @staticmethod
    def cut_of(net: Network) -> int:
        return COLOURED

    @staticmethod
    def last_pulse(net: Network) -> int:
        """Each forest has three turns of two pulses; at one more what was sent last is read."""
        return COLOURED + 1 + 6 * net.forest_count

    def go_on(self, pulse: int, inbox: list[Slot]) -> list[Slot]:
        turn, half = divmod(pulse, 2)
        forest, colour = divmod(turn, 3)
        came = next((port for port, slot in enumerate(inbox) if slot), None)
        return self.offer(forest, came) if half == 0 else self.take(forest, colour, came)

    def offer(self, forest: int, came: int | None) -> list[Slot]:
        """The first pulse of a turn: a free node that was taken is matched, and one that is still free says so to its
        parent."""
        if self.partner is None:
            self.partner = came
        is_free = self.partner is None
        return [
            Payload("free", forest) if is_free and role == ("Up", forest) else None
            for role in self.first.roles
        ]

    def take(self, forest: int, colour: int, came: int | None) -> list[Slot]:
        """The second: a free node whose turn it is takes the free child of the least port."""
        if (
            self.partner is not None
            or came is None
            or self.first.colours[forest : forest + 1] != [colour]
        ):
            return [None] * self.degree
        self.partner = came
        return [Payload("take", forest) if port == came else None for port in range(self.degree)]

    def result(self) -> str:
        return "partner none" if self.partner is None else f"partner {self.partner}"

    def drawn(self) -> tuple[int | None, int | None]:
        return None, self.partner


MATCHING = Program("matching", Matching, Matching.last_pulse, reads_bars=False)
