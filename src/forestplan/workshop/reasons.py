"""Why a node has to do something in a pulse: the rule of the pulse, and this node's numbers, all of which it knows."""
from functools import cached_property

from forestplan.network import order
from forestplan.wording import in_words
from forestplan.workshop.findings import last_of, numbers_in_words
from forestplan.workshop.protocol import SEQUELS
from forestplan.workshop.right_rounds import RightRounds

NOT_COLOURED = ("leader", "layers")
DROPPED = {8: 5, 10: 4, 12: 3}
SHORT = 1 << 16  # numbers below it are shown in binary digits too
# Of each phase of the colouring, and of the pulses of the other programs.
RULES = {
    "greet": "in pulse 0 a node sends `hello` and its identifier, {name}, by each port",
    "orient": "its parents are the neighbours above its own identifier, {name}, by ascending identifier: {higher}; "
    "each gets the label of its forest",
    "seed": "in each forest a node begins with its identifier, {name}, and sends it to its children there",
    "step": "bit step: 2*d + b, where d is the first digit in which its colour differs from its parent's, counted "
    "from the right, from 0, and b is its own digit there; at a root d is 0. Its children get it",
    "shift": "shift: it takes its parent's colour, and a root the least of 0, 1, 2 other than its own; its children "
    "get it",
    "drop": "drop of {dropped}: who has {dropped} takes the least of 0, 1, 2 that neither its parent nor its children "
    "have; these have what it had itself before the shift. In pulse 12 nothing is sent, before that its "
    "children get it",
    "choice": "nodes choose in the pulses after 12 alone",
    "merge": "pulse {p} is the turn of the nodes that have colour {colour} in forest {forest} and had merged colour "
    "{old} before this merge: such a node takes the least colour that isn't barred at it and that didn't come "
    "in this merge, and sends it to its neighbours in forests 0 to {forest}, but nothing in the last pulse of "
    "a merge",
    "leader": "a node sends its own identifier in pulse 0, and later an identifier that is greater than all that it "
    "knew, as soon as it has heard it",
    "layers": "a node sends `hops N` by each port as soon as it knows that it is in layer N, the node of identifier 1 "
    "in pulse 0, and nothing in any other pulse",
    "free": "pulse {p} is the first of the turn of colour {colour} in forest {forest}: a node without a partner sends "
    "`free {forest}` to its parent in this forest, and nothing else is sent",
    "take": "pulse {p} is the second of the turn of colour {colour} in forest {forest}: a node of this colour there "
    "that has no partner takes the child of the least port by which `free {forest}` has come, and sends it "
    "`take {forest}`",
    "independent-set": "pulse {p} is the turn of the nodes of colour {turn}, channel {channel}: one of them joins if "
    "no neighbour has sent `joined`, and then sends `joined {turn}` by each port, but nothing in "
    "the last pulse",
    "recolouring": "pulse {p} is the turn of the nodes that have colour {turn}, channel {channel}, {by}: such a "
    "node takes the least colour that isn't barred at it and that no neighbour has sent as `anew` since pulse "
    "{first}, and sends it by each port as `anew`, but nothing in the last pulse",
    "rise": "pulse {p} is the turn of the nodes that have colour {turn}, channel {channel}, by the plan: such a node "
    "takes the greatest colour that isn't barred at it, that no neighbour has sent as `anew`, and that is below one "
    "that a neighbour has sent, or keeps its own if that is greater; it sends it by each port as `anew`, but nothing "
    "in pulse {before}",
}
FOUND = {
    "colouring": "the channel is the merged colour and one: the colour that it chose last, or, if it never chose, the "
    "least that isn't barred to it",
    "leader": "the leader is the greatest identifier that a node knows, its own or one that came",
    "layers": "the node of identifier 1 is in layer 0, any other in layer N + 1 where N is the number of the first "
    "`hops N` that comes, by the least port by which it comes; if none comes, in none",
    "matching": "a node's partner is by the port by which it sent `take`, or by which `take` came",
    "independent-set": "a node is in if it has joined in the turn of its colour",
    "recolouring": "a node's channel is the colour that it has chosen again, plus one",
}
# A key of RULES, the numbers in it, and what this node knows.
Reason = tuple[str, dict[str, object], list[str]]


class Why:
    """Sentences on node v."""

    def __init__(self, rounds: RightRounds, v: int) -> None:
        self.rounds = rounds
        self.v = v
        self.program = rounds.program
        self.network = rounds.network

    @cached_property
    def first(self) -> RightRounds:
        """The rounds of the colouring, after which other programs go on."""
        return RightRounds(self.network).work_out() if self.program in SEQUELS else self.rounds

    @property
    def start(self) -> int:
        """The first pulse of what goes on after the colouring."""
        return 13 if self.program == "matching" else self.first.last + 1

    @cached_property
    def up(self) -> dict[int, int]:
        """The port of its parent, by forest."""
        parents = self.first.puts[1].get(self.v, {})
        return {int(payload.split()[1]): port for port, payload in parents.items()}

    @cached_property
    def forest_by(self) -> dict[int, int]:
        """The forest of an edge, by its port."""
        labels = self.first.puts[1].get(self.v, {}) | self.first.inbox(2, self.v)
        return {port: int(payload.split()[1]) for port, payload in labels.items()}

    def of(self, p: int | None = None, port: int | None = None, forest: int | None = None) -> str:
        """Why it sends what it sends by a port in a pulse, or has its colour in a forest after it, or chooses; without
        a pulse, why it finds what it finds."""
        if self.program in NOT_COLOURED:
            return (FOUND if p is None else RULES)[self.program]
        if p is None:
            passed = [self.merged(self.start)] * (
                self.program in ("independent-set", "recolouring")
            )
            passed += [self.passed(self.start, self.rounds.last)] * (self.program in SEQUELS)
            return "; ".join([FOUND[self.program], *passed])
        rule, given, numbers = (
            self.of_colouring(p, port, forest) if p < self.start else self.of_sequel(p)
        )
        return "; ".join([RULES[rule].format(p=p, **given), *numbers])

    def of_colouring(self, p: int, port: int | None, forest: int | None) -> Reason:
        """The rule, its numbers, and this node's."""
        given: dict[str, object]
        phase, *turn = self.first.phase[p]
        if phase == "merge":
            forest, colour, old = map(int, turn)
            start = 13 + 3 * self.network.channels * forest
            numbers = [self.in_forest(13, forest), self.merged(start), self.passed(start + 1, p)]
            given = {"forest": forest, "colour": colour, "old": old}
            return phase, given, numbers
        if forest is None:
            if port is None:
                return "choice", {}, []
            forest = self.forest_by[port]
        names = self.network.identifiers
        neighbours = self.network.neighbours[self.v]
        higher = ", ".join(
            f"{names[neighbours[up]]} (port {up}) in forest {f}"
            for f, up in sorted(self.up.items())
        )
        given = {"name": names[self.v], "higher": higher or "none", "dropped": DROPPED.get(p)}
        return phase, given, [] if p < 2 else [self.in_forest(p, forest)]

    def of_sequel(self, p: int) -> Reason:
        """The same of a pulse after the colouring."""
        turn = p - self.start
        passed = self.passed(self.start, p)
        if self.program == "matching":
            forest, colour = divmod(turn // 2, 3)
            given: dict[str, object] = {"forest": forest, "colour": colour}
            return ("free", "take")[turn % 2], given, [self.in_forest(13, forest), passed]
        if self.program == "recolouring":
            return self.of_sweep(p, *divmod(turn, self.network.channels))
        return self.program, {"turn": turn, "channel": turn + 1}, [self.merged(self.start), passed]

    def of_sweep(self, p: int, sweep: int, later: int) -> Reason:
        """The same of a pulse in which classes rise or choose anew."""
        network = self.network
        barring = network.greatest_bars > 0
        turn = order(network.span, barring, sweep)[later]
        first = self.start + sweep * network.channels
        given: dict[str, object] = {
            "turn": turn,
            "channel": turn + 1,
            "by": "as they have risen" if sweep else "by the plan",
            "first": first,
            "before": self.start + network.span,
        }
        rule = "rise" if barring and not sweep else "recolouring"
        return rule, given, [self.merged(self.start), self.passed(self.start, p)]

    def in_forest(self, p: int, forest: int) -> str:
        """Its colour in a forest before a pulse, its parent there, and its children."""
        up = self.up.get(forest)
        colours = self.first.colours
        said = [f"it had {in_digits(p, colours[p - 1][self.v][forest])}"] if p > 2 else []
        if up is None:
            said.append("it is a root")
        else:
            came = self.first.inbox(p, self.v).get(up)
            sent = f" and sent {in_digits(p, int(came.split()[1]))}" if came else ""
            said.append(f"its parent is by port {up}{sent}")
        children = [
            port for port, f in sorted(self.forest_by.items()) if f == forest and port != up
        ]
        have = f" and have {colours[p - 2][self.v][forest]}" if p in DROPPED else ""
        said.append(
            f"its children are by {numbers_in_words('port', children)}{have}"
            if children
            else "it has no child"
        )
        return f"in forest {forest} {in_words(said)}"

    def merged(self, before: int) -> str:
        """Its merged colour before a pulse."""
        chosen = [chose[self.v] for chose in self.first.chose[:before] if self.v in chose]
        barred = [channel - 1 for channel in self.network.bars.get(self.v, ())]
        colour = chosen[-1] if chosen else min(set(range(self.network.channels)) - set(barred))
        return f"it had merged colour {colour}" + (
            f", and barred at it: {numbers_in_words('colour', barred)}" if barred else ""
        )

    def passed(self, first: int, last: int) -> str:
        """What came in these pulses, and what it sent before the last of them."""
        said = []
        for p in range(first, last + 1):
            said += [
                f"`{payload}` came by port {port} in pulse {p}"
                for port, payload in self.rounds.inbox(p, self.v).items()
            ]
            puts = self.rounds.puts[p].get(self.v, {}) if p < last else {}
            said += [
                f"it sent `{payload}` by port {port} in pulse {p}"
                for port, payload in sorted(puts.items())
            ]
        return ", ".join(last_of(said)) or "nothing has come"


def in_digits(p: int, number: int) -> str:
    """A colour; in the pulses of bit steps with its digits."""
    return f"{number} (binary {number:b})" if 3 <= p <= 6 and number < SHORT else str(number)
