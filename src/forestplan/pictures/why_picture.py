"""Why a node has its channel: the messages that decided it, back to identifiers, as text and on the rounds.

A fact is what a node is at some point of the rounds: ("identifier", v), ("colour", v, f, p), v's colour in forest f
after pulse p, or ("merged", v, f), the colour that v chose in the merge of forest f. `Cone` goes back from the last
choice of a node to all facts that its value was worked out from. What a node didn't hear is no fact: that a channel is
free follows from nobody's having taken it before; and who is whose parent follows from the greetings."""
from collections.abc import Iterable, Iterator

from forestplan.definitions.nodes import DROPPED
from forestplan.definitions.rounds import LAST_COLOUR, ColouringRounds, SEED
from forestplan.fault_codes import Code
from forestplan.faults import Fault, at_most
from forestplan.pictures.layout import distances
from forestplan.pictures.rounds_picture import MOST_ROWS, draw_strips
from forestplan.wording import as_text, counted, in_words


# A kind, and the numbers that it is of.
Fact = tuple[str, int] | tuple[str, int, int] | tuple[str, int, int, int]

NOT_FOLLOWED = (
    "not followed: that nobody had taken the channel that it has; and the greetings, which say who is "
    "whose parent"
)


class Cone:
    """The facts on which the channel of `node` depends, and the messages that carried them."""

    def __init__(self, rounds: ColouringRounds, node: int | None) -> None:
        self.rounds = rounds
        self.network = rounds.network
        if node is None or node not in self.network.node_numbers:
            raise Fault(Code.NO_NODE_OF_NETWORK, name=self.network.name, node=node)
        self.node = node
        # The pulse, from, to, and what was said.
        self.messages: set[tuple[int, int, int, str]] = set()
        self.facts: set[Fact] = set()
        if rounds.forests:
            self.facts = self.behind(("merged", node, rounds.forests - 1))

    def behind(self, fact: Fact) -> set[Fact]:
        """A fact and all those on which it depends."""
        found = {fact}
        left = [fact]
        while left:
            new = set(self.causes_of(*left.pop())) - found
            found |= new
            left += new
        return found

    def choices(self) -> list[tuple[int, int]]:
        """(node, forest) of each choice that mattered, the last one first."""
        found = [(v, f) for kind, v, *more in self.facts if kind == "merged" for f in more]
        return sorted(found, key=lambda choice: (-self.rounds.turns[choice[1], choice[0]], choice))

    def coloured(self) -> list[tuple[int, int]]:
        """(node, forest) where a colour mattered, by forest."""
        found = {(f, v) for kind, v, *more in self.facts if kind == "colour" for f in more[:1]}
        return [(v, f) for f, v in sorted(found)]

    def causes_of(self, kind: str, *fact: int) -> Iterable[Fact]:
        if kind == "merged":
            return self.causes_of_choice(*fact)
        return self.causes_of_colour(*fact) if kind == "colour" else ()

    def causes_of_choice(self, v: int, f: int) -> Iterator[Fact]:
        """Its pair, which is its turn; and, for each lower colour, who had taken it first, if it isn't barred."""
        yield "colour", v, f, LAST_COLOUR
        if f:
            yield "merged", v, f - 1
        for lower, when, w in self.takers(v, f):
            if w:
                self.messages.add((when, w, v, f"chosen {lower}"))
                yield "merged", w, f

    def takers(self, v: int, f: int) -> Iterator[tuple[int, int, int]]:
        """(lower colour, pulse, neighbour that took it first) of v's choice; 0 and 0 of one that is barred."""
        rounds = self.rounds
        merged = self.rounds.merged[f + 1]
        near = [
            (rounds.turns[f, w], w)
            for w in self.network.neighbours[v]
            if rounds.forest_of[v, w] <= f
        ]
        for lower in range(merged[v]):
            yield lower, *(
                (0, 0)
                if lower in self.network.barred[v]
                else min(
                    (turn, w)
                    for turn, w in near
                    if merged[w] == lower and turn < rounds.turns[f, v]
                )
            )

    def causes_of_colour(self, v: int, f: int, p: int) -> Iterator[Fact]:
        if p == SEED:
            yield "identifier", v
            return
        parent = self.rounds.parents.get((v, f))
        pulses = self.rounds.pulses
        phase = pulses[p].phase
        before = pulses[p - 1].colours
        if phase == "shift":
            yield from [self.told(v, parent, f, p)] if parent else [("colour", v, f, p - 1)]
            return
        yield "colour", v, f, p - 1
        if phase == "drop" and before[v, f] == DROPPED[p]:
            yield "colour", v, f, p - 2
        if parent and (phase == "step" or before[v, f] == DROPPED[p]):
            yield self.told(v, parent, f, p)

    def told(self, v: int, parent: int, f: int, p: int) -> tuple[str, int, int, int]:
        """The parent's colour before pulse p, which it told v in the pulse before."""
        self.messages.add(
            (p - 1, parent, v, f"colour {self.rounds.pulses[p - 1].colours[parent, f]}")
        )
        return "colour", parent, f, p - 1

    def identifiers(self) -> list[int]:
        return sorted(fact[1] for fact in self.facts if fact[0] == "identifier")

    def forests(self) -> list[int]:
        return sorted(
            {f for kind, _, *more in self.facts if kind != "identifier" for f in more[:1]}
        )


def cone_summary(cone: Cone) -> str:
    """How many messages decided it, and on whose identifiers it depends."""
    names = cone.identifiers()
    if not names:
        return "It has no neighbour that is heard: the least channel that isn't barred."
    sent = sum(len(pulse.puts) for pulse in cone.rounds.pulses)
    far = distances(cone.network.neighbours, cone.node)
    most = max(far[v] for v in names)
    return (
        f"{len(cone.messages)} of {sent} messages decided it, and the identifiers of {len(names)} of "
        f"{counted(cone.network.nodes, 'node')}. The farthest of these nodes, {counted(most, 'edge')} away: "
        f"{in_words([v for v in names if far[v] == most])}."
    )


def channel_of(cone: Cone) -> int:
    return cone.rounds.merged[-1][cone.node] + 1


def why_text(cone: Cone) -> str:
    """In words: each choice that mattered, the last one first, and the colours that gave the turns."""
    lines = [
        f"why node {cone.node} of {cone.network.name} has channel {channel_of(cone)}",
        cone_summary(cone),
    ]
    for v, f in cone.choices():
        lines += choice_lines(cone, v, f)
    lines += [colour_line(cone, v, f) for v, f in cone.coloured()]
    if cone.messages:
        lines.append("the messages that decided it, pulse by pulse:")
        lines += [message_words(cone, *message) for message in sorted(cone.messages)]
    if names := cone.identifiers():
        lines.append(f"the identifiers that decided it: {in_words(names)}")
    lines.append(NOT_FOLLOWED)
    return as_text(lines)


def message_words(cone: Cone, pulse: int, v: int, w: int, said: str) -> str:
    """A message, and the forest of which it is: of a colour that of the edge, of a choice the one that is merged."""
    step = cone.rounds.pulses[pulse].step
    where = (
        f"in the merge of forest {step[0]}" if step else f"in forest {cone.rounds.forest_of[v, w]}"
    )
    return f"{v} told {w} {said} in pulse {pulse}, {where}"


def choice_lines(cone: Cone, v: int, f: int) -> Iterator[str]:
    pulse = cone.rounds.turns[f, v]
    colour = cone.rounds.merged[f + 1][v]
    _, three, old = cone.rounds.pulses[pulse].turn()
    yield (
        f"pulse {pulse}, merge of forest {f}: the turn of node {v}, with colour {three} in the forest and {old} so "
        f"far; it chooses colour {colour}, channel {colour + 1}"
    )
    for lower, when, w in cone.takers(v, f):
        yield (
            f"  channel {lower + 1} is barred at it"
            if not w
            else f"  channel {lower + 1} is taken: node {w} told it so in pulse {when}"
        )


def colour_line(cone: Cone, v: int, f: int) -> str:
    """The colours of a node in a forest that mattered, by pulse; a point stands for one that didn't."""
    parent = cone.rounds.parents.get((v, f))
    said = " ".join(
        str(cone.rounds.pulses[p].colours[v, f]) if ("colour", v, f, p) in cone.facts else "."
        for p in range(SEED, LAST_COLOUR + 1)
    )
    above = f"parent {parent}" if parent else "a root"
    return f"forest {f}, node {v}, {above}, pulses 2 to 12: {said}"


def why_svg(cone: Cone) -> str:
    """The rounds, with all that didn't matter faded."""
    rounds = cone.rounds
    network = cone.network
    forests = cone.forests()
    if not forests:
        raise Fault(Code.NODE_IN_NO_FOREST, node=cone.node, name=network.name)
    at_most("why", len(forests) * network.nodes, "rows", MOST_ROWS, "--text, which has no limit")
    title = f"{network.name}: why node {cone.node} has channel {channel_of(cone)}"
    pale = "Pale is what didn’t decide it; the last column, with the channels after a merge, is never pale."
    return draw_strips(rounds, forests, title, [cone_summary(cone), pale], cone)
