"""What goes wrong without a rule of the rounds, and beside it the same rounds with all rules: in a forest, the colours
of a node and of those above it, pulse by pulse; in a merge, the network with what each node has; of a program that goes
on where the colouring ends, what its nodes have found at their last pulse. What goes wrong is red."""
from functools import partial
from typing import Protocol

from forestplan.definitions.nodes import COLOURING
from forestplan.definitions.program import Program
from forestplan.fault_codes import Code
from forestplan.faults import Fault, at_most
from forestplan.network import Network
from forestplan.pictures.map_picture import map_box, draw_map
from forestplan.pictures.marks import Map, colour_square
from forestplan.pictures.palette import INK, PAPER, SOFT, WRONG
from forestplan.pictures.panel import PANEL, Panel
from forestplan.pictures.program_rounds import program_rounds
from forestplan.pictures.results_picture import ResultNode, draw_chosen, found_in, result_legend
from forestplan.pictures.rounds_picture import COLUMN, LEFT, ROW, SQUARE, draw_rows, square_middle
from forestplan.pictures.schedules_space import left_out_words
from forestplan.pictures.svg import Svg, text_width, wrapped
from forestplan.schedules.ruled_rounds import (
    Clash,
    RuledRounds,
    RuledSequel,
    WrongResult,
    looked_at,
    ruled,
)
from forestplan.wording import in_words

MOST_DRAWN = 40
OVER = 48
LEAST_WIDTH = 620


def drawn_by(
    rounds: RuledRounds | RuledSequel, right: RuledRounds | RuledSequel
) -> "BrokenPicture":
    """What draws where rounds go wrong, beside those with all rules: the end of a sequel, a forest or a merge."""
    if isinstance(rounds, RuledSequel) and isinstance(right, RuledSequel):
        check_size(rounds)
        both = (rounds, right)
        return OfEnd(both, [found_in(program_rounds(one.net, one.program)) for one in both])
    if not isinstance(rounds, RuledRounds) or not isinstance(right, RuledRounds):
        raise TypeError("both rounds are of one program")
    if pulse := clash_of(rounds).pulse:
        return OfForest(pulse, rounds, right)
    return OfMerge(rounds, right)


def clash_of(rounds: RuledRounds) -> Clash:
    """The clash of rounds that go wrong."""
    if rounds.clash is None:
        raise ValueError("these rounds go right")
    return rounds.clash


class BrokenPicture(Protocol):
    """What draws both rounds: `step` is how far the second ones are from the first."""

    @property
    def width(self) -> float:
        ...

    @property
    def height(self) -> float:
        ...

    @property
    def step(self) -> tuple[float, float]:
        ...

    @property
    def legend(self) -> str:
        ...

    def draw(self, svg: Svg, left: float, top: float, number: int) -> None:
        ...


def broken_svg(
    network: Network | None, without: tuple[str, ...], program: Program = COLOURING
) -> str:
    """Of a network, or of a smallest one on which the rounds of a program go wrong."""
    rounds, where = looked_at(network, without, program)
    left_out = " and ".join(f"‘{rule}’" for rule in without)
    if rounds is None:
        raise Fault(Code.GOES_RIGHT, where=where, without=",".join(without))
    picture = drawn_by(rounds, ruled(program, rounds.net, ()))
    width = max(picture.width, LEAST_WIDTH)
    right, down = picture.step
    said = [
        f"{line[0].upper()}{line[1:]}.".replace("'", "’")
        for line in [where, *rounds.sentence().split("\n")]
    ]
    lines = [
        line for text in [left_out_words(without), *said] for line in wrapped(text, width - 40)
    ]
    legend = wrapped(picture.legend, width - 40)
    top = 48 + 16 * len(lines)
    bottom = top + picture.height
    svg = Svg(width, bottom + 16 * len(legend) + 10, f"Broken without {' and '.join(without)}")
    svg.heading(
        ("W" if network is None else f"{network.name} w") + f"ithout {left_out}: {title(rounds)}",
        *lines,
    )
    for number, (mark, label, hue) in enumerate(
        (("without", f"without {left_out}", WRONG), ("with", "with all rules", INK))
    ):
        with svg.group(mark, label):
            x, y = number * right, top + number * down
            svg.text(x + 20, y + 16, label, 12.5, hue, bold=True)
            picture.draw(svg, x, y + OVER, number)
    for number, line in enumerate(legend, 1):
        svg.note(20, bottom + 16 * number, line)
    return svg.document()


def title(rounds: RuledRounds | RuledSequel) -> str:
    if isinstance(rounds, RuledRounds):
        clash = clash_of(rounds)
        return f"nodes {clash.v} and {clash.w} get the same colour"
    nodes = rounds.faults[0].nodes
    return f"node {nodes[0]} goes wrong" if len(nodes) == 1 else f"nodes {in_words(nodes)} go wrong"


def check_size(rounds: RuledRounds | RuledSequel) -> None:
    at_most(
        "broken",
        rounds.net.nodes,
        "nodes of a merge or of another program",
        MOST_DRAWN,
        "`forestlab explore NETWORK --without RULES`, which says it in words",
    )


# How each kind is drawn: `both` are the rounds without the rules and with all, of which the second ones are drawn a
# `step` further.


class OfForest:
    """A row for the node that goes wrong and for each one above it, the highest on top; a column for each pulse, up to
    the one after which it does."""

    def __init__(self, pulse: int, *both: RuledRounds) -> None:
        self.pulse = pulse
        self.both = both
        self.clash = clash_of(both[0])
        net = both[0].net
        v: int | None = self.clash.v
        above: list[tuple[int, int | None]] = []
        # A colour after pulse P hangs on P - 2 nodes above it.
        while v and len(above) < pulse - 1:
            above.append((v, net.parent(self.clash.forest, v)))
            v = above[-1][1]
        self.parents = dict(reversed(above))
        block = LEFT + max(pulse - 1, 5) * COLUMN + 24
        self.width = 2 * block
        self.height = OVER + 32 + len(above) * ROW
        self.step = (block, 0)
        self.legend = (
            f"Square: the node’s colour in forest {self.clash.forest} after the pulse; grey: still a name. "
            "An arrow leads to the parent."
        )

    def draw(self, svg: Svg, left: float, top: float, number: int) -> None:
        lists = self.both[number].colours[self.clash.forest]

        def square(v: int, pulse: int, x: float, y: float) -> None:
            colour_square(svg, x, y, SQUARE, lists[pulse - 2][v], is_name=pulse == 2)

        draw_rows(svg, left, top, self.parents, self.pulse, square)
        if number == 0:
            # Around the two squares with one colour.
            x, y = square_middle(left, top, len(self.parents) - 2, self.pulse)
            svg.rect(
                x - SQUARE - 3,
                y - SQUARE - 3,
                2 * SQUARE + 6,
                ROW + 2 * SQUARE + 6,
                "none",
                WRONG,
                2.4,
                4,
                mark="wrong",
            )


class OfMerge:
    """Three panels in a row: the channels before the merge, the colours in the forest, the channels after it."""

    legend = (
        "Circle: the channel so far; square: the colour in this forest, with arrows to the parents, and pale at "
        "a node without an edge in it. Nodes choose in the order of their turns: the colour in this forest, and "
        "with all rules the merged colour, too, which is the channel less 1."
    )

    def __init__(self, *both: RuledRounds) -> None:
        check_size(both[0])
        self.both = both
        self.clash = clash_of(both[0])
        self.net = both[0].net
        self.panel = Panel(self.net)
        self.forest_of = {e: self.net.number[frozenset(e)] for e in self.net.edges}
        room = (
            max(text_width(line, 11) for rounds in both for line in self.chooses(rounds)) * 0.95
            + 10
        )
        block = self.panel.height + OVER
        self.width = 40 + 3 * PANEL + room
        self.height = 2 * block
        self.step = (0, block)

    def draw(self, svg: Svg, left: float, top: float, number: int) -> None:
        rounds = self.both[number]
        f = self.clash.forest
        left = left + 20
        parents = {v: parent for v in self.net.node_numbers if (parent := self.net.parent(f, v))}
        titles = "channels before this merge", f"colours in forest {f}", "channels after this merge"
        for at, label in enumerate(titles):
            svg.text(left + (at + 0.5) * PANEL, top - 8, label, 11, INK, "middle", mark="group")
        self.panel.channels(svg, left, top, self.forest_of, f - 1, f, rounds.merged[f])
        self.panel.colours(svg, left + PANEL, top, parents, rounds.colours[f][-1])
        self.panel.channels(svg, left + 2 * PANEL, top, self.forest_of, f, f, rounds.merged[f + 1])
        for at, line in enumerate(self.chooses(rounds)):
            svg.text(
                left + 3 * PANEL,
                top + self.panel.height / 2 - 20 + 17 * at,
                line,
                11,
                INK if at % 2 == 0 else SOFT,
                mark="chooses",
            )

    def chooses(self, rounds: RuledRounds) -> list[str]:
        """How the two nodes that go wrong choose: in words, two lines for each."""
        f = self.clash.forest
        without = rounds.without
        three = rounds.colours[f][-1]
        old = rounds.merged[f]
        new = rounds.merged[f + 1]
        turn = {v: (three[v],) if "pair" in without else (three[v], old[v]) for v in three}
        lines = []
        for v in sorted((self.clash.v, self.clash.w), key=lambda v: (turn[v], v)):
            forests = {w: self.forest_of[min(v, w), max(v, w)] for w in self.net.neighbours[v]}
            said = [
                f"{new[w] + 1} of {w}"
                for w, of in forests.items()
                if turn[w] < turn[v] and (of == f if "earlier" in without else of <= f)
            ]
            lines.append(
                f"node {v}, turn {', '.join(map(str, turn[v]))}: takes channel {new[v] + 1}"
            )
            lines.append(f"(it has heard {in_words(said) or 'nothing'})")
        return lines


class OfEnd:
    """Maps: what the nodes of a program have found at the end."""

    def __init__(
        self, both: tuple[RuledSequel, RuledSequel], found: list[dict[int, ResultNode]]
    ) -> None:
        self.net = both[0].net
        self.faults = [rounds.faults for rounds in both]
        self.found = found
        self.box = map_box(
            self.net, [one for found in self.found for one in found.values()], LEAST_WIDTH / 2, 0
        )
        self.width = 2 * self.box[0]
        self.height = self.box[1] + OVER
        self.step = (self.box[0], 0)
        self.legend = f"What each node has found at the end{result_legend(self.found[1])}. Red: what isn’t right."

    def draw(self, svg: Svg, left: float, top: float, number: int) -> None:
        width, height, beside, _ = self.box
        draw_map(
            svg,
            self.net,
            self.found[number],
            (width, height, beside, top - OVER / 2),
            ("#9A9A9A", 1.2),
            partial(draw_end, svg, self.found[number], self.faults[number]),
            left,
        )


def draw_end(svg: Svg, found: dict[int, ResultNode], faults: list[WrongResult], drawn: Map) -> None:
    """The edges that nodes have chosen, and below them a red one for each pair that isn't right; a node that isn't has
    a red ring."""
    for fault in faults:
        if len(fault.nodes) == 2:
            v, w = fault.nodes
            drawn.edge(svg, v, w, WRONG, 8, mark="wrong")
    draw_chosen(svg, drawn, found)
    for v in sorted({v for fault in faults for v in fault.nodes}):
        svg.circle(*drawn.places[v], drawn.radius + 4, PAPER, WRONG, 2.2, mark="wrong-node")
