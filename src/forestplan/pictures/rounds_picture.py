"""The rounds strip: a block for each forest, a row for each node, a column for each pulse; squares while it is
coloured, circles where channels are chosen."""
from collections.abc import Callable
from typing import TYPE_CHECKING

from forestplan.definitions.rounds import LAST_COLOUR, Pulse, ColouringRounds
from forestplan.faults import at_most
from forestplan.network import Network
from forestplan.pictures.geometry import Point
from forestplan.pictures.marks import alone_chip, bar_row, bars_width, channel_circle, colour_square
from forestplan.pictures.palette import FOREST_COLOURS, INK, PAPER, SOFT, channel_hue, short
from forestplan.pictures.svg import Svg, text_width

if TYPE_CHECKING:
    from forestplan.pictures.why_picture import Cone

MOST_ROWS = 400
USUAL_ROWS = 40
COLUMN = 27
ROW = 27
LEFT = 112
TOP = 100
FULL_STEPS = 40
SQUARE = COLUMN / 2 - 2.5
HEAD = 68
FOOT = 30
BAR = 8
GROUPS = [
    (2, 2, "start"),
    (3, 6, "bit steps"),
    (7, 7, "shift"),
    (8, 8, "drop 5"),
    (9, 9, "shift"),
    (10, 10, "drop 4"),
    (11, 11, "shift"),
    (12, 12, "drop 3"),
]
MERGES = LEFT + 11 * COLUMN + 34


def rounds_svg(rounds: ColouringRounds, asked: tuple[int, int] | None = None) -> str:
    """The forests A to B that are asked for; else the first ones, as many as a slide has room for."""
    network = rounds.network
    forests = list(rounds.asked_forests(asked, max(1, USUAL_ROWS // network.nodes)))
    at_most(
        "rounds",
        len(forests) * network.nodes,
        "rows",
        MOST_ROWS,
        "rounds --forest F, one forest at a time",
    )
    title = f"{network.name}: six colours at pulse 6, three at pulse 12, the plan at pulse {rounds.last}"
    return draw_strips(rounds, forests, title, left_out_of(rounds, forests))


def draw_strips(
    rounds: ColouringRounds,
    forests: list[int],
    title: str,
    lines: list[str],
    cone: "Cone | None" = None,
) -> str:
    """Forests under a title and lines; of a `cone` (why_picture.py), what isn't in it is faded."""
    network = rounds.network
    steps = merge_steps(rounds, forests)
    is_full = all(len(steps[f]) == 3 * rounds.width for f in forests)
    most = max(map(len, steps.values()))
    column = 21 if is_full or most > 12 else COLUMN
    width = max(MERGES + most * column + 90 + bars_room(network), 980)
    block = network.nodes * ROW + HEAD + FOOT
    top = TOP + 18 * len(lines)
    svg = Svg(width, top + len(forests) * block - FOOT + 18, f"Rounds of {network.name}")
    svg.heading(title, *lines)
    draw_colour_legend(svg, 50 + 18 * len(lines), network.bars)
    for number, forest in enumerate(forests):
        strip = Strip(svg, rounds, forest, top + number * block, steps[forest], column, cone)
        strip.colours()
        strip.merge(is_full)
    return svg.document()


def left_out_of(rounds: ColouringRounds, forests: list[int]) -> list[str]:
    """A line that says which forests are drawn, if not all are."""
    if len(forests) == rounds.forests:
        return []
    shown = (
        f"forest {forests[0]}" if len(forests) == 1 else f"forests {forests[0]} to {forests[-1]}"
    )
    return [f"Here {shown} of 0 to {rounds.forests - 1}; draw others with --forest A..B."]


def merge_steps(rounds: ColouringRounds, forests: list[int]) -> dict[int, list[Pulse]]:
    """The merge steps shown of each forest: all of them, or, if that are many, those at which some node chooses."""
    steps = {
        f: [pulse for pulse in rounds.pulses if pulse.step and pulse.step[0] == f] for f in forests
    }
    if sum(map(len, steps.values())) > FULL_STEPS:
        return {f: [pulse for pulse in pulses if pulse.chosen] for f, pulses in steps.items()}
    return steps


def bars_room(network: Network) -> float:
    """How much room the longest row of barred channels takes, beside the circles of the channels after a merge."""
    return max((20 + bars_width(bars, BAR) for bars in network.bars.values()), default=0)


def draw_colour_legend(svg: Svg, y: float, has_bars: object) -> None:
    for colour in range(6):
        colour_square(svg, 28 + 17 * colour, y, 7.5, colour, mark="legend")
    svg.note(130, y + 4, "square: colour in the forest; 3, 4, 5 are dropped")
    svg.rect(452, y - 7.5, 15, 15, "#D6D6D6", round_by=2)
    svg.note(474, y + 4, "still a name")
    alone_chip(svg, 574, y, COLUMN / 2 - 6, 1)
    svg.note(588, y + 4, "no edge in this forest: its colour there")
    if has_bars:
        bar_row(svg, 830, y, [1], BAR)
        svg.note(852, y + 4, "barred at the node")
    y += 22
    channel_circle(svg, 28, y, 8, 1, mark="legend")
    svg.note(42, y + 4, "circle: the node chooses this channel")
    svg.line(276, y, 300, y, channel_hue(1), 3, opacity="0.35")
    svg.note(308, y + 4, "its channel meanwhile")
    svg.note(
        452,
        y + 4,
        "K and J say whose turn it is: colour in the forest, merged colour (channel J + 1).",
    )


def draw_heads(svg: Svg, left: float, y: float, column: int, last: int) -> None:
    """What is done in the pulses 2 to `last`, each over its column, and their numbers."""
    for first, end, label in GROUPS:
        end = min(end, last)
        if first <= end:
            x1, x2 = left + (first - 2) * column + 2, left + (end - 1) * column - 2
            label, size = (label, 10) if end > first else (label.removesuffix("s"), 7.5)
            svg.text((x1 + x2) / 2, y, label, size, INK, "middle", mark="group")
            svg.line(x1, y + 5, x2, y + 5, "#9A9A9A", 1)
    for pulse in range(2, last + 1):
        svg.note(left + (pulse - 1.5) * column, y + 18, pulse, 9, "middle")


def square_middle(left: float, top: float, row: int, pulse: int) -> Point:
    """The middle of a square."""
    return left + LEFT + (pulse - 1.5) * COLUMN, top + 23 + (row + 0.5) * ROW


def draw_rows(
    svg: Svg,
    left: float,
    top: float,
    parents: dict[int, int | None],
    last: int,
    square: Callable[[int, int, float, float], None],
) -> None:
    """The heads of the pulses 2 to `last`, and a row for each node of `parents`: its number, its parent, and what
    `square` draws of it, given the node, the pulse and a place."""
    draw_heads(svg, left + LEFT, top, COLUMN, last)
    svg.note(left + LEFT - 4, top + 18, "pulse", 9, "end")
    for row, (v, parent) in enumerate(parents.items()):
        y = square_middle(left, top, row, 2)[1] + 4.5
        svg.text(left + 46, y, v, 12, INK, "end", bold=True, mark="node")
        svg.note(left + 54, y, f"→ {parent}" if parent else "root", 10)
        for pulse in range(2, last + 1):
            square(v, pulse, *square_middle(left, top, row, pulse))


class Strip:
    """The block of one forest, with its upper edge at `top`; what isn't in the `cone` is faded, if there is one."""

    def __init__(
        self,
        svg: Svg,
        rounds: ColouringRounds,
        forest: int,
        top: float,
        steps: list[Pulse],
        column: int,
        cone: "Cone | None",
    ) -> None:
        self.svg = svg
        self.rounds = rounds
        self.forest = forest
        self.top = top
        self.cone = cone
        self.steps = steps
        self.column = column
        self.nodes = rounds.network.nodes
        self.right = MERGES + len(steps) * column + 44 + bars_room(rounds.network)

    def row(self, v: int) -> float:
        """The middle of v's row."""
        return self.top + HEAD + (v - 1) * ROW + ROW / 2

    def colours(self) -> None:
        """Left: the colour of each node after each of the pulses 2 to 12."""
        svg = self.svg
        svg.text(20, self.top + 20, f"forest {self.forest}", 13.5, INK, bold=True)
        nodes = self.rounds.network.node_numbers
        for v in nodes[::2]:
            svg.rect(16, self.row(v) - ROW / 2, self.right - 16, ROW, "#FAF8F2")
        with svg.group("colours", f"forest {self.forest}"):
            draw_rows(
                svg,
                0,
                self.top + 45,
                {v: self.rounds.parents.get((v, self.forest)) for v in nodes},
                LAST_COLOUR,
                self.square,
            )

    def square(self, v: int, pulse: int, x: float, y: float) -> None:
        colour = self.rounds.pulses[pulse].colours[v, self.forest]
        if pulse > 2 and not self.rounds.in_forest(v, self.forest):
            alone_chip(self.svg, x, y, COLUMN / 2 - 6, colour)
        else:
            colour_square(self.svg, x, y, SQUARE, colour, is_name=pulse == 2)
        if self.cone and ("colour", v, self.forest, pulse) not in self.cone.facts:
            self.fade(x, y, COLUMN, short(colour))

    def fade(self, x: float, y: float, side: int, number: str | int) -> None:
        """Makes a mark pale, and writes its number anew: white on a pale ground can't be read."""
        self.svg.rect(
            x - side / 2, y - ROW / 2, side, ROW, PAPER, fill_opacity="0.84", mark="faded"
        )
        self.svg.text(x, y + 3.6, number, 10 if len(str(number)) < 3 else 8.5, SOFT, "middle")

    def merge(self, is_full: bool) -> None:
        """Right: who chooses at which step, with a pale line of the channel that each node has before and after."""
        svg = self.svg
        top = self.top
        label = f"merge of forest {self.forest}"
        svg.text(MERGES, top + 20, label, 13.5, INK, bold=True)
        if not is_full:
            svg.note(
                MERGES + text_width(label, 13.5) + 22,
                top + 20,
                "(steps at which some node chooses)",
                10,
            )
        self.step_heads()
        end = MERGES + len(self.steps) * self.column
        svg.note(end + 24, top + 63, "after", 9, "middle")
        if self.rounds.network.bars:
            svg.note(end + 44, top + 63, "barred", 9)
        before = self.rounds.merged[self.forest] if self.forest else {}
        with svg.group("choices", f"forest {self.forest}"):
            for v in self.rounds.network.node_numbers:
                self.choices_of(v, before.get(v), end)

    def step_heads(self) -> None:
        """Pulse numbers, and the pair (colour in this forest, merged colour) whose turn it is."""
        svg = self.svg
        before = None
        svg.note(MERGES - 6, self.top + 36, "K", 9.5, "end")
        svg.note(MERGES - 6, self.top + 50, "J", 9.5, "end")
        for index, pulse in enumerate(self.steps):
            x = MERGES + index * self.column
            _, colour, old = pulse.turn()
            if colour != before:
                if index:
                    svg.line(x, self.top + 26, x, self.top + HEAD + self.nodes * ROW, "#C4C4C4", 1)
                svg.rect(
                    x + self.column / 2 - 6,
                    self.top + 27,
                    12,
                    12,
                    FOREST_COLOURS[colour],
                    round_by=2,
                )
                svg.label(x + self.column / 2, self.top + 36.5, colour, 9.5, "#FFFFFF", mark="turn")
            before = colour
            svg.text(x + self.column / 2, self.top + 50, old, 9, INK, "middle", mark="old")
            svg.note(
                x + self.column / 2,
                self.top + 63,
                pulse.number,
                8 if pulse.number < 100 else 7,
                "middle",
            )

    def choices_of(self, v: int, channel: int | None, end: float) -> None:
        svg = self.svg
        y = self.row(v)
        x0: float = MERGES
        chosen = [
            (MERGES + (index + 0.5) * self.column, pulse)
            for index, pulse in enumerate(self.steps)
            if v in pulse.chosen
        ]
        for x, pulse in chosen:
            if channel is not None:
                svg.line(x0, y, x, y, channel_hue(channel + 1), 3, opacity="0.35")
            channel = pulse.chosen[v]
            x0 = x
        after = 1 + (channel or 0)
        svg.line(x0, y, end + 12, y, channel_hue(after), 3, opacity="0.35")
        for x, pulse in chosen:
            channel_circle(
                svg, x, y, min(self.column, ROW) / 2 - 1, pulse.chosen[v] + 1, mark="choice"
            )
            if self.cone and ("merged", v, self.forest) not in self.cone.facts:
                self.fade(x, y, self.column, pulse.chosen[v] + 1)
        channel_circle(svg, end + 24, y, 11, after, mark="after")
        bar_row(svg, end + 44, y, self.rounds.network.bars.get(v, []), BAR)
