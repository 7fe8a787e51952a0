"""Every schedule of a tiny network as a lattice: a mark is a state, a line a step, a column an event. One run is bold,
and what goes wrong is red."""
import math
from bisect import bisect_right
from itertools import accumulate
from statistics import mean

from forestplan.definitions.events import Event, Kind
from forestplan.faults import at_most
from forestplan.network import Network
from forestplan.pictures.geometry import BASELINE
from forestplan.pictures.palette import BAND, BORDER, INK, PAPER, PULSE, WIRES, WRONG
from forestplan.pictures.schedules_space import fault_words, left_out_words
from forestplan.pictures.svg import Svg, text_width, wrapped
from forestplan.pictures.transcripts import window_of
from forestplan.schedules.alpha_space import AlphaSpace, Status
from forestplan.schedules.explore import events_words, rounded

# Where a step ends: at a state, or at (state, number of the step) if it is refused there.
End = int | tuple[int, int]

COLUMNS = 36
MOST_COLUMNS = 108
STEPS = 6_000
MOST_STEPS = 12_000
LEFT = 44
HIGH = 560
WIDE = 1150
LEAST_WIDTH = 860
APART = [BAND, "#CFE3F1", "#8FBBDD", "#56B4E9"]


def schedules_svg(network: Network, space: AlphaSpace, asked: tuple[int, int] | None) -> str:
    """The states after the events A to B that are `asked` for, or after the first ones."""
    low, high = window_of(
        network.name, last_column(space), asked, 1 + columns_with_room(space), "events"
    )
    at_most(
        "schedules", high - low, "events at a time", MOST_COLUMNS, "fewer events (--columns A..B)"
    )
    at_most(
        "schedules",
        sum(steps_between(space)[low:high]),
        "steps",
        MOST_STEPS,
        "fewer events (--columns A..B)",
    )
    bold = to_fault(space) if space.faults else in_step(space)
    return Lattice(network, space, low, high, bold).drawn().document()


def last_column(space: AlphaSpace) -> int:
    """The most events after which all states are known, one that is refused being a state of its own."""
    if space.expanded < space.count:
        return space.depth[space.expanded]
    return max(
        space.depth[space.count - 1],
        max((space.depth[s] + (e is not None) for s, e in space.faults), default=0),
    )


def steps_between(space: AlphaSpace) -> list[int]:
    """How many steps there are from each column to the next."""
    counts = [0] * (space.depth[space.count - 1] + 1)
    for s in range(space.expanded):
        counts[space.depth[s]] += space.first[s + 1] - space.first[s]
    return counts


def columns_with_room(space: AlphaSpace) -> int:
    """How many columns are drawn beside the first one if none are asked for: as many as have room."""
    return min(COLUMNS, max(1, bisect_right(list(accumulate(steps_between(space))), STEPS)))


# The run that is bold: its steps as (state, number of the step in it).


def to_fault(space: AlphaSpace) -> list[tuple[int, int]]:
    """A shortest run that goes wrong."""
    s = 0
    found = []
    for event in space.path_to_fault():
        steps = space.steps(s)
        e = next(e for e, (other, _) in enumerate(steps) if other == event)
        found.append((s, e))
        target = steps[e][1]
        if target is None:
            break
        s = target
    return found


def in_step(space: AlphaSpace) -> list[tuple[int, int]]:
    """All messages come before a node makes a pulse, and then the node that has made the fewest."""
    s = 0
    found = []
    while steps := space.steps(s):
        pulses = space.nodes(s)
        e = min(
            range(len(steps)),
            key=lambda k: steps[k][0].kind is Kind.PULSE and 1 + pulses[steps[k][0].node].pulse,
        )
        found.append((s, e))
        target = steps[e][1]
        if target is None:
            break
        s = target
    return found


# Of up to so many columns each, each fifth or each tenth has its number.
NUMBERED = ((12, 1), (60, 5), (math.inf, 10))


def node_words(v: int, node: Status) -> str:
    stage = "has halted" if node.stage == "whole" else node.stage
    return f"node {v} at pulse {node.pulse} {stage}"


class Lattice:
    """`bold` are the steps of one run. A step ends at a state; one that is refused has an end of its own, (s, e)."""

    def __init__(
        self, network: Network, space: AlphaSpace, low: int, high: int, bold: list[tuple[int, int]]
    ) -> None:
        self.network = network
        self.space = space
        self.low = low
        self.high = high
        self.bold = set(bold)
        self.passed = {0, *(s for s, _ in bold), *(space.steps(s)[e][1] for s, e in bold)}
        self.columns: list[list[End]] = [[] for _ in range(low, high + 1)]
        for state in range(space.count):
            if low <= space.depth[state] <= high:
                self.columns[space.depth[state] - low].append(state)
        self.steps = self.steps_shown()
        for start, _, _, end in self.steps:
            if isinstance(end, tuple):
                self.columns[space.depth[start] + 1 - low].append(end)
        while not self.columns[-1]:
            self.columns.pop()
        self.place()

    def steps_shown(self) -> list[tuple[int, int, Event, End]]:
        """(state, number of the step, event, where it ends), of the states in all columns but the last."""
        return [
            (s, e, event, (s, e) if target is None else target)
            for s in [state for column in self.columns[:-1] for state in column]
            if isinstance(s, int)
            for e, (event, target) in enumerate(self.space.steps(s))
        ]

    def place(self) -> None:
        """Rows by the mean of a mark's neighbours to the left, so that lines cross little."""
        before: dict[End, list[End]] = {}
        self.row: dict[End, float] = {}
        for start, _, _, end in self.steps:
            before.setdefault(end, []).append(start)
        for column in self.columns:
            column.sort(
                key=lambda s: (self.lead(s), mean([self.row[t] for t in before.get(s, [])] or [0]))
            )
            for place, s in enumerate(column):
                self.row[s] = place - (len(column) - 1) / 2
        self.widest = max(map(len, self.columns))
        self.gap = min(50, max(4, HIGH / self.widest))
        self.step = min(320, max(10, WIDE / max(1, len(self.columns) - 1)))
        self.radius = min(16, 0.42 * self.gap, 0.36 * self.step)

    def lead(self, s: End) -> int:
        """Of two nodes, above: node 1 is ahead; below: node 2 is."""
        pulses = self.pulses(s)
        return pulses[1] - pulses[0] if len(pulses) == 2 else 0

    def pulses(self, s: End) -> list[int]:
        return [
            node.pulse for node in self.space.nodes(s[0] if isinstance(s, tuple) else s).values()
        ]

    def x(self, s: End) -> float:
        depth = self.space.depth[s[0]] + 1 if isinstance(s, tuple) else self.space.depth[s]
        return LEFT + (depth - self.low) * self.step

    def y(self, s: End) -> float:
        return self.middle + self.row[s] * self.gap

    def drawn(self) -> Svg:
        width = max(LEAST_WIDTH, LEFT + (len(self.columns) - 1) * self.step + 44)
        lines = self.lines(width)
        top = 48 + 16 * len(lines)
        self.middle = top + self.radius + self.gap * (self.widest - 1) / 2
        bottom = top + 2 * self.radius + self.gap * (self.widest - 1) + 20
        svg = Svg(width, bottom + 46, f"every schedule of {self.network.name}")
        svg.heading(self.fact(), *lines)
        every = next(step for most, step in NUMBERED if len(self.columns) <= most)
        for k in range(0, len(self.columns), every):
            svg.note(LEFT + k * self.step, bottom, self.low + k, 9, "middle")
        svg.note(
            20,
            bottom + 16,
            "takes and pulses so far; a put is made as soon as it can be, and has no column",
        )
        self.draw_steps(svg)
        for column in self.columns:
            for s in column:
                self.draw_state(svg, s)
        self.most_apart = max(
            self.apart(s) for column in self.columns for s in column if not isinstance(s, tuple)
        )
        self.legend(svg, bottom + 36)
        return svg

    def fact(self) -> str:
        space = self.space
        title = self.network.name
        if space.without:
            title += f" without {' and '.join(space.without)}"
        if space.faults:
            listed = space.with_puts(space.path_to_fault())
            verb = "is" if len(listed) == 1 else "are"
            return f"{title}: {events_words(listed)} {verb} enough to go wrong"
        return f"{title}: every schedule ends in " + (
            "one state" if len(space.ends) == 1 else f"one of {len(space.ends)} states"
        )

    def lines(self, width: float) -> list[str]:
        space = self.space
        said = [left_out_words(space.without)] if space.without else []
        inside = ", and inside are the nodes’ pulses" if self.number_size() >= 5 else ""
        said.append(
            f"A mark is a state of the whole network{inside}; a line is one event. "
            f"{space.count:,} states, {len(space.target):,} steps"
            + ("." if space.schedules is None else f", {rounded(space.schedules)} schedules.")
        )
        if (self.low, self.high) != (0, last := last_column(space)):
            said.append(f"Here are those after {self.low} to {self.high} of {last} events.")
        if any(self.low <= space.depth[s] < self.high for s, _ in self.bold):
            said.append(
                f"Bold: a shortest schedule that goes wrong: {fault_words(space)}."
                if space.faults
                else "Bold: the run in which all that is sent comes before a node makes its pulse."
            )
        return wrapped(" ".join(said), width - 40)

    def number_size(self) -> float:
        """How large the pulses inside a mark are: all as large as the longest ones may be."""
        longest = max(len(self.pulses_words(s)) for s in self.columns[-1])
        return min(12, 0.75 * self.radius, self.radius * 3.1 / longest)

    def pulses_words(self, s: End) -> str:
        return ",".join(map(str, self.pulses(s)))

    def draw_steps(self, svg: Svg) -> None:
        for s, e, event, end in sorted(self.steps, key=lambda step: step[:2] in self.bold):
            x1, y1, x2, y2 = self.x(s), self.y(s), self.x(end), self.y(end)
            is_bold = (s, e) in self.bold
            is_wrong = (s, e) in self.space.faults
            title = self.title_of(event)
            with svg.group("bold" if is_bold else "step", title):
                if is_bold:
                    svg.line(x1, y1, x2, y2, INK, round(max(3.2, self.radius * 0.6), 1))
                hue = PULSE if event.message is None else WIRES[event.message.word]
                width = 0.8 if self.radius < 4 else 1.4
                if is_bold:
                    width = round(max(1.2, self.radius * 0.3), 1)
                svg.line(x1, y1, x2, y2, WRONG if is_wrong else hue, width)

    def title_of(self, event: Event) -> str:
        """An event in words, with the wire that it takes."""
        if event.port is None:
            return str(event)
        return f"{event}: {event.message} from {self.network.neighbours[event.node][event.port]}"

    def apart(self, s: int) -> int:
        """The most pulses that two neighbours are apart, three for all above."""
        pulses = self.pulses(s)
        return min(
            3, max((abs(pulses[v - 1] - pulses[w - 1]) for v, w in self.space.links), default=0)
        )

    def is_wrong(self, s: int) -> bool:
        """Whether a node has made a pulse without its inbox, or nothing is possible though some node waits."""
        nodes = self.space.nodes(s).values()
        return (s, None) in self.space.faults or any(node.wrong for node in nodes)

    def draw_state(self, svg: Svg, s: End) -> None:
        x, y = self.x(s), self.y(s)
        if isinstance(s, tuple):
            with svg.group("state wrong", fault_words(self.space, s)):
                svg.circle(x, y, self.radius, WRONG, INK, 1)
                svg.label(x, y + self.radius * 0.42, "×", round(1.5 * self.radius, 1), PAPER)
            return
        is_wrong = self.is_wrong(s)
        is_bold = s in self.passed
        texts = [node_words(v, node) for v, node in self.space.nodes(s).items()]
        with svg.group("state wrong" if is_wrong else "state", ", ".join(texts)):
            hue = WRONG if is_wrong else APART[self.apart(s)]
            width = 1.8 if is_bold else 0.8
            border = INK if is_bold else BORDER
            svg.circle(x, y, self.radius, hue, border, width if self.radius > 4 else 0.5)
            size = self.number_size()
            if size >= 5:
                svg.text(
                    x,
                    y + BASELINE * size,
                    self.pulses_words(s),
                    round(size, 1),
                    PAPER if is_wrong else INK,
                    "middle",
                )

    def legend(self, svg: Svg, y: float) -> None:
        svg.note(20, y, "takes of")
        x: float = 80
        for name, hue in [*WIRES.items(), ("pulse", PULSE)]:
            svg.line(x, y - 4, x + 22, y - 4, hue, 2)
            svg.note(x + 27, y, name)
            x += 27 + text_width(name, 11.5) + 14
        meant = ["all at one pulse", "neighbours a pulse apart", "two", "more"]
        for fill, label in list(zip(APART, meant))[: max(2, self.most_apart + 1)]:
            svg.circle(x + 6, y - 4, 6, fill, BORDER, 0.8)
            svg.note(x + 18, y, label)
            x += 24 + text_width(label, 11.5) * 0.95
