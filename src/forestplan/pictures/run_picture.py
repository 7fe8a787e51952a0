"""Space and time: above, what happened in a run; below, the same payloads with each pulse made equally long.

What is drawn is what is true. No cut through all ticks of one pulse is consistent in general, so none is shaded as one:
a band goes from tick p to tick p + 1 of each node, and wires may cross its border backwards; the payloads that do are
counted in words.
A pale bar goes from where a payload is taken to the tick at which it is read, and that tick is p + 1's."""
import math

from forestplan.fault_codes import Code
from forestplan.faults import Fault, InText, at_most
from forestplan.pictures.geometry import Point
from forestplan.pictures.marks import dash_of, short_name, wire_arrow
from forestplan.pictures.palette import BAND, BORDER, INK, PAPER, PULSE, WIRES, WRONG
from forestplan.pictures.svg import Svg, text_width, wrapped
from forestplan.pictures.transcripts import Run, Wire
from forestplan.pictures.wrong_run import draw_wrong, stop_words
from forestplan.wording import counted

LEFT = 64
TOP = 136
WIDTH = 1214
KINDS = ("payload", "ack", "safe", "close")
NAMES = {"payload": "payload", "ack": "acknowledgement", "safe": "safe", "close": "close"}
MOST_STEPS = 400
# How much wider a text is in bold.
BOLD = 1.15
MOST_NODES_OF_ALL_KINDS = 6


class Window:
    """Pulses `first` to `last` of a run: where a place in time and a node are drawn. A step of time is at least `least`
    wide, and a band reaches `over` above the first row and below the last."""

    def __init__(
        self, run: Run, pulses: tuple[int, int], top: float, row: int, least: float
    ) -> None:
        self.run = run
        self.network = run.network
        self.nodes = run.network.node_numbers
        self.first, self.last = pulses
        self.top = top
        self.row = row
        self.over = min(30, 0.4 * row)
        # To the left of the nodes' lines are their numbers and names.
        names = [
            text_width(short_name(run.network, v), 10) for v in run.network.names if v in self.nodes
        ]
        self.left = LEFT + max(names, default=-6) + 6
        if not any(self.first in ticks for ticks in run.ticks.values()):
            raise Fault(Code.NO_NODE_BEGINS_PULSE, InText(run.name), pulse=self.first)
        self.ends = {
            v: ticks.get(self.last + 1, run.reached[v] + 1) for v, ticks in run.ticks.items()
        }
        self.start = min(self.time(v, self.first) for v in self.nodes) - 1
        self.stop = max(self.ends.values()) + 1
        self.scale = max(least, min(19.0, 1130 / (self.stop - self.start)))
        # How wide a pulse is, on average.
        self.column = (self.stop - self.start) * self.scale / (self.last - self.first + 1)
        self.bottom = self.y(len(self.nodes))
        self.width = max(self.x(self.stop) + 28, WIDTH)

    def time(self, v: int, pulse: int) -> int:
        """When a node begins a pulse; its end, if it doesn't."""
        return self.run.ticks[v].get(pulse, self.ends[v])

    def x(self, time: float) -> float:
        return self.left + (time - self.start) * self.scale

    def y(self, v: int) -> float:
        return self.top + (v - 1) * self.row

    def border(self, pulse: int) -> list[Point]:
        """Where each node begins a pulse, from top to bottom."""
        points = [(self.x(self.time(v, pulse)), self.y(v)) for v in self.nodes]
        return [
            (points[0][0], self.top - self.over),
            *points,
            (points[-1][0], self.bottom + self.over),
        ]

    def arrows(self, kinds: set[str] | tuple[str, ...]) -> list[Wire]:
        """The wires whose arrows are seen, payloads last, on top."""
        return [
            wire
            for kind in ("ack", "safe", "close", "payload")
            if kind in kinds
            for wire in self.run.wires
            if wire.kind == kind and wire.take and wire.take >= self.start and wire.put <= self.stop
        ]


# How high a node's row is above and below, of runs of up to so many nodes.
ROWS = ((3, 88, 46), (5, 74, 46), (math.inf, 50, 30))


def run_svg(
    run: Run,
    shown: tuple[int, int],
    kinds: tuple[str, ...] | None = None,
    is_wrong_drawn: bool = False,
    stopped: int | None = None,
) -> str:
    """The picture; what is wrong is in it if that is asked for."""
    kinds = kinds or (KINDS if run.network.nodes <= MOST_NODES_OF_ALL_KINDS else ("payload",))
    nodes = run.network.nodes
    row, lower_row = next(rows for most, *rows in ROWS if nodes <= most)
    window = Window(run, shown, TOP, row, 9.0)
    at_most(
        "run",
        window.stop - window.start,
        "steps of time side by side",
        MOST_STEPS,
        "fewer pulses (--pulses A..B)",
    )
    first, last = window.first, window.last
    wrong = (
        wrapped(stop_words(run, stopped), window.width - 40, 12.5 * BOLD) if is_wrong_drawn else []
    )
    lower = Window(
        run.in_rounds(first, last), shown, window.bottom + 150 + 12 * len(wrong), lower_row, 0
    )
    svg = Svg(window.width, lower.bottom + 66, f"Space and time of {run.name}")
    said = (
        "what each node put, took and did"
        if set(kinds) == set(KINDS)
        else " and ".join(f"{NAMES[kind]}s" for kind in kinds)
    )
    svg.heading(f"{run.name}: {said}, pulses {first} to {last} of {run.last}", time_words(run))
    draw_wire_legend(svg, kinds)
    svg.clip("window", window.left - 8, 0, window.width - window.left - 8, window.bottom + 62)
    draw_bands(svg, window)
    draw_lines(svg, window)
    with svg.group("upper", clip_path="url(#window)"):
        draw_bars(svg, window, kinds)
        draw_wires(svg, window, kinds)
        draw_ticks(svg, window)
        if is_wrong_drawn:
            draw_wrong(svg, window, kinds, stopped)
    words_y = window.bottom + window.over + 20
    svg.note(20, words_y, early_words(window))
    for number, line in enumerate(wrong, 1):
        svg.text(20, words_y + 17 * number, line, 12.5, WRONG, bold=True)
    svg.text(
        20,
        lower.top - 54,
        "The same payloads, each from its own pulse to the one in which it is read: the synchronous rounds",
        13.5,
        INK,
        bold=True,
    )
    with svg.group("lower"):
        draw_bands(svg, lower)
        draw_lines(svg, lower)
        draw_wires(svg, lower, ("payload",))
        draw_ticks(svg, lower)
    svg.note(20, lower.bottom + 42, rounds_words(run, last, len(lower.run.wires)))
    return svg.document()


def time_words(run: Run) -> str:
    """What the place of an event from left to right is."""
    if run.is_stamped:
        return (
            "Time is the transcript's stamps, by Lamport's clock: one more than the node's last, and of a take also "
            "than the put's, so every arrow points right. It is not real time."
        )
    return (
        "No clock was kept. An event stands as far right as the longest chain of events that lead to it (found by "
        "replaying), so every arrow points right."
    )


def draw_lines(svg: Svg, window: Window) -> None:
    """A line for each node, and to the left its number and its name."""
    for v in window.nodes:
        y = window.y(v)
        svg.line(window.left - 6, y, window.width - 16, y, "#8A8A8A", 1)
        svg.text(window.left - 14, y + 5.4, v, 15, INK, "end", bold=True)
        if name := short_name(window.network, v):
            x = window.left - 18 - text_width(window.network.nodes, 15) * BOLD
            svg.note(x, y + 3.6, name, 10, "end", mark="node-name")


def draw_wire_legend(svg: Svg, kinds: tuple[str, ...]) -> None:
    x: float = 20
    y = 72
    for kind in (kind for kind in KINDS if kind in kinds):
        svg.line(x, y, x + 24, y, WIRES[kind], 2.2 if kind == "payload" else 1.2, dash_of(kind))
        svg.head(x + 30, y, 1, 0, 8 if kind == "payload" else 6, WIRES[kind], kind == "ack")
        svg.text(x + 38, y + 4, NAMES[kind], 11.5)
        x += 62 + text_width(NAMES[kind], 11.5)
    svg.line(x + 6, y - 9, x + 6, y + 9, INK, 3.4)
    svg.text(x + 15, y + 4, "a pulse begins", 11.5)
    svg.line(x + 124, y, x + 148, y, WIRES["payload"], 5, opacity="0.35")
    svg.text(x + 155, y + 4, "kept till the next pulse", 11.5)


def draw_bands(svg: Svg, window: Window) -> None:
    """A band for each pulse, from tick p of every node to its tick p + 1, and its number above, where there is room."""
    thin = min(1.2, 0.2 * window.column)
    y = window.top - window.over - 6
    free: float = 0
    svg.text(20, y, "pulse", 11.5, PULSE, bold=True)
    for pulse in range(window.first, window.last + 1):
        left, right = window.border(pulse), window.border(pulse + 1)
        svg.path(
            polygon(left + right[::-1]) + ["Z"],
            None,
            None,
            BAND if (pulse - window.first) % 2 == 0 else PAPER,
            mark="band",
        )
        svg.path(polygon(left), BORDER, thin)
        x = max(left[0][0] + 5, window.left)
        if x >= free:
            svg.text(x, y, pulse, 11.5, PULSE, bold=True, mark="name")
            free = x + text_width(pulse, 11.5) * BOLD + 3
    svg.path(polygon(right), BORDER, thin)


def polygon(points: list[Point]) -> list[str | float]:
    steps: list[str | float] = []
    for x, y in points:
        steps += ["L" if steps else "M", x, y]
    return steps


def draw_bars(svg: Svg, window: Window, kinds: tuple[str, ...]) -> None:
    """A bar for each payload, from where it is taken to its taker's tick p + 1, at which it is read."""
    for wire in window.arrows({"payload"} & set(kinds)):
        y = window.y(wire.w)
        svg.line(
            window.x(wire.taken()),
            y,
            window.x(window.time(wire.w, wire.of_pulse() + 1)),
            y,
            WIRES["payload"],
            5,
            opacity="0.35",
            mark="bar",
        )


def draw_wires(svg: Svg, window: Window, kinds: tuple[str, ...]) -> None:
    """One arrow for each wire that is taken, with its words under the mouse; of few nodes a payload's words, too."""
    labels = []
    for wire in window.arrows(kinds):
        x1, y1 = window.x(wire.put), window.y(wire.v)
        x2, y2 = window.x(wire.taken()), window.y(wire.w)
        if wire.kind == "payload" and len(window.nodes) <= 3 and x1 > window.left:
            labels.append((x1, y1, x2 - x1, y2 - y1, " ".join(map(str, wire.message.fields[1:]))))
        with svg.group(wire.kind, wire.title()):
            wire_arrow(svg, x1, y1, x2, y2, wire.kind)
    write_words(svg, window, labels)


def write_words(
    svg: Svg, window: Window, labels: list[tuple[float, float, float, float, str]]
) -> None:
    """The payloads' words along their arrows, left out where they would collide."""
    used: list[tuple[float, float, float]] = []
    for x1, y1, dx, dy, text in labels:
        half = text_width(text, 9.5) * BOLD / 2 + 2
        for part in (0.5, 0.32, 0.68, 0.2, 0.8):
            x, y = x1 + dx * part, y1 + dy * part + 3
            off = (y - 3 - window.top) % window.row
            is_inside = window.left + half < x < window.x(window.stop) - half
            is_free = all(abs(x - a) > half + b or abs(y - c) > 13 for a, c, b in used)
            if is_inside and is_free and min(off, window.row - off) > 11:
                used.append((x, y, half))
                svg.text(
                    x, y, text, 9.5, WIRES["payload"], "middle", bold=True, halo=3, mark="words"
                )
                break


def draw_ticks(svg: Svg, window: Window) -> None:
    """Each node's pulses; those outside the window are grey."""
    half = min(10, 0.2 * window.row)
    width = min(3.4, 0.07 * window.row, 0.3 * window.column)
    for v, ticks in window.run.ticks.items():
        for pulse, time in sorted(ticks.items()):
            x, y = window.x(time), window.y(v)
            if window.first <= pulse <= window.last + 1:
                svg.line(x, y - half, x, y + half, INK, width, mark="tick")
            elif pulse and window.start < time < window.stop:
                svg.line(
                    x, y - 0.8 * half, x, y + 0.8 * half, "#9A9A9A", 0.7 * width, mark="outside"
                )


def early_words(window: Window) -> str:
    """How many payloads came before their pulse had begun at the taker."""
    put = [
        wire
        for wire in window.arrows(("payload",))
        if window.first <= wire.of_pulse() <= window.last
    ]
    early = sum(wire.taken() < window.time(wire.w, wire.of_pulse()) for wire in put)
    return (
        f"No clock is shared: of {counted(len(put), 'payload')} put here, {early or 'none'} came before the taker had "
        "begun their pulse. A payload of pulse p is read when pulse p + 1 begins, never before."
    )


def rounds_words(run: Run, last: int, count: int) -> str:
    """What the lower half has: all payloads of its pulses, if each node has come to the end of them."""
    if not all(last + 1 in ticks or run.whole for ticks in run.ticks.values()):
        return f"Payloads that are put in these pulses, as far as this text goes: {count:,}."
    return (
        f"All payloads of these pulses: {count:,}. Draw another run of this network: the upper half changes, this "
        "half does not."
    )
