"""Space and time of a run of nodes that react to messages, without rounds: each message from its put to its take, each
step of a node's own, and what a node has found, where that changes."""
from forestplan.definitions.events import Entry
from forestplan.definitions.machine import make_entry
from forestplan.definitions.reacting_program import Reacting, results_in
from forestplan.faults import at_most
from forestplan.network import Network
from forestplan.pictures.marks import short_name
from forestplan.pictures.palette import CHANNEL_HUES, INK
from forestplan.pictures.run_picture import BOLD
from forestplan.pictures.svg import Svg, text_width
from forestplan.pictures.transcripts import Wire, stamp_of, wires_by_stamp
from forestplan.wording import counted

TOP = 112
ROW = 78
SCALE = 40
LEFT = 64
WIDEST = 1214
MOST_STEPS = 200
TIME_WORDS = (
    "Time is the transcript's stamps, by Lamport's clock: one more than the node's last, and of a take also than the "
    "put's, so every arrow points right. It is not real time."
)
MARKS_WORDS = "A thick mark is a step of the node's own. Below a line is what the node has found, where that changes."


class RunWindow:
    """Where a stamp and a node of a run are drawn."""

    def __init__(self, network: Network, made: list[Entry]) -> None:
        self.stop = max(map(stamp_of, made), default=0) + 1
        names = [text_width(short_name(network, v), 10) for v in network.node_numbers]
        self.left = LEFT + max(names, default=0.0)
        self.width = max(self.x(self.stop) + 160, WIDEST)

    def x(self, stamp: float) -> float:
        return self.left + stamp * SCALE

    def y(self, v: int) -> float:
        return TOP + (v - 1) * ROW


def reacting_svg(name: str, network: Network, program: Reacting, made: list[Entry]) -> str:
    """The picture of a run's entries, which are by stamp."""
    window = RunWindow(network, made)
    at_most("run", window.stop, "steps of time side by side", MOST_STEPS, "a smaller network")
    bottom = window.y(len(network.node_numbers))
    svg = Svg(window.width, bottom + 50, f"Space and time of {name}")
    wires = wires_by_stamp(made)
    svg.heading(
        f"{name}: {counted(len(wires), 'message')} of {program.name}", TIME_WORDS, MARKS_WORDS
    )
    for v in network.node_numbers:
        y = window.y(v)
        svg.line(window.left - 6, y, window.width - 16, y, "#8A8A8A", 1)
        svg.text(window.left - 14, y + 5.4, v, 15, INK, "end", bold=True)
        if said := short_name(network, v):
            svg.note(window.left - 38, y + 3.6, said, 10, "end", mark="node-name")
    draw_arrows(svg, window, wires)
    draw_results(svg, window, network, program, made)
    return svg.document()


def draw_arrows(svg: Svg, window: RunWindow, wires: list[Wire]) -> None:
    """An arrow for each message, a hue for each word, and the message on it where there is room."""
    kinds = list(dict.fromkeys(wire.kind for wire in wires))
    hues = {word: CHANNEL_HUES[at % len(CHANNEL_HUES)] for at, word in enumerate(kinds)}
    used: list[tuple[float, float, float]] = []
    for wire in wires:
        x1, y1, y2 = window.x(wire.put), window.y(wire.v), window.y(wire.w)
        x2 = window.x(window.stop if wire.take is None else wire.take)
        with svg.group("message", wire.title()):
            svg.arrow(x1, y1, x2, y2, hues[wire.kind], 2, 8)
    for wire in wires:
        x1, y1, y2 = window.x(wire.put), window.y(wire.v), window.y(wire.w)
        x2 = window.x(window.stop if wire.take is None else wire.take)
        half = text_width(str(wire.message), 9.5) * BOLD / 2 + 2
        for part in (0.5, 0.32, 0.68, 0.2, 0.8):
            x, y = x1 + (x2 - x1) * part, y1 + (y2 - y1) * part + 3
            off = (y - 3 - TOP) % ROW
            is_free = all(abs(x - a) > half + b or abs(y - c) > 13 for a, c, b in used)
            if is_free and min(off, ROW - off) > 13:
                used.append((x, y, half))
                svg.text(
                    x, y, str(wire.message), 9.5, INK, "middle", bold=True, halo=3, mark="words"
                )
                break


def draw_results(
    svg: Svg, window: RunWindow, network: Network, program: Reacting, made: list[Entry]
) -> None:
    """A mark for each step of a node's own, and what a node has found, at first and where that changes; what would
    collide with the words before it is left out, but not the last of a node."""
    state = program.start(network)
    said: dict[int, list[tuple[float, str]]] = {
        v: [(window.x(0), result)] for v, result in results_in(state).items()
    }
    for entry in made:
        make_entry(state, entry)
        v = entry.node
        x = window.x(stamp_of(entry))
        if entry.neighbour is None:
            y = window.y(v)
            svg.line(x, y - 10, x, y + 10, INK, 3.4, mark="tick")
        now = state.nodes[v].result()
        if now != said[v][-1][1]:
            said[v].append((x, now))
    for v, changes in said.items():
        free = window.width
        for x, result in reversed(changes):
            if x + text_width(result, 9.5) < free or x == changes[-1][0]:
                svg.note(x + 3, window.y(v) + 15, result, 9.5, halo=2, mark="result")
                free = x
