"""The rounds of any program: a row for each node, a column for each pulse at which something happens; what a node has
found, as soon as it changes, and the messages."""
from forestplan.definitions.rounds import Pulse
from forestplan.faults import at_most
from forestplan.pictures.palette import BAND, BORDER, INK, PULSE, SOFT, WIRES
from forestplan.pictures.program_rounds import ProgramRounds
from forestplan.pictures.svg import Svg, text_width

MOST_COLUMNS = 60
LEFT = 64
TOP = 112
ROW = 46
SIZE = 11


def program_svg(rounds: ProgramRounds, pulses: tuple[int, int] | None = None) -> str:
    """All pulses at which something is sent or found, or those of A to B."""
    network = rounds.network
    shown = drawn_pulses(rounds, pulses)
    at_most(
        "rounds",
        len(shown),
        "pulses in which something happens",
        MOST_COLUMNS,
        "fewer pulses (--pulses A..B)",
    )
    results = [result for pulse in rounds.pulses for result in pulse.results.values()]
    column = max(88, max(text_width(result, SIZE) for result in results) + 22)
    height = network.nodes * ROW
    undrawn = rounds.last + 1 - len(shown)
    svg = Svg(
        max(LEFT + len(shown) * column + 24, 760),
        TOP + height + 30,
        f"Rounds of {rounds.program.name} on {network.name}",
    )
    svg.heading(
        f"{network.name}: {rounds.program.name}, pulse by pulse to pulse {rounds.last}",
        "Left in a column is what the node has found after the pulse, where it is new; an arrow is a message, "
        "read in the next pulse.",
        (
            f"{undrawn} of {rounds.last + 1} pulses aren't drawn: nothing is sent in them and nothing found, or they "
            "aren't asked for."
            if undrawn
            else ""
        ),
        f"It isn't right at the end: {rounds.wrong}." if rounds.wrong else "",
    )
    for k, pulse in enumerate(shown):
        x = LEFT + k * column
        svg.rect(x, TOP - 20, column, height + 14, "#FFFFFF" if k % 2 else BAND)
        svg.text(x + 5, TOP - 26, f"pulse {pulse.number}", 11.5, PULSE, bold=True, mark="pulse")
        svg.line(x, TOP - 20, x, TOP + height - 6, BORDER, 1)
    for v in network.node_numbers:
        svg.line(
            LEFT - 8, height_of_row(v), LEFT + len(shown) * column, height_of_row(v), "#B0B0B0", 1
        )
        svg.text(LEFT - 16, height_of_row(v) + 5, v, 13, INK, "end", bold=True)
    for k, pulse in enumerate(shown):
        draw_pulse(svg, rounds, pulse, LEFT + k * column, column)
    return svg.document()


def draw_pulse(svg: Svg, rounds: ProgramRounds, pulse: Pulse, x: float, column: float) -> None:
    """The messages of a pulse, and what nodes have found after it."""
    with svg.group("messages", f"pulse {pulse.number}"):
        for v, w, word, number in pulse.puts:
            x1, y1 = x + column * 0.62, height_of_row(v)
            with svg.group("message", f"{v} to {w}: {word} {number}"):
                svg.arrow(x1, y1, x + column - 3, height_of_row(w), WIRES["payload"], 1.4, 7)
                svg.circle(x1, y1, 2, SOFT)
    for v in rounds.network.node_numbers:
        if is_new(rounds, pulse, v):
            svg.rect(
                x + 4,
                height_of_row(v) - 9,
                text_width(pulse.results[v], SIZE) + 8,
                18,
                "#FFFFFF",
                "#8A8A8A",
                1,
                3,
            )
            svg.text(x + 8, height_of_row(v) + 4, pulse.results[v], SIZE, INK, mark="found")


def height_of_row(v: int) -> int:
    return TOP + (v - 1) * ROW + 6


def is_new(rounds: ProgramRounds, pulse: Pulse, v: int) -> bool:
    """Whether a node has found something else than before."""
    return pulse.number == 0 or rounds.pulses[pulse.number - 1].results[v] != pulse.results[v]


def drawn_pulses(rounds: ProgramRounds, pulses: tuple[int, int] | None) -> list[Pulse]:
    """The pulses that are drawn: those at which something is sent or found, among those asked for."""
    first, last = pulses or (0, rounds.last)
    return [
        pulse
        for pulse in rounds.pulses[first : last + 1]
        if pulse.puts or any(is_new(rounds, pulse, v) for v in rounds.network.node_numbers)
    ]
