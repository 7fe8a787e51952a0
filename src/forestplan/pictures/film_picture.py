"""The rounds of the colouring as a picture that plays by itself: the style sheet of an SVG moves the messages from node
to node, round by round, and shows which channel each node has so far. It has no script, so it also plays where a page
shows it as an image. A reader whose browser asks for less motion sees its end."""
from collections.abc import Iterator, Mapping

from forestplan.definitions.rounds import FIRST_MERGE, Pulse, ColouringRounds
from forestplan.fault_codes import Code
from forestplan.faults import Fault, InText
from forestplan.network import Network
from forestplan.pictures.geometry import Point
from forestplan.pictures.map_picture import EDGE, MapNode, begun, draw_map
from forestplan.pictures.marks import Map, message_pill, short_name
from forestplan.pictures.palette import INK
from forestplan.pictures.player_page import caption
from forestplan.pictures.svg import Svg, wrapped
from forestplan.wording import counted

# Seconds of a round, and of the end; the part of a round after which its messages have arrived.
ROUND = 1.6
END = 5.0
ARRIVED = 0.8
# Lines of what is said of a round, at most; and the size of its letters, and of a message's.
LINES = 4
SIZE = 11.5
MESSAGE = 9
# A picture of more messages is too large for a page.
MOST_MESSAGES = 1_000


class Film:
    """The rounds that are shown, which are those in which something is sent or chosen, and when each of them begins.
    After them comes the end, which is shown like one more round."""

    def __init__(self, rounds: ColouringRounds) -> None:
        self.rounds = rounds
        self.pulses = [pulse for pulse in rounds.pulses if pulse.puts or pulse.chosen]
        self.scenes = len(self.pulses) + 1
        self.seconds = ROUND * len(self.pulses) + END
        self.styles: dict[str, str] = {}

    def part(self, seconds: float) -> str:
        """A moment as a part of the whole film."""
        return f"{100 * seconds / self.seconds:.2f}%"

    def shown(self, first: int, end: int) -> str:
        """The class of what is shown from a round on, up to another one, or to the end."""
        name = f"s{first}_{end}"
        at = self.part(ROUND * first)
        until = self.part(ROUND * end)
        steps = "0%{opacity:0}" if first else ""
        steps += at + "{opacity:1}"
        if end < self.scenes:
            steps += until + "{opacity:0}"
        self.styles[name] = steps
        return f"s {name}" + (" end" if end == self.scenes else "")

    def moving(self, number: int) -> str:
        """The class of the messages of a round, which move by --x and --y."""
        name = f"m{number}"
        begin = ROUND * number
        there = "transform:translate(var(--x),var(--y))"
        self.styles[name] = (
            f"0%,{self.part(begin)}{{opacity:0;transform:none}}"
            f"{self.part(begin + 0.05)}{{opacity:1;transform:none}}"
            f"{self.part(begin + ARRIVED * ROUND)}{{opacity:1;{there}}}"
            f"{self.part(begin + ARRIVED * ROUND + 0.05)},100%{{opacity:0;{there}}}"
        )
        return f"m {name}"

    def style_sheet(self) -> str:
        lines = [
            f".s{{opacity:0;animation:{self.seconds:.1f}s step-end infinite}}",
            f".m{{opacity:0;animation:{self.seconds:.1f}s linear infinite}}",
        ]
        for name, steps in self.styles.items():
            lines.append(f"@keyframes {name}{{{steps}}}.{name}{{animation-name:{name}}}")
        lines.append(
            "@media(prefers-reduced-motion:reduce){.s,.m{animation:none}.s.end{opacity:1}}"
        )
        return "\n".join(lines)

    def channels(self) -> Iterator[Mapping[int, int]]:
        """The channels that the nodes have after each round that is shown, and at the end; none before the merge
        begins."""
        now: dict[int, int] = {}
        for pulse in self.pulses:
            if pulse.number >= FIRST_MERGE and not now:
                now = self.first()
            now = now | {v: colour + 1 for v, colour in pulse.chosen.items()}
            yield now
        yield now or self.first()

    def first(self) -> dict[int, int]:
        return {v: colour + 1 for v, colour in self.rounds.first.items()}


class Changing(MapNode):
    """A node with the channel that it has so far, and its number beside it."""

    def __init__(self, network: Network, v: int, film: Film, channels: list[int | None]) -> None:
        super().__init__(network, v)
        self.film = film
        self.channels = channels
        self.label = f"{v} {short_name(network, v)}".rstrip()

    def draw(self, svg: Svg, x: float, y: float, radius: float, spot: Point) -> None:
        for channel, first, end in intervals(self.channels):
            self.channel = channel
            with svg.group(self.film.shown(first, end)):
                self.draw_circle(svg, x, y, radius)
                if channel is not None:
                    self.draw_beside(svg, spot)


def intervals(values: list[int | None]) -> Iterator[tuple[int | None, int, int]]:
    """Each value with the places from where to where it stays the same."""
    first = 0
    for at in range(1, len(values) + 1):
        if at == len(values) or values[at] != values[first]:
            yield values[first], first, at
            first = at


def film_svg(rounds: ColouringRounds) -> str:
    network = rounds.network
    messages = sum(len(pulse.puts) for pulse in rounds.pulses)
    if messages > MOST_MESSAGES:
        raise Fault(Code.FILM_TOO_LONG, InText(network.name), most=MOST_MESSAGES, messages=messages)
    film = Film(rounds)
    scenes = list(film.channels())
    nodes = {
        v: Changing(network, v, film, [channels.get(v) for channels in scenes])
        for v in network.node_numbers
    }
    title = f"{network.name}: channels, round by round"
    svg, box = begun(network, nodes, title, title, *[""] * (LINES + 1))
    said = [caption(rounds, pulse.number) for pulse in film.pulses]
    for number, text in enumerate([*said, last_words(scenes[-1])]):
        with svg.group(film.shown(number, number + 1)):
            draw_words(svg, *text)
    draw_map(svg, network, nodes, box, EDGE, lambda drawn: draw_messages(svg, film, drawn))
    svg.element("style", film.style_sheet())
    return svg.document()


def last_words(channels: Mapping[int, int]) -> tuple[str, str]:
    used = counted(len(set(channels.values())), "channel")
    return (f"done · {used}", "No two neighbours have the same channel, and nobody was in charge.")


def draw_words(svg: Svg, title: str, said: str) -> None:
    svg.text(20, 48, title, SIZE, INK, bold=True)
    for number, line in enumerate(wrapped(said, svg.width - 40, SIZE)):
        svg.note(20, 64 + 16 * number, line, SIZE)


def draw_messages(svg: Svg, film: Film, drawn: Map) -> None:
    for number, pulse in enumerate(film.pulses):
        for put in pulse.puts:
            draw_message(svg, film.moving(number), drawn, pulse, put)


def draw_message(
    svg: Svg, style: str, drawn: Map, pulse: Pulse, put: tuple[int, int, str, int]
) -> None:
    """A message, at its sender: its number in a pill."""
    sender, receiver, word, number = put
    x, y = drawn.places[sender]
    to_x, to_y = drawn.places[receiver]
    with svg.group(
        style,
        f"round {pulse.number}: {word} {number} from {sender} to {receiver}",
        style=f"--x:{to_x - x:.0f}px;--y:{to_y - y:.0f}px",
    ):
        message_pill(svg, x, y, str(number), "payload", MESSAGE)
