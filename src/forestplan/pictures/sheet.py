"""The door: `forestlab sheet [options]`. Question sheets to print, each with a network of its own and all equally hard,
or the same sheets with their answers, as one HTML page.

Every answer is worked out by the slow definitions (src/forestplan/definitions) and from nothing else."""
import random
from collections.abc import Collection, Iterator, Sequence
from functools import partial
from random import Random
from typing import TypeVar

from forestplan.definitions.colours import at_parent, colours, drop, shift
from forestplan.definitions.events import Event
from forestplan.definitions.nodes import alpha_start, last_pulse
from forestplan.definitions.rounds import LAST_COLOUR, ColouringRounds
from forestplan.files import write_output
from forestplan.network import Network
from forestplan.networks.random_networks import alike_edges
from forestplan.networks.texts import plain_text
from forestplan.parsers import Parser, add_output, add_seed, count, parser_of
from forestplan.pictures.map_picture import EDGE, MapNode, draw_map
from forestplan.pictures.pages import filled, page_file_text
from forestplan.pictures.svg import Svg, escaped

LESSONS = (1, 2, 3, 4, 5)
MOST_SHEETS = 200
# Each sheet's network: connected, no node with more neighbours than three and some with three, and two forests. So
# each has the same last pulse, 12 + 3·2·4 = 36.
NODES = 8
EDGES = 9
NEIGHBOURS = 3
FORESTS = 2
MAP = 400, 270

HELP = f"""\
Writes question sheets for lessons 1 to 5 as one HTML page that prints, a sheet a
student, each with a network of its own. All are equally hard: {NODES} nodes, {EDGES} edges, at
most {NEIGHBOURS} neighbours, {FORESTS} forests.
"""
MORE_HELP = """\
The same seed gives the same sheets on every machine, and --answers the answers to
them: print these for yourself. The answers are worked out by the slow definitions,
which are tested, and not proved.

Status: 0 done, 2 the command line is refused.

Example:
  forestlab sheet --seed 7 --sheets 30 > sheets.html
  forestlab sheet --seed 7 --sheets 30 --answers > answers.html
"""


Thing = TypeVar("Thing")


class Sheet:
    """One network, and its questions. `answers` says whether they are filled in."""

    def __init__(self, name: str, answers: bool) -> None:
        self.name = name
        self.answers = answers
        self.source = random.Random(name)
        self.net = network_by(self.source)
        self.rounds = ColouringRounds(self.net)
        self.node_numbers = self.net.node_numbers
        self.edges = [*self.net.edges]

    def any_of(self, things: Sequence[Thing]) -> Thing:
        return things[int(self.source.random() * len(things))]

    # How an answer, or room for one, is written.

    def filled(self, answer: int | str, is_list: bool = False) -> str:
        """`is_list` says that there has to be room for several numbers."""
        room = "blank list" if is_list else "blank"
        return (
            f'<b class="answer">{escaped(answer)}</b>'
            if self.answers
            else f'<span class="{room}">&nbsp;</span>'
        )

    def entry(self, entry: int | str, is_given: bool) -> int | str:
        """What is in a cell: nothing in that of an answer, but on a sheet of answers."""
        if is_given:
            return entry
        return f"<b class=answer>{entry}</b>" if self.answers else ""

    def table(self, head: str, rows: Sequence[tuple[str, Sequence[int | str], bool]]) -> str:
        """A row of nodes, and rows of (name, entries, whether they are given)."""
        lines = [
            f"<tr><th>{escaped(head)}</th>"
            + "".join(f"<td>{v}</td>" for v in self.node_numbers)
            + "</tr>"
        ]
        for name, entries, is_given in rows:
            cells = [f"<td>{self.entry(entry, is_given)}</td>" for entry in entries]
            lines.append(f"<tr><th>{escaped(name)}</th>{''.join(cells)}</tr>")
        return f"<table>{''.join(lines)}</table>"

    # The questions, by lesson. Each draws its choices from the sheet's own source, and all are drawn in any case, so
    # that a sheet of one lesson asks what the sheet of all lessons asks.

    def lesson_1(self) -> Iterator[str]:
        plan = {v: c + 1 for v, c in colours(self.net).items()}
        v, w = self.any_of(self.edges)
        wrong = plan | {v: plan[w]}
        pairs = [f"{a} and {b}" for a, b in self.edges if wrong[a] == wrong[b]]
        yield (
            f"<p>The promise is: at most one channel more than the greatest number of neighbours. How many is that "
            f"here? {self.filled(self.net.greatest_degree + 1)}</p>"
        )
        yield (
            "<p>Somebody has made this plan. Which neighbours have the same channel?</p>"
            + self.table("node", [("channel", [wrong[v] for v in self.node_numbers], True)])
            + f"<p>{self.filled('; '.join(pairs), True)}</p>"
        )

    def lesson_2(self) -> Iterator[str]:
        rows = [
            (
                f"parent in forest {f}",
                [self.net.parent(f, v) or "-" for v in self.node_numbers],
                False,
            )
            for f in range(FORESTS)
        ]
        yield (
            "<p>Cut the network into forests. Who is whose parent? (A root has a -.)</p>"
            + self.table("node", rows)
        )

    def lesson_3(self) -> Iterator[str]:
        table = self.rounds.colours[0]
        children = [
            (v, w)
            for v in self.node_numbers
            if (w := self.net.parent(0, v)) and not self.net.parent(0, w)
        ]
        v, w = self.any_of(children)
        for name, node in ((f"node {v}", v), (f"its parent {w}", w)):
            said = ", ".join(str(table[p][node]) for p in range(2, 7))
            ask = "Bit steps in forest 0: the colours of" if node == v else "And of"
            yield f"<p>{ask} {name} after the pulses 2 to 6? {self.filled(said, True)}</p>"
        colours = self.dropping()
        rows = [("pulse 6", [colours[v] for v in self.node_numbers], True)]
        for p, x in ((7, 5), (9, 4), (11, 3)):
            shifted = shift(self.net, 0, colours)
            colours = drop(x, self.net, 0, shifted, colours)
            rows += [
                (f"pulse {q}: {what}", [row[v] for v in self.node_numbers], False)
                for q, what, row in ((p, "shift", shifted), (p + 1, f"drop {x}", colours))
            ]
        yield (
            "<p>With names as small as these there is hardly ever a colour to drop. So suppose that the colours in "
            "forest 0 after pulse 6 are these, and shift and drop:</p>" + self.table("node", rows)
        )

    def dropping(self) -> dict[int, int]:
        """Colours 0 to 5 in forest 0, no two neighbours there alike, of which each drop changes some: a shift moves a
        colour one edge down, so a 5, a 4 and a 3 in a row are one after the other the colour of the node below it.
        """
        row = self.any_of([row for row in map(self.row_above, self.node_numbers) if len(row) == 4])
        while True:
            first = {v: self.any_of(range(6)) for v in self.node_numbers} | dict(
                zip(row[1:], (5, 4, 3))
            )
            if all(first[v] != at_parent(self.net, 0, first, v) for v in first):
                return first

    def row_above(self, v: int) -> list[int]:
        """A node, its parent in forest 0, and so on: up to four."""
        row = [v]
        while len(row) < 4 and (above := self.net.parent(0, row[-1])):
            row.append(above)
        return row

    def lesson_4(self) -> Iterator[str]:
        rows = [
            (name, [colours[v] for v in self.node_numbers], is_given)
            for f in range(FORESTS)
            for name, colours, is_given in (
                (f"colour in forest {f}", self.rounds.colours[f][LAST_COLOUR], True),
                ("after its merge", self.rounds.merged[f + 1], False),
            )
        ]
        yield "<p>Merge the two forests; all begin with colour 0.</p>" + self.table("node", rows)
        v = self.any_of(self.node_numbers)
        f = FORESTS - 1
        turn = self.rounds.turns[f, v]
        yield (
            f"<p>At which pulse does node {v} choose in the merge of forest {f}? {self.filled(turn)} Which pulse is "
            f"the last? {self.filled(last_pulse(self.net))}</p>"
        )

    def lesson_5(self) -> Iterator[str]:
        pulses = range(last_pulse(self.net) + 1)
        payloads = sum(len(pulse.puts) for pulse in self.rounds.pulses)
        wires = 2 * payloads + 2 * len(self.edges) * len(pulses)
        yield f"<p>A whole run without a clock has {payloads} payloads. How many wires? {self.filled(wires)}</p>"
        edge = self.any_of(self.edges)
        rows = [("pulse", list(farthest(self.net, edge).values()), False)]
        yield (
            f"<p>Nothing goes over the edge {edge[0]}–{edge[1]}, in either direction, and all else goes on as far "
            "as it can. Which pulse does each node come to?</p>" + self.table("node", rows)
        )

    def text(self, lessons: Collection[int]) -> str:
        title = f"Sheet {escaped(self.name)}" + (", answers" if self.answers else "")
        name = "" if self.answers else "Name: " + "_" * 28
        parts = [f"<section><h1>{title}<small>{name}</small></h1>", self.map()]
        for lesson in LESSONS:
            questions = list(getattr(self, f"lesson_{lesson}")())
            if lesson in lessons:
                parts.append(f"<h2>Lesson {lesson}</h2>")
                parts += [f'<div class="question">{question}</div>' for question in questions]
        if self.answers:
            parts.append(
                f"<p>The network, for the programs:</p>\n<pre>{plain_text(self.net).rstrip()}</pre>"
            )
        return "\n".join([*parts, "</section>"])

    def map(self) -> str:
        svg = Svg(*MAP, f"network of sheet {self.name}")
        draw_map(
            svg, self.net, {v: MapNode(self.net, v) for v in self.node_numbers}, (*MAP, 0, 0), EDGE
        )
        return f'<svg width="{MAP[0]}" height="{MAP[1]}" role="img" aria-label="the network">\n{svg.inner()}\n</svg>'


def farthest(net: Network, edge: tuple[int, int]) -> dict[int, int]:
    """The pulse that each node comes to if nothing goes over an edge. (Whatever the order, it is the same: what a node
    can do stays possible until it does it.)"""
    state = alpha_start(net)

    def is_free(event: Event) -> bool:
        v = event.node
        port = event.port
        return port is None or {v, state.neighbours[v][port]} != set(edge)

    while event := next(filter(is_free, state.possible()), None):
        state.step(event)
    return {v: state.nodes[v].pulse_number for v in sorted(state.nodes)}


def network_by(source: Random) -> Network:
    """A connected network of the sheets' sizes, by chance, with a row of four in forest 0."""
    while True:
        edges = alike_edges(source, NODES, EDGES, True, NEIGHBOURS, FORESTS)
        if edges is None:
            continue
        net = Network(NODES, edges)
        above = {v: net.parent(0, v) for v in net.neighbours} | {None: None}
        if any(above[above[above[v]]] for v in net.neighbours):
            return net


def sheets_html(seed: str, count: int, answers: bool, lessons: Collection[int]) -> str:
    names = [seed] if count == 1 else [f"{seed}-{number}" for number in range(1, count + 1)]
    sheets = "\n".join(Sheet(name, answers).text(lessons) for name in names)
    what = "Answers to sheets" if answers else "Sheets"
    return filled(page_file_text("sheet.html"), TITLE=f"{what} {escaped(seed)}", SHEETS=sheets)


def command_line() -> Parser:
    parser = parser_of("sheet", "[options]", HELP, MORE_HELP)
    add_seed(parser)
    parser.add_argument(
        "--sheets",
        type=partial(count, most=MOST_SHEETS),
        default=1,
        metavar="COUNT",
        help="how many sheets: WORD-1, WORD-2, ..",
    )
    parser.add_argument(
        "--lesson",
        type=int,
        choices=LESSONS,
        action="append",
        metavar="N",
        help="only the questions of this lesson; may be given again",
    )
    parser.add_argument("--answers", action="store_true", help="with the answers")
    add_output(parser)
    return parser


def main(arguments: list[str]) -> int:
    given = command_line().parse_args(arguments)
    write_output(
        given, sheets_html(given.seed, given.sheets, given.answers, given.lesson or LESSONS)
    )
    return 0
