"""The door: `forestlab picture KIND NETWORK [options] > x.svg`. Reads the network and the texts that are drawn, or has
a program write them, and writes the picture, or one line on standard error and no part of it. `drawing` is for callers
in Python: a picture of what they have."""
import argparse
import gc
import re
import sys
from argparse import ArgumentParser, Namespace
from collections.abc import Callable, Sequence
from dataclasses import dataclass
from inspect import signature
from typing import Any, NamedTuple

from forestplan import folders, processors, proved_programs
from forestplan.definitions.colours import plan_text as plan_by_definition
from forestplan.definitions.nodes import COLOURING
from forestplan.definitions.program import Program
from forestplan.definitions.programs import (
    add_program,
    any_program_asked,
    by_rounds,
    program_asked,
    program_words,
)
from forestplan.definitions.reacting_program import Reacting
from forestplan.definitions.rounds import ColouringRounds
from forestplan.fault_codes import Code
from forestplan.faults import Fault, InText, at_most
from forestplan.files import MOST_OF_TRANSCRIPT, text_at, text_name, write_output
from forestplan.network import NAMELESS, Network
from forestplan.networks.network_text import network_in_bytes, stem
from forestplan.networks.plan_text import read_plan
from forestplan.networks.sources import network_bytes
from forestplan.parsers import Parser, add_command, add_commands, add_output, parser_of, some_of
from forestplan.pictures import (
    bits_picture,
    broken_picture,
    film_picture,
    map_picture,
    plan_picture,
    player_page,
    program_picture,
    reacting_picture,
    reacting_watch,
    results_picture,
    rounds_picture,
    run_picture,
    schedules_picture,
    schedules_space,
    watch_page,
    why_picture,
    wrong_run,
)
from forestplan.pictures.places import unused_places
from forestplan.pictures.program_rounds import (
    ProgramRounds,
    is_of_file,
    least_wires,
    program_rounds,
    rounds_of,
)
from forestplan.pictures.transcripts import Run, ordered, window_of
from forestplan.schedules.rules import (
    OF_ANY_ROUNDS,
    OF_PROGRAMS as RULES_OF_PROGRAMS,
    OF_SCHEDULES,
    unknown_to,
)
from forestplan.schedules.simulate import played, text_of_run


# A run of more wires has too long a text to be asked for.
MOST_WIRES = 4_000_000


class Text(NamedTuple):
    """A text that is drawn, and what its faults call it; without folder and ending that is the name of a run."""

    name: str
    text: str


@dataclass
class Source:
    """What a picture is drawn of: a network and what its nodes run, and the texts that are there. `written` writes a
    text of a form (plan or transcript) that is needed and isn't there; `title` is what a run is called; `progress` is
    told now and then how many states and events a search has found."""

    network: Any = None
    program: Program = COLOURING
    texts: Sequence[Text] = ()
    written: "Callable[[Source, str], str] | None" = None
    title: str | None = None
    progress: Callable[[int, int], None] | None = None

    def text(self, form: str) -> Text:
        if self.texts:
            return self.texts[0]
        if not self.written:
            raise Fault(Code.NO_TEXT_TO_DRAW, form=form)
        return Text(self.network.name, self.written(self, form))

    def plan(self) -> dict[int, int]:
        text = self.text("plan")
        return read_plan(text.text, text.name, self.network)

    def rounds(self) -> ColouringRounds | ProgramRounds:
        return rounds_of(self.network, self.program)

    def run(self, is_wrong_drawn: bool | None = False) -> Run:
        """The run of a transcript."""
        text = self.text("transcript")
        network = self.network
        program = self.program
        found = ordered(text.text, text.name, network, program, is_wrong_drawn)
        return Run(self.title or stem(text.name), network, program, *found)


# How each kind is drawn that isn't one call. What is named after the source are the options of its command line.


def draw_rounds(of: Source, forests: tuple[int, int] | None, pulses: tuple[int, int] | None) -> str:
    rounds = of.rounds()
    if isinstance(rounds, ColouringRounds):
        return rounds_picture.rounds_svg(rounds, forests)
    if forests:
        raise Fault(Code.NO_FORESTS, name=of.program.name)
    return program_picture.program_svg(rounds, pulses)


def draw_bits(of: Source, forest: int | None, node: int | None) -> str:
    rounds = of.rounds()
    if not isinstance(rounds, ColouringRounds):
        raise Fault(Code.NO_FORESTS, name=of.program.name)
    return bits_picture.bits_svg(rounds, forest or 0, node)


def draw_why(of: Source, node: int | None, in_words: bool | None) -> str:
    rounds = of.rounds()
    if not isinstance(rounds, ColouringRounds):
        raise Fault(Code.NO_CHANNELS_OF_PROGRAM, name=of.program.name)
    cone = why_picture.Cone(rounds, node)
    return why_picture.why_text(cone) if in_words else why_picture.why_svg(cone)


def draw_run(
    of: Source,
    pulses: tuple[int, int] | None,
    only: tuple[str, ...] | None,
    wrong: bool | None,
    stopped: int | None,
) -> str:
    last = of.program.last_pulse(of.network)
    shown = window_of(of.network.name, last, pulses, 3)
    run = of.run(wrong)
    if run.wrong and not pulses:
        shown = wrong_run.usual_pulses(run, run.wrong[0])
    return run_picture.run_svg(run, shown, only, bool(wrong), stopped)


def draw_watch(of: Source, pulses: tuple[int, int] | None) -> str:
    texts = of.texts or [of.text("transcript")]
    return watch_page.watch_html(
        [
            watch_page.run_of_text(text.name, text.text, of.network, pulses, of.program)
            for text in texts
        ]
    )


def draw_schedules(
    of: Source, without: tuple[str, ...] | None, columns: tuple[int, int] | None
) -> str:
    space = schedules_space.space_of(of.network, without or (), of.program, of.progress)
    return schedules_picture.schedules_svg(of.network, space, columns)


class PictureKind(NamedTuple):
    """A kind of picture, one of `KINDS`: what it `does`, `more` of that, and an `example` of a command line; `draw`,
    the function that draws it; the `most` nodes that it draws, and the kind to use above; and whether it draws any
    program (`of_programs`).

    >>> KINDS["results"].does, KINDS["results"].most[0], KINDS["results"].options
    ('What the nodes of any program have found at their last pulse, on the map.', 400, [])
    >>> KINDS["why"].options
    ['node', 'in_words']
    """

    does: str
    more: str
    example: str
    draw: Callable[..., str]
    most: tuple[int, str] | None = None
    of_programs: bool = False

    @property
    def options(self) -> list[str]:
        """What `draw` is told besides of its source."""
        _, *names = signature(self.draw).parameters
        return names


KINDS = {
    "map": PictureKind(
        "The network alone, without a plan: for a question sheet.",
        "Identifiers that differ from the numbers are written beside them.",
        "forestlab picture map examples/petersen.col > petersen-map.svg",
        lambda of: map_picture.map_svg(of.network),
        (400, "a smaller network"),
    ),
    "plan": PictureKind(
        "The plan on the map: who has which channel.",
        "A plan that is not proper is refused; `forestplan check` says where.",
        "forestlab picture plan examples/petersen.col > petersen-plan.svg",
        lambda of: plan_picture.plan_svg(of.network, of.plan()),
        (400, "a smaller network"),
    ),
    "results": PictureKind(
        "What the nodes of any program have found at their last pulse, on the map.",
        "A thick line is an edge that a node has chosen, with an arrow if the other end hasn't;\n"
        "a filled circle is a node with a colour; of channels the number is in the circle, and beside it what it\n"
        "was before. All other results are written beside the nodes.",
        "forestlab picture results examples/petersen.col --program matching > petersen-pairs.svg",
        lambda of: results_picture.results_svg(program_rounds(of.network, of.program)),
        (400, "simulate, whose transcript ends in the same"),
        of_programs=True,
    ),
    "rounds": PictureKind(
        "The colours of each node in each forest, and when it chooses which channel.",
        "A row for each node of each forest: without --forest the first forests, as many as have 40 rows\n"
        "together, and with it at most 400 rows.",
        "forestlab picture rounds examples/triangle.col > triangle-rounds.svg",
        draw_rounds,
        (100, "player"),
        of_programs=True,
    ),
    "bits": PictureKind(
        "One node above its parent, digit by digit, over the four bit steps.",
        "Without --vertex, the least one that has a parent. A node without a line `i V NUMBER` has its own\n"
        "number as its name, of few digits.",
        "forestlab picture bits examples/petersen.col --vertex 6 > petersen-bits.svg",
        draw_bits,
    ),
    "why": PictureKind(
        "Which messages decided the channel of --vertex, on the rounds or in words.",
        "At most 400 rows, a row for each node of each forest that mattered; what didn't decide it is\n"
        "faded. With --text the same in words, of any network: each choice, who had taken the lower\n"
        "channels, the colours that gave the turns, and each message. What wasn't heard is left out: that\n"
        "a channel is free, and, of the greetings, who is whose parent.",
        "forestlab picture why examples/triangle.col --vertex 2 > triangle-why.svg\n"
        "  forestlab picture why examples/petersen.col --vertex 6 --text",
        draw_why,
    ),
    "run": PictureKind(
        "Space and time of a run without a clock: what each node put, took and did, above its rounds.",
        "Above 6 nodes, payloads alone unless --only says more. Without a stored text two calls differ, as the\n"
        "runs do. With --wrong, a text that is refused, up to what is wrong. Of a file whose nodes react to\n"
        "messages, without rounds: the messages, and what each node has found, where that changes.",
        "forestlab picture run examples/chain6.col --pulses 3..5 --transcript \\\n"
        "    examples/chain6_slow.transcript > chain6_slow-spacetime.svg",
        draw_run,
        (12, "watch"),
        of_programs=True,
    ),
    "film": PictureKind(
        "The rounds of the colouring as a picture that plays by itself: messages move.",
        "It has no script, so a page can show it as an image. A film has at most 1,000 messages. A reader\n"
        "whose browser asks for less motion sees the end.",
        "forestlab picture film examples/petersen.col > petersen-film.svg",
        lambda of: film_picture.film_svg(of.rounds()),
        (40, "player"),
    ),
    "player": PictureKind(
        "A page with a slider and a play button: the network at each pulse (HTML).",
        "Add #pulse-P to the page's address for a link to pulse P, and #pulse-P-forest-F for one of its forests.",
        "forestlab picture player examples/petersen.col > petersen.html",
        lambda of: player_page.player_html(of.rounds()),
        (40, "rounds"),
        of_programs=True,
    ),
    "watch": PictureKind(
        "A page that plays a run without a clock, or two side by side: messages move (HTML).",
        "At most 20,000 entries: of a longer run the first pulses, or others with --pulses. TRANSCRIPT is a\n"
        "stored text, or - for standard input; without it the program writes one. With a second one both are\n"
        "beside each other, pulse by pulse. Add #pulse-P to the page's address for a link to pulse P. Of a file\n"
        "whose nodes react to messages, without rounds: one run, and what each node has found.",
        "forestlab simulate examples/chain6.col --slow 2-3 > slow.transcript\n"
        "  forestlab picture watch examples/chain6.col slow.transcript > slow.html\n"
        "  forestlab picture watch examples/chain6.col slow.transcript examples/chain6_slow.transcript > two.html",
        draw_watch,
        (40, "a smaller network"),
        of_programs=True,
    ),
    "schedules": PictureKind(
        "Every order of events of a tiny network: its states as a lattice, a column for each number of events.",
        "At most 200,000 states. Of long ones the first columns, or others with --columns.\n"
        "With a rule left out, up to the first event that goes wrong, which is red.",
        "forestlab picture schedules examples/triangle.col --columns 0..24 > triangle-schedules.svg\n"
        "  forestlab picture schedules examples/path.col --without safes > path-without-safes.svg",
        draw_schedules,
        (4, "run, which draws one schedule"),
        of_programs=True,
    ),
    "broken": PictureKind(
        "What goes wrong without a rule of the rounds, and the same rounds with all rules.",
        "At most 40 nodes if they go wrong in a merge or at the end of another program. Without NETWORK, a\n"
        "smallest network that goes wrong, which is looked for. Rounds that go right are refused.",
        "forestlab picture broken --without shift > without-shift.svg\n"
        "  forestlab picture broken examples/petersen.col --without pair > petersen-without-pair.svg\n"
        "  forestlab picture broken --program independent-set --without class > set-without-class.svg",
        lambda of, without: broken_picture.broken_svg(of.network, without, of.program),
        (2000, "`forestlab explore NETWORK --without RULES`, which says it in words"),
        of_programs=True,
    ),
}


# The form of the text that a kind draws, which an option of this name may have.
FORM = {"plan": "plan", "run": "transcript"}

HELP = (
    "Draws plans, rounds and runs, as SVG on standard output; the last two kinds draw\n"
    "what `forestlab explore` searches.\n\n"
    + "".join(
        f"  {name:10} {kind.does[0].lower()}{kind.does[1:-1]}\n" for name, kind in KINDS.items()
    )
)

MORE_HELP = """\
NETWORK is a file in the DIMACS format, - for standard input, as in
`forestlab picture plan - < net.col > net.svg`, or a name, such as petersen or path5.
Comment lines `c at V X Y` place its nodes, y growing downwards; they count if
each node has one. Otherwise up to six nodes are on a circle, and more are laid out
by their edges. Nodes that would overlap are drawn smaller, and nodes that are still
too near are pushed apart. Comment lines `c name V NAME` name them, in plan, player and
run.

Without a stored text, run and watch draw what the built program writes, and so does plan
if the program is built. Everything else is worked out by the definitions in Python, which
are tested and not proved.

Status: 0 done, 1 not drawn (one line on standard error says why), 2 the command
line is refused; if a program refuses, its own line and status.

`forestlab picture KIND --help` has the options and an example.
"""


def numbers(text: str) -> tuple[int, int]:
    """One number, or the first and the last of several."""
    found = re.fullmatch(r"([0-9]{1,9})(?:\.\.([0-9]{1,9}))?", text)
    if not found:
        raise argparse.ArgumentTypeError("a number, or two, as 3..5")
    return int(found[1]), int(found[2] or found[1])


def add_texts(kind: ArgumentParser, name: str) -> None:
    """The texts that a kind draws, and what a run is to be of."""
    if form := FORM.get(name):
        said = f"a stored {form} text, or - for standard input"
        kind.add_argument(f"--{form}", dest="stored", action="append", metavar="FILE", help=said)
    if name == "watch":
        said = "a stored run, or two of them"
        kind.add_argument("stored", nargs="*", metavar="TRANSCRIPT", help=said)
    if name in ("run", "watch"):
        add_pulses(kind, "--pulses", "these pulses alone")


def add_pulses(kind: ArgumentParser, option: str, said: str, dest: str | None = None) -> None:
    kind.add_argument(option, type=numbers, metavar="A..B", dest=dest, help=said)


def add_rules(kind: ArgumentParser, name: str) -> None:
    """The options of the kinds that leave rules out."""
    if name == "schedules":
        kind.add_argument(
            "--without",
            type=some_of(*OF_SCHEDULES),
            default=(),
            metavar="RULES",
            help=f"some of {','.join(OF_SCHEDULES)}",
        )
        add_pulses(kind, "--columns", "the states after A to B events alone")
    if name == "broken":
        of = "; or ".join(f"{','.join(of)} of {name}" for name, of in RULES_OF_PROGRAMS.items())
        kind.add_argument(
            "--without",
            type=some_of(*OF_ANY_ROUNDS),
            required=True,
            metavar="RULES",
            help=f"some of {of}",
        )


def add_parts(kind: ArgumentParser, name: str) -> None:
    """The options that say which part of the rounds or of a run is drawn."""
    if name == "rounds":
        said = "these forests alone, or one, as 2, counted from 0"
        add_pulses(kind, "--forest", said, "forests")
        add_pulses(kind, "--pulses", "these pulses alone, of another program")
    if name == "bits":
        kind.add_argument("--forest", type=int, metavar="F", help="one forest, counted from 0")
    if name in ("bits", "why"):
        said = "a node, counted from 1"
        kind.add_argument(
            "--vertex", type=int, dest="node", metavar="V", required=name == "why", help=said
        )
    if name == "why":
        said = "in words, not as a picture"
        kind.add_argument("--text", action="store_true", dest="in_words", help=said)
    if name == "run":
        kind.add_argument(
            "--only",
            type=some_of(*run_picture.KINDS),
            metavar="KINDS",
            help=f"some of {','.join(run_picture.KINDS)}",
        )
        said = "draw a text up to its first entry that isn't possible, and that one in red"
        kind.add_argument("--wrong", action="store_true", help=said)
        said = "with --wrong, of a run that isn't whole: mark the node at which it stopped"
        kind.add_argument("--stopped", type=int, metavar="V", help=said)


def command_line() -> Parser:
    parser = parser_of("picture", "KIND NETWORK [options]", HELP, MORE_HELP)
    parser.set_defaults(stored=None)
    kinds = add_commands(parser, "kind")
    for name, does in KINDS.items():
        usage = "[NETWORK] --without RULES" if name == "broken" else "NETWORK [options]"
        most = f"At most {does.most[0]:,} nodes. " if does.most else ""
        kind = add_command(
            kinds, f"picture {name}", usage, does.does, most + does.more, does.example
        )
        said = "a file, - for standard input, or a name, such as petersen or path5"
        if name == "broken":
            kind.add_argument("network", metavar="NETWORK", nargs="?", help=said)
        else:
            kind.add_argument("network", metavar="NETWORK", help=said)
        kind.add_argument(
            "--title",
            metavar="NAME",
            help="what the picture calls the network, instead of its file",
        )
        if does.of_programs:
            add_program(kind)
        add_rules(kind, name)
        add_texts(kind, name)
        add_parts(kind, name)
        add_output(kind)
        kind.set_defaults(refuse=kind.error)
    return parser


def drawing(
    kind: str,
    network: Network | None,
    *texts: str | bytes,
    program: Program = COLOURING,
    **options: object,
) -> str:
    """Draws a picture of a `kind`, one of `KINDS`, of a `network` whose nodes run a `program`; returns SVG, of player
    and watch a page in HTML, and of why in words if it is asked for with `in_words=True`.

    `texts` are what is drawn: a plan's text of plan, and a transcript of run; watch draws one or two. Without them they
    are worked out by the definitions, and the run is one by chance. `options` are those of the kind: pairs `pulses`,
    `forests` and `columns`, a `forest`, a `node`, and `without`, the rules that schedules and broken leave out.
    Broken looks for a smallest network if it is None.

    >>> from forestplan.networks.sources import network_at
    >>> ring = network_at("ring5")
    >>> drawing("plan", ring).partition(" ")[0], drawing("run", ring, pulses=(3, 5)).partition(" ")[0]
    ('<svg', '<svg')
    >>> print(drawing("why", ring, node=2, in_words=True).splitlines()[0])
    why node 2 of ring5 has channel 3

    Raises `Fault` if the network is too large for the kind, or a text is wrong; ValueError if there is no such kind or
    rule; and TypeError of an option that the kind doesn't have, or needs: why needs a `node`, and broken `without`.
    """
    if kind not in KINDS:
        raise ValueError(f"no picture is called {kind!r}; these are: {', '.join(KINDS)}")
    if unknown := options.keys() - {*KINDS[kind].options}:
        has = ", ".join(KINDS[kind].options) or "none"
        raise TypeError(f"{kind} has no option {min(unknown)!r}; its options: {has}")
    needed = {"why": "node", "broken": "without"}.get(kind)
    if needed and options.get(needed) is None:
        raise TypeError(f"{kind} needs the option {needed!r}")
    named = [Text("the text", as_str(text)) for text in texts]
    return drawing_of(kind, Source(network, program, named, written_by_definition), **options)


def as_str(text: str | bytes) -> str:
    return text.decode("utf-8", "replace") if isinstance(text, bytes) else text


def written_by_definition(of: Source, form: str) -> str:
    """A text that is drawn and that nobody has given: of the definitions alone."""
    if form == "plan":
        return plan_by_definition(of.network).decode()
    entries = played(of.network, program=of.program)
    return text_of_run(of.network, entries, of.program)


def drawing_of(kind: str, of: Source, **options: object) -> str:
    """The picture of a kind: SVG, a page or words, of a source, with those of these options that the kind has. No file
    is read, and nothing said: a fault raises `Fault`.

    >>> drawing_of("map", Source(Network(2, [(1, 2)], name="edge")))[:4]
    '<svg'
    """
    if of.network is not None:
        if of.network.nodes == 0:
            raise Fault(Code.NO_NODE_TO_DRAW, InText(of.network.name))
        most = KINDS[kind].most
        if most:
            limit, instead = most
            at_most(kind, of.network.nodes, "nodes", limit, instead)
    return KINDS[kind].draw(of, *(options.get(name) for name in KINDS[kind].options))


# From the command line.


def note(what: str) -> None:
    print(f"picture: {what}", file=sys.stderr)


def plan_to_draw(network: Network, network_text: bytes) -> str:
    """The plan of the proved program; where that isn't built, of the definitions, which is said."""
    if folders.built("forestplan"):
        return proved_programs.output_of("forestplan", ["plain"], network_text)
    note(
        "forestplan isn't built, so the plan is that of the definitions in Python, which no proof covers"
    )
    return plan_by_definition(network).decode()


def run_text(kind: str, network: Network, network_text: bytes, program: Program) -> str:
    """The transcript of a run: by threads of a proved program, by seed of one from a file."""
    wires = least_wires(network, program)
    if wires > MOST_WIRES:
        raise Fault(
            Code.RUN_TOO_LONG_TO_DRAW, kind=kind, most=MOST_WIRES, name=network.name, wires=wires
        )
    if is_of_file(program):
        return text_of_run(network, played(network, program=program), program)
    workers = f"--workers={processors.workers(processors.DEFAULT_WORKERS)}"
    if program == COLOURING:
        return proved_programs.output_of("forestplan", ["transcript", workers], network_text)
    arguments = ["run", "--transcript", *program_words(program), workers]
    return proved_programs.output_of("forestplay", arguments, network_text)


def reacting_run(given: Namespace, network: Network, program: Reacting) -> str:
    """The picture of a run of nodes that react to messages, or the page: of a stored run, or of one by a seed."""
    for option in ("pulses", "only", "wrong", "stopped"):
        if getattr(given, option, None):
            raise Fault(Code.OPTION_OF_ROUNDS, option=option, name=program.name)
    if len(given.stored or ()) > 1:
        raise Fault(Code.TWO_RUNS_WITHOUT_ROUNDS, name=program.name)
    at_most(given.kind, network.nodes, "nodes", *(KINDS[given.kind].most or (0, "")))
    if given.stored:
        text = Text(text_name(given.stored[0]), text_at(given.stored[0], MOST_OF_TRANSCRIPT))
    else:
        made = played(network, program=program)
        text = Text(network.name, text_of_run(network, made, program))
    order, _ = ordered(text.text, text.name, network, program)
    draw = reacting_picture.reacting_svg if given.kind == "run" else reacting_watch.reacting_html
    return draw(given.title or stem(text.name), network, program, order.made)


def progress(states: int, events: int) -> None:
    note(f"{states:,} states, up to {events} events")


def check_texts(given: Namespace, stored: Sequence[str]) -> None:
    """Refuses more texts than there are, or than a page has room for."""
    if given.kind == "watch" and len(stored) > 2:
        raise Fault(Code.TWO_RUNS)
    if [given.network, *stored].count("-") > 1:
        raise Fault(Code.ONE_STANDARD_INPUT)


def drawn(given: Namespace) -> str:
    """The picture that the command line asks for."""
    stored = given.stored or []
    check_texts(given, stored)
    of = Source(title=given.title, progress=progress if sys.stderr.isatty() else None)
    if given.network is None:
        of.program = program_asked("picture", given)
        return drawing_of(**vars(given), of=of)
    data = network_bytes(given.network)
    of.network = network = network_in_bytes(data, text_name(given.network))
    network.name = given.title or (NAMELESS if given.network == "-" else network.name)
    program = any_program_asked("picture", given, network)
    if isinstance(program, Reacting) and given.kind in ("run", "watch"):
        return reacting_run(given, network, program)
    of.program = by_rounds(program)
    of.texts = [Text(text_name(path), text_at(path, MOST_OF_TRANSCRIPT)) for path in stored]
    of.written = lambda _, form: (
        plan_to_draw(network, data)
        if form == "plan"
        else run_text(given.kind, network, data, of.program)
    )
    picture = drawing_of(**vars(given), of=of)
    if said := unused_places(network):
        note(said)
    return picture


def main(arguments: list[str]) -> int:
    gc.disable()  # It draws one picture and ends; on long texts the collector would take a third of the time.
    given = command_line().parse_args(arguments)
    if given.kind == "broken" and (why := unknown_to(given.program, given.without)):
        given.refuse(why)
    if getattr(given, "stopped", None) is not None and not given.wrong:
        given.refuse("--stopped is for --wrong")
    try:
        picture = drawn(given)
    except proved_programs.ProgramRefused as why:
        sys.stderr.write(why.message)
        return why.status
    write_output(given, picture)
    return 0
