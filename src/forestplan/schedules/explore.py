"""The door: `forestlab explore NETWORK [options]`. Plays every schedule of a tiny network, with rules left out if some
are named, and writes what it found, or one line on standard error."""
from argparse import ArgumentParser, Namespace
import argparse
import sys
from collections import Counter
from collections.abc import Collection, Iterable, Iterator
from functools import partial
from typing import TYPE_CHECKING, NamedTuple

from forestplan.definitions.events import Event, Kind
from forestplan.definitions.own_program import OwnNode, check_repeats, has_verdict, wrong_end
from forestplan.definitions.program import Program, RoundsNode
from forestplan.definitions.programs import add_program, any_program_asked, program_asked
from forestplan.definitions.reacting_program import Reacting, ReactingNode, check_reactions
from forestplan.fault_codes import Code
from forestplan.faults import Fault
from forestplan.files import write_output
from forestplan.network import Network
from forestplan.networks.sources import network_at
from forestplan.parsers import add_output, add_seed, count, parser_of
from forestplan.schedules.alpha_space import AlphaSpace, Status
from forestplan.schedules.rules import (
    ALL,
    OF_SCHEDULES,
    program_with_rules,
    rules_table,
    unknown_to,
)
from forestplan.schedules.space import AnySearched, Space
from forestplan.wording import as_text, counted

# Only what is asked for pays for what the import takes: so functions import what others don't need.
if TYPE_CHECKING:
    from forestplan.schedules.reacting_runs import Runs

MOST_NODES = 4
LIMIT = 1_000_000
BYTES_A_STATE = 420
# The most networks by chance.
MOST_NETWORKS = 10_000
MOST_RUNS = 100_000
# What is said after the rounds of a network that is too large for all schedules.
ROUNDS_ALONE = f"""the rounds alone: every schedule is played of at most {MOST_NODES} nodes; in each of them
a node finds what it finds in the rounds, if the file keeps everything in `me`
"""
# What is printed in place of what a reduced search doesn't know.
REDUCED = "reduced: a safe or close is taken at once, so schedules, pulses apart and wires under way aren't counted"

HELP = f"""\
Plays every schedule of a network of up to {MOST_NODES} nodes: all lists of events that
the synchroniser and its links allow, in which each put is made as soon as it can be.
In every state it checks that each pulse had the round's inbox, and that something is
possible unless all nodes are at the end and all links are empty.

If `right` of a file of your own says that even the rounds end wrong, it writes these
rounds pulse by pulse, or for a larger network how the rounds end. With --networks it
plays the rounds on random networks, and writes a smallest one on which they end wrong.

A file with a function `on_WORD` has nodes that react to each message, without rounds
and without a synchroniser. It plays every schedule of such a file, on any network that
has few enough states. It writes how many messages a schedule has, at least and at most,
what the nodes have found at each end, whether some schedules never end, and a shortest
list of events after which `right` or `always` isn't true, or a function of the file
fails. With --runs it plays random runs of a larger network instead.

With --without it leaves rules out, and writes a list of events that goes wrong, with
as few takes and pulses as there can be, or `not broken`. For a rule of the rounds it
looks at the rounds of NETWORK; without NETWORK, for a smallest network on which they
go wrong. Rules of a program that goes on where the colouring ends are left out with
--program.
"""

MORE_HELP = f"""\
Rules of the synchroniser and of its links, then of the rounds of the colouring, and
last, two each, of matching, independent-set and recolouring:
{rules_table()}
NETWORK is a file in the DIMACS format, - for standard input, or a name. A state takes some
{BYTES_A_STATE} bytes of memory, so {LIMIT:,} states some {LIMIT * BYTES_A_STATE // 10 ** 6} MB; most networks of four
nodes have fewer.

With --reduce a safe or a close that comes next on its link is taken at once, and
nothing else is tried in that state: it neither helps nor hinders what could come
before it. Three nodes that are all neighbours then have 4,620 states instead of
16,473. What goes wrong and all ends are found; shortest lists, the number of
schedules, how far neighbours are apart and how much a link holds are not. It is
refused without the rules safes and fifo, on which it rests.

This is Python over slow definitions: tested, and not proved.

Examples:
  forestlab explore examples/triangle.col
  forestlab explore examples/two.col --without safes
  (cat examples/two.col; forestlab explore examples/two.col --without early --list) |
      forestplay events
  forestlab explore --without digit
  forestlab explore --program mine.py --networks 100 --seed 3
  forestlab explore triangle --program examples/algorithms/exclusion.py
  forestlab explore petersen --program examples/algorithms/echo.py --runs 100

Status: 0 nothing goes wrong, 1 something does, or it can't be searched (one line on
standard error says why), 2 the command line is refused.
"""


def rules_in_option(text: str) -> list[str]:
    names = text.split(",")
    for word in names:
        if word not in ALL:
            raise argparse.ArgumentTypeError(f"`{word}` is no rule: use some of {','.join(ALL)}")
    if not set(names) <= set(OF_SCHEDULES) and not program_with_rules(names):
        raise argparse.ArgumentTypeError(
            "rules of the synchroniser, and of the rounds of a program, can't be left out "
            "together with others"
        )
    return list(dict.fromkeys(names))


def command_line() -> ArgumentParser:
    parser = parser_of("explore", "[NETWORK] [options]", HELP, MORE_HELP)
    parser.add_argument(
        "network",
        metavar="NETWORK",
        nargs="?",
        help="a file, - for standard input, or a name, as triangle or path3",
    )
    parser.add_argument(
        "--without",
        type=rules_in_option,
        default=[],
        metavar="RULES",
        help="the rules to leave out, with commas between",
    )
    parser.add_argument(
        "--limit",
        type=count,
        default=LIMIT,
        metavar="STATES",
        help=f"give up after this many states; default: {LIMIT}",
    )
    parser.add_argument(
        "--list",
        action="store_true",
        help="write only one list of events, as `forestplay events` reads it",
    )
    parser.add_argument(
        "--reduce",
        action="store_true",
        help="if a safe or a close comes next on its link, take it at once, and try nothing else: "
        "far fewer states",
    )
    parser.add_argument("--json", action="store_true", help="write what was found for a program")
    parser.add_argument(
        "--networks",
        type=partial(count, most=MOST_NETWORKS),
        metavar="N",
        help="play the rounds of a file on N random networks, and ask its `right`",
    )
    parser.add_argument(
        "--connected", action="store_true", help="with --networks: only connected networks"
    )
    parser.add_argument(
        "--runs",
        type=partial(count, most=MOST_RUNS),
        metavar="N",
        help="play N runs, and not every schedule, of a file whose nodes react to messages",
    )
    add_seed(parser, "the networks of --networks and the runs of --runs come from it")
    add_program(parser)
    add_output(parser)
    return parser


def main(arguments: list[str]) -> int:
    line = command_line()
    given = line.parse_args(arguments)
    if why := refused_together(given):
        line.error(why)
    if given.networks:
        found = networks_found(given)
    else:
        found = rounds_found(given) if asks_for_rounds(given) else schedules_found(given)
    write_output(given, found_as_json(found) if given.json else found.words)
    return int(found.broken)


def asks_for_rounds(given: Namespace) -> bool:
    """Whether rules of the rounds are left out, and not of the synchroniser."""
    return bool(given.without and program_with_rules(given.without))


def refused_together(given: Namespace) -> str:
    """Why these options don't go together, in words."""
    if given.networks:
        is_alone = not (given.network or given.without or given.list)
        why = "--networks makes random networks: without NETWORK, --without and --list"
        return "" if is_alone else why
    if given.connected:
        return "--connected is for --networks"
    if asks_for_rounds(given):
        return refused_of_rounds(given)
    if given.network is None:
        return "NETWORK is missing"
    if given.reduce and set(given.without) & {"safes", "fifo"}:
        return "--reduce is right only if nodes keep the rules safes and fifo"
    return ""


def refused_of_rounds(given: Namespace) -> str:
    if why := unknown_to(given.program, given.without):
        return why
    if given.list or given.reduce:
        rules = ",".join(OF_SCHEDULES)
        return f"the rounds have no events: --list and --reduce are for the rules {rules}"
    return ""


class Explored(NamedTuple):
    """What was found: whether something goes wrong, in words; of the schedules the list of events that leads to it, or
    to an end, and how many states and steps were searched."""

    broken: bool
    words: str
    events: list[str] | None = None
    states: int | None = None
    steps: int | None = None


# The rounds.


def rounds_found(given: Namespace) -> Explored:
    """What the rounds of the network do without the rules, or a smallest network on which they go wrong."""
    from forestplan.schedules.ruled_rounds import looked_at

    net = None if given.network is None else network_at(given.network)
    rounds, said = looked_at(net, given.without, program_asked("explore", given, net))
    text = f"{said}\n{rounds.sentence()}\n" if rounds else f"{said}\n"
    return Explored(rounds is not None, text + refused_words(given.without))


def refused_words(without: Collection[str]) -> str:
    """The wrong bodies that take these rules away."""
    return "".join(
        f"wrong body of `{ALL[word].crate}`, which the prover refuses: {ALL[word].edit}\n"
        for word in without
    )


def networks_found(given: Namespace) -> Explored:
    """Whether the rounds of a file end right on networks by chance, by its `right`."""
    program = program_asked("explore", given)
    if not has_verdict(program):
        raise Fault(Code.NO_FUNCTION_RIGHT, program=given.program)
    from forestplan.schedules.own_rounds import verdict_on_many

    is_right, text = verdict_on_many(program, given.networks, given.seed, given.connected)
    return Explored(not is_right, text)


def found_as_json(found: Explored) -> str:
    # Only this option pays for what the import takes.
    import json

    return json.dumps(found._asdict()) + "\n"


# The schedules.


def schedules_found(given: Namespace) -> Explored:
    net = network_at(given.network)
    program = any_program_asked("explore", given, net)
    if isinstance(program, Reacting):
        return reacting_found(given, net, program)
    if given.runs:
        raise Fault(Code.RUNS_OF_ROUNDS, program=given.program)
    check_repeats(net, program)
    if (found := found_by_rounds(given, net, program)) is not None:
        return found
    if net.nodes > MOST_NODES:
        code = Code.TOO_MANY_FOR_SCHEDULES if program.file is None else Code.TOO_MANY_WITHOUT_RIGHT
        raise Fault(code, name=net.name, nodes=net.nodes, most=MOST_NODES)
    space = AlphaSpace(net, given.without, given.limit, given.reduce, program)
    search(given, space)
    events = space.with_puts(space.path_to_fault() if space.faults else space.path(space.ends[0]))
    if given.list:
        text = as_text(events)
    elif space.faults:
        text = broken_text(given, space, events)
    else:
        text = whole_text(given, net.name, space)
    return Explored(
        bool(space.faults), text, list(map(str, events)), space.count, len(space.target)
    )


def found_by_rounds(given: Namespace, net: Network, program: Program) -> Explored | None:
    """What the rounds show already of a file that says what is right: all of a network that is too large for its
    schedules, and of another one that they end wrong."""
    if given.without or given.list or not has_verdict(program):
        return None
    is_large = net.nodes > MOST_NODES
    if not is_large and not wrong_end(net, program):
        return None
    from forestplan.schedules.own_rounds import verdict_of

    is_right, text = verdict_of(net, program)
    return Explored(not is_right, text + (ROUNDS_ALONE if is_large else ""))


def reacting_found(given: Namespace, net: Network, program: Reacting) -> Explored:
    """What is found of nodes that react to messages: there are no rounds to compare them with."""
    from forestplan.schedules import reacting_words
    from forestplan.schedules.reacting_runs import Runs
    from forestplan.schedules.reacting_space import ReactingSpace

    if set(given.without) - {"fifo"}:
        raise Fault(Code.NO_SYNCHRONISER, program=given.program)
    if given.reduce:
        raise Fault(Code.NOTHING_TO_REDUCE, program=given.program)
    check_reactions(net, program)
    if given.runs:
        return runs_found(given, Runs(net, program, given.runs, given.seed).play())
    space = ReactingSpace(net, program, given.without, given.limit)
    search(given, space)
    if space.faults:
        events = space.with_puts(space.path_to_fault())
        what = space.faults[space.first_fault()]
        lines = [f"broken after {events_words(events, own_step(program))}: {what}"]
        lines += reacting_words.lines_of_list(net, program, events)
    else:
        events = space.with_puts(space.path(space.ends[0])) if space.ends else []
        lines = list(reacting_words.whole_words(space, rounded))
        lines += draws_words(given, [node for own in space.locals for node in own])
    listed = list(map(str, events))
    text = as_text(listed if given.list else lines)
    return Explored(bool(space.faults), text, listed, space.count, len(space.target))


def runs_found(given: Namespace, runs: "Runs") -> Explored:
    """What is found in runs by a seed."""
    from forestplan.schedules import reacting_words

    lines = list(reacting_words.runs_words(runs))
    if runs.wrong:
        fewest = ", maybe not the fewest" if runs.events else ""
        lines = [
            f"broken in {runs.wrong_count:,} of {counted(runs.count, 'run')}; in a shortest of these after "
            f"{events_words(runs.events, own_step(runs.program))}{fewest}: {runs.wrong}",
            *reacting_words.lines_of_list(runs.net, runs.program, runs.events),
        ]
    listed = list(map(str, runs.events))
    return Explored(bool(runs.wrong), as_text(listed if given.list else lines), listed)


def search(given: Namespace, space: Space[AnySearched]) -> None:
    """The search, with a line of progress if somebody looks on."""
    show = sys.stderr.isatty()
    if show:
        sys.stderr.write(
            f"explore: at most {given.limit:,} states, {given.limit * BYTES_A_STATE // 10 ** 6:,} MB"
        )

    def progress(states: int, depth: int) -> None:
        sys.stderr.write(
            f"\r\033[Kexplore: {states:,} states of at most {given.limit:,}, {depth} events far"
        )
        sys.stderr.flush()

    try:
        space.search(progress if show else None)
    finally:
        if show:
            sys.stderr.write("\r\033[K")
    if space.is_full:
        from forestplan.schedules.reacting_space import MOST_KEPT

        raise Fault(Code.STATES_GROW, expanded=space.expanded, most=MOST_KEPT)
    if space.is_cut:
        can_reduce = not given.reduce and not set(given.without) & {"safes", "fifo"}
        code = Code.TOO_MANY_STATES if can_reduce else Code.TOO_MANY_STATES_LEFT
        if not isinstance(space, AlphaSpace):
            code = Code.TOO_MANY_STATES_OF_REACTING
        raise Fault(code, limit=given.limit, each=BYTES_A_STATE)


def whole_text(given: Namespace, name: str, space: AlphaSpace) -> str:
    """All went right."""
    what = (
        f"not broken without {','.join(given.without)}"
        if given.without
        else f"every schedule of {name}"
    )
    count = None if space.reduce else space.schedules
    schedules = "" if count is None else f", {rounded(count)} schedules"
    pulses = sum(node.pulse for node in space.nodes(space.ends[0]).values())
    rest = space.depth[space.ends[0]] - pulses
    apart = counted(space.farthest, "pulse")
    distances = (
        f"neighbours at most {apart} apart, at most {space.most_wires} wires of a link under way"
    )
    found = [results_words(space.nodes(s)) for s in space.ends]
    ends = "one end" if len(found) == 1 else f"{len(found)} ends"
    return as_text(
        [
            f"{what}: {space.count:,} states, {len(space.target):,} steps{schedules}",
            f"each has {rest + pulses:,} events: {rest:,} takes and {pulses:,} pulses",
            "each pulse had the round's inbox, and something was possible until all was done",
            REDUCED if space.reduce else distances,
            f"{ends}: {' or '.join(dict.fromkeys(found))}",
            *draws_words(given, nodes_at_end(space)),
        ]
    ) + refused_words(given.without)


def nodes_at_end(space: AlphaSpace) -> list[RoundsNode]:
    """The nodes that are simulated, as they are at an end."""
    return [own[at].simulated for own, at in zip(space.locals, space.states[space.ends[0]])]


def draws_words(given: Namespace, nodes: Iterable[object]) -> list[str]:
    """What is said if a node of a file has asked for chance."""
    own = [node for node in nodes if isinstance(node, (OwnNode, ReactingNode))]
    if not any("random" in vars(node.me) for node in own):
        return []
    return [f"all this of the draws of --lots {given.lots} alone"]


def results_words(nodes: dict[int, Status]) -> str:
    """What nodes have found: `channels 2 3 1` of the colouring, and of another program each node's words."""
    colours = [node.colour for node in nodes.values() if node.colour is not None]
    if len(colours) == len(nodes):
        return f"channels {' '.join(str(colour + 1) for colour in colours)}"
    return ", ".join(f"{v} {node.result}" for v, node in nodes.items())


def rounded(number: int) -> str:
    """Two digits of a large number, as 2.3e188."""
    text = str(number)
    if len(text) <= 6:
        return f"{number:,}"
    two = (int(text[:3]) + 5) // 10
    return f"{two // 10}.{two % 10}e{len(text) - 1}" if two < 100 else f"1.0e{len(text)}"


def broken_text(given: Namespace, space: AlphaSpace, listed: list[Event]) -> str:
    s, _ = space.first_fault()
    what = space.faults[space.first_fault()]
    if (
        s not in space.broken and not given.without
    ):  # the synchroniser keeps all its rules, so it is the file
        raise Fault(Code.OTHER_IN_OTHER_ORDER, program=given.program, what=what)
    fewest = ", maybe not the fewest" if space.reduce else ""
    first = f"broken after {events_words(listed)}{fewest}: {what}\n"
    return "".join([first, *event_lines(listed, space.ports), refused_words(given.without)])


def events_words(listed: list[Event], own: str = "pulse") -> str:
    """How many events a list has, puts among them: `8 events (5 takes and pulses)`."""
    rest = sum(event.kind is not Kind.PUT for event in listed)
    one, many = (f"take or {own}", f"takes and {own}s") if own else ("take", "takes")
    return f"{counted(len(listed), 'event')} ({counted(rest, one, many)})"


def own_step(program: Reacting) -> str:
    """What a node's own step is called, if the nodes of a file have some."""
    return "act" if "act" in program.file.functions else ""


def event_lines(listed: list[Event], neighbours: dict[int, list[int]]) -> Iterator[str]:
    """The events with the wires that they put or take, or the pulse that is made."""
    made: Counter[int] = Counter()
    for event in listed:
        v = event.node
        order = ", out of turn" if event.place else ""
        if event.port is None:
            made[v] += 1
            yield f"{event}: node {v} makes pulse {made[v]}\n"
        elif event.kind is Kind.PUT:
            yield f"{event}: {event.message} for {neighbours[v][event.port]}\n"
        else:
            yield f"{event}: {event.message} from {neighbours[v][event.port]}{order}\n"
