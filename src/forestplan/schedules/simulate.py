"""The door: `forestlab simulate NETWORK [options]`. Plays a run without a clock by a seed or by a list of events, step
by step, on the slow definitions (src/forestplan/definitions/machine.py), and writes its transcript, or one line on
standard error."""
from argparse import ArgumentParser, Namespace
import argparse
import re
import sys
from collections import defaultdict, deque
from collections.abc import Collection, Iterable, Iterator
from functools import partial
from itertools import islice
from typing import Generic

from forestplan.definitions.events import ACT, PULSE, PUT, TAKE, Entry, Event, Kind, Message
from forestplan.definitions.machine import AnyNode, NetState, Node, NotPossible, missing_words
from forestplan.definitions.nodes import COLOURING, AlphaNode, alpha_start
from forestplan.definitions.own_program import check_repeats, what_is_wrong, wrong_end
from forestplan.definitions.program import Program
from forestplan.definitions.programs import add_program, any_program_asked
from forestplan.definitions.reacting_program import (
    AnyProgram,
    Reacting,
    check_reactions,
    results_in,
)
from forestplan.fault_codes import Code
from forestplan.faults import Fault, InText
from forestplan.files import text_at, text_name, write_output
from forestplan.network import Edge, Network
from forestplan.networks.fields import shown_field
from forestplan.networks.sources import network_at
from forestplan.parsers import add_output, add_seed, parser_of
from forestplan.schedules.policies import POLICIES, Policy, Step
from forestplan.schedules.rules import OF_SCHEDULES, rules_named
from forestplan.transcripts.fields import first_line, first_line_of_reactions
from forestplan.transcripts.reading import line_of
from forestplan.transcripts.stamps import Clock, unfinished
from forestplan.wording import as_text

HELP = """\
Writes the transcript of a run without a clock that no thread made: step by step, a
policy chooses what happens next among all that is possible. The same network, policy
and seed give the same run on every machine.

A step is a put, a take or a pulse of one node. What waits comes when nothing else is
possible, so it is as slow as it can be.

With --events a list of events takes the place of the policy, as the tab Adversary of
`forestlab studio` shows it, `forestlab explore --list` writes it and
`forestplay events` reads it. An event that isn't possible is refused. If the list ends
before all nodes are done, so does the transcript, and `forestplay replay` reports
NotWhole; with --to-the-end the policy plays the rest.
"""
MORE_HELP = f"""\
The policies; those that choose an edge or a node choose it by the seed:
{chr(10).join(f"  {name:<12}{habit}" for name, habit in POLICIES.items())}

The transcript is of edition 2, as `forestplan transcript` writes it, or of another
program of edition 3, which names it, so that `forestlab transcript`, `forestlab
picture` and `forestplay replay` read it. Of a file whose nodes react to messages,
without rounds, it is of edition 4, with `act` instead of `pulse`. NETWORK is a file
in the DIMACS format, - for standard input, or a name, such as petersen or path5. 4,500
entries (petersen) take half a second, and half a million one to several minutes.

This is Python over slow definitions: tested, and not proved. `forestplay replay`, which
is proved, accepts such a transcript of each of its six programs, if it is given the
same --program, --root and --passes.

Status: 0 done, 1 the network or the list can't be read, an event isn't possible, the
network doesn't have the slow edge, or the `right` of a file of your own says that the
end isn't right (one line on standard error says why), 2 the command line is refused.

Examples:
  forestlab simulate examples/chain6.col --slow 2-3 --seed 7 > slow.transcript
  forestlab picture run examples/chain6.col --transcript slow.transcript > slow.svg
  (cat examples/chain6.col; cat slow.transcript) | forestplay replay
  forestlab simulate examples/two.col --events list.events --to-the-end > list.transcript
"""


EVENT = re.compile(
    r"(pulse|act) ([0-9]{1,10})|(put(?! \S+ \S+ )|take) ([0-9]{1,10}) ([0-9]{1,10})(?: ([0-9]{1,10}))?"
)
# Nodes without rounds may go on for ever. A run with more entries is said to have no end.
MOST_ENTRIES = 500_000


# Of the put or the take of a wire by a link, or of a node's own step, for which the neighbour is 0.
Waiting = tuple[Kind, int, int]


class Player(Generic[AnyNode]):
    """A run on its way, whose entries are `made`, of the machine at its start, `state`. `steps[v]` are the steps that
    are possible at v; `since[kind, v, w]` has for each wire that can be put or taken, and for a node's own step, how
    many entries were made when it came there; `under_way` counts these."""

    def __init__(self, state: NetState[AnyNode]) -> None:
        self.state = state
        self.clock = Clock(state.neighbours)
        self.made: list[Entry] = []
        self.since: defaultdict[Waiting, deque[int]] = defaultdict(deque)
        self.steps: dict[int, list[Step]] = {}
        self.under_way = 0
        for v in sorted(self.state.nodes):
            self.look_at(v)

    def look_at(self, v: int) -> None:
        """What is possible at v now."""
        node = self.state.nodes[v]
        self.steps[v] = []
        self.note_waiting(node.own, v, 0, [NO_WIRE] if node.may_act() else [])
        for port, w in enumerate(self.state.neighbours[v]):
            self.note_waiting(PUT, v, w, node.ports[port].out)
            self.note_waiting(TAKE, v, w, self.state.link_to(v, port))

    def note_waiting(self, kind: Kind, v: int, w: int, wires: list[Message]) -> None:
        """Notes since when these wires can be put or taken, and that the first one can be."""
        times = self.since[kind, v, w]
        self.under_way += len(wires) - len(times)
        if len(times) > len(wires):
            times.popleft()
        if len(times) < len(wires):
            times.extend([len(self.made)] * (len(wires) - len(times)))
        if wires:
            latest = times[-1] if kind is TAKE else times[0]
            self.steps[v].append(Step(kind, v, w, wires[0].word, times[0], latest))

    def make(self, event: Event) -> Entry:
        """Makes an event, and returns its entry; raises `NotPossible` if it isn't possible."""
        kind = event.kind
        v = event.node
        what = self.state.step(event)
        w = None if event.port is None else self.state.neighbours[v][event.port]
        entry = Entry(0, v, kind, w, what, self.clock.next(kind, v, w))
        self.made.append(entry)
        self.look_at(v)
        if kind is PUT and w is not None:
            self.look_at(w)
        return entry

    def event_of(self, step: Step) -> Event:
        """The event that a step makes."""
        return self.state.events[step.kind, step.node, step.neighbour or None]

    def play_events(self, events: Iterable[tuple[int, Event]], name: str) -> None:
        """The events of a list, as `events_of` has them."""
        for line, event in events:
            try:
                self.make(event)
            except NotPossible as refused:
                # Only what is refused pays for what the import takes.
                from forestplan.sentences import WORDS

                missing = missing_words(self.state, event)
                raise Fault(
                    Code.EVENT_REFUSED,
                    InText(name, line),
                    event=event,
                    missing=missing,
                    word=WORDS[refused.code],
                ) from None

    def next_steps(self) -> list[Step]:
        """All steps that are possible now."""
        return [step for own in self.steps.values() for step in own]

    def entries(self, policy: Policy) -> Iterator[Entry]:
        """The entries from here until nothing is possible, each as soon as it is made: so a caller can look at the
        state between them, report how far the run is, or stop."""
        while steps := self.next_steps():
            yield self.make(self.event_of(policy.choose(steps)))

    def check_size(self, most: int) -> None:
        """Refuses a run that can't end within so many entries, since each message under way needs one."""
        if len(self.made) + self.under_way > most:
            raise Fault(Code.TOO_MANY_UNDER_WAY, most=most, under_way=self.under_way)


# What a node's own step has in place of a wire.
NO_WIRE = Message("")


class AlphaPlayer(Player[AlphaNode]):
    """A run of nodes that run a program under the synchroniser; they may be `without` rules."""

    def __init__(
        self, net: Network, program: Program = COLOURING, without: Collection[str] = ()
    ) -> None:
        super().__init__(start_without(net, program, without))


def start_without(net: Network, program: Program, without: Collection[str]) -> NetState[AlphaNode]:
    """The machine at its start, whose nodes run a program under the synchroniser, without some rules."""
    check_repeats(net, program)
    if rules := rules_named(without, OF_SCHEDULES):
        # Only this option pays for what the import takes.
        from forestplan.schedules.ruled_node import RuledNode

        return NetState(net, partial(RuledNode, without=rules, program=program))
    return alpha_start(net, program)


def played(
    net: Network,
    policy: str = "random",
    seed: str | int = "1",
    slow: Collection[Edge] = (),
    lazy: Collection[int] = (),
    player: Player[Node] | None = None,
    program: AnyProgram = COLOURING,
) -> list[Entry]:
    """Plays a run of a `program` on a network `net` without a clock; returns its entries, in the order in which they
    were made, each with its stamp. `text_of_run` writes them as a transcript.

    A `policy` of `POLICIES` and a `seed` choose what happens next, so the same ones give the same run. What goes over
    the `slow` edges, pairs of neighbours, and what the `lazy` nodes do, waits until nothing else is possible. A
    `player` that is on its way goes on from where it is.

    >>> edge = Network(2, [(1, 2)])
    >>> [str(entry.what) for entry in played(edge, policy="oldest")[:3]]
    ['payload 0 hello 1', 'payload 0 hello 2', 'payload 0 hello 1']
    >>> entries = played(edge, policy="slow-node", seed=7, slow=[(1, 2)])
    >>> entries[-1].node, entries[-1].kind.value
    (1, 'take')

    Raises `Fault` if the network has no such slow edge or lazy node, and if a run of nodes that react to messages
    doesn't end; ValueError if no policy has this name.
    """
    check_names(net, slow, lazy)
    player = player or player_of(net, program)
    entries = player.entries(Policy(policy, net.node_numbers, net.edges, seed, slow, lazy))
    if isinstance(program, Reacting):
        entries = islice(entries, MOST_ENTRIES)
    for _ in entries:
        if isinstance(program, Reacting):
            player.check_size(MOST_ENTRIES)
    if player.next_steps():
        raise Fault(Code.RUN_NOT_ENDED, most=MOST_ENTRIES)
    return player.made


def player_of(net: Network, program: AnyProgram) -> Player[Node]:
    """A run of a program that hasn't begun."""
    if isinstance(program, Program):
        return AlphaPlayer(net, program)
    check_reactions(net, program)
    return Player(program.start(net))


def events_of(
    text: str, name: str, overtakes: bool = False, own: Kind = PULSE
) -> Iterator[tuple[int, Event]]:
    """(line, event) of each event of a list, a `text` that is called `name`; a note after a colon, as `forestlab
    explore` writes it, is passed over. If links don't keep their order (`overtakes`), a take may overtake `place`
    wires; else that is refused. `own` is the kind of the nodes' own steps.

    >>> [str(event) for line, event in events_of("put 1 0\\npulse 2: the first one\\n", "the list")]
    ['put 1 0', 'pulse 2']

    Raises `Fault` of the first line that is no event.
    """
    for line, raw in enumerate(text.split("\n"), 1):
        event, _, note = raw.partition(":")
        fields = event.split()
        if not fields or fields[0].startswith("c"):
            continue
        if (
            fields[0] == "take"
            and len(fields) == 4
            and not overtakes
            or note.endswith(", out of turn")
        ):
            raise Fault(Code.OVERTAKES, InText(name, line), event=shown_field(raw.strip()))
        found = EVENT.fullmatch(" ".join(fields))
        if found is None or found[1] not in (None, own.value):
            raise Fault(Code.NO_EVENT, InText(name, line), event=shown_field(raw.strip()))
        step, node, kind, v, port, place = found.groups()
        if step:
            yield line, Event(own, int(node))
        else:
            yield line, Event(Kind(kind), int(v), int(port), place=int(place or 0))


def text_of_run(net: Network, entries: Iterable[Entry], program: AnyProgram = COLOURING) -> str:
    """The transcript of a run of a `program` on a network `net`, with stamps: how many nodes there are, and a line for
    each of the `entries`, as `played` returns them, by stamp, and lines of one stamp by node.

    >>> edge = Network(2, [(1, 2)])
    >>> print(text_of_run(edge, played(edge, policy="oldest")[:2]), end="")
    transcript 2 2
    1 1 put 2 payload 0 hello 1
    1 2 put 1 payload 0 hello 2
    """
    lines = [
        f"{entry.stamp} {line_of(entry)}"
        for entry in sorted(entries, key=lambda one: (one.stamp, one.node))
    ]
    if isinstance(program, Reacting):
        return as_text([first_line_of_reactions(net.nodes, program.name), *lines])
    return as_text([first_line(net.nodes, program.name), *lines])


def edge(text: str) -> Edge:
    v, dash, w = text.partition("-")
    if not dash or not all(word.isascii() and word.isdigit() for word in (v, w)):
        raise argparse.ArgumentTypeError("two neighbours, as 2-3")
    return int(v), int(w)


def command_line() -> ArgumentParser:
    parser = parser_of("simulate", "NETWORK [options]", HELP, MORE_HELP)
    parser.add_argument(
        "network",
        metavar="NETWORK",
        help="a file, - for standard input, or a name, such as petersen or path5",
    )
    add_seed(parser)
    parser.add_argument(
        "--policy",
        choices=POLICIES,
        default="random",
        metavar="NAME",
        help="one of those below; default: random",
    )
    parser.add_argument(
        "--slow",
        type=edge,
        action="append",
        default=[],
        metavar="V-W",
        help="what goes over this edge waits, whatever the policy is; may be given again",
    )
    parser.add_argument(
        "--lazy",
        type=int,
        action="append",
        default=[],
        metavar="V",
        help="what this node does waits, whatever the policy is; may be given again",
    )
    parser.add_argument(
        "--events", metavar="LIST", help="play this list of events, a file or - for standard input"
    )
    parser.add_argument(
        "--to-the-end",
        action="store_true",
        help="after the events of LIST the policy plays the rest",
    )
    add_program(parser)
    add_output(parser)
    return parser


def check_names(net: Network, slow: Collection[Edge], lazy: Collection[int]) -> None:
    """Refuses edges and nodes that the network hasn't."""
    for v, w in slow:
        if frozenset((v, w)) not in net.number:
            raise Fault(Code.NO_EDGE, name=net.name, v=v, w=w)
    for v in lazy:
        if v not in net.neighbours:
            raise Fault(Code.NO_NODE, name=net.name, v=v, nodes=net.nodes)


def run_asked(net: Network, given: Namespace, program: AnyProgram) -> Player[Node]:
    """The run that the command line asks for; a list that ends early is said."""
    player = player_of(net, program)
    if given.events:
        name = text_name(given.events)
        own = ACT if isinstance(program, Reacting) else PULSE
        player.play_events(events_of(text_at(given.events), name, own=own), name)
    if given.to_the_end or not given.events:
        played(net, given.policy, given.seed, given.slow, given.lazy, player, program)
    elif left := next(unfinished(player.state), None):
        print(
            f"simulate: after the last event {left[1]}; --to-the-end plays the rest",
            file=sys.stderr,
        )
    return player


def wrong_at_end(net: Network, program: AnyProgram, player: Player[Node]) -> str:
    """What the file of a program says that isn't right at the end; nothing if it is right, or if a run of nodes without
    rounds isn't at its end."""
    if isinstance(program, Program):
        return wrong_end(net, program)
    if player.next_steps():
        return ""
    return what_is_wrong(net, program.file, results_in(player.state))


def main(arguments: list[str]) -> int:
    line = command_line()
    given = line.parse_args(arguments)
    if given.to_the_end and not given.events:
        line.error("--to-the-end is for a list of --events")
    if given.network == given.events == "-":
        line.error("standard input is one file, not two")
    net = network_at(given.network)
    check_names(net, given.slow, given.lazy)
    program = any_program_asked("simulate", given, net)
    player = run_asked(net, given, program)
    write_output(given, text_of_run(net, player.made, program))
    if why := wrong_at_end(net, program, player):
        print(f"simulate: what the nodes find at the end isn't right: {why}", file=sys.stderr)
    return int(bool(why))
