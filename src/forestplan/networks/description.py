"""`forestlab network tell`: what a network is, and what a run on it comes to, its payloads and wires, and about how
long the commands take."""
from collections.abc import Iterator
from functools import cached_property
from typing import TYPE_CHECKING

from forestplan.network import Network
from forestplan.networks.network_text import Reading
from forestplan.wording import counted, duration

if TYPE_CHECKING:
    from forestplan.definitions.rounds import ColouringRounds

# The most nodes times pulses for which the rounds are worked out here, in some seconds.
MOST_AT_ONCE = 300_000
# The last pulse before the merges.
LAST_COLOUR = 12
# The most wires of a run for which nobody waits, and for how many a processor takes a second (docs/MEASUREMENTS.md).
AN_INSTANT = 100_000
WIRES_A_SECOND = {"plan": 1_500_000, "transcript": 1_000_000}


class RunSize:
    """What every whole run of a network comes to; `payloads` counts them, or if they may be many, `is_bound`, it is the
    most that there can be."""

    def __init__(self, network: Network) -> None:
        self.network = network
        self.last = LAST_COLOUR + 3 * network.forest_count * network.channels

    @cached_property
    def counted(self) -> int | None:
        """The payloads of the rounds, if they are worked out here."""
        if self.network.nodes * self.last > MOST_AT_ONCE:
            return None
        rounds = rounds_here(self.network)
        return None if rounds is None else sum(len(pulse.puts) for pulse in rounds.pulses)

    @property
    def is_bound(self) -> bool:
        return self.counted is None

    @property
    def payloads(self) -> int:
        return most_payloads(self.network) if self.counted is None else self.counted

    @property
    def wires(self) -> int:
        """What all links carry."""
        return 2 * self.payloads + 2 * len(self.network.edges) * (self.last + 1)

    @property
    def lines(self) -> int:
        """How many lines a transcript has."""
        return 2 * self.wires + self.network.nodes * self.last + 1


def rounds_here(network: Network) -> "ColouringRounds | None":
    """The rounds by their definition; None in the folder of a class, which doesn't have it."""
    try:
        from forestplan.definitions.rounds import ColouringRounds
    except ImportError:
        return None
    return ColouringRounds(network)


def most_payloads(network: Network) -> int:
    """The most messages that the rounds of a `network` can have: a greeting both ways, a label and ten colours of each
    edge; and in each merge both ends of each edge choose. No run sends more: clause `by_forest` of the law
    `colouring_is_bounded` (crates/bound_laws).

    >>> most_payloads(Network(2, [(1, 2)]))
    15
    """
    forests = network.forest_count
    merged = sum(forests - f for parents in network.higher.values() for f in range(len(parents)))
    return 13 * len(network.edges) + 2 * merged


def processor_seconds(run: RunSize, command: str) -> float:
    """About how many seconds of processor time `plan` or `transcript` takes, by its wires alone.

    >>> run = RunSize(Network(2, [(1, 2)]))
    >>> processor_seconds(run, "transcript") > processor_seconds(run, "plan")
    True
    """
    return run.wires / WIRES_A_SECOND[command]


def times(run: RunSize) -> str:
    """About how much processor time `plan` and `transcript` take."""
    if run.wires <= AN_INSTANT:
        return "less than a second"
    longer = [
        f"{command} about {duration(max(1, processor_seconds(run, command)))}"
        for command in WIRES_A_SECOND
    ]
    return (
        f"{', '.join(longer)}, of all processors together; `plain` prints the same plan much sooner"
    )


def facts(reading: Reading, network: Network) -> list[tuple[str, str]]:
    """(name, what) of each line that `tell` prints."""
    run = RunSize(network)
    degrees = [len(network.neighbours[v]) for v in network.node_numbers]
    edges = len(network.edges)
    forests = network.forest_count
    again = reading.edge_lines - edges
    alone = f", {degrees.count(0):,} of them without a neighbour" if 0 in degrees else ""
    more = f", {counted(again, 'line')} more with an edge that was there before" if again else ""
    most = ""
    how = "counted by the definition of the rounds"
    if run.is_bound:
        most = "at most "
        how = "`forestplay rounds < FILE | grep -c ' put '` counts them"
    enough = f", so at most {counted(network.channels, 'channel')}"
    bars = network.bars.values()
    barred = (
        f"{counted(sum(map(len, bars)), 'channel')} at {counted(len(bars), 'node')}, "
        f"at most {network.greatest_bars:,} at one{enough}"
    )
    return [
        ("nodes", f"{network.nodes:,}{alone}"),
        ("edges", f"{edges:,}{more}; the `p` line says {reading.promised:,}"),
        (
            "neighbours",
            f"{min(degrees, default=0):,} to {network.greatest_degree:,} of a node"
            + ("" if bars else enough),
        ),
        *([("barred", barred)] if bars else []),
        (
            "forests",
            f"{forests:,}, so the last pulse is 12 + 3 * {forests:,} * {network.channels:,} = {run.last:,}",
        ),
        ("payloads", f"{most}{run.payloads:,}; {how}"),
        ("wires", f"{most}2 * {run.payloads:,} + 2 * {edges:,} * {run.last + 1:,} = {run.wires:,}"),
        ("transcript", f"{most}{run.lines:,} lines"),
        ("time", times(run)),
    ]


def warnings(reading: Reading) -> Iterator[str]:
    """What the programs read without a word, and a reader may not have meant."""
    there = len(reading.edges)
    if reading.promised not in (there, reading.edge_lines, 2 * there):
        why = "is it cut?" if there < reading.promised else "does the line belong to another text?"
        yield (
            f"the `p` line says {counted(reading.promised, 'edge')}, and the text has {there}: {why} "
            "The programs plan what is there"
        )
