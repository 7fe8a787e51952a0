"""What the pages get as JSON: a network, rounds and runs. A class becomes an object with its fields, and a named tuple
a list. A field that has a default is left out where it is None.

src/forestplan/pictures/page/data.d.ts has the same for the pages' JavaScript. `python3 build page-types` writes it from
here. """
from collections.abc import Collection, Mapping, Sequence
from dataclasses import MISSING, dataclass, fields, is_dataclass
from functools import cache
from typing import NamedTuple

from forestplan.network import Edge

# A number that JavaScript can hold, or its digits.
Numeral = int | str


@cache
def names_of(kind: type) -> tuple[tuple[str, bool], ...]:
    """The fields of a class, and whether each is left out where it is None."""
    return tuple((one.name, one.default is not MISSING) for one in fields(kind))


def as_object(value: object) -> dict[str, object]:
    """What JSON has of an instance of these classes: the `default` of `json.dumps`."""
    if not is_dataclass(value) or isinstance(value, type):
        raise TypeError(f"{type(value).__name__} is nothing that a page gets")
    kind: type = type(value)
    found = {}
    for name, may_lack in names_of(kind):
        one = getattr(value, name)
        if one is not None or not may_lack:
            found[name] = one
    return found


@dataclass(frozen=True)
class PlainNode:
    """A node of a network, as it is stated. `id` has the digits of its identifier, or nothing if it is its own
    number."""

    x: float
    y: float
    id: str
    name: str
    bars: Collection[int]


@dataclass(frozen=True)
class NetNode(PlainNode):
    """A node as a page draws it. `label` is what is written after its number: its name and its identifier, cut if they
    are long."""

    label: str


@dataclass(frozen=True)
class Net:
    """A network: its edges (v, w) count nodes from 1, the lower node first, and ascend."""

    name: str
    nodes: Sequence[NetNode]
    edges: Collection[Edge]


@dataclass(frozen=True)
class AnyPulse:
    """A pulse of the rounds: `step` is the forest, the three-colour and the old colour of a pulse of a merge, `chosen`
    has what nodes choose in it, and `puts` are from, to, the word and the number of each message.
    """

    caption: str
    said: str
    step: tuple[int, int, int] | None
    chosen: Mapping[int, int]
    colours: Sequence[Sequence[Numeral]] | None
    puts: Sequence[tuple[int, int, str, Numeral]]


@dataclass(frozen=True)
class PulseOfColouring(AnyPulse):
    """A pulse of the colouring: `colours` has the colours of each node by its forests, if it has some by then."""

    results: None = None
    drawn: None = None
    new: None = None


@dataclass(frozen=True)
class PulseOfProgram(AnyPulse):
    """A pulse of another program: what each node has found, in words and as a colour and the other end of an edge; and
    the nodes that have found something new."""

    results: Sequence[str]
    drawn: Mapping[int, tuple[int | None, int | None]]
    new: Sequence[int]


Pulse = PulseOfColouring | PulseOfProgram


@dataclass(frozen=True)
class RoundsFound:
    """The rounds pulse by pulse: `first` are the nodes' least channels from 0, and `parents` has child, forest and
    parent; `channels` says whether the results are channels."""

    last: int
    forests: int
    pulses: Sequence[Pulse]
    first: Sequence[int]
    channels: bool
    parents: Sequence[tuple[int, int, int]]


@dataclass(frozen=True)
class PlayerData:
    """The data of a page that plays rounds."""

    net: Net
    film: RoundsFound


@dataclass(frozen=True)
class Look:
    """What is shown of a node under the synchroniser: its pulse; whether it has said safe, and whether it is done; what
    it waits for, what it has and what it keeps, each with the neighbour; and its channel (0 if it has none yet), or in
    words what it has found."""

    pulse: int
    safe: bool
    done: bool
    waits: tuple[tuple[str, int], ...]
    has: tuple[tuple[str, int], ...]
    keeps: tuple[tuple[str, int], ...]
    found: int | str


class Row(NamedTuple):
    """An entry of a run: the numbers of its look and of its text count those of the table."""

    stamp: int
    node: int
    look: int
    text: int


class WireRow(NamedTuple):
    """A wire on its way: the number of its text, and the entries and the stamps of its put and of its take, if it is
    taken."""

    v: int
    w: int
    text: int
    put: int
    put_stamp: int
    take: int | None
    take_stamp: int | None


@dataclass(frozen=True)
class RunTable:
    """The rows of a run that a page follows; what comes again and again has a number. `all` says of each pulse when the
    last node makes it: the stamp, and how many entries are made then."""

    name: str
    start: Sequence[Look]
    rows: Sequence[Row]
    wires: Sequence[WireRow]
    looks: Sequence[Look]
    texts: Sequence[str]
    stamps: tuple[int, int]
    all: Sequence[tuple[int, int]]


@dataclass(frozen=True)
class RunFound:
    """A run, or a part of one that is under way: `last` is its last pulse, and `pulses` the first and the last one that
    are shown."""

    table: RunTable
    last: int
    pulses: tuple[int, int]


@dataclass(frozen=True)
class WatchData:
    """The data of a page that plays one run, or two of one network: of two, pulse by pulse, whether their payloads are
    the same, and those of the first run."""

    net: Net
    last: int
    pulses: tuple[int, int]
    runs: Sequence[RunTable]
    same: Sequence[bool]
    sent: Sequence[Sequence[tuple[int, int, str]]]


@dataclass(frozen=True)
class ReactedLook:
    """What is shown of a node that reacts to messages: how often it has acted, whether it may act now, and what it has
    found."""

    acts: int
    able: bool
    found: str


@dataclass(frozen=True)
class ReactionsTable:
    """A run of such nodes, as a `RunTable` has one under the synchroniser."""

    name: str
    start: Sequence[ReactedLook]
    rows: Sequence[Row]
    wires: Sequence[WireRow]
    looks: Sequence[ReactedLook]
    texts: Sequence[str]
    stamps: tuple[int, int]


@dataclass(frozen=True)
class ReactionsData:
    """The data of a page that plays such a run."""

    net: Net
    run: ReactionsTable
