"""What nodes without a common clock do, and what they send each other, as the texts of docs/claim/FORMATS.md have it:
messages, events, and the entries of a transcript.

A message under synchroniser alpha is called a wire. It is `payload P WORD NUMBER`, which carries the payload `WORD
NUMBER` of pulse P; `ack P`; `safe P`; or `close`."""
from dataclasses import dataclass
from enum import Enum
from functools import cache


class Kind(Enum):
    """The kinds of events, each with its word: a node makes a pulse, or another step of its own; it puts a message on a
    link; or it takes one from there.

    >>> [kind.value for kind in Kind]
    ['pulse', 'act', 'put', 'take']
    """

    PULSE = "pulse"
    ACT = "act"
    PUT = "put"
    TAKE = "take"

    # Each kind is one object, and `Enum` computes its hash anew from its name each time.
    __hash__ = object.__hash__


# Before Python 3.12 `Kind.PUT` is looked up slowly, so what is called for each event uses these names.
PULSE = Kind.PULSE
ACT = Kind.ACT
PUT = Kind.PUT
TAKE = Kind.TAKE


@dataclass(frozen=True, slots=True)
class Message:
    """What nodes send each other: a `word` of small letters, and then its `fields`, numbers from 0 or such words.

    >>> str(Message("payload", (3, "hello", 7)))
    'payload 3 hello 7'
    """

    word: str
    fields: tuple[int | str, ...] = ()

    def __str__(self) -> str:
        """The message as texts have it."""
        return " ".join([self.word, *map(str, self.fields)])


CLOSE = Message("close")


@cache
def ack(pulse: int) -> Message:
    """The wire that acknowledges the payload of a `pulse`, from 0; of each pulse there is one, which many links hold.

    >>> str(ack(3))
    'ack 3'
    """
    return Message("ack", (pulse,))


@cache
def safe(pulse: int) -> Message:
    """The wire that says that all payloads of a `pulse`, from 0, have been acknowledged.

    >>> str(safe(3))
    'safe 3'
    """
    return Message("safe", (pulse,))


@dataclass(frozen=True, slots=True)
class Event:
    """What the node `node` does, by its `kind`: it makes its next pulse, or another step of its own (`act`), and then
    `port` is None; or it puts a message on its link by a port, or takes one from there. `message` is that message,
    where it is said. A take may overtake `place` messages, if links don't keep their order.

    >>> str(Event(Kind.PUT, node=3, port=0)), str(Event(Kind.PULSE, node=3))
    ('put 3 0', 'pulse 3')
    """

    kind: Kind
    node: int
    port: int | None = None
    message: Message | None = None
    place: int = 0

    def __str__(self) -> str:
        """The event as `forestplay events` reads it."""
        if self.port is None:
            return f"{self.kind.value} {self.node}"
        return f"{self.kind.value} {self.node} {self.port}"


@dataclass(frozen=True, slots=True)
class Entry:
    """What a transcript says of an event, in its line of the number `line`: which `node`, the `kind`, and `what`, which
    is the number of the node's own step, or the message that is put or taken; `neighbour` is the node at the other end
    of its link, and None of a step of its own. Edition 1 has no `stamp`, until an order is found.

    >>> entry = Entry(line=2, node=1, kind=Kind.PUT, neighbour=2, what=Message("close"), stamp=9)
    >>> entry.kind.value, str(entry.what)
    ('put', 'close')
    """

    line: int
    node: int
    kind: Kind
    neighbour: int | None
    what: int | Message
    stamp: int | None = None
