"""What the workshop finds: a run that isn't right, or a program that doesn't answer."""
from collections.abc import Iterable, Sequence
from dataclasses import dataclass, field

from forestplan.wording import in_words

MOST = 8  # of a list of words


class NoAnswer(Exception):
    """A program gave no answer. `kind` is silent, ended, garbage, flood, late or start; `is_by_signal` says that a
    signal has ended it."""

    def __init__(self, kind: str, message: str, is_by_signal: bool = False) -> None:
        super().__init__(message)
        self.kind = kind
        self.message = message
        self.is_by_signal = is_by_signal


@dataclass
class Finding:
    """The first thing in a run that isn't right.

    >>> found = Finding("wrong-put", node=2, pulse=3, lines=[("wrong", "node 2 puts nothing")])
    >>> found.text()
    ['wrong  node 2 puts nothing']

    `kind` is a word of docs/learn/PROTOCOL.md, "What is wrong"; `node` and `pulse` say whose it is and when,
    `lines` explain it, each with a label. `entry` is the index of the wrong entry of a run without a clock. `way` says
    in a few words what is wrong, without numbers: two findings of one kind and way may have the same cause. `owner` is
    the number of the command that runs at the node, if there are several; `is_first`, that a program gave no answer to
    its first message; `is_by_signal`, that a signal ended it."""

    kind: str
    node: int
    pulse: int
    lines: list[tuple[str, str]] = field(default_factory=list)
    entry: int | None = None
    way: str = ""
    owner: int | None = None
    is_first: bool = False
    is_by_signal: bool = False

    def is_like(self, other: "Finding") -> bool:
        """Whether another finding may have the same cause."""
        return (self.kind, self.way, self.owner) == (other.kind, other.way, other.owner)

    def text(self) -> list[str]:
        """Its lines, each after its label."""
        return [f"{label:6} {text}" for label, text in self.lines]


def kind_of(sentence: str) -> str:
    """Words without their numbers."""
    return " ".join(word for word in sentence.split() if not word.isdecimal())


def first_of(things: Sequence[object]) -> list[str]:
    """The first of a list, and a mark if there are more."""
    return [*map(str, things[:MOST]), *[".."] * (len(things) > MOST)]


def last_of(texts: Sequence[str]) -> list[str]:
    return [*[".."] * (len(texts) > MOST), *texts[-MOST:]]


def numbers_in_words(what: str, numbers: Iterable[object]) -> str:
    """`no port`, `port 1`, `ports 1 and 2`, `ports 0, 1 and 2`."""
    numbers = list(numbers)
    if not numbers:
        return f"no {what}"
    several = what if len(numbers) == 1 else f"{what}s"
    return f"{several} {in_words(numbers)}"
