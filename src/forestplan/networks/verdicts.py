"""What the proved programs find, parsed once from their lines: the verdict on a plan or on a transcript, and the states
to which the entries of one lead. docs/claim/FORMATS.md has the lines."""
import re
from collections.abc import Mapping
from dataclasses import dataclass, field, replace

from forestplan.networks.codes import WRITTEN

PROPER = re.compile("proper ([0-9]+)")
# What a node waits for before its next pulse: `ack 0 of 2; safe 0 of 2 and 3`.
LACKED = re.compile("(ack|safe) [0-9]+ of ([0-9, and]+)")
EXPECTED = "expected "
STATE = re.compile("node ([0-9]+) pulse ([0-9]+).*")
LINK = re.compile("link ([0-9]+) ([0-9]+) taken ([0-9]+)(.*)")
WIRES = ("payload", "ack", "safe", "close")


@dataclass(frozen=True)
class Verdict:
    """What a program finds of a text. `code` is the name of what is wrong, and empty if nothing is; `of` is `line`,
    `vertex`, `vertices` or `entry`, and `numbers` are which, entries counting from 0. Of a proper plan `of` is
    `channels`. `lacked` has the neighbours for whose wires a node waits, by the word of the wire, and `expected` is the
    wire or the pulse that is possible there; `more` is what the program says of either. `line` is its own line.
    """

    code: str = ""
    of: str = ""
    numbers: tuple[int, ...] = ()
    lacked: Mapping[str, tuple[int, ...]] = field(default_factory=dict)
    expected: str = ""
    more: str = ""
    line: str = ""

    @property
    def is_about_an_entry(self) -> bool:
        return self.code not in ("", "NotWhole")

    @property
    def short(self) -> str:
        """`proper 3`, or what is wrong, and where."""
        return " ".join(
            [*((self.code, self.of) if self.code else ("proper",)), *map(str, self.numbers)]
        )

    def after(self, lines: int) -> "Verdict":
        """The same of the lines that come after so many, counted from 1."""
        if self.of != "line":
            return self
        numbers = tuple(number - lines for number in self.numbers)
        here = replace(self, numbers=numbers)
        return replace(here, line=": ".join(filter(None, ["forestplay", here.short, self.more])))

    @property
    def entry(self) -> int:
        """The entry that isn't possible, counted from 0."""
        return self.numbers[0]

    @property
    def nodes(self) -> tuple[int, ...]:
        """The nodes that it names."""
        return self.numbers if self.of in ("vertex", "vertices") else ()


def parsed_verdict(line: str) -> Verdict | None:
    """What a line says of a plan, or of a fault, as a program writes it to standard error; None if it is no such line.

    >>> verdict = parsed_verdict("forestplay: NotReady line 9: ack 0 of 2; safe 0 of 2 and 3")
    >>> verdict.code, verdict.numbers, verdict.lacked
    ('NotReady', (9,), {'ack': (2,), 'safe': (2, 3)})
    >>> parsed_verdict("forestplan: C4 vertices 1 2").nodes
    (1, 2)
    >>> parsed_verdict("proper 3").short
    'proper 3'
    """
    if proper := PROPER.fullmatch(line):
        return Verdict(of="channels", numbers=(int(proper[1]),), line=line)
    found = WRITTEN.fullmatch(line)
    if found is None:
        return None
    code, of, numbers, more = (group or "" for group in found.groups())
    lacked = {
        wire: tuple(int(number) for number in re.findall("[0-9]+", whose))
        for wire, whose in LACKED.findall(more)
    }
    expected = more.removeprefix(EXPECTED) if more.startswith(EXPECTED) else ""
    return Verdict(code, of, tuple(map(int, numbers.split())), lacked, expected, more, line)


@dataclass(frozen=True)
class States:
    """Where the nodes are after some entries: the pulse of each, by its number, and how many wires the links hold."""

    pulses: list[int]
    wires: int


def states_of(text: str) -> States:
    """The states that a program writes.

    >>> states_of("node 1 pulse 3\\nlink 1 2 taken 1 safe 2 payload 3 hello 1\\n")
    States(pulses=[3], wires=2)
    """
    pulses = []
    wires = 0
    for line in text.splitlines():
        if state := STATE.fullmatch(line):
            pulses.append(int(state[2]))
        elif link := LINK.fullmatch(line):
            wires += sum(word in WIRES for word in link[4].split())
    return States(pulses, wires)
