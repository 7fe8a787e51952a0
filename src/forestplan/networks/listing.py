"""What a text lists: nodes and edges by their names."""
import difflib
import re
import unicodedata
from collections.abc import Collection
from dataclasses import dataclass, field
from functools import lru_cache

from forestplan.fault_codes import Code
from forestplan.faults import Fault, InText
from forestplan.networks.fields import shown_field

LONGEST_NAME = 200
# A letter that is written as a letter with its marks has at most so many of both.
MOST_IN_A_LETTER = 4
# Where something is in a text: the number of its line, or words if it has no line.
Where = int | str
Edge = tuple[Where, str, str]


@dataclass
class Listed:
    """The nodes and edges of a text.

    `nodes` has the nodes in their order, and where each is in the text; it is None if the nodes are those that edges
    name, in the order in which they come. `notes` says how the text was read, and what of it isn't in the network.
    """

    form: str
    edges: list[Edge] = field(default_factory=list)
    nodes: dict[str, Where] | None = None
    places: dict[str, tuple[float, float]] = field(default_factory=dict)
    identifiers: dict[str, int] = field(default_factory=dict)
    bars: dict[str, set[int]] = field(default_factory=dict)
    notes: list[str] = field(default_factory=list)

    def ends(self) -> list[tuple[str, Where]]:
        """The ends of the edges, one after the other."""
        return [(end, where) for where, *ends in self.edges for end in ends]

    def names(self) -> list[str]:
        """The nodes in their order."""
        return list(dict(self.ends()) if self.nodes is None else self.nodes)


# How a spreadsheet writes a cell that it can't work out, as #DIV/0!.
ERROR_VALUE = re.compile(r"#[A-Z/0]+[!?]|#N/A|#NV", re.I)


@lru_cache(1 << 16)
def composed(word: str) -> str | None:
    """A name with composed letters, by which names are compared; None if it is no name."""
    word = word.strip()
    # Python composes a letter of many marks in quadratic time.
    if len(word) > LONGEST_NAME * MOST_IN_A_LETTER:
        return None
    word = unicodedata.normalize("NFC", word)
    is_seen = word.isprintable() and any(map(str.isalnum, word))
    is_worked_out = not ERROR_VALUE.fullmatch(word)
    return word if is_seen and is_worked_out and len(word) <= LONGEST_NAME else None


def name_of(word: str, path: str, where: Where) -> str:
    """The name of a node: it has a letter or a digit, and nothing that can't be seen. Blanks around it are dropped.

    >>> name_of(" Ulm ", "sites.csv", 2)
    'Ulm'

    Raises `Fault` of what is no name.
    """
    name = composed(word)
    if name is None:
        raise Fault(Code.NO_NAME, InText(path, where), word=shown_field(word))
    return name


def not_read(what: str, names: Collection[str]) -> list[str]:
    """A note of what isn't read, if there is something.

    >>> not_read("columns", ["height", "owner"])
    ["columns that aren't read: height, owner"]
    """
    return [f"{what} that aren't read: {', '.join(map(shown_field, names))}"] if names else []


def check_known(
    name: str, known: Collection[str], path: str, where: Where, code: Code, **subject: object
) -> None:
    """Refuses a node that isn't known.

    >>> check_known("Ulmm", ["Ulm", "Hof"], "pairs.csv", 3, Code.NO_SITE)
    Traceback (most recent call last):
    forestplan.faults.Fault: pairs.csv line 3: Ulmm is no site, is it Ulm?

    Raises `Fault`, which names the known one that is written most alike.
    """
    if name not in known:
        alike = difflib.get_close_matches(name, known, n=1, cutoff=0.7)
        meant = shown_field(alike[0]) if alike else None
        raise Fault(code, InText(path, where), name=shown_field(name), alike=meant, **subject)
