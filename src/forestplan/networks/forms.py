"""What a user states of a file: its form, by its ending or by --as, what its columns are called, its encoding.

Nothing of it is guessed. What isn't stated is asked for by a refusal with the words to choose from.
"""
import codecs
import os
import shlex
from collections.abc import Sequence
from dataclasses import dataclass, field

from forestplan.fault_codes import Code
from forestplan.faults import Fault, InText

# The forms, each with the ending of files that states it.
ENDINGS = {
    "pairs": (".csv", ".tsv"),
    "edges": (".edgelist",),
    "adjacency": (".adjlist",),
    "dimacs": (".col",),
    "graphml": (".graphml",),
    "gexf": (".gexf",),
    "gml": (".gml",),
    "json": (".json",),
    "graph6": (".g6",),
    "sparse6": (".s6",),
}
# What states the form of a text whose ending doesn't, and what each is.
COMMON = [
    (["--as", "pairs"], "a table (CSV) with a heading source,target"),
    (["--as", "edges"], "two nodes a line, with blanks between"),
    (["--as", "adjacency"], "a node and its neighbours a line, with blanks between"),
    (["--as", "dimacs"], "the DIMACS format, with lines that begin with p and e"),
]
WINDOWS = [(["--encoding", "cp1252"], "its letters are those of western Windows")]
# Of endings that aren't read: a package of Debian, the ending of what its command makes, and the command.
DOT = ("graphviz", ".gml", ["gv2gml", "-o", "NEW", "OLD"])
BY_IGRAPH = "import igraph, sys; igraph.Graph.Read_Pajek(sys.argv[1]).write_graphml(sys.argv[2])"
BY_SCIPY = (
    "import networkx as nx, scipy.io, sys; "
    "nx.write_graphml(nx.Graph(scipy.io.mmread(sys.argv[1])), sys.argv[2])"
)
PYTHON = ["python3", "-c"]
OTHERS = {
    ".dot": DOT,
    ".gv": DOT,
    ".net": ("python3-igraph", ".graphml", [*PYTHON, BY_IGRAPH, "OLD", "NEW"]),
    ".mtx": ("python3-networkx python3-scipy", ".graphml", [*PYTHON, BY_SCIPY, "OLD", "NEW"]),
}
# What a text in an encoding may begin with.
BY_MARK = {
    codecs.BOM_UTF8: "utf-8-sig",
    codecs.BOM_UTF16_LE: "utf-16",
    codecs.BOM_UTF16_BE: "utf-16",
}
COMPRESSED = b"\x1f\x8b"


@dataclass(frozen=True)
class Stated:
    """What is stated of the files of one call.

    `columns` has the titles of columns that aren't called by a standard title, in the tables that have them. Without a
    heading they are numbers of columns, from 1. `found` has the columns that a table had as they are stated.
    """

    form: str | None = None
    columns: dict[str, str] = field(default_factory=dict)
    has_heading: bool = True
    encoding: str | None = None
    found: set[str] = field(default_factory=set)

    def check_found(self) -> None:
        """Refuses what is stated of columns that no table had."""
        for column, title in self.columns.items():
            if column not in self.found:
                raise Fault(Code.COLUMN_NOT_THERE, title=title, column=column)
        if not self.has_heading and not self.found:
            raise Fault(Code.NO_TABLE)


class Unsaid(Fault):
    """A text of which something isn't stated: `choices` has (words of a command line that state it, what they mean).

    If a table has none of the columns that are wanted, `titles` are those that it has.
    """

    def __init__(
        self,
        what: Fault,
        choices: Sequence[tuple[list[str], str]],
        wanted: Sequence[str] = (),
        titles: Sequence[str] = (),
    ) -> None:
        super().__init__(what.code, what.place, **what.subject)
        self.choices = choices
        self.wanted = wanted
        self.titles = titles


def form_of(path: str, name: str, stated: Stated = Stated()) -> str:
    """The form that is stated, or that the file's ending says; of standard input it is DIMACS. `name` is what a fault
    calls the file.

    >>> form_of("pairs.csv", "pairs.csv"), form_of("-", "standard input")
    ('pairs', 'dimacs')

    Raises `Fault` of an ending that isn't read, and `Unsaid` of one that says nothing.
    """
    if stated.form or path == "-":
        return stated.form or "dimacs"
    ending = os.path.splitext(path)[1].lower()
    for form, endings in ENDINGS.items():
        if ending in endings:
            return form
    if ending in (".xls", ".xlsx", ".ods"):
        raise Fault(Code.SPREADSHEET, InText(name))
    if ending not in OTHERS:
        raise Unsaid(Fault(Code.FORM_UNSAID, InText(name)), COMMON)
    package, new_ending, command = OTHERS[ending]
    # A name that begins with a hyphen is no option if it begins with its folder.
    old = f"./{path}" if path.startswith("-") else path
    new = os.path.splitext(old)[0] + new_ending
    made = shlex.join({"OLD": old, "NEW": new}.get(word, word) for word in command)
    raise Fault(
        Code.FORM_TO_CONVERT, InText(name), package=package, made=made, new=shlex.quote(new)
    )


# Letters.


def letters_of(data: bytes, name: str, stated: str | None) -> str:
    """The letters of a file: in the encoding that its mark says, or that is stated, or UTF-8.

    >>> letters_of(b"Z\\xfcrich", "sites.csv", "cp1252")
    'Z\\xfcrich'

    Raises `Fault` of what isn't in a stated encoding, and `Unsaid` of what isn't in UTF-8.
    """
    if data.startswith(COMPRESSED):
        raise Fault(Code.COMPRESSED, InText(name))
    encoding = stated or "utf-8"
    for mark, marked in BY_MARK.items():
        if data.startswith(mark):
            encoding = marked
    try:
        text = data.decode(encoding)
        # Some encodings have halves of pairs of UTF-16, which are no letters.
        text.encode()
        return text
    except LookupError:
        raise Fault(Code.NO_ENCODING, InText(name), encoding=encoding) from None
    except UnicodeError as why:
        line = data.count(b"\n", 0, getattr(why, "start", 0)) + 1
        what = Fault(Code.NOT_IN_ENCODING, InText(name, line), encoding=encoding.upper())
    raise what if stated else Unsaid(what, WINDOWS)


def decoded_text(data: bytes, name: str, stated: str | None) -> str:
    """The text of a file, whose lines end with line feeds.

    >>> decoded_text(b"a\\r\\nb\\rc", "text", None)
    'a\\nb\\nc'

    Raises `Fault` and `Unsaid` as `letters_of` does, and `Fault` of a letter of value zero.
    """
    text = letters_of(data, name, stated).replace("\r\n", "\n").replace("\r", "\n")
    before, zero, _ = text.partition("\0")
    if zero:
        raise Fault(Code.ZERO_LETTER, InText(name, before.count("\n") + 1))
    return text
