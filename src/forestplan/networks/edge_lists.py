"""Edges and adjacency as networkx writes them: words with blanks between, and comments, each a line with # and a blank
before it."""
import re

from forestplan.fault_codes import Code
from forestplan.faults import Fault, InText
from forestplan.networks.fields import shown_field
from forestplan.networks.listing import Listed, Where, name_of
from forestplan.networks.table import NUMBER, TITLES
from forestplan.wording import counted

NO_NAME = re.compile('[,;"]|^#')
COMMENT = re.compile("#( .*)?")
BETWEEN = re.compile("[ \t]+")
# Two nodes, and after them nothing, a number, or data in braces.
EDGE = re.compile(rf"([^ \t]+)[ \t]+([^ \t]+)([ \t]+(?:{NUMBER.pattern}|\{{.*\}}))?")


def rows_in(text: str, name: str) -> tuple[list[tuple[int, str]], list[str]]:
    """(line, what it has) of the lines in which something is, and a note of the comments among them."""
    rows = [(line, row.strip(" \t")) for line, row in enumerate(text.split("\n"), 1)]
    found = [(line, row) for line, row in rows if row and not COMMENT.fullmatch(row)]
    if not found:
        raise Fault(Code.NO_ROW, InText(name))
    comments = sum(bool(COMMENT.fullmatch(row)) for _, row in rows)
    said = counted(comments, "line that begins", "lines that begin")
    return found, [f"{said} with # left out"] if comments else []


def node_of(word: str, name: str, line: int) -> str:
    """A node of a line. Its name has no mark of a table, and doesn't begin as a comment."""
    if NO_NAME.search(word):
        raise Fault(Code.NO_NAME_IN_LIST, InText(name, line), word=shown_field(word))
    return name_of(word, name, line)


def tail_of(more: str | None) -> str:
    """What a line has after its two nodes."""
    if more is None:
        return "nothing"
    return "data" if more.endswith("}") else "a number"


def edges(text: str, name: str) -> Listed:
    """What a text of edges lists: two nodes a line, and after them nothing, a number, or data in braces, as after the
    first.

    >>> edges("Ulm Hof\\nHof Aue\\n", "net.edgelist").names()
    ['Ulm', 'Hof', 'Aue']

    Raises `Fault` of the first line that isn't one of edges.
    """
    rows, notes = rows_in(text, name)
    found = Listed("edges", notes=notes)
    tails: set[str] = set()
    for line, row in rows:
        parts = EDGE.fullmatch(row)
        if not parts:
            raise Fault(Code.NO_TWO_NODES, InText(name, line), row=shown_field(row))
        one, other, more = parts.groups()
        tails.add(tail_of(more))
        if len(tails) > 1:
            raise Fault(Code.OTHER_NUMBER_OF_WORDS, InText(name, line), row=shown_field(row))
        is_heading = one.casefold() in TITLES["source"] and other.casefold() in TITLES["target"]
        if is_heading and not found.edges:
            raise Fault(Code.HEADING_IN_LIST, InText(name, line))
        found.edges.append((line, node_of(one, name, line), node_of(other, name, line)))
    if tails != {"nothing"}:
        found.notes.append("numbers or data after the nodes aren't read")
    return found


def adjacency(text: str, name: str) -> Listed:
    """What a text of neighbours lists: a node, maybe with a colon after it, and its neighbours; each node has a line of
    its own. networkx writes the words of its script after the `#` of the first line.

    >>> adjacency("Ulm: Hof\\nHof:\\n", "net.adjlist").edges
    [(1, 'Ulm', 'Hof')]

    Raises `Fault` of a second line of a node, and of a neighbour without a line.
    """
    rows, notes = rows_in(re.sub(r"\A#", "# ", text), name)
    nodes: dict[str, Where] = {}
    found = Listed("adjacency", nodes=nodes, notes=notes)
    for line, row in rows:
        first, *others = BETWEEN.split(row)
        node = node_of(first.removesuffix(":"), name, line)
        if nodes.setdefault(node, line) != line:
            raise Fault(Code.SECOND_LINE_OF_NODE, InText(name, line), node=shown_field(node))
        found.edges += [(line, node, node_of(other, name, line)) for other in others]
    for end, where in found.ends():
        if end not in nodes:
            raise Fault(Code.NODE_WITHOUT_LINE, InText(name, where), node=shown_field(end))
    return found
