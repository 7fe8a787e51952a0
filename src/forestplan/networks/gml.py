"""The nodes and edges of GML, counted beside what networkx makes of it. Each letter is looked at once, so the time
grows with the text and no faster."""
import re
from collections.abc import Iterator
from dataclasses import dataclass, field
from typing import NamedTuple

from forestplan.fault_codes import Code
from forestplan.faults import Fault, InText
from forestplan.networks.cross_check import Declared
from forestplan.networks.fields import shown_field

# What is passed over; a text; a bracket, or a quotation mark that opens a text without an end; a key or a number.
TOKEN = re.compile(
    r"(?P<between>\s+|#[^\n]*)|(?P<text>\"[^\"]*\")|(?P<mark>[\[\]\"])|(?P<word>[^\s\"\[\]#]+)"
)
# What may come after a text.
AFTER_TEXT = " \t\r\n]"


class Token(NamedTuple):
    """A key, a value or a bracket, its line, and where it ends in the text."""

    word: str
    line: int
    end: int


@dataclass
class GmlList:
    """A list: its key, the line in which it begins, and the value of each key that it has itself."""

    key: str
    line: int
    has: dict[str, str] = field(default_factory=dict)


def tokens_of(text: str, path: str) -> Iterator[Token]:
    """The tokens of a text; a text within it that has no end, or goes on after its end, is refused."""
    line = 1
    for found in TOKEN.finditer(text):
        word = found[0]
        kind = found.lastgroup
        end = found.end()
        if word == '"':
            raise Fault(Code.OPEN_QUOTATION, InText(path, line))
        if kind == "text" and text[end : end + 1] not in AFTER_TEXT:
            raise Fault(Code.QUOTATION_IN_TEXT, InText(path, line))
        if kind != "between":
            yield Token(word, line, end)
        line += word.count("\n")


class Reader:
    """What the tokens so far say: the lists that aren't closed yet, and the key whose value comes next."""

    def __init__(self, path: str) -> None:
        self.declared = Declared(path)
        self.lists = [GmlList("", 1)]
        self.key = ""

    def take(self, token: Token) -> None:
        """The next token."""
        if token.word == "]":
            self.close(token)
        elif not self.key:
            if token.word[0] in '["':
                raise self.fault(token, Code.NO_KEY_OF_GML)
            self.key = token.word
        elif token.word == "[":
            self.begin(token)
        else:
            self.keep(token)

    def begin(self, token: Token) -> None:
        """A list begins. What a graph has doesn't matter, and one within it comes after it."""
        self.lists.append(GmlList(self.key, token.line))
        if self.key == "graph":
            self.declared.declare(self.key, token.line, {})
        self.key = ""

    def keep(self, token: Token) -> None:
        """The value of a key."""
        top = self.lists[-1]
        if top.key == "node" and self.key in ("label", "name") and self.key in top.has:
            raise self.declared.fault(token.line, Code.SECOND_NAME_OF_NODE)
        top.has[self.key] = token.word
        self.key = ""

    def close(self, token: Token) -> None:
        """A list ends, and what it has is known."""
        if self.key or len(self.lists) == 1:
            code = Code.NO_VALUE_OF_GML if self.key else Code.NO_LIST_OF_GML
            raise self.fault(token, code)
        done = self.lists.pop()
        if done.key != "graph":
            self.declared.declare(done.key, done.line, done.has)

    def fault(self, token: Token, code: Code) -> Fault:
        return self.declared.fault(token.line, code, word=shown_field(token.word))

    def end(self) -> Declared:
        """What the whole text declares."""
        if self.key or len(self.lists) > 1:
            last = self.lists[-1]
            raise self.declared.fault(
                last.line, Code.GML_WITHOUT_END, word=shown_field(self.key or last.key)
            )
        return self.declared.checked()


def in_gml(data: bytes, path: str) -> Declared:
    """The nodes and edges that a text in GML declares, with their lines.

    >>> in_gml(b"graph [\\n node [ id 1 ]\\n]\\n", "net.gml").nodes
    {'1': 2}

    Raises `Fault` of what is no GML, and of an end of an edge that isn't declared.
    """
    reader = Reader(path)
    for token in tokens_of(data.decode(), path):
        reader.take(token)
    return reader.end()


def with_multigraph(text: str) -> str:
    """The text with the word `multigraph` in its graph: without it networkx refuses a second edge of the same ends.

    >>> with_multigraph("graph [ node [ id 1 ] ]")
    'graph [ multigraph 1  node [ id 1 ] ]'
    """
    depth = 0
    before = ""
    for token in tokens_of(text, ""):
        if (depth, before, token.word) == (0, "graph", "["):
            return f"{text[:token.end]} multigraph 1 {text[token.end:]}"
        depth += (token.word == "[") - (token.word == "]")
        before = token.word
    return text
