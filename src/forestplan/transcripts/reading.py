"""The reading of transcripts of all editions. It is written from the pages in docs/ alone."""
import contextlib
from typing import NamedTuple

from forestplan.definitions.events import ACT, PULSE, PUT, TAKE, Entry, Kind
from forestplan.fault_codes import Code
from forestplan.faults import Fault, InText
from forestplan.transcripts.fields import (
    COLOURING,
    NoEntry,
    fields_in_bytes,
    name_in_texts,
    number_in_field,
    field_words,
    message_of,
    wire_of,
)

# What begins the lines of a network.
NETWORK = (b"p", b"c", b"e", b"i", b"b")
# The kinds of the entries that name a wire.
OF_WIRES = {b"put": PUT, b"take": TAKE}
# The words of a node's own steps.
OF_OWN_STEPS = {PULSE: b"pulse", ACT: b"act"}


class Head(NamedTuple):
    """The first line of a transcript: in which `line` it is, and what it says: its `edition`, 1 to 4, how many `nodes`
    there are, and the name of the `program` that editions 3 and 4 have.

    >>> Head(line=1, edition=3, nodes=5, program="leader").own.value
    'pulse'
    """

    line: int
    edition: int
    nodes: int
    program: str | None = None

    @property
    def is_stamped(self) -> bool:
        """Whether each entry has a stamp."""
        return self.edition > 1

    @property
    def own(self) -> Kind:
        """The kind of the nodes' own steps: nodes without rounds act."""
        return ACT if self.edition == 4 else PULSE


class WrongEntry(Fault):
    """Why a text isn't the transcript of a whole run that is right: its `line`, if it is one line's fault, and the
    `word` of docs/claim/FORMATS.md for it.

    >>> try:
    ...     transcript_read("transcript 2 2\\n1 1 putt 2\\n")
    ... except WrongEntry as wrong:
    ...     print(wrong.line, wrong.word)
    2 X1
    """

    def __init__(self, line: int | None, code: Code, **subject: object) -> None:
        super().__init__(code, None if line is None else InText("", line), **subject)
        self.line = line

    # Only what is refused pays for what the imports take.

    @property
    def word(self) -> str:
        """What is wrong, in a word, as the proved machine has it."""
        from forestplan.sentences import WORDS

        return WORDS[self.code]

    def sentence(self) -> str:
        """What is wrong, without its line and its word."""
        from forestplan.sentences import sentence_of

        return sentence_of(self.code, "", self.subject)

    def __str__(self) -> str:
        from forestplan.sentences import sentence_of_entry

        return sentence_of_entry(
            self.code, "" if self.place is None else str(self.place), self.subject
        )


def entry_of(line: int, fields: list[bytes], program: str, head: Head) -> Entry:
    """The entry of a line's fields, of which the first is its stamp if the text is stamped."""
    stamp = None
    own = fields
    own_kind = head.own
    if head.is_stamped:
        stamp = number_in_field(fields[0], "stamp", 2**64)
        own = fields[1:]
    match own:
        case [node, step, count] if step == OF_OWN_STEPS[own_kind]:
            v = number_in_field(node, "node")
            return Entry(line, v, own_kind, None, number_in_field(count, own_kind.value), stamp)
        case [node, b"put" | b"take" as kind, neighbour, *of_wire] if of_wire:
            v, w = number_in_field(node, "node"), number_in_field(neighbour, "neighbour")
            wire = message_of(*of_wire) if own_kind is ACT else wire_of(program, *of_wire)
            return Entry(line, v, OF_WIRES[kind], w, wire, stamp)
    code = Code.NO_ENTRY_AFTER_STAMP if head.is_stamped else Code.NO_KIND_OF_ENTRY
    step_words, what = ("act K", "MESSAGE") if own_kind is ACT else ("pulse P", "WIRE")
    raise NoEntry(code, words=field_words(b" ".join(own)), step=step_words, what=what)


def transcript_read(text: str | bytes, program: str | None = COLOURING) -> tuple[Head, list[Entry]]:
    """The first line of a transcript's `text`, and its entries in their order, with the payloads of the `program` of
    this name; with None, of the program that the text names, or of the colouring. No network is asked whether they are
    possible: `whole_run` judges that.

    >>> head, entries = transcript_read("transcript 2 2\\n1 1 put 2 payload 0 hello 1\\n")
    >>> head.edition, head.nodes, str(entries[0].what)
    (2, 2, 'payload 0 hello 1')

    Raises `WrongEntry` of the first line that is wrong.
    """
    head, entries, fault = read_to_fault(text, program)
    if fault:
        raise fault
    return head, entries


def bytes_of(text: str | bytes) -> bytes:
    """A text as a file has it."""
    return text.encode() if isinstance(text, str) else text


def read_to_fault(
    text: str | bytes, program: str | None = COLOURING
) -> tuple[Head, list[Entry], WrongEntry | None]:
    """The first line, the entries before the first line that isn't one, and that line's fault, or None."""
    lines = bytes_of(text).split(b"\n")
    entries = []
    head = head_in_lines(lines, program)
    program = program or head.program or COLOURING
    for line, raw in enumerate(lines[head.line :], head.line + 1):
        try:
            if fields := fields_in_bytes(raw):
                entries.append(entry_of(line, fields, program, head))
        except NoEntry as why:
            code = Code.NO_ENTRY_AT_END if line == len(lines) else Code.NO_ENTRY
            return head, entries, WrongEntry(line, code, why=why)
    return head, entries, None


def head_in_lines(lines: list[bytes], program: str | None) -> Head:
    """The first line that has a field; that it names another program than the one asked for is its first fault."""
    line, fields = first_with_fields(lines)
    named = ""
    if fields[:2] in ([b"transcript", b"3"], [b"transcript", b"4"]) and fields[2:]:
        named = fields[2].decode("latin-1")
    is_name = name_in_texts(named) == named and named != ""
    if is_name and program is not None and named != name_in_texts(program):
        raise WrongEntry(line, Code.WRONG_PROGRAM, named=named, program=program)
    with contextlib.suppress(NoEntry):
        match fields:
            case [b"transcript", b"1" | b"2" as edition, nodes]:
                return Head(line, int(edition), number_in_field(nodes, "node"))
            case [b"transcript", b"3" | b"4" as edition, _, nodes] if is_name:
                return Head(line, int(edition), number_in_field(nodes, "node"), named)
    raise WrongEntry(line, code_of_head(fields[0]))


def first_with_fields(lines: list[bytes]) -> tuple[int, list[bytes]]:
    """The first line that has a field, by its number, and its fields; line 1 if there is none."""
    for line, fields in enumerate(map(fields_in_bytes, lines), 1):
        if fields:
            return line, fields
    return 1, [b""]


def code_of_head(field: bytes) -> Code:
    """What is wrong with a text that begins with this field, which begins no transcript."""
    if field in NETWORK:
        return Code.NETWORK_AND_NO_TRANSCRIPT
    is_text = field.isascii() and b"\0" not in field
    return Code.NO_TRANSCRIPT if is_text else Code.NO_TRANSCRIPT_IN_ENCODING


def line_of(entry: Entry) -> str:
    """An `entry` as a transcript has it, without its stamp.

    >>> line_of(Entry(line=2, node=1, kind=PULSE, neighbour=None, what=3))
    '1 pulse 3'
    """
    if entry.neighbour is None:
        return f"{entry.node} {entry.kind.value} {entry.what}"
    return f"{entry.node} {entry.kind.value} {entry.neighbour} {entry.what}"


def entry_text(entry: Entry) -> str:
    """An `entry` in words.

    >>> entry_text(Entry(line=2, node=1, kind=PULSE, neighbour=None, what=3))
    'node 1 makes pulse 3'
    """
    if entry.neighbour is None:
        return f"node {entry.node} makes {entry.kind.value} {entry.what}"
    way = "for" if entry.kind is PUT else "from"
    return f"node {entry.node} {entry.kind.value}s {entry.what} {way} {entry.neighbour}"
