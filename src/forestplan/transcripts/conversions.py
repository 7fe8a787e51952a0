"""A transcript with stamps, edition 2, 3 or 4, in the forms of other tools."""
import json
from collections import deque
from collections.abc import Iterator
from dataclasses import replace

from forestplan.definitions.events import ACT, PULSE, PUT, TAKE, Entry, Message
from forestplan.fault_codes import Code
from forestplan.faults import Fault
from forestplan.transcripts.fields import NoEntry, first_line, wire_of
from forestplan.transcripts.reading import Head, WrongEntry, line_of, transcript_read

Made = list[tuple[Entry, Entry | None]]
# A vector clock has an entry for each node that it has heard of, so all of them grow with the square of a long run.
MOST_CLOCKS = 5_000_000


def entries_of(text: str | bytes) -> tuple[Head, Made]:
    """The first line of a transcript's `text`, which has stamps; and (entry, the entry of its put if it is a take), in
    the order of the text. `json_lines`, `as_shiviz` and `as_rounds` write them in other forms.

    >>> head, entries = entries_of("transcript 2 2\\n1 1 put 2 close\\n2 2 take 1 close\\n")
    >>> head.nodes, [put.line if put else None for entry, put in entries]
    (2, [None, 2])

    Raises `WrongEntry` of the first line that is wrong, of a transcript without stamps, and of a take of a message that
    hasn't been put.
    """
    head, entries = transcript_read(text, None)
    if not head.is_stamped:
        raise WrongEntry(head.line, Code.NO_ORDER_OF_ENTRIES)
    links: dict[tuple[int | None, int | None], deque[Entry]] = {}
    found = []
    for entry in entries:
        put = None
        if entry.kind is PUT:
            links.setdefault((entry.node, entry.neighbour), deque()).append(entry)
        elif entry.kind is TAKE:
            link = links.get((entry.neighbour, entry.node))
            if not link:
                names = {"node": entry.node, "neighbour": entry.neighbour}
                raise WrongEntry(entry.line, Code.TAKEN_BEFORE_PUT, **names)
            put = link.popleft()
        found.append((entry, put))
    return head, found


def json_lines(head: Head, entries: Made) -> Iterator[str]:
    """The lines of a transcript as JSON, an object in each: the first line has what its `head` says, and each of the
    `entries` follows, as `entries_of` returns them.

    >>> list(json_lines(*entries_of("transcript 2 1\\n1 1 pulse 1\\n")))[1]
    '{"line": 2, "stamp": 1, "node": 1, "kind": "pulse", "pulse": 1}'
    """
    named = {"program": head.program} if head.program else {}
    yield json.dumps({"edition": head.edition, "nodes": head.nodes} | named)
    for entry, put in entries:
        row: dict[str, object] = {
            "line": entry.line,
            "stamp": entry.stamp,
            "node": entry.node,
            "kind": entry.kind.value,
        }
        match entry.what:
            case Message(word, fields) if head.own is ACT:
                row |= {"neighbour": entry.neighbour, "message": word, "fields": list(fields)}
            case Message(word, fields):
                row |= {"neighbour": entry.neighbour, "wire": word}
                row |= dict(zip(("pulse", "word", "number"), fields))
            case step:
                row[entry.kind.value] = step
        if put:
            row["put"] = put.line
        yield json.dumps(row)


def as_shiviz(head: Head, entries: Made) -> Iterator[str]:
    """The lines of a transcript for ShiViz, of its `entries`, as `entries_of` returns them: two lines an entry, the
    node with its vector clock, and what it did. Nothing of its `head` is in them.

    >>> list(as_shiviz(*entries_of("transcript 2 1\\n1 1 pulse 1\\n")))
    ['node1 {"node1": 1}', 'pulse 1']

    Raises `Fault` if the clocks grow too large.
    """
    clocks: dict[int, dict[int, int]] = {}
    carried: dict[int | None, dict[int, int]] = {}
    written = 0
    for entry, put in entries:
        own = clocks.setdefault(entry.node, {})
        own[entry.node] = own.get(entry.node, 0) + 1
        if put:
            for v, count in carried.pop(put.line).items():
                own[v] = max(own.get(v, 0), count)
        if entry.kind is PUT:
            carried[entry.line] = dict(own)
        written += len(own)
        if written > MOST_CLOCKS:
            raise Fault(Code.TOO_MANY_CLOCKS, most=MOST_CLOCKS)
        yield f"node{entry.node} " + json.dumps(
            {f"node{v}": count for v, count in sorted(own.items())}
        )
        if entry.neighbour is None:
            yield f"{entry.kind.value} {entry.what}"
        else:
            way = "to" if entry.kind is PUT else "from"
            yield f"{entry.kind.value} {entry.what} {way} {entry.neighbour}"


FORMS = {"json": json_lines, "shiviz": as_shiviz}


def as_rounds(head: Head, entries: Made, program: str) -> Iterator[str]:
    """A run of nodes that react as the synchroniser does, edition 4, as a run of the rounds of the `program` of this
    name: its acts are pulses, and its messages have to be wires of that program. `head` and `entries` are as
    `entries_of` returns them; what is returned are the lines of a transcript.

    >>> own = "transcript 4 alpha 1\\n1 1 act 1\\n"
    >>> list(as_rounds(*entries_of(own), "leader"))
    ['transcript 3 leader 1', '1 1 pulse 1']

    Raises `WrongEntry` of another edition, and of a message that is no wire.
    """
    if head.own is not ACT:
        raise WrongEntry(head.line, Code.HAS_PULSES, edition=head.edition)
    yield first_line(head.nodes, program)
    for entry, _ in entries:
        if isinstance(entry.what, Message):
            try:
                wire_of(program, *str(entry.what).encode().split())
            except NoEntry as why:
                raise WrongEntry(entry.line, Code.NO_WIRE_OF_SYNCHRONISER, why=why) from None
        own = replace(entry, kind=PULSE) if entry.kind is ACT else entry
        yield f"{entry.stamp} {line_of(own)}"
