"""Transcripts of runs without a clock: read, checked, put in an order that is a run.

Judge a transcript, and change it so that it is refused:

>>> from forestplan.networks import path
>>> from forestplan.schedules import played, text_of_run
>>> from forestplan.transcripts import whole_run
>>> text = text_of_run(path(2), played(path(2)))
>>> whole_run(path(2), text).verdict.partition(", ")[0]
'whole run of 2 nodes'
>>> whole_run(path(2), text.replace("hello 1", "hello 2", 1))
Traceback (most recent call last):
forestplan.transcripts.reading.WrongEntry: line 2: WrongWire: node 1 puts payload 0 hello 2 for 2, but the next one \
there is payload 0 hello 1; the rounds have payload 0 hello 1 there

A transcript of another program is judged as one of it: `whole_run(network, text, PROGRAMS["leader"])`. The modules:

    reading             the lines of a transcript: its first line and its entries, or the first fault
    fields              the fields of a line: numbers within their bounds, words of payloads
    judge               the judge: whether the entries are a whole run; an order of entries without stamps
    stamps              why an entry isn't possible, and what a run that ends early lacks; Lamport's clock
    rules               the words for a rule of the four wires that a judge names
    proved_judge        the verdict of the proved program, `forestplay replay`
    conversions         a transcript as JSON, for ShiViz, or by rounds
    transcript          the command `forestlab transcript`
"""

from typing import TYPE_CHECKING

from forestplan.public_names import finder

# For checkers of types and editors alone.
if TYPE_CHECKING:
    from forestplan.transcripts.conversions import as_rounds, as_shiviz, entries_of, json_lines
    from forestplan.transcripts.judge import JudgedRun, transcript_in_order, whole_run
    from forestplan.transcripts.reading import (
        Head,
        WrongEntry,
        entry_text,
        line_of,
        transcript_read,
    )
    from forestplan.transcripts.stamps import Clock

__all__ = [
    "Clock",
    "Head",
    "JudgedRun",
    "WrongEntry",
    "as_rounds",
    "as_shiviz",
    "entries_of",
    "entry_text",
    "json_lines",
    "line_of",
    "transcript_in_order",
    "transcript_read",
    "whole_run",
]
# The module of each of these names.
MODULES = {
    "forestplan.transcripts.conversions": "json_lines as_rounds as_shiviz entries_of",
    "forestplan.transcripts.judge": "JudgedRun transcript_in_order whole_run",
    "forestplan.transcripts.reading": "Head WrongEntry entry_text line_of transcript_read",
    "forestplan.transcripts.stamps": "Clock",
}

__dir__ = __all__.copy


if not TYPE_CHECKING:
    __getattr__ = finder(__name__, MODULES)
