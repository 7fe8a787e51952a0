"""The slow definitions, written from the pages in docs/claim, to be read and to be compared with.

A node is a number from 1. Its ports are numbers from 0, in the order of its neighbours' numbers. Pulses, forests and
colours are numbers from 0, and channels from 1.

Run the rounds of a program, and ask its nodes what they have found. `PROGRAMS` has the six programs: colouring, leader,
layers, matching, independent-set and recolouring.

>>> from forestplan.definitions import PROGRAMS, program_at, synchronous_run
>>> from forestplan.networks import path
>>> {v: node.result() for v, node in synchronous_run(path(3), PROGRAMS["leader"]).items()}
{1: 'leader 3', 2: 'leader 3', 3: 'leader 3'}
>>> {v: node.result() for v, node in synchronous_run(path(3), program_at("layers", root=3)).items()}
{1: 'layer 2 by 0', 2: 'layer 1 by 1', 3: 'layer 0'}

The modules:

    colours             the colouring as lists over all nodes: forests, bit step, shift, drop, merge; the plan's text
    program             what a program is: what each node runs, its payloads, its last pulse; the synchronous run
    programs            the programs by their names, and those of a file: `PROGRAMS`, `program_at`
    nodes               a node of the colouring; a node under synchroniser alpha, and which wire it may take when
    rounds              the rounds of the colouring, pulse by pulse, and their text
    leader              a node that elects a leader by flooding
    layers              a node that finds its distance from a root
    sequel              what the next three share: they go on where the colouring ends
    matching            a node that finds a partner: a maximal matching
    independent_set     a node that is in or out: a maximal independent set
    recolouring         a node that chooses its channel again
    events              messages, events without a clock, and entries of a transcript
    machine             the event machine: which event is possible, and what it changes
    own_program         a program of one's own by rounds, from a Python file; its limits
    reacting_program    a program of one's own whose nodes react to messages, without rounds
    file_variables      what such a file keeps outside of `me`
    values              values as keys that are equal exactly for equal values
"""

from typing import TYPE_CHECKING

from forestplan.public_names import finder

# For checkers of types and editors alone.
if TYPE_CHECKING:
    from forestplan.definitions.colours import plan_text
    from forestplan.definitions.events import Entry, Event, Kind, Message, ack, safe
    from forestplan.definitions.machine import NetState
    from forestplan.definitions.nodes import alpha_start, last_pulse
    from forestplan.definitions.program import (
        Payload,
        Program,
        RoundsNode,
        synchronous_pulses,
        synchronous_run,
    )
    from forestplan.definitions.programs import PROGRAMS, program_at
    from forestplan.definitions.rounds import ColouringRounds, rounds_text

__all__ = [
    "ColouringRounds",
    "Entry",
    "Event",
    "Kind",
    "Message",
    "NetState",
    "PROGRAMS",
    "Payload",
    "Program",
    "RoundsNode",
    "ack",
    "alpha_start",
    "last_pulse",
    "plan_text",
    "program_at",
    "rounds_text",
    "safe",
    "synchronous_pulses",
    "synchronous_run",
]
# The module of each of these names.
MODULES = {
    "forestplan.definitions.colours": "plan_text",
    "forestplan.definitions.events": "Entry Event Kind Message ack safe",
    "forestplan.definitions.machine": "NetState",
    "forestplan.definitions.nodes": "alpha_start last_pulse",
    "forestplan.definitions.program": "Payload Program RoundsNode synchronous_pulses synchronous_run",
    "forestplan.definitions.programs": "PROGRAMS program_at",
    "forestplan.definitions.rounds": "ColouringRounds rounds_text",
}

__dir__ = __all__.copy


if not TYPE_CHECKING:
    __getattr__ = finder(__name__, MODULES)
