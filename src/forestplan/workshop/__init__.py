"""The workshop: students' programs as the nodes of a network, judged by the proved programs. The modules:

    workshop        the command `forestlab workshop`: plays the runs, reports them, keeps a case
    options         its command line
    cases           the runs of an assignment: network, identifiers, bars and policy of each, by seed
    player          plays cases one after the other, and then smaller ones in which the same is wrong
    clock_run       a run with a clock, judged pulse by pulse; a free run, of which only the plan is judged
    alpha_run       a run without a clock, whose transcript the proved program judges
    alpha_verdict   the verdict on it in words
    right_rounds    the right rounds, which the proved programs write
    reasons         why a node has to do something in a pulse
    findings        what is found: a run that isn't right, or a program that doesn't answer
    report          what is printed: a table, a league, the case that isn't right
    protocol        what the workshop and a node say to each other
    nodes           the nodes of a network as programs
    processes       one student's program as a process
    guard           what a program may use: its limits, and as whom it runs
    memory          how much memory programs take
    leftovers       the processes that a run leaves behind
    grade           grades submissions: the table, the object, the texts for students
    submissions     what is submitted, and the points
    parts           plays the parts of submissions, several at a time
    sandbox         the container in which a submission is graded
    visible_files   which files it sees
    calls           which calls of the system it may make
    compiling       compiles a source in Java
    class_files     the folder of a class: what students may see

What a node hears first, and what it may answer:

>>> from forestplan.network import Network
>>> from forestplan.workshop.protocol import forms_of, own_data
>>> own_data(Network(2, [(1, 2)]), 1, "open", {})[:3]
['workshop 1 open', 'identifier 1', 'degree 1']
>>> forms_of("alpha", "leader")
['put PORT WIRE', 'pulse P', 'leader IDENTIFIER']
"""

from typing import TYPE_CHECKING

from forestplan.public_names import finder

# For checkers of types and editors alone.
if TYPE_CHECKING:
    from forestplan.workshop.cases import Case, cases_of
    from forestplan.workshop.findings import Finding
    from forestplan.workshop.options import parsed
    from forestplan.workshop.player import CasePlayer
    from forestplan.workshop.protocol import forms_of, own_data

__all__ = ["Case", "Finding", "CasePlayer", "cases_of", "forms_of", "own_data", "parsed"]
# The module of each of these names.
MODULES = {
    "forestplan.workshop.cases": "Case cases_of",
    "forestplan.workshop.findings": "Finding",
    "forestplan.workshop.options": "parsed",
    "forestplan.workshop.player": "CasePlayer",
    "forestplan.workshop.protocol": "forms_of own_data",
}

__dir__ = __all__.copy


if not TYPE_CHECKING:
    __getattr__ = finder(__name__, MODULES)
