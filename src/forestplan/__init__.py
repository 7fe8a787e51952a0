"""Channel plans of interference graphs in Python, by the proved programs of forestplan.

    plan = forestplan.plan(G)                                     # a dict {node: channel}; in a notebook its picture
    forestplan.plan(G, bars={"Hof": {6}}, licence=[1, 6, 11])     # channels of the licence, and none that is barred
    forestplan.plan(G, passes=8)                                  # chosen again eight times, usually fewer channels
    forestplan.check(G, {"Ulm": 1, "Hof": 2})                     # has anybody's plan judged: its greatest channel
    forestplan.sites({"Ulm": (48.4, 10)}, reach=5.5)              # the graph of sites that are near each other

G is a graph of networkx, or a dict that gives each node a list or a set of its neighbours. In such a dict each
neighbour comes once and is a key, too. A node is anything that can be a key. Directions, weights and edges from a node
to itself are ignored. Of a `Network`, as ``forestplan.networks`` makes them, ``network.neighbours`` is such a dict.
The programs that make and check plans are proved, as README says. That this package writes G right for them, and reads
their answers right, is only tested.

A wrong type raises TypeError, and a value out of its range ValueError. If a program refuses a graph or a plan, the
call raises `Refused`, which is a ValueError, too. If a program isn't built, it raises FileNotFoundError.

Below are the definitions and tools of which the commands of `forestlab` and the studio are made. Nothing of them is
proved; they need the standard library alone. Each package has its public names, which ``dir(forestplan.networks)``
lists and ``help(forestplan.networks)`` explains; ``help(forestplan.networks.ring)`` explains one of them. The other
modules are for those who read the sources.

    networks            networks: made, read in other forms, numbered, described; plans, and real channel numbers
    definitions         what a network's nodes do: the colouring and five other programs, in rounds and without a clock
    schedules           runs without a clock: by a policy, step by step, or every order of events; with rules left out
    transcripts         what a run without a clock has written down: read, judged, converted
    pictures            pictures and pages of networks, plans, rounds, runs and schedules
    workshop            students' programs as the nodes of a network: played, judged and graded
    interface           what `import forestplan` gives: the calls above
    studio              the page on which a network is drawn and everything of it moves, and its server

Make a network: of a kind with its size, of your own edges, an example, or a file. Nodes are numbers from 1.

>>> import forestplan
>>> ring = forestplan.networks.ring(5)
>>> ring.neighbours[1]
[2, 5]
>>> own = forestplan.networks.Network(3, [(1, 2), (2, 3)])
>>> petersen = forestplan.networks.network_at("petersen")

Run the rounds of each of the six programs, and ask a node what it has found. A result names a neighbour by its port,
its place among the neighbours from 0: `partner 0` of node 3 is its first neighbour.

>>> for name, program in forestplan.definitions.PROGRAMS.items():
...     nodes = forestplan.definitions.synchronous_run(ring, program)
...     print(name, "at node 3:", nodes[3].result())
colouring at node 3: channel 1
leader at node 3: leader 5
layers at node 3: layer 2 by 0
matching at node 3: partner 0
independent-set at node 3: in
recolouring at node 3: channel 2
>>> ring.neighbours[3][0]
2

Two programs have an option: layers the identifier of its root, which is 1 if none is named, and recolouring its passes.

>>> layers = forestplan.definitions.program_at("layers", root=3)
>>> forestplan.definitions.synchronous_run(ring, layers)[3].result()
'layer 0'

Play a schedule: a run without a clock, in which a policy and a seed choose what happens next. Its text is a transcript.

>>> leader = forestplan.definitions.PROGRAMS["leader"]
>>> entries = forestplan.schedules.played(ring, policy="slow-link", seed=7, program=leader)
>>> transcript = forestplan.schedules.text_of_run(ring, entries, leader)
>>> print("\\n".join(transcript.splitlines()[:2]))
transcript 3 leader 5
1 1 put 2 payload 0 leader 1

Judge a transcript: the verdict, or a fault that says what is wrong in which line.

>>> forestplan.transcripts.whole_run(ring, transcript, leader).verdict
'whole run of 5 nodes, 233 entries, 22 payloads, 104 wires'

Draw a picture of one of these kinds, and write it into a file. ``forestplan.pictures.KINDS["plan"].does`` says what one
of them shows.

>>> print(*forestplan.pictures.KINDS)
map plan results rounds bits why run film player watch schedules broken
>>> svg = forestplan.pictures.drawing("plan", ring)
>>> page = forestplan.pictures.drawing("watch", ring, transcript, program=leader)
>>> import pathlib
>>> pathlib.Path("ring.svg").write_text(svg)  # doctest: +SKIP

What all packages share:

    network             what a network is: nodes, edges, identifiers, barred channels, forests
    limits              the programs' limits: nodes, edges, neighbours, channels, workers, passes
    fault_codes         the codes of all faults
    faults              the exception `Fault`, with a code, a place and a subject
    sentences           the sentence of each code
    files               texts, read with a limit and written
    parsers             the parsers of the command lines, and options that mean one thing in all commands
    wording             numbers, lists and lines put into words
    proved_programs     calls the two proved programs
    build_hint          what to say of a program that isn't built
    progress            what is shown of a call that takes minutes
    processors          how many processors may be used
    folders             where the package is, and what belongs to it
    _python             which Python is needed
    public_names        the public names of a package
    version             which forestplan this is
    process_exit        how a command ends, whatever happens
"""
import importlib

from forestplan import _python

# First, before anything that an older Python couldn't read.
if _python.IS_TOO_OLD:
    raise ImportError("forestplan needs " + _python.NEEDED + ", and this is " + _python.FOUND)

# For checkers of types and editors alone.
TYPE_CHECKING = False
if TYPE_CHECKING:
    from forestplan.interface.answers import (
        Entry,
        Message,
        Plan,
        Pulse,
        Refused,
        Rounds,
        Transcript,
        colour_map,
    )
    from forestplan.interface.calls import check, plan, rounds, transcript
    from forestplan.interface.graphs import Sites, text_of
    from forestplan.interface.programs import home
    from forestplan.interface.sites import sites

__version__ = "0.6.0"
__all__ = [
    "Entry",
    "Message",
    "Plan",
    "Pulse",
    "Refused",
    "Rounds",
    "Sites",
    "Transcript",
    "check",
    "colour_map",
    "home",
    "plan",
    "rounds",
    "sites",
    "text_of",
    "transcript",
]
# The packages below, which a prompt finds without importing them.
PACKAGES = [
    "definitions",
    "interface",
    "networks",
    "pictures",
    "schedules",
    "studio",
    "transcripts",
    "workshop",
]
# The module of each of these names; it is imported once somebody asks for one of its names.
MODULES = {
    "forestplan.interface.answers": "Entry Message Plan Pulse Refused Rounds Transcript colour_map",
    "forestplan.interface.calls": "check plan rounds transcript",
    "forestplan.interface.graphs": "Sites text_of",
    "forestplan.interface.programs": "home",
    "forestplan.interface.sites": "sites",
}

__dir__ = [*__all__, *PACKAGES].copy


if not TYPE_CHECKING:

    def __getattr__(name: str) -> object:
        if name in PACKAGES:
            return importlib.import_module("forestplan." + name)
        if name not in __all__:
            raise AttributeError("module 'forestplan' has no attribute " + repr(name))
        from forestplan.public_names import finder

        return finder(__name__, MODULES)(name)
