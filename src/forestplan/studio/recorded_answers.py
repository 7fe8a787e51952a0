"""What a published page has in place of a server: the answers that recording.py has kept, as objects of JSON. In a text
`STEPS` and `MOST` stand for what is known only when it is said: how many steps there were, how far two nodes were
apart, and what a student has said.

src/forestplan/studio/page/calls.d.ts has the same for the page's JavaScript, which looks them up (page/recorded.js)."""
from collections.abc import Mapping, Sequence
from dataclasses import dataclass, field

from forestplan.pictures.page_data import Look
from forestplan.studio.answers import (
    BadPlan,
    DareJudged,
    ExerciseJudged,
    FileSays,
    GoodPlan,
    Reacted,
)

# Letters that no text has.
STEPS = "\ue000"
MOST = "\ue001"
SAID = "\ue002"


@dataclass(frozen=True)
class Explained:
    """What a node has, or waits for, and why: an answer to a question is right if it says the same."""

    found: str
    why: str


@dataclass(frozen=True)
class LocalRow:
    """What a step leads to: the number of the node's state, or none if its program refuses the step; what it puts, each
    a neighbour and a wire; and what is wrong, or nothing."""

    to: int | None = None
    puts: Sequence[tuple[int, str]] | None = None
    fault: str | None = None


@dataclass(frozen=True)
class OneState:
    """A state of a node: the number of its look, and of what it waits for, if it runs under the synchroniser; its own
    next step, if it can make it; what the wires lead to that come to it, by their numbers; and those that change
    nothing."""

    look: int
    waits: int
    own: LocalRow | None
    takes: Mapping[int, LocalRow]
    same: Sequence[int]


@dataclass(frozen=True)
class OneNode:
    """A node: its neighbours, what it puts at the start, the wires that ever come to it, each with the neighbour, and
    its states, the first one at the start."""

    near: Sequence[int]
    puts: Sequence[tuple[int, str]]
    wires: Sequence[tuple[int, str]]
    states: Sequence[OneState]


@dataclass(frozen=True)
class DareGoal:
    """How a dare is judged: by how far the nodes of some pairs are apart, and how far they have to be; by what is
    wrong; or by what the nodes have found at the end."""

    pairs: Sequence[tuple[int, int]]
    least: int
    said: str
    impossible: str


@dataclass(frozen=True)
class AllRuns:
    """All runs of a network without some rules, made step by step: `over` is what is said when a run has ended, and
    `ends` how the dare of the results stands: not halted, halted with the results of the rounds, or with others.
    """

    last: int
    overtakes: bool
    nodes: Sequence[OneNode]
    looks: Sequence[Look]
    waits: Sequence[Explained]
    over: Explained
    dares: Mapping[str, DareGoal]
    results: Sequence[int | str]
    ends: tuple[DareJudged, DareJudged, DareJudged]


@dataclass(frozen=True)
class EndSaid:
    """An end with some results: what the file's `right` says of it, if the file has that, and how the dares stand that
    are about an end."""

    right: FileSays | None
    dares: Mapping[str, DareJudged]


@dataclass(frozen=True)
class AllReactions:
    """All runs of a network whose nodes react to messages: `always` is what the file's `always` refuses, and `ends` are
    the ends, by the results of the nodes with a line for each. `refused` and `kept` are said of the dare of `always`,
    and `fault` of a state that it refuses; `no_end` is how the other dares stand where something can still happen.
    """

    overtakes: bool
    nodes: Sequence[OneNode]
    looks: Sequence[Reacted]
    always: Mapping[str, str] | None
    ends: Mapping[str, EndSaid]
    dares: Sequence[str]
    kept: str
    refused: str
    fault: str
    no_end: DareJudged


@dataclass(frozen=True)
class AllVerdicts:
    """The verdicts on all plans of a network, by what each is about: for each node those on its channels, and on any
    greater channel; on a node without a channel; on two neighbours alike; and on a proper plan by its greatest channel.
    """

    of: Sequence[Mapping[int, BadPlan]]
    above: Sequence[BadPlan]
    most: int
    blank: Sequence[BadPlan]
    alike: Sequence[tuple[int, int, BadPlan]]
    good: Sequence[GoodPlan]


@dataclass(frozen=True)
class GuessJudged:
    """An exercise that is answered: the right answer in small letters, and what is said of it, of any other answer, and
    of none."""

    right: str
    done: ExerciseJudged
    other: ExerciseJudged
    none: ExerciseJudged


@dataclass(frozen=True)
class StepsJudged:
    """An exercise on a run that is made step by step: a dare, with how many steps are enough, if any may be too many,
    and what is said then; or a first pulse, and what is said before and after it."""

    dare: str
    enough: int | None
    more: str
    before: ExerciseJudged | None
    after: ExerciseJudged | None


@dataclass(frozen=True)
class ReactionsJudged:
    """An exercise on a run of nodes that react to messages: the results that some nodes have to have, and what is said
    of each that has another one; what is said if it has to be an end, and is none; and what is said when it is done.
    Or, without results, that `always` has to refuse the state: what is said as long as it doesn't.
    """

    results: Mapping[int, str]
    lacks: Mapping[int, str]
    unfinished: str
    done: str
    kept: str


@dataclass(frozen=True)
class PlanJudged:
    """An exercise on a typed plan: what is said of a proper one with so many channels, and of so many nodes without
    one."""

    proper: Sequence[str]
    blank: Sequence[str]


@dataclass(frozen=True)
class Kept:
    """The answer of a call, or what is wrong."""

    answer: object = None
    wrong: str | None = None


@dataclass
class Piece:
    """The answers that are first needed at one lesson, or elsewhere: `answers` has for each call the number of its
    answer in `values`."""

    answers: dict[str, int] = field(default_factory=dict)
    values: list[Kept] = field(default_factory=list)
    runs: dict[str, AllRuns] = field(default_factory=dict)
    reactions: dict[str, AllReactions] = field(default_factory=dict)
    verdicts: dict[str, AllVerdicts] = field(default_factory=dict)
    questions: dict[str, Explained] = field(default_factory=dict)
    guesses: dict[str, GuessJudged] = field(default_factory=dict)
    steps: dict[str, StepsJudged] = field(default_factory=dict)
    reacted: dict[str, ReactionsJudged] = field(default_factory=dict)
    plans: dict[str, PlanJudged] = field(default_factory=dict)
