"""What the page gets: a class for each answer, which becomes an object of JSON as those of
src/forestplan/pictures/page_data.py.

src/forestplan/studio/page/calls.d.ts has the same for the page's JavaScript. `python3 build page-types` writes it from
here. """
from collections.abc import Mapping, Sequence
from dataclasses import dataclass
from typing import Literal, get_args

from forestplan.network import Edge
from forestplan.pictures.page_data import Look, Net, RunFound
from forestplan.studio.session import Form

TabName = Literal["draw", "rounds", "run", "adversary", "check", "pictures"]
TABS: tuple[TabName, ...] = get_args(TabName)
# A picture of the tab Pictures.
PictureKind = Literal["plan", "results", "rounds", "bits", "why", "run"]
# How the page writes a value of an address.
Written = Literal["network", "word", "text", "number", "flag", "rules", "list", "run"]


@dataclass(frozen=True)
class KindOfNetwork:
    """What is asked for of a kind of network: its sizes, and a seed if it is made by chance."""

    sizes: Sequence[str]
    chance: bool


@dataclass(frozen=True)
class RuleSaid:
    """A rule that can be left out, in words."""

    says: str
    without: str


@dataclass(frozen=True)
class RulesSaid:
    """The rules of the synchroniser and its links, those of the links alone, and those of each program's rounds."""

    orders: Mapping[str, RuleSaid]
    links: Mapping[str, RuleSaid]
    rounds: Mapping[str, Mapping[str, RuleSaid]]


# How an exercise is judged: by an answer that is said, by what the page shows, or by the question of the tab itself.
ExerciseKind = Literal["said", "seen", "predicted"]


@dataclass(frozen=True)
class Exercise:
    """An exercise of a step: its name in the lesson, the question if it has one of its own, and answers to pick; a hint
    and the answer. One that is predicted is of a node and a pulse; a pulse of 0 stands for what the node waits for.
    """

    name: str
    kind: ExerciseKind
    asks: str
    picks: Sequence[str]
    hint: str
    answer: str
    node: int = 0
    pulse: int = 0


@dataclass(frozen=True)
class LessonStep:
    """A step of a lesson: its place in the studio, or nothing if it goes on where the one before has led to; the tab;
    one instruction, in Markdown."""

    place: str
    tab: TabName
    do: str
    exercise: Exercise | None


@dataclass(frozen=True)
class Lesson:
    """A lesson: its question, its steps, and its whole text in Markdown."""

    number: int
    title: str
    ask: str
    steps: Sequence[LessonStep]
    text: str


@dataclass(frozen=True)
class LecturePlace:
    """A place of the lecture, and what is to be said there."""

    minutes: str
    title: str
    place: str
    say: str


@dataclass(frozen=True)
class Published:
    """Of a published page: the commit from which its answers were recorded, and the sizes of the networks that it can
    make."""

    commit: str
    sizes: Sequence[int]


@dataclass(frozen=True)
class DareSaid:
    """A dare: its title in the menu, and its goal in words that go on a sentence which begins with "I dare you to"."""

    title: str
    goal: str


@dataclass(frozen=True)
class Hello:
    """What there is to choose from. `own` are the programs of one's own and the samples, each with its form, and
    `own_dares` the dares of those whose nodes react to messages."""

    proved: bool
    most: int
    opened: Net | None
    examples: Sequence[str]
    kinds: Mapping[str, KindOfNetwork]
    programs: Sequence[str]
    own: Mapping[str, Form]
    samples: Sequence[str]
    passes: int
    policies: Mapping[str, str]
    rules: RulesSaid
    lessons: Sequence[Lesson]
    lecture: Sequence[LecturePlace]
    dares: Mapping[str, DareSaid]
    own_dares: Mapping[str, DareSaid]
    address: Mapping[str, Written]
    published: Published | None = None


@dataclass(frozen=True)
class Order:
    """A policy and its seed."""

    policy: str
    seed: str


@dataclass(frozen=True, kw_only=True)
class Values:
    """What an address says, by its names (address.py)."""

    example: str | None = None
    net: str | None = None
    program: str | None = None
    tab: TabName | None = None
    passes: int | None = None
    root: int | None = None
    slow: Sequence[Edge] | None = None
    lazy: Sequence[int] | None = None
    node: int | None = None
    at: float | None = None
    forest: int | None = None
    broken: str | None = None
    predict: bool | None = None
    play: bool | None = None
    how: str | None = None
    policy: str | None = None
    seed: str | None = None
    other: Order | None = None
    beside: bool | None = None
    steps: Sequence[str] | None = None
    without: str | None = None
    dare: str | None = None
    plan: Sequence[int] | None = None
    kind: PictureKind | None = None
    lesson: int | None = None
    step: int | None = None
    lecture: int | None = None


@dataclass(frozen=True)
class FoundAddress:
    """What an address says: its network, if it has one, and its values. `unread` is what can't be read, in words."""

    network: Net | None
    values: Values
    unread: str


@dataclass(frozen=True)
class FileRead(Net):
    """A file that was read, and how."""

    said: Sequence[str]
    unsaid: None = None


@dataclass(frozen=True)
class Choice:
    """The words of a command line that state what a file is, and what they mean."""

    stated: Sequence[str]
    means: str


@dataclass(frozen=True)
class FileUnsaid:
    """What isn't stated of a file. If a table has none of the columns that are wanted, `titles` are those that it
    has."""

    unsaid: str
    choices: Sequence[Choice]
    wanted: Sequence[str]
    titles: Sequence[str]


@dataclass(frozen=True)
class DrawingFound:
    """What is written beside each node after its number, as a network has it, too."""

    labels: Sequence[str]


@dataclass(frozen=True)
class PlanFound:
    """The plan of a network, and what the network comes to."""

    plan: Sequence[int]
    allowed: int
    degree: int
    bars: int
    last: int
    forests: int


@dataclass(frozen=True)
class GoodPlan:
    """A proper plan, and the greatest of its channels."""

    said: str
    at: Sequence[int]
    greatest: int
    ok: Literal[True] = True
    code: None = None


@dataclass(frozen=True)
class BadPlan:
    """A plan that isn't proper: the nodes where it isn't, its code, what this means and what to do."""

    said: str
    at: Sequence[int]
    code: str
    sentence: str
    do: str
    ok: Literal[False] = False


@dataclass(frozen=True)
class WhyFound:
    """Why a node has its channel: in words, the nodes whose identifiers decided it, and the messages (pulse, from,
    to)."""

    lines: Sequence[str]
    identifiers: Sequence[int]
    messages: Sequence[tuple[int, int, int]]


@dataclass(frozen=True)
class Broken:
    """What goes wrong without some rules: `here`, or in the network that was found."""

    here: bool
    lines: Sequence[str]
    found: Net | None
    picture: str | None


@dataclass(frozen=True, kw_only=True)
class Judged:
    """A verdict and who gives it, of a transcript of so many entries."""

    ok: bool
    said: str
    by: str
    entries: int


@dataclass(frozen=True, kw_only=True)
class Replayed(Judged):
    """A verdict on the beginning of a run: the nodes' pulses, and how many wires are on their way."""

    pulses: Sequence[int]
    wires: int


@dataclass(frozen=True)
class JudgedText:
    """What is said of a transcript, with the line of its fault: by the definitions, and if it is built by the proved
    machine."""

    ok: bool
    said: str
    line: int | None
    by: str
    proved: Judged | None


@dataclass(frozen=True)
class RunPart(RunFound):
    """A part of a run; `cut` says that the rest isn't shown."""

    cut: bool


@dataclass(frozen=True)
class WholeRun(RunPart):
    """A run: its transcript, its verdict, how many pulses have the payloads of the rounds (of how many, of how many
    payloads), what the rounds find, its wires by their kinds, and the link or the node that its policy has chosen.
    """

    text: str
    judge: Judged
    same: tuple[int, int, int]
    results: Sequence[int | str]
    costs: Mapping[str, int]
    of: str | None


@dataclass(frozen=True)
class DareJudged:
    """Whether steps win a dare, and how far they come; and why nobody wins it, if that is proved."""

    won: bool
    said: str
    impossible: str = ""


@dataclass(frozen=True)
class Ran:
    """The function of a file that ran last, and the node whose step that was; 0 if each node has run it, at the
    start."""

    function: str
    node: int


@dataclass(frozen=True, kw_only=True)
class AnySteps:
    """Where a run is that is made by steps: those made, those that can come next, the messages of its links (from, to),
    what was done last, and what is wrong; and what has run last of a file."""

    made: Sequence[str]
    steps: Sequence[str]
    wires: Sequence[tuple[int, int, Sequence[str]]]
    said: str
    fault: str | None
    over: bool
    list: Sequence[str]
    entries: int
    ran: Ran | None = None
    dare: DareJudged | None = None


@dataclass(frozen=True, kw_only=True)
class StepsFound(AnySteps):
    """Such a run under the synchroniser: its last pulse, and its nodes."""

    last: int
    looks: Sequence[Look]
    judge: Replayed | None = None
    nodes: None = None


@dataclass(frozen=True)
class Reacted:
    """A node that reacts to messages: how often it has acted, whether it may act now, what it has found, and what it
    keeps in `me`, by name, as Python writes it."""

    acts: int
    able: bool
    found: str
    keeps: Sequence[tuple[str, str]]


@dataclass(frozen=True)
class FileSays:
    """What a function of a file says of where a run is: whether that is right, and in words what isn't."""

    ok: bool
    said: str


@dataclass(frozen=True, kw_only=True)
class ReactionsFound(AnySteps):
    """Such a run of nodes that react to messages. `always` is what the file says of the state that is there now, and
    `right` of the end, if it is there; each is None if the file doesn't say it. `dares` are those that its functions
    make sense of."""

    nodes: Sequence[Reacted]
    ended: bool
    always: FileSays | None
    right: FileSays | None
    dares: Sequence[str]


@dataclass(frozen=True)
class FileText:
    """The text of a program of one's own, as its file is now: `lines` has of each function the first and the last one,
    from 1. A page that has this version already gets nothing but the version, and of a file with a fault its fault.
    """

    version: str
    text: str | None = None
    lines: Mapping[str, tuple[int, int]] | None = None
    fault: str | None = None


@dataclass(frozen=True)
class Predicted:
    """Whether a student was right, what the definitions find, and why."""

    right: bool
    found: str
    why: str


@dataclass(frozen=True)
class ExerciseJudged:
    """Whether an exercise is done, and how far it is."""

    done: bool
    said: str


@dataclass(frozen=True)
class Build:
    """How far the build is, in its own words; `quiet` is for how many seconds it has said nothing."""

    proved: bool
    lines: Sequence[str]
    ended: bool
    quiet: float | None = None
