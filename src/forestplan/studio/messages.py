"""What the page asks: a class for each call, whose fields are those of the call. `fields.parsed_call` makes one of what
the page has sent, and calls.py says what answers it.

src/forestplan/studio/page/calls.d.ts has the same for the page's JavaScript. `python3 build page-types` writes it from
here. """
from dataclasses import dataclass
from typing import Annotated

from forestplan import processors
from forestplan.definitions.nodes import COLOURING
from forestplan.network import Edge
from forestplan.networks.kinds import KINDS
from forestplan.schedules.policies import POLICIES
from forestplan.studio.answers import PictureKind
from forestplan.studio.dares import DARES
from forestplan.studio.fields import value_among, word, words_by_name
from forestplan.studio.own_dares import OWN_DARES

# A text or a number, as the field of a form has it.
Word = Annotated[str, word]


@dataclass(frozen=True, kw_only=True)
class OfNetwork:
    """What is asked of a network: its text in the DIMACS format."""

    network: str
    name: str | None = None


@dataclass(frozen=True, kw_only=True)
class OfProgram(OfNetwork):
    """What is asked of a network whose nodes run a program; an option may follow its name, as `layers root 3`."""

    program: str = COLOURING.name


@dataclass(frozen=True, kw_only=True)
class Held:
    """The links and the nodes that wait."""

    slow: tuple[Edge, ...] = ()
    lazy: tuple[int, ...] = ()


@dataclass(frozen=True, kw_only=True)
class AfterSteps:
    """The steps that come first, with `_` between them."""

    steps: str = ""


@dataclass(frozen=True, kw_only=True)
class WithoutRules:
    """The rules that are left out, with commas between them."""

    without: str = ""


@dataclass(frozen=True, kw_only=True)
class Seeded:
    seed: Word = "1"


@dataclass(frozen=True, kw_only=True)
class HelloCall:
    """Asks what there is to choose from."""


@dataclass(frozen=True, kw_only=True)
class AddressCall:
    """Asks what an address says, after its `#`; `nodes` and `edges` are those that the page has."""

    place: str
    nodes: int = 0
    edges: tuple[Edge, ...] = ()


@dataclass(frozen=True, kw_only=True)
class ExampleCall:
    name: str


@dataclass(frozen=True, kw_only=True)
class ReadCall:
    """Asks for the network of a file; `stated` are the words of a command line that say what it is."""

    name: str
    data: bytes
    stated: tuple[str, ...] = ()


@dataclass(frozen=True, kw_only=True)
class MakeCall:
    kind: Annotated[str, value_among(KINDS)]
    sizes: Annotated[dict[str, str], words_by_name]
    seed: Word = ""


@dataclass(frozen=True, kw_only=True)
class TidyCall(OfNetwork):
    """Asks for the same network, laid out by its edges."""


@dataclass(frozen=True, kw_only=True)
class DrawingCall(OfNetwork):
    """Asks what is written beside the nodes of a network, after a change."""


@dataclass(frozen=True, kw_only=True)
class PlanCall(OfNetwork):
    """Asks for the plan of a network."""


@dataclass(frozen=True, kw_only=True)
class CheckCall(OfNetwork):
    """Asks for the verdict on a plan, which has the channel of each node; 0 is none."""

    plan: tuple[int, ...]


@dataclass(frozen=True, kw_only=True)
class RoundsCall(OfProgram):
    """Asks for the rounds."""


@dataclass(frozen=True, kw_only=True)
class RoundsPageCall(OfProgram):
    """Asks for a page that plays the rounds and needs no server."""


@dataclass(frozen=True, kw_only=True)
class WhyCall(OfNetwork):
    """Asks why a node has its channel."""

    node: int


@dataclass(frozen=True, kw_only=True)
class BrokenCall(WithoutRules, OfProgram):
    """Asks what goes wrong in the rounds without some rules."""


@dataclass(frozen=True, kw_only=True)
class PictureCall(AfterSteps, OfProgram):
    """Asks for a picture; `pulses` are the first and the last one of a run that are drawn, or none. The run of nodes
    without rounds is that of some steps."""

    kind: PictureKind
    node: int | None = None
    forest: int | None = None
    transcript: str | None = None
    pulses: tuple[int, ...] = ()


@dataclass(frozen=True, kw_only=True)
class RunCall(Seeded, AfterSteps, Held, OfProgram):
    """Asks for a run: of a transcript, by threads, or by a seed, which has a policy."""

    how: Annotated[str, value_among(("seed", "threads"))] = "seed"
    policy: Annotated[str, value_among(POLICIES)] | None = None
    workers: int = processors.DEFAULT_WORKERS
    capacity: int = 4
    transcript: str | None = None


@dataclass(frozen=True, kw_only=True)
class OfTranscript(OfProgram):
    """What is asked of a transcript."""

    transcript: str


@dataclass(frozen=True, kw_only=True)
class RunPageCall(OfTranscript):
    """Asks for a page that plays a run and needs no server."""


@dataclass(frozen=True, kw_only=True)
class ReplayCall(OfTranscript):
    """Asks what the judge says of the first entries of a run."""


@dataclass(frozen=True, kw_only=True)
class JudgeCall(OfTranscript):
    """Asks what is said of a whole transcript."""


@dataclass(frozen=True, kw_only=True)
class StepsCall(Seeded, WithoutRules, AfterSteps, Held, OfProgram):
    """Asks where a run is after some steps, or after the events of a `list`. `by` steps more are left to chance, and
    `in_step` makes all nodes' next pulse."""

    list: str | None = None
    dare: Annotated[str, value_among(("", *DARES, *OWN_DARES))] | None = None
    by: int = 0
    in_step: bool = False


@dataclass(frozen=True, kw_only=True)
class FileCall:
    """Asks for the text of the file of a program of one's own, by the program's name; `seen` is the version that the
    page has."""

    own: str
    seen: str = ""


@dataclass(frozen=True, kw_only=True)
class PredictCall(OfProgram):
    """Asks whether a node has after a pulse what a student has guessed."""

    forest: int = 0
    node: int
    pulse: int
    guess: Word


@dataclass(frozen=True, kw_only=True)
class WaitsCall(AfterSteps, WithoutRules, OfProgram):
    """Asks whether a node waits for what a student has guessed."""

    node: int
    guess: Word


@dataclass(frozen=True, kw_only=True)
class SendsCall(AfterSteps, WithoutRules, OfProgram):
    """Asks whether a node without rounds sends in a step what a student has guessed: the word, and to whom."""

    step: str
    guess: Word


@dataclass(frozen=True, kw_only=True)
class ExerciseCall(AfterSteps, WithoutRules, OfProgram):
    """Asks whether the exercise of a lesson's step is done: by what a student has guessed, or by the network, the typed
    plan and the steps of the page."""

    lesson: int
    step: int
    guess: Word = ""
    plan: tuple[int, ...] = ()


@dataclass(frozen=True, kw_only=True)
class BuildCall:
    """Asks for the proof and the build of the programs."""


@dataclass(frozen=True, kw_only=True)
class BuiltCall:
    """Asks how far the build is."""
