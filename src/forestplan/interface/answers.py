"""What the calls of `import forestplan` return: plans, rounds and transcripts, which a notebook shows as pictures."""
import tempfile
from collections.abc import Iterable
from typing import Any, NamedTuple

from forestplan.interface.graphs import Licence, Node
from forestplan.interface.programs import forestlab_outputs


class Message(NamedTuple):
    """A message of `sender` to `receiver` in a pulse: a `word`, such as hello, and its `value`.

    >>> Message("Ulm", "Hof", "hello", 7).word
    'hello'
    """

    sender: Node
    receiver: Node
    word: str
    value: int


class Pulse(NamedTuple):
    """A round: its `number` from 0, the name of its `phase`, its `messages`, and `states`, pairs (node, words).

    >>> Pulse(0, "greet", [Message("Ulm", "Hof", "hello", 7)], []).messages[0].receiver
    'Hof'
    """

    number: int
    phase: str
    messages: list[Message]
    states: list[tuple[Node, str]]


class Entry(NamedTuple):
    """An event of a run, with its `stamp` of Lamport's clock, of a `node`: `kind` is pulse, put or take; `wire` has the
    words of the message that was put or taken; `other` is the neighbour, or, if the kind is pulse, the number of the
    pulse.

    >>> Entry(stamp=1, node="Ulm", kind="put", other="Hof", wire="ack 0").wire
    'ack 0'
    """

    stamp: int
    node: Node
    kind: str
    other: Node
    wire: str


class Refused(ValueError):
    """A program refused a graph or a plan. The text says what is wrong and what to do. `code` is the fault's code,
    such as C4, and `nodes` are the nodes that the fault names. If a plan takes more channels than the licence has,
    `code` is licence, `nodes` are the nodes whose channel the licence lacks, and `plan` is the plan, with channels
    from 1.

    >>> Refused("the plan takes 3 channels, and the licence has 2", code="licence").code
    'licence'
    """

    def __init__(
        self, message: str, code: str = "", nodes: Iterable[Node] = (), plan: "Plan | None" = None
    ) -> None:
        super().__init__(message)
        self.words = message
        self.code = code
        self.nodes = list(nodes)
        self.plan = plan


class _Answer:
    """What a program wrote (`text`) of what it read (`network`), in which nodes have numbers and channels count from 1.
    A notebook shows its picture, of a `kind`, with an `option` for the text."""

    network = option = kind = ""
    text: Any = ""
    title: Any = "graph"

    def _repr_svg_(self) -> str | None:
        with tempfile.NamedTemporaryFile("w", suffix=".txt") as file:
            file.write(self.text)
            file.flush()
            arguments = [self.option, file.name] if self.option else []
            arguments = ["picture", self.kind, "-", *arguments, "--title", self.title]
            return forestlab_outputs(arguments, self.network)[1] or None


class Plan(_Answer, dict[Node, int]):
    """{node: channel}, in the order of the graph. A notebook shows its picture.

    >>> Plan({"Ulm": 1, "Hof": 2})["Hof"]
    2
    """

    option = "--plan"
    kind = "plan"
    licence = Licence(None)
    order: list[Node] = []

    @property
    def text(self) -> str:
        """The plan as the programs read it."""
        known = [(v, node) for v, node in enumerate(self.order, 1) if node in self]
        return "plan\n" + "".join(f"{v} {self.number(node)}\n" for v, node in known)

    @property
    def title(self) -> str:
        """What its picture is called: the channels of the licence that differ from those of the programs."""
        used = sorted({(self.number(node), channel) for node, channel in self.items()})
        return "graph" + "".join(f", {k} is {real}" for k, real in used if k != real)

    def number(self, node: Node) -> int:
        """The channel of a node, counted from 1 if it is one of a licence."""
        found = self.licence.number(self[node], f"the channel of {node!r}")
        if found is None:
            raise ValueError(f"{node!r} has channel {self[node]!r}, which isn't in the licence")
        return found

    def colours(self) -> dict[Node, str]:
        """{node: "#0072B2"}: the colours of the channels, the same as in all pictures here, as for `networkx.draw(G,
        nodelist=list(plan), node_color=list(plan.colours().values()), labels=plan)`. Channels 9 to 16 have those of 1
        to 8, and so on: draw the channels, too."""
        from forestplan.pictures import palette

        return {node: palette.channel_hue(self.number(node)) for node in self}


class Rounds(_Answer, list[Pulse]):
    """A list of the `Pulse`s from 0 on. Colours count from 0: they are the indices of the licence's channels. A
    notebook shows its picture.

    >>> Rounds([Pulse(0, "greet", [], [])])[0].phase
    'greet'
    """

    kind = "rounds"


class Transcript(_Answer, list[Entry]):
    """A list of an `Entry` for each event of a run, in an order in which they were possible. A notebook shows its
    picture.

    >>> Transcript([Entry(1, "Ulm", "pulse", 1, "")])[0].other
    1
    """

    option = "--transcript"
    kind = "run"


def colour_map(channels: int = 8) -> Any:
    """A ListedColormap of matplotlib with the colours of channels 1 to `channels`, as `Plan.colours` has them.

    >>> colour_map(3).colors  # doctest: +SKIP
    ['#0072B2', '#E69F00', '#009E73']

    Raises ImportError if matplotlib isn't installed.
    """
    from matplotlib.colors import ListedColormap

    from forestplan.pictures import palette

    hues = [palette.channel_hue(channel + 1) for channel in range(channels)]
    return ListedColormap(hues, "forestplan")


# Users know the classes as those of `forestplan`.
for public in (Entry, Message, Plan, Pulse, Refused, Rounds, Transcript):
    public.__module__ = "forestplan"
