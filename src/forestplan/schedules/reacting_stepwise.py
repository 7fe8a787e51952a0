"""A run that someone makes step by step, of nodes that react to messages: as stepwise.py has it, without rounds. A step
`3` is node 3's own, and `2-1` has node 2 take the next message from node 1."""
import re
import reprlib
from collections.abc import Collection, Iterator

from forestplan.definitions.events import ACT, Event
from forestplan.definitions.own_program import asks_for_messages, call, known, what_is_wrong
from forestplan.definitions.reacting_program import (
    HIDDEN,
    ON,
    Reacting,
    ReactingNode,
    check_reactions,
    messages_in,
    results_in,
)
from forestplan.faults import Fault
from forestplan.network import Network
from forestplan.schedules.stepwise import ByHand
from forestplan.wording import counted

# Letters of a value that a node keeps.
MOST_LETTERS = 120


class ReactingStepwise(ByHand[ReactingNode]):
    """`ran` is the function of the file that ran last, and the node whose step that was, or None at the start, where
    each node runs it. `results` are what nodes have found, and `refused` what `always` says of where the run is now:
    nothing if that is right, or if the file has no `always`."""

    own = ACT

    def __init__(self, net: Network, program: Reacting, without: Collection[str] = ()) -> None:
        check_reactions(net, program)
        super().__init__(program.start(net), without)
        self.net = net
        self.program = program
        self.ran: tuple[str, int | None] = "start", None
        self.results: dict[int, str] = {}
        self.refused = ""
        self.fault = self.fault_here()

    def own_step_words(self, v: int) -> str:
        return f"node {v} acts"

    def fault_of_own_step(self, v: int) -> str | None:
        return None

    def fault_of_making(self, event: Event) -> str | None:
        v = event.node
        carried = self.state.carried(event)
        self.ran = ("act" if isinstance(carried, int) else ON + carried.word), v
        try:
            self.make(event)
            self.put_all(v)
        except Fault as why:
            self.is_over = True
            return str(why)
        return self.fault_here()

    def fault_here(self) -> str | None:
        """Looks at what nodes have found, and asks `always`; what is wrong here, if something is."""
        try:
            self.results = results_in(self.state)
            self.refused = self.said_by_always()
        except Fault as why:
            self.is_over = True
            return str(why)
        if not self.refused:
            return None
        return refused_by_always(counted(len(self.chosen), "step"), self.refused)

    def said_by_always(self) -> str:
        """What isn't right in this state, by the file's `always`."""
        file = self.program.file
        messages = messages_in(self.state, self.net.identifiers) if asks_for_messages(file) else ()
        return what_is_wrong(self.net, file, self.results, "always", messages)

    @property
    def is_ended(self) -> bool:
        """Whether nothing is possible any more, and nothing has failed."""
        return not self.is_over and not self.next_steps()

    def said_by_right(self) -> str:
        """What isn't right at this end, by the file's `right`."""
        return what_is_wrong(self.net, self.program.file, self.results)

    def kept_by(self, v: int) -> Iterator[tuple[str, str]]:
        """What a node keeps in `me`, by name, as Python writes it; what every node knows from the start isn't among
        it."""
        node = self.state.nodes[v]
        given = known(self.net, v, self.program.file.seed)
        for name, value in vars(node.me).items():
            if name not in HIDDEN and name not in given:
                where = f"`{name}` of the node of identifier {node.id}"
                yield name, call(self.program.file.path, where, in_python, value)


def refused_by_always(steps: str, why: str) -> str:
    """What is said of a state that `always` refuses."""
    return f"`always` refuses the state after {steps}: {why}"


def in_python(value: object) -> str:
    """A value as Python writes it, cut, and without the place in memory that differs from call to call; of what Python
    doesn't write, its type."""
    short = reprlib.Repr()
    short.maxlevel = 3
    short.maxlist = 12
    short.maxtuple = 12
    short.maxdict = 12
    short.maxset = 12
    short.maxstring = short.maxlong = short.maxother = MOST_LETTERS
    try:
        said = re.sub(" at 0x[0-9a-f]+", "", short.repr(value))
    except Exception:  # as of a number of more than 4,300 digits
        return f"a value of the type {type(value).__name__}"
    return said if len(said) <= MOST_LETTERS else f"{said[: MOST_LETTERS - 2]}.."
