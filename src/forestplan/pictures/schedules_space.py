"""All states of a tiny network and the steps between them, as src/forestplan/schedules/alpha_space.py finds them, for
the kinds that draw every schedule. What is too large for a picture is refused here, in a sentence."""
import re

from forestplan.definitions.nodes import COLOURING
from forestplan.definitions.program import Program
from forestplan.fault_codes import Code
from forestplan.faults import Fault
from forestplan.network import Network
from forestplan.schedules.alpha_space import AlphaSpace
from forestplan.schedules.rules import ALL
from forestplan.schedules.space import Place, Progress

MAX_STATES = 200_000


def space_of(
    network: Network,
    without: tuple[str, ...] = (),
    program: Program = COLOURING,
    progress: Progress | None = None,
) -> AlphaSpace:
    """The space of a network that was read, whose nodes run a program. `progress` is told now and then how many states
    and events there are so far."""
    space = AlphaSpace(network, without, MAX_STATES, program=program).search(progress)
    if space.is_cut:
        raise Fault(Code.TOO_MANY_STATES_TO_DRAW, most=MAX_STATES, name=network.name)
    return space


def fault_words(space: AlphaSpace, key: Place | None = None) -> str:
    """What goes wrong, by default that to which the fewest events lead."""
    return curly_quoted(space.faults[key or space.first_fault()])


def curly_quoted(text: str) -> str:
    """Words with a picture's quotes in place of a terminal's."""
    return re.sub("`([^`]*)`", "‘\\1’", text)


def left_out_words(without: tuple[str, ...]) -> str:
    """The rules that are left out, as a sentence."""
    said = [f"that {ALL[rule].says}" for rule in without]
    what = "is the rule" if len(said) == 1 else "are the rules"
    return f"Left out {what} {'; '.join(said)}."
