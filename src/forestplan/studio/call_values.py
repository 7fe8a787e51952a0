"""What the page asks with a call: a network as a text, a program by its name. No call names a file."""
import re
from collections.abc import Collection
from typing import Protocol

from forestplan.definitions.nodes import COLOURING
from forestplan.definitions.program import Program
from forestplan.definitions.programs import PROGRAMS, any_program_at
from forestplan.definitions.reacting_program import AnyProgram, Reacting, words_taken
from forestplan.fault_codes import Code
from forestplan.faults import Fault, InText
from forestplan.limits import MAX_PASSES
from forestplan.network import NAMELESS, Network
from forestplan.networks.network_text import read_network
from forestplan.studio.messages import OfNetwork, OfProgram, WithoutRules
from forestplan.studio.session import Form, Session

# Nodes that are drawn; that the rounds, and a run without a clock, are shown of.
MOST_DRAWN = 400
MOST_ROUNDS = 100
MOST_RUN = 40
# Steps that are made by hand.
MOST_STEPS = 6_000
# Of how many nodes at most something is shown, and the fault if there are more.
UNSHOWN_OF = {MOST_RUN: Code.TOO_MANY_FOR_RUN, MOST_ROUNDS: Code.TOO_MANY_FOR_ROUNDS}


class OfNode(Protocol):
    """What is asked of a node."""

    @property
    def node(self) -> int | None:
        """Its number."""


def network_asked(asked: OfNetwork, most: int = MOST_DRAWN) -> Network:
    try:
        network = read_network(asked.network, "the network")
    except Fault as why:
        if why.code is not Code.ONE_IDENTIFIER_TWICE:
            raise
        raise Fault(Code.ONE_IDENTIFIER_NOW, None, **why.subject) from None
    network.name = (asked.name or NAMELESS)[:60]
    if network.nodes == 0:
        raise Fault(Code.NO_NODE_YET)
    if network.nodes > most:
        code = UNSHOWN_OF.get(most, Code.TOO_MANY_TO_DRAW)
        raise Fault(code, most=most, nodes=network.nodes)
    return network


def form_of_program(program: AnyProgram) -> Form:
    """What the nodes of a program do."""
    return "reactions" if isinstance(program, Reacting) else "rounds"


def program_of_call(asked: OfProgram, network: Network, session: Session) -> Program:
    """A program by rounds, by its name, which its option may follow: `recolouring passes 2`, `layers root 3`."""
    program = either_program_asked(asked, network, session)
    if isinstance(program, Reacting):
        raise Fault(Code.NO_ROUNDS_HERE, program=program.name, word=words_taken(program.file)[0])
    return program


def either_program_asked(asked: OfProgram, network: Network, session: Session) -> AnyProgram:
    """The same, or a file whose nodes react to messages."""
    said = re.fullmatch("([^ ]+)(?: (passes|root) ([0-9]{1,5}))?", asked.program or COLOURING.name)
    name, option, value = said.groups() if said else ("?", None, None)
    options: dict[str, int] = {str(option): int(value)} if value else {}
    if not 1 <= options.get("passes", 1) <= MAX_PASSES:
        raise Fault(Code.PASSES, most=MAX_PASSES)
    if options.get("root", 1) not in network.node_numbers:
        raise Fault(Code.NO_NODE_AS_ROOT, root=options["root"])
    if name not in (*PROGRAMS, *session.own):
        name = "?"
    if name in session.own and not options:
        return own_program_now(name, session)
    return any_program_at(
        session.own.get(name, name), root=options.get("root"), passes=options.get("passes")
    )


def own_program_now(name: str, session: Session) -> AnyProgram:
    """A program of one's own, as its file is now. It has to be of the form that it had when the studio began, by which
    the page shows it."""
    program = any_program_at(session.own[name])
    if form_of_program(program) != session.forms[name]:
        raise Fault(Code.OTHER_FORM, InText(session.own[name]))
    return program


def rules_asked(asked: WithoutRules, among: Collection[str]) -> tuple[str, ...]:
    """The rules to be left out, if they are among those that can be."""
    rules = tuple(asked.without.split(",")) if asked.without else ()
    if not set(rules) <= set(among):
        raise Fault(Code.NO_SUCH_RULE)
    return rules


def node_asked(asked: OfNode, network: Network) -> int:
    if asked.node is None or asked.node not in network.node_numbers:
        raise Fault(Code.NO_NODE_OF_FIELD, node=asked.node)
    return asked.node
