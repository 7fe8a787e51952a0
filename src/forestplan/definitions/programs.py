"""The programs that nodes can run, by their names, and programs of one's own, from a file."""
from argparse import ArgumentParser, Namespace
from collections.abc import Callable
from functools import partial
import os
import sys

from forestplan.definitions.independent_set import INDEPENDENT_SET
from forestplan.definitions.layers import layers
from forestplan.definitions.leader import LEADER
from forestplan.definitions.matching import MATCHING
from forestplan.definitions.nodes import COLOURING
from forestplan.definitions.own_program import file_at, own_program
from forestplan.definitions.program import Program
from forestplan.definitions.reacting_program import (
    AnyProgram,
    Reacting,
    reacting_program,
    reacts,
    words_taken,
)
from forestplan.definitions.recolouring import recolouring
from forestplan.fault_codes import Code
from forestplan.faults import Fault
from forestplan.limits import MAX_PASSES
from forestplan.network import Network
from forestplan.parsers import count
from forestplan.wording import as_utf8

# Those that `forestplay` runs.
PROGRAMS: dict[str, Program] = {
    program.name: program
    for program in (COLOURING, LEADER, layers(), MATCHING, INDEPENDENT_SET, recolouring())
}
# The options that a program has: its name, and what makes it with a value of the option.
OPTIONS: dict[str, tuple[str, Callable[[int], Program]]] = {
    "root": ("layers", layers),
    "passes": ("recolouring", recolouring),
}
# What takes a file whose nodes react to messages, too.
HELP = f"what the nodes run: {', '.join(PROGRAMS)}, or a file of your own, as NAME.py; default: colouring"


def program_at(name: str, lots: str = "1", **options: int | None) -> Program:
    """The program by rounds of a `name`, one of `PROGRAMS`, or of a file whose name ends in `.py`; `lots` is the seed
    of its nodes' chance. Its `options` are those of two programs: of layers `root`, the node that is the root, and of
    recolouring `passes`, how often it chooses again.

    >>> program_at("layers", root=3).root, program_at("recolouring", passes=8).passes
    (3, 8)

    Raises `Fault` of a name that no program has, of an option of another program, and of what is wrong with a file.
    """
    return by_rounds(any_program_at(name, lots, **options))


def by_rounds(program: AnyProgram) -> Program:
    """A program, if its nodes make rounds."""
    if isinstance(program, Reacting):
        path = program.file.path
        word = words_taken(program.file)[0]
        raise Fault(Code.NO_ROUNDS, file=path, word=word)
    return program


def any_program_at(name: str, lots: str = "1", **options: int | None) -> AnyProgram:
    """The same, or a program of nodes that react to messages, from a file."""
    given = {option: value for option, value in options.items() if value is not None}
    for option in given:
        of, _ = OPTIONS[option]
        if name != of:
            raise Fault(Code.OPTION_OF_OTHER_PROGRAM, option=option, of=of, name=name)
    # Each option is another program's, so there is one at most.
    for option, value in given.items():
        _, with_option = OPTIONS[option]
        return with_option(value)
    if name in PROGRAMS:
        return PROGRAMS[name]
    if name.endswith(".py"):
        file = file_at(name, lots)
        return reacting_program(file) if reacts(file) else own_program(file)
    if os.sep in name:
        raise Fault(Code.NO_NAME_OF_A_PROGRAM, name=name)
    raise Fault(Code.NO_PROGRAM, name=name, names=", ".join(PROGRAMS))


def program_words(program: Program) -> list[str]:
    """The words with which a command runs the program of a name.

    >>> program_words(program_at("recolouring", passes=8))
    ['--program', 'recolouring', '--passes', '8']
    """
    if program == COLOURING:
        return []
    arguments = ["--program", program.name]
    if program.root is not None:
        arguments += ["--root", str(program.root)]
    if program.passes != 1:
        arguments += ["--passes", str(program.passes)]
    return arguments


def program_asked(command: str, given: Namespace, network: Network | None = None) -> Program:
    """The program by rounds of a command line, which may lack options. A root that is no node of the network is
    refused, and if the program ignores the network's bars, that is said on standard error."""
    return by_rounds(any_program_asked(command, given, network))


def any_program_asked(command: str, given: Namespace, network: Network | None = None) -> AnyProgram:
    """The same, or a program of nodes that react to messages."""
    options = {option: getattr(given, option, None) for option in OPTIONS}
    program = any_program_at(
        getattr(given, "program", COLOURING.name), getattr(given, "lots", "1"), **options
    )
    if isinstance(program, Reacting):
        return program
    if network and options["root"] not in (None, *network.node_numbers):
        raise Fault(Code.NO_ROOT, root=program.root, nodes=network.nodes)
    if network and network.bars and not program.reads_bars:
        print(
            f"{command}: {program.name} ignores the bars of the network, its lines `b`",
            file=sys.stderr,
        )
    return program


def add_program(parser: ArgumentParser) -> None:
    """Adds the options to a command line."""
    parser.add_argument("--program", default=COLOURING.name, metavar="P", help=HELP)
    parser.add_argument(
        "--root",
        type=int,
        metavar="V",
        help="the node that is the root of layers; default: the one of identifier 1",
    )
    parser.add_argument(
        "--passes",
        type=partial(count, most=MAX_PASSES),
        metavar="N",
        help=f"how often recolouring chooses again, 1 to {MAX_PASSES}; default: once",
    )
    parser.add_argument(
        "--lots",
        default="1",
        type=as_utf8,
        metavar="WORD",
        help="the seed of a file's `me.random`; default: 1",
    )
