"""`forestlab transcript`: checks, replays and converts transcripts, whoever wrote them."""
from argparse import ArgumentParser, Namespace
from collections.abc import Mapping
import gc
import sys

from forestplan.definitions.own_program import wrong_end
from forestplan.definitions.program import Program
from forestplan.definitions.programs import PROGRAMS, add_program, any_program_asked, program_words
from forestplan.definitions.reacting_program import AnyProgram, Reacting
from forestplan.fault_codes import Code
from forestplan.faults import Fault
from forestplan.files import MOST_OF_TRANSCRIPT, bytes_at, text_name, write_output
from forestplan.network import Network
from forestplan.networks.network_text import network_in_bytes
from forestplan.networks.sources import network_bytes
from forestplan.parsers import add_command, add_commands, add_output, parser_of
from forestplan.transcripts.judge import transcript_in_order, not_right, whole_run
from forestplan.transcripts.reading import WrongEntry
from forestplan.wording import as_text

HELP = """\
Judges a transcript of a run without a clock, whoever wrote it.

  check       says whether it is one whole run, or which line isn't possible, and why
  replay      orders its entries, and has the proved machine of forestplay play them
  convert     writes it for other tools, as JSON or for ShiViz

`forestlab transcript COMMAND --help` has the options and an example.

Status: 0 done, 1 the transcript isn't right, a file can't be read, or forestplay isn't
built, 2 the command line is refused; else what forestplay ends with.
"""
# The form that needs a program, too.
ROUNDS = "rounds"
# By command: its words, what it does, more of that, and an example.
COMMANDS = {
    "check": (
        "NETWORK [TRANSCRIPT] [options]",
        "Checks a transcript of a run of nodes without a common clock.",
        """\
The nodes of a network find channels by sending each other wires: payloads,
acknowledgements, safes and a closing mark. A transcript lists, for each node and
in its own order, the pulses (rounds) that it made and the wires that it put on
a link to a neighbour or took from one. One of edition 1 does not say which of two
nodes came first. It is right if there is an order of all entries in which each of
them was possible when it came, with just the wire that it names, and if the run is
whole: all nodes have made their last pulse, nothing is left to be put, and no
link holds a wire. One of edition 2 or 3 is right if the order of its lines is such
an order, and each stamp is the one that Lamport's clock gives: one more than the
last one of that node, and of a take also than the put's. Edition 3 names its program.
Edition 4, of nodes that react to messages, without rounds, has messages instead of
wires and `act` instead of `pulse`; its run is whole if nothing is possible any more.

Of a transcript that is right it prints one line, as
  whole run of 3 nodes, 658 entries, 49 payloads, 284 wires
Of any other it prints on standard error one line with the line of the transcript
and what is wrong there, as
  line 6: LinkEmpty: node 1 takes payload 0 hello 3 from 3, and 3 never puts it (is the
  text cut?)

  X1            neither the first line, as `transcript 2 N`, nor an entry, as one with a
                payload of another program: give its name, --program
  WrongProgram  editions 3 and 4: the first line names another program, which is said;
                or the program has rounds and the edition has none, or the other way round
  NoSuch        no such node, or it has no such neighbour
  NotReady      a pulse or an act that the node cannot make there
  NothingToPut  the node has nothing for that neighbour
  LinkEmpty     the neighbour has put no wire that is left to be taken
  WrongWire     possible, but with another wire or the number of another pulse
  WrongStamp    another stamp than the clock of the node gives, or out of order
  NotWhole      all entries are a run, but it does not reach the end
  Nodes         the first line names another number of nodes than the network has""",
        "forestplan transcript < examples/triangle.col > triangle.transcript\n"
        "  forestlab transcript check examples/triangle.col triangle.transcript",
    ),
    "replay": (
        "NETWORK [TRANSCRIPT] [options]",
        "Has the proved machine of forestplay play a transcript.",
        """\
A transcript of edition 1 lists all entries of node 1, then all of node 2, and so on.
They can't have happened in this order, so `forestplay replay` refuses it (LinkEmpty).
A transcript of edition 2, which `forestplan transcript` writes without `--edition 1`, or
of edition 3, of another program, has an order, and `forestplay replay` takes it. This
command looks for an order that is a run, and gives the network and the entries in that
order to `forestplay replay`.

It prints the state that the entries lead to, as `forestplay replay --help` says.
If the transcript isn't right, it prints what `forestlab transcript check` says.""",
        "forestlab transcript replay examples/chain6.col examples/chain6_slow.transcript",
    ),
    "convert": (
        "FORM [TRANSCRIPT] [options]",
        "Writes a transcript with stamps, edition 2, 3 or 4, for other tools.",
        """\
  json:   a JSON object a line: the first with the number of nodes, and in editions 3
          and 4 with the program; then one for each entry, {"stamp", "node", "kind",
          "neighbour", "wire", "pulse", ..}; a take has the number of the line of its put
          as "put"; in edition 4 an entry has "act", or "message" and "fields"
  shiviz: a log for ShiViz (bestchai.bitbucket.io/shiviz), with vector clocks
  rounds: edition 4, of nodes that run a synchroniser themselves, as a run of the rounds
          of a proved program, which --program names: each `act` becomes a `pulse`. So
          `forestplay replay` judges a synchroniser in a file, run by run. It shows only
          of this run that it is one of synchroniser alpha and of that program

Only a take without a put before it and lines that no transcript has are refused:
forestlab transcript check judges a run.

The other way, from a list of events, as `forestlab explore --list` writes it, to a
transcript, goes `forestlab simulate NETWORK --events LIST`.

In ShiViz, give this as the parser of the log:
  (?<host>\\S*) (?<clock>{.*})\\n(?<event>.*)""",
        "forestlab simulate examples/triangle.col | forestlab transcript convert shiviz > triangle.log",
    ),
}


def command_line() -> ArgumentParser:
    parser = parser_of("transcript", "COMMAND WORDS.. [options]", HELP, None)
    commands = add_commands(parser)
    for name, does in COMMANDS.items():
        command = add_command(commands, f"transcript {name}", *does)
        if name == "convert":
            command.add_argument(
                "form",
                choices=["json", "shiviz", ROUNDS],
                metavar="FORM",
                help="json, shiviz or rounds",
            )
            command.add_argument(
                "--program",
                choices=PROGRAMS,
                metavar="P",
                help=f"of rounds: the program whose rounds they are, one of {', '.join(PROGRAMS)}",
            )
        else:
            command.add_argument(
                "network",
                metavar="NETWORK",
                help="a file that `forestplan` reads without a fault, or a name, such as petersen or path5",
            )
            add_program(command)
        command.add_argument(
            "transcript",
            nargs="?",
            default="-",
            metavar="TRANSCRIPT",
            help="a file, or - for standard input; default: -",
        )
        if name == "check":
            command.add_argument(
                "--json", action="store_true", help="write the verdict for a program"
            )
        add_output(command)
    return parser


def texts_of(given: Namespace) -> tuple[Network, bytes, bytes, AnyProgram]:
    """The network, the texts of both, and the program of a command line."""
    if given.network == given.transcript == "-":
        raise Fault(Code.TWO_STANDARD_INPUTS)
    data = network_bytes(given.network)
    net = network_in_bytes(data, text_name(given.network))
    transcript = bytes_at(given.transcript, MOST_OF_TRANSCRIPT)
    return net, data, transcript, any_program_asked("transcript", given, net)


def right_verdict(given: Namespace) -> str:
    """The verdict on a transcript that is right."""
    net, _, text, program = texts_of(given)
    _, said = whole_run(net, text, program)
    if isinstance(program, Program) and (why := wrong_end(net, program)):
        raise not_right(said, why)
    return (as_json({"right": True, "words": said}) if given.json else said) + "\n"


def as_json(found: Mapping[str, object]) -> str:
    # Only this option pays for what the import takes.
    import json

    return json.dumps(found)


def replay(given: Namespace) -> int:
    """Has the proved machine play a transcript in the order found; returns the status."""
    # Only this command pays for what the import takes.
    from forestplan import proved_programs

    net, network, text, program = texts_of(given)
    if isinstance(program, Reacting) or program.file is not None:
        raise Fault(Code.NO_PROVED_PROGRAM, name=program.name)
    made, _ = whole_run(net, text, program)
    # The network may not end in a line feed.
    both = network + b"\n" + transcript_in_order(made, text)
    command = ["replay", *program_words(program)]
    try:
        write_output(given, proved_programs.output_of("forestplay", command, both))
    except proved_programs.ProgramRefused as why:
        sys.stderr.write(why.message)
        return why.status
    return 0


def converted(given: Namespace) -> str:
    if (given.form == ROUNDS) != (given.program is not None):
        raise Fault(Code.PROGRAM_FOR_ROUNDS)
    # Only this command pays for what the import takes.
    from forestplan.transcripts.conversions import FORMS, as_rounds, entries_of

    head, entries = entries_of(bytes_at(given.transcript, MOST_OF_TRANSCRIPT))
    if given.program is not None:
        return as_text(as_rounds(head, entries, given.program))
    return as_text(FORMS[given.form](head, entries))


def main(arguments: list[str]) -> int:
    given = command_line().parse_args(arguments)
    # Nothing that is made here goes round in a circle that would have to be collected before the end.
    gc.disable()
    try:
        if given.command == "replay":
            return replay(given)
        write_output(given, right_verdict(given) if given.command == "check" else converted(given))
    except WrongEntry as wrong:
        if getattr(given, "json", False):
            found = {
                "right": False,
                "line": wrong.line,
                "code": wrong.word,
                "words": wrong.sentence(),
            }
            write_output(given, as_json(found) + "\n")
        else:
            print(wrong, file=sys.stderr)
        return 1
    return 0
