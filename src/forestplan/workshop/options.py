"""The command line of the workshop."""
import argparse
import re
from itertools import groupby

from forestplan.parsers import add_seed, count, parser_of, some_of
from forestplan.schedules.policies import POLICIES
from forestplan.transcripts.fields import PAYLOADS
from forestplan.workshop.cases import NETWORKS
from forestplan.workshop.protocol import COLOURING

HELP = """\
Runs programs that students write as the nodes of a network, and has the proved
judge say whether what they do is right.

  `rounds`  with a clock: compared with `forestplay rounds`, pulse by pulse
  `alpha`   without one: the workshop delivers, `forestplay replay` judges the run
  `open`    an algorithm of your own, with a clock: `forestplan check` judges the
            plan, and pulses, payloads and channels are counted

COMMAND is started once for each node. It reads the messages to its node on standard
input and writes its answers on standard output; docs/learn/PROTOCOL.md is the page
for students. If there are several commands, the nodes get them in turn.

NETWORK is a file, - for standard input, a name, as petersen or path5, or randomN, a
random network of N nodes. Without one there are 100 runs on twelve small networks,
with varied identifiers and bars, under the ten policies. Ten runs for each network play
it once under each policy.
"""

MORE_HELP = """\
The workshop decides nothing by itself: the proved programs do. The same seed gives
the same run, whatever the language of the nodes and however fast they are.

Status: 0 all runs are right, 1 one isn't, or a network can't be read, 2 the command line
is refused, or there is no verdict (the judge or a command can't be run).

Examples:
  forestlab workshop rounds triangle -- python3 my_node.py
  forestlab workshop rounds --program layers path5 -- python3 my_node.py
  forestlab workshop alpha --runs 200 --seed 7 -- ./my_node
  forestlab workshop alpha petersen --policies newest --keep DIR -- ./anna -- python3 ben.py
"""


def command_line() -> argparse.ArgumentParser:
    parser = parser_of(
        "workshop",
        "{rounds,alpha,open} [NETWORK ..] [options] -- COMMAND .. [-- COMMAND ..]",
        HELP,
        MORE_HELP,
    )
    parser.add_argument(
        "assignment",
        choices=["rounds", "alpha", "open"],
        help="with a clock, without one, or your own algorithm",
    )
    parser.add_argument(
        "networks", nargs="*", metavar="NETWORK", help=f"default: {NETWORKS.replace(',', ' ')}"
    )
    parser.add_argument(
        "--program",
        metavar="P",
        choices=list(PAYLOADS),
        help=f"of rounds and alpha, what nodes do: {', '.join(PAYLOADS)}; default: {COLOURING}",
    )
    parser.add_argument(
        "--runs",
        type=count,
        metavar="N",
        help="the number of runs; default: 1 for each NETWORK, or 100",
    )
    add_seed(parser)
    parser.add_argument(
        "--policies",
        type=some_of(*POLICIES),
        metavar="LIST",
        help=f"of alpha, with commas: {', '.join(POLICIES)}; default: all, in turn",
    )
    parser.add_argument("--case", type=int, metavar="K", help="play only run number K of these")
    parser.add_argument(
        "--first", action="store_true", help="end with the first run that isn't right"
    )
    add_limits(parser)
    parser.add_argument(
        "--one-process",
        action="store_true",
        help="one process for all nodes of a command: each message begins with `to K`; not for grading",
    )
    parser.add_argument("--json", action="store_true", help="print the result for a program")
    parser.add_argument(
        "--keep", metavar="DIR", help="write network, run and verdict of the case that is shown"
    )
    parser.add_argument(
        "--picture",
        metavar="FILE",
        help="of alpha: draw the run that is shown, up to what is wrong",
    )
    return parser


def add_limits(parser: argparse.ArgumentParser) -> None:
    parser.add_argument(
        "--timeout",
        type=seconds,
        default=10.0,
        metavar="S",
        help="seconds that an answer may take; default: 10",
    )
    parser.add_argument(
        "--memory",
        type=count,
        default=2048,
        metavar="MB",
        help="megabytes that a program may use; default: 2048",
    )


def seconds(text: str) -> float:
    if not re.fullmatch(r"[0-9]{1,6}\.?[0-9]*|\.[0-9]+", text) or not float(text):
        raise argparse.ArgumentTypeError(f"{text} is no number of seconds")
    return float(text)


def parsed(arguments: list[str]) -> argparse.Namespace:
    """The options of the `arguments` of a command line, as `forestlab workshop --help` has them, with `commands`,
    `program`, `policies` and `runs` as the runs need them.

    >>> options = parsed(["rounds", "triangle", "--", "python3", "my_node.py"])
    >>> options.commands, options.program, options.networks, options.runs
    ([['python3', 'my_node.py']], 'colouring', ['triangle'], 1)

    A command line that is refused ends the process, as `argparse` does: SystemExit with the status 2.
    """
    at = arguments.index("--") if "--" in arguments else len(arguments)
    line = command_line()
    options = line.parse_intermixed_args(arguments[:at])
    groups = groupby(arguments[at + 1 :], "--".__eq__)
    options.commands = [list(command) for is_mark, command in groups if not is_mark]
    check_workshop_options(options, line)
    is_alpha = options.assignment == "alpha"
    options.program = options.program or COLOURING
    options.policies = options.policies or (list(POLICIES) if is_alpha else [""])
    options.runs = options.runs or len(options.networks) or 100
    options.networks = options.networks or NETWORKS.split(",")
    return options


def check_workshop_options(options: argparse.Namespace, line: argparse.ArgumentParser) -> None:
    """Refuses options that don't go together."""
    if not options.commands:
        line.error("there is no command after `--`")
    if options.assignment == "open" and options.program:
        line.error("--program is of rounds and alpha")
    if options.assignment != "alpha" and (options.policies or options.picture):
        line.error("--policies and --picture are of alpha alone")
