"""The command line of `forestlab network`: its commands, and what each says of itself."""
from argparse import ArgumentParser

from forestplan.networks.kinds import KINDS, NetworkKind
from forestplan.networks.options import add_form, add_stated
from forestplan.parsers import add_command, add_commands, add_output, add_seed, parser_of

HELP = """\
Makes networks, reads them in other forms, and says what they are.

{kinds}
  read FILE           another form of a network: pairs (CSV), edges, adjacency, and by
                      networkx GraphML, GML, JSON, ..; or sites and a reach
  number FILE         the same network, with random numbers
  tell FILE           what a network is, what a run on it costs, or what is wrong with it;
                      or of a code of the programs, as C8, what it means and what to do
  names FILE          a plan on standard input, with the names of a network that was read
"""
MORE_HELP = """\
A network is written in the DIMACS format on standard output, with places and names
of its nodes in comment lines: `c at V X Y` and `c name V NAME`. FILE may be - for
standard input. Nothing is guessed; standard error names what isn't read.
This is Python: tested, not proved. So compare the counts that it reports.

Status: 0 done, 1 the file can't be read as a network, 2 the command line is refused.

`forestlab network KIND --help` has the options and an example.
"""

# Of each command that reads a network: its words; what it does, more of it, and an example.
COMMANDS = {
    "read": (
        "[FILE] [options]",
        "Reads a network in another form, and writes it in the DIMACS format.",
        """\
  pairs       .csv .tsv    a table with a heading source,target (or from,to)
  edges       .edgelist    two nodes a line, with blanks between, as networkx writes
  adjacency   .adjlist     a node and its neighbours a line, and a line for each node
  dimacs      .col         what the programs read
  graphml gexf gml json    .graphml .gexf .gml .json    by networkx
  graph6 sparse6           .g6 .s6                      by networkx
The file's ending says the form, or --as; standard input is DIMACS unless --as is there.
A line that doesn't fit the form is refused, with its number. Standard error names what
isn't read, such as columns, keys and directions.

Tables have these columns, here by their titles in small letters. Commas, semicolons or
tabs separate them:
  pairs       source (from) and target (to)
  sites       site (name, id); if there are any, lat (latitude) and lon (lng, longitude)
              in degrees, or x_km and y_km, or x_m (easting) and y_m (northing); identifier
  bars        site and channel
  channels    channel
If a table has several kinds of places, the first kind in this list counts. --columns says
which columns are meant if they have other titles. With --no-heading they are the first
columns, in the order of this list, or the columns whose numbers --columns gives. In the
forms that networkx reads, nodes are named by their label, if each has a label of its own,
or by their name, or by their id.

With a table of sites the nodes are its sites, in its order, and each end of a pair has to
be one of them.

A network of 1,000 nodes or more is numbered again by breadth first search, from a node with
the fewest neighbours, so that a run takes less time. Lines `i V NUMBER` keep identifiers:
each node has the same channel. What the programs write has the new numbers, and `names`
replaces them by names. --keep-order leaves the numbers, for plans that have them.""",
        "forestlab network read pairs.csv --sites sites.csv > sites.col\n"
        "  forestlab network read --sites sites.csv --reach 5.5 --bars bars.csv > sites.col",
    ),
    "number": (
        "FILE [options]",
        "Gives the nodes of a network random numbers.",
        """\
A node keeps its name; one without a name gets its old number as name. Identifiers and
barred channels of lines `i` and `b` go with their nodes. The forests depend on the
identifiers, and so does the plan. In a network of 1,000 nodes or more the random numbers
are the identifiers of the nodes without a line `i`, and the nodes are numbered once more,
as by `read`; --keep-order leaves that out.""",
        "forestlab network number examples/petersen.col --seed 2 | forestplan forests",
    ),
    "tell": (
        "FILE [options]\n       forestlab network tell CODE",
        "Says what a network is, and what a run on it comes to; or what is wrong with its text.",
        """\
  barred      how many channels are barred, if any is
  forests     the greatest number of neighbours of a node with a greater identifier
  payloads    the messages of the rounds: every run of `plan` has just these. If they
              may be many, a bound is printed, which is proved
  wires       what all links of such a run carry: the payloads, as many
              acknowledgements, a safe of each pulse and a closing mark
  transcript  how many lines `transcript` prints of it
  time        about how much processor time `plan` and `transcript` take. Only the wires
              are reckoned with: the machine, and nodes with few edges, can double it.
              `plain` prints the same plan as `plan`.

If FILE is a code that the programs report, and no file, it says what the fault is and
what to do. The words after the code may follow: C8 vertex 1.""",
        "forestlab network tell examples/petersen.col\n  forestlab network tell C8",
    ),
    "names": (
        "FILE [options]",
        "Puts the names of a network on a plan, which it reads from standard input.",
        """\
A line has a node's name and its channel; a node without a name has its number.
`forestlab channels` makes real numbers of the channels before.""",
        "forestplan plain < sites.col | forestlab channels 1 6 11 | forestlab network names sites.col",
    ),
}
SAME = "the same one chooses the same again"
# How many words FILE may be, where it isn't one.
FILES = {"read": "?", "tell": "+"}


def add_options(command: ArgumentParser, name: str) -> None:
    """The options of a command, in the order of the help."""
    if name == "disk":
        command.add_argument(
            "--radius",
            type=float,
            default=0.26,
            metavar="R",
            help="joined if nearer than R sides of the square; default: 0.26",
        )
    if name == "random":
        command.add_argument(
            "--connected", action="store_true", help="each node can be reached from each other"
        )
        command.add_argument(
            "--neighbours", type=int, metavar="D", help="the node with the most neighbours has D"
        )
        command.add_argument("--forests", type=int, metavar="U", help="there are U forests")
    if name == "read":
        add_tables(command)
    if name in ("read", "number"):
        command.add_argument(
            "--keep-order",
            action="store_true",
            help="leave the numbers of a large network as they are",
        )


def add_tables(command: ArgumentParser) -> None:
    """The tables beside FILE."""
    command.add_argument("--sites", metavar="CSV", help="a table of sites")
    command.add_argument(
        "--reach", type=float, metavar="KM", help="joins sites that are less than KM apart"
    )
    command.add_argument(
        "--bars", metavar="CSV", help="a table of channels that are barred at sites"
    )
    command.add_argument(
        "--channels",
        metavar="TABLE",
        help="the channels that all may use, as '1 6 11', or a CSV file with a column "
        "`channel`: the first is channel 1 of the plan; bars are of these numbers, and `forestlab channels` puts "
        "them back",
    )


def of_kinds() -> dict[str, tuple[str, str, str, str]]:
    """The same of each kind of networks."""
    rows = {}
    for name, kind in KINDS.items():
        sizes = " ".join(map(str.upper, kind.sizes))
        example = f"forestlab network {name} {'10 ' * len(kind.sizes)}> net.col"
        rows[name] = (f"{sizes} [options]", f"{kind.does.capitalize()}.", kind.more, example)
    return rows


def command_line() -> ArgumentParser:
    titles = {name: " ".join([name, *map(str.upper, kind.sizes)]) for name, kind in KINDS.items()}
    kinds = "".join(f"  {titles[name]:<20}{kind.does}\n" for name, kind in KINDS.items())
    parser = parser_of("network", "COMMAND WORDS.. [options]", HELP.format(kinds=kinds), MORE_HELP)
    commands = add_commands(parser)
    for name, does in (of_kinds() | COMMANDS).items():
        command = add_command(commands, f"network {name}", *does)
        if name in KINDS:
            add_sizes(command, KINDS[name])
        else:
            add_file(command, name)
        if name == "number":
            add_seed(command, SAME)
        add_options(command, name)
        if name == "read":
            add_form(command)
            add_stated(command)
        add_output(command)
        command.set_defaults(refuse=command.error)
    return parser


def add_sizes(command: ArgumentParser, kind: NetworkKind) -> None:
    """The words of a kind."""
    for size in kind.sizes:
        command.add_argument(size, type=int, metavar=size.upper(), help=f"how many {size}")
    if kind.is_by_chance:
        add_seed(command, SAME)


def add_file(command: ArgumentParser, name: str) -> None:
    said = "a file, - for standard input, or a name, such as path5"
    if name in FILES:
        command.add_argument("file", metavar="FILE", nargs=FILES[name], help=said)
    else:
        command.add_argument("file", metavar="FILE", help=said)
