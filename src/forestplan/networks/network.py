"""`forestlab network`: makes networks, reads other forms of them, numbers their nodes anew, says what they are, and
puts names back on a plan. Nothing of it is proved: what is claimed of a plan begins at the bytes of the network's
text."""
from argparse import Namespace
from collections.abc import Iterable
import sys

from forestplan.fault_codes import Code
from forestplan.faults import Fault
from forestplan.files import text_at, write_output
from forestplan.network import Network
from forestplan.networks import tables
from forestplan.networks.channels import channels_asked
from forestplan.networks.codes import told_of_text, tell_code
from forestplan.networks.command_line import command_line
from forestplan.networks.description import facts, warnings
from forestplan.networks.forms import Unsaid, decoded_text
from forestplan.networks.kinds import KINDS
from forestplan.networks.listing import Listed
from forestplan.networks.network_text import reading_of
from forestplan.networks.numbering import near_each_other, renumbered
from forestplan.networks.options import commands_for, stated_by
from forestplan.networks.plan_text import plan_rows
from forestplan.networks.reading import form_read, listed_of, made_of
from forestplan.networks.sources import network_at, network_bytes, path_of
from forestplan.networks.tables import MOST_DIGITS
from forestplan.networks.texts import dimacs_text
from forestplan.parsers import source_of
from forestplan.wording import as_text, one_line

# Kilometres: less than the first no two sites are apart, and numbers of places have no such digits; no two places on
# the earth are much more than the second apart.
LEAST_REACH = 1e-6
MOST_REACH = 20_000
# What is said of a large network.
NEAR = "numbered again by breadth first search; nodes keep their identifiers, and so their channels"


def say_of_network(what: str) -> None:
    print(f"network: {what}", file=sys.stderr)


def made_text(given: Namespace) -> str:
    """A network of a kind, with the words that make it again."""
    kind = KINDS[given.command]
    chosen = {name: getattr(given, name) for name in kind.chosen}
    arguments = [str(chosen[name]) for name in kind.sizes]
    arguments += [
        f"--{name}" + f" {value}" * (value is not True)
        for name, value in chosen.items()
        if name not in kind.sizes and value not in (None, False)
    ]
    if kind.is_by_chance:
        chosen["seed"] = source_of(given.seed)
    try:
        network = kind.make(**chosen)
    except Fault as why:
        given.refuse(str(why))
    return dimacs_text(
        network, [f"Made by forestlab network {given.command} {' '.join(arguments)}"]
    )


def was_read(given: Namespace) -> str:
    """The network of a file, of a table of sites, or of both."""
    check_read_options(given)
    path = given.file if given.file is not None else given.sites
    name = one_line(path)
    asked = [] if given.channels is None else [given.channels]
    licence = channels_asked(given, asked, "network")
    found = Listed("sites") if given.file is None else file_listed(given, name)
    if given.sites:
        text, table = text_asked(given, given.sites)
        sites = tables.SiteTable(table, given.stated).read(text)
        tables.with_sites(found, sites, name)
        if given.reach is not None:
            tables.join_near(found, sites, given.reach)
    if given.bars:
        tables.with_bars(found, *text_asked(given, given.bars), given.stated, licence)
    given.stated.check_found()
    network, notes = made_of(found, name)
    for note in notes:
        say_of_network(f"{name}: {note}")
    head = [f"Channel {channel} is {real}" for channel, real in enumerate(licence or (), 1)]
    return numbered_text(given, network, head)


def numbered_text(given: Namespace, network: Network, head: Iterable[str] = ()) -> str:
    """The text of a network; the nodes of a large one are numbered near each other, unless their order is kept."""
    near = network if given.keep_order else near_each_other(network)
    if near is network:
        return dimacs_text(network, head)
    say_of_network(f"{NEAR} (--keep-order leaves the numbers)")
    return dimacs_text(near, [*head, NEAR.capitalize()])


def check_read_options(given: Namespace) -> None:
    """Refuses words that don't go together."""
    if given.reach is not None and not (given.sites and LEAST_REACH <= given.reach <= MOST_REACH):
        given.refuse(
            f"--reach is for a table of --sites, and from {LEAST_REACH:g}, a millimetre, to {MOST_REACH:,} km, "
            "half of the way around the earth"
        )
    if given.file is None and given.reach is None:
        given.refuse("a FILE is wanted, or --sites with --reach")
    if given.file is None and given.form:
        given.refuse("--as is of a FILE")
    if [given.file, given.sites, given.bars].count("-") > 1:
        given.refuse("standard input is one file, not two")


def text_asked(given: Namespace, path: str) -> tuple[str, str]:
    """The text of a table, and what it is called."""
    name = one_line(path)
    return decoded_text(network_bytes(path), name, given.stated.encoding), name


def file_listed(given: Namespace, name: str) -> Listed:
    """What FILE lists."""
    data = network_bytes(given.file)
    try:
        return listed_of(data, name, form_read(given.file, given.stated), given.stated)
    except Unsaid:
        raise
    except Fault as why:
        if given.file != "-" or given.stated.form:
            raise
        raise Fault(Code.NOT_DIMACS, why=why) from None


def was_told(given: Namespace) -> str:
    """What is said of a network, or of a code if there is no file of that name."""
    text = " ".join(given.file)
    if path_of(text) is None and (found := told_of_text(text)):
        return as_text(tell_code(found))
    if len(given.file) > 1:
        given.refuse("one FILE, or a code and where it is, as `C8 vertex 1`")
    data = network_bytes(text)
    path = one_line(text)
    reading = reading_of(data.decode("utf-8", "replace"), path)
    network = reading.network()
    for what in warnings(reading):
        say_of_network(f"{path}: {what}")
    return as_text(f"{name}: {what}" for name, what in facts(reading, network))


def was_numbered(given: Namespace) -> str:
    return numbered_text(given, renumbered(network_at(given.file), source_of(given.seed)))


def was_named(given: Namespace) -> str:
    if given.file == "-":
        raise Fault(Code.NETWORK_FROM_STANDARD_INPUT)
    network = network_at(given.file)
    name = "the plan"
    rows = plan_rows(text_at("-"), name, 0, 10**MOST_DIGITS)
    if [v for _, v, _ in rows] != list(network.node_numbers):
        raise Fault(Code.PLAN_OF_OTHER_NETWORK, name=name)
    return as_text(f"{network.names.get(v, v)} {channel}" for _, v, channel in rows)


def main(arguments: list[str]) -> int:
    given = command_line().parse_args(arguments)
    if given.command == "read":
        given.stated = stated_by(given)
    doers = {"read": was_read, "tell": was_told, "number": was_numbered, "names": was_named}
    try:
        text = doers[given.command](given) if given.command in doers else made_text(given)
    except Unsaid as why:
        raise commands_for(why, ["network", arguments[0]], arguments[1:]) from None
    write_output(given, text)
    return 0
