"""The calls on networks: what there is, examples, files, networks that are made, and layouts."""
import os
import re
from argparse import ArgumentParser
from dataclasses import dataclass, replace
from math import isqrt, prod
from typing import NoReturn

from forestplan.definitions.programs import PROGRAMS
from forestplan.fault_codes import Code
from forestplan.faults import Fault, InText
from forestplan.folders import TOP
from forestplan.limits import MAX_PASSES
from forestplan.network import Network
from forestplan.networks.forms import BY_MARK, COMPRESSED, Unsaid, form_of
from forestplan.networks.kinds import KINDS
from forestplan.networks.network_text import read_network, stem
from forestplan.networks.options import add_form, add_stated, stated_by
from forestplan.networks.reading import read_any
from forestplan.networks.texts import dimacs_text
from forestplan.pictures.page_data import Net
from forestplan.pictures.pages import net_at, net_of, plain_nodes
from forestplan.pictures.places import places_of
from forestplan.schedules.policies import POLICIES
from forestplan.schedules.rules import OF_LINKS, OF_PROGRAMS, OF_SCHEDULES, Rule
from forestplan.studio.address import (
    Address,
    Here,
    NAMES,
    values_by_name,
    place_opened,
    read_values,
)
from forestplan.studio.answers import (
    Choice,
    DrawingFound,
    FileRead,
    FileUnsaid,
    FoundAddress,
    Hello,
    KindOfNetwork,
    RuleSaid,
    RulesSaid,
)
from forestplan.studio.call_progress import Tell
from forestplan.studio.call_values import MOST_DRAWN, network_asked
from forestplan.studio.dares import DARES
from forestplan.studio.drawn_network import drawn_of
from forestplan.studio.lessons import LECTURE, lessons
from forestplan.studio.messages import (
    AddressCall,
    DrawingCall,
    ExampleCall,
    HelloCall,
    MakeCall,
    ReadCall,
    TidyCall,
)
from forestplan.studio.own_dares import OWN_DARES
from forestplan.studio.session import SAMPLES, Session

# How many letters of a file's name are shown.
MOST_NAME = 80
# How far two nodes of a random disk are joined, in sides of its square; and the rows of a long row, in nodes of one: a
# number between two rows is nearer to its own node.
REACH = 0.26
ROW_APART = 2
EXAMPLES = os.path.join(TOP, "examples")


def drawable_net(network: Network) -> Net:
    """A network as the page has it."""
    if network.nodes > MOST_DRAWN:
        raise Fault(
            Code.TOO_MANY_TO_DRAW, InText(network.name), most=MOST_DRAWN, nodes=network.nodes
        )
    return net_of(network)


def answer_hello(_call: HelloCall, session: Session, _tell: Tell) -> Hello:
    """What there is to choose from."""
    return Hello(
        proved=session.is_proved,
        most=MOST_DRAWN,
        opened=session.network,
        examples=sorted(stem(file) for file in os.listdir(EXAMPLES) if file.endswith(".col")),
        kinds={name: KindOfNetwork(kind.sizes, kind.is_by_chance) for name, kind in KINDS.items()},
        programs=[*PROGRAMS, *session.own],
        own=session.forms,
        samples=list(SAMPLES),
        passes=MAX_PASSES,
        policies=POLICIES,
        rules=RulesSaid(
            orders=rules_on_page(OF_SCHEDULES),
            links=rules_on_page(OF_LINKS),
            rounds={name: rules_on_page(of) for name, of in OF_PROGRAMS.items()},
        ),
        lessons=lessons(),
        lecture=LECTURE,
        dares=DARES,
        own_dares=OWN_DARES,
        # How the page writes what an address has, by its name.
        address={name: of.written for name, of in NAMES.items()},
    )


def rules_on_page(rules: dict[str, Rule]) -> dict[str, RuleSaid]:
    return {word: RuleSaid(rule.says, rule.without) for word, rule in rules.items()}


def example_text(name: str) -> str:
    if name + ".col" not in os.listdir(EXAMPLES):
        raise Fault(Code.NO_EXAMPLE, name=name)
    with open(os.path.join(EXAMPLES, name + ".col"), encoding="utf-8") as file:
        return file.read()


def answer_example(call: ExampleCall, session: Session, _tell: Tell) -> Net:
    return drawable_net(read_network(example_text(call.name), call.name))


@dataclass
class Place:
    """What an address opens. `text` is its network in the DIMACS format and `network` the same for the page; both are
    None if it has none, and then the address is of the network that was there before."""

    address: Address
    text: str | None
    network: Net | None


def opened_by(place: str, session: Session, before: Here = Here()) -> Place:
    """What an address opens, after the `#`; refused if its network can't be read."""
    pairs, unread = values_by_name(place)
    pairs = place_opened(pairs)
    text = network = None
    if "example" in pairs and "net" in pairs:
        raise Fault(Code.EXAMPLE_AND_NETWORK)
    if "example" in pairs:
        text = example_text(pairs["example"])
        network = drawable_net(read_network(text, pairs["example"]))
    elif "net" in pairs:
        drawn = drawn_of(pairs["net"])
        if len(drawn.nodes) > MOST_DRAWN:
            raise Fault(Code.TOO_MANY_TO_DRAW, most=MOST_DRAWN, nodes=len(drawn.nodes))
        text = drawn.text()
        network = drawn.for_page()
    elif {"example", "net"} & set(unread):
        raise Fault(Code.TWO_NETWORKS)
    here = replace(before if network is None else here_of(network), own=session.forms)
    return Place(read_values(pairs, unread, here), text, network)


def here_of(network: Net) -> Here:
    """What the values of an address are of, of a network as the page has it."""
    return Here(len(network.nodes), set(network.edges))


def answer_address(call: AddressCall, session: Session, _tell: Tell) -> FoundAddress:
    """What an address says, for the page that follows it."""
    here = Here(call.nodes, set(call.edges))
    if not call.nodes and session.network:
        here = here_of(session.network)
    opened = opened_by(call.place, session, here)
    return FoundAddress(opened.network, opened.address.values, opened.address.faults())


def answer_read(call: ReadCall, session: Session, _tell: Tell) -> FileRead | FileUnsaid:
    """A file that was dropped on the page, or the page's question if something of it isn't stated."""
    name = call.name[:MOST_NAME]
    try:
        stated = stated_by(network_options().parse_args(list(call.stated)))
        check_text(call.data, name)
        form = form_of(name, name, stated)
        network, said = read_any(call.data, name, form, stated)
        net = drawable_net(network)
        return FileRead(net.name, net.nodes, net.edges, said)
    except Unsaid as why:
        choices = [Choice(command, means) for command, means in why.choices]
        return FileUnsaid(str(why), choices, why.wanted, why.titles)


def check_text(data: bytes, name: str) -> None:
    """Refuses what is no text, as a picture: of it nothing is asked."""
    if b"\0" in data and not data.startswith(tuple(BY_MARK)) and not data.startswith(COMPRESSED):
        raise Fault(Code.NO_TEXT_OF_NETWORK, InText(name))


class Options(ArgumentParser):
    """A parser that ends no process."""

    def error(self, message: str) -> NoReturn:
        raise Fault(Code.OPTIONS_REFUSED, why=message)


def network_options() -> Options:
    """The options that state what a file is."""
    options = Options(add_help=False)
    add_form(options)
    add_stated(options)
    return options


def whole_number(said: str, name: str) -> int:
    if not re.fullmatch("[0-9]{1,9}", said):
        raise Fault(Code.NUMBER_ASKED_FOR, InText(name))
    return int(said)


def answer_make(call: MakeCall, session: Session, _tell: Tell) -> Net:
    kind = call.kind
    sizes = [whole_number(call.sizes.get(size, ""), size) for size in KINDS[kind].sizes]
    nodes = sizes[0] if kind == "random" else prod(sizes)
    if nodes > MOST_DRAWN:
        raise Fault(Code.TOO_MANY_TO_MAKE, most=MOST_DRAWN)
    seed = [whole_number(call.seed, "seed")] if KINDS[kind].is_by_chance else []
    more: list[float] = [REACH, *seed] if kind == "disk" else [*seed]
    network = read_network(dimacs_text(KINDS[kind].make(*sizes, *more)), kind)
    network.name = "-".join(map(str, [kind, *sizes, *more]))
    network.places = by_shape(kind, *sizes) or network.places
    return drawable_net(network)


def by_shape(kind: str, nodes: int, *_: int) -> dict[int, tuple[float, float]]:
    """Where the nodes of a long row or ring are: it goes to and fro. What else has a shape has its places already."""
    if kind not in ("path", "ring") or nodes <= 40:
        return {}
    wide = isqrt(3 * nodes * ROW_APART // 2)
    rows = [divmod(k, wide) for k in range(nodes)]
    return {
        k + 1: (wide - 1 - column if row % 2 else column, ROW_APART * row)
        for k, (row, column) in enumerate(rows)
    }


def answer_drawing(call: DrawingCall, session: Session, _tell: Tell) -> DrawingFound:
    """What is written beside the nodes of a network."""
    network = network_asked(call)
    net = net_at(network.name, plain_nodes(network, places_of(network)), network.edges)
    return DrawingFound([node.label for node in net.nodes])


def answer_tidy(call: TidyCall, session: Session, _tell: Tell) -> Net:
    network = network_asked(call)
    network.places = {}
    network.places = places_of(network)
    return drawable_net(network)
