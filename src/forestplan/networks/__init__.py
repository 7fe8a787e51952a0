"""Networks: made, read in other forms, numbered, and described.

Make a network of a kind, or of your own edges, and write it as a text; a text can be read, and a name means a file, an
example or a kind with its size:

>>> from forestplan.networks import Network, dimacs_text, network_at, read_network, star
>>> star(4).edges, star(4).greatest_degree, star(4).channels
([(1, 4), (2, 4), (3, 4)], 3, 4)
>>> text = dimacs_text(Network(3, [(1, 2), (2, 3)]))
>>> text.splitlines()
['p edge 3 2', 'e 1 2', 'e 2 3']
>>> read_network(text, "my network").neighbours == network_at("path3").neighbours
True

No network has more nodes, edges or neighbours of one than ``help("forestplan.limits")`` says. The modules:

    sources             the network of a name: an example, a kind with its size, a file
    kinds               kinds of networks: path, ring, star, complete, grid, queen, tree, disk, random
    random_networks     random edges with wishes: connected, a greatest number of neighbours or forests
    network_text        the DIMACS format: the network of a text, or its first fault
    texts               a network as a text in the DIMACS format
    fields              the fields of a line, and the numbers in them
    plan_text           the plan of a text; which neighbours share a channel
    verdicts            the verdicts and states that the proved programs write, parsed
    codes               what a fault's code means, and what to do
    description         what a network is, how many messages a run takes, and about how long
    numbering           the same network with other numbers
    search_order        an order in which neighbours are near each other
    reductions          networks that are a little smaller than another one
    places              which sites are near each other, on a plane or on the globe
    channels            real channel numbers for those of a plan
    reading             a text of another form as a network, and what of it isn't read
    listing             nodes and edges by their names, as a text lists them
    forms               what the user states of a file: its form, its columns, its encoding
    options             the options that state it on a command line
    table               a table in CSV, and the titles of its columns
    tables              tables of pairs, sites, barred channels and licences
    edge_lists          edges and adjacency in lines of words
    graph6              graph6 and sparse6
    gml                 what a GML text declares
    cross_check         what a GraphML, GEXF or JSON text declares, counted beside networkx
    networkx_forms      forms that networkx reads, if it is installed
    networkx_graph      what is asked of a graph of networkx
    command_line        the command line of `forestlab network`
    network             the command `forestlab network`
"""

from typing import TYPE_CHECKING

from forestplan.public_names import finder

# For checkers of types and editors alone.
if TYPE_CHECKING:
    from forestplan.network import Network
    from forestplan.networks.description import most_payloads
    from forestplan.networks.kinds import (
        KINDS,
        NetworkKind,
        complete,
        disk,
        grid,
        path,
        queen,
        random_network,
        ring,
        star,
        tree,
    )
    from forestplan.networks.network_text import read_network
    from forestplan.networks.numbering import renumbered
    from forestplan.networks.plan_text import clashes, read_plan
    from forestplan.networks.reductions import smaller
    from forestplan.networks.sources import network_at
    from forestplan.networks.texts import dimacs_text

__all__ = [
    "KINDS",
    "Network",
    "NetworkKind",
    "clashes",
    "complete",
    "dimacs_text",
    "disk",
    "grid",
    "most_payloads",
    "network_at",
    "path",
    "queen",
    "random_network",
    "read_network",
    "read_plan",
    "renumbered",
    "ring",
    "smaller",
    "star",
    "tree",
]
# The module of each of these names.
MODULES = {
    "forestplan.network": "Network",
    "forestplan.networks.description": "most_payloads",
    "forestplan.networks.kinds": "KINDS NetworkKind complete disk grid path queen random_network ring star tree",
    "forestplan.networks.network_text": "read_network",
    "forestplan.networks.numbering": "renumbered",
    "forestplan.networks.plan_text": "clashes read_plan",
    "forestplan.networks.reductions": "smaller",
    "forestplan.networks.sources": "network_at",
    "forestplan.networks.texts": "dimacs_text",
}

__dir__ = __all__.copy


if not TYPE_CHECKING:
    __getattr__ = finder(__name__, MODULES)
