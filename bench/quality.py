"""Compares the channels of a plan, and those that are left after passes of choosing anew, with greedy colourings.

  PYTHONPATH=src python3 -m bench.quality

It prints the channels and the processor seconds: of a program, with reading and writing, or of networkx, whose graph is
there already. The programs have to be built, and networkx has to be installed. What isn't proper ends it.

DSATUR (D. Brelaz, New methods to color the nodes of a graph, 1979) and smallest last (D. W. Matula and L. L. Beck,
Smallest-last ordering and clustering and graph coloring algorithms, 1983) look at the whole network, one node after the
other; our nodes know only their neighbours. Largest first (D. J. A. Welsh and M. B. Powell, An upper bound for the
chromatic number of a graph, 1967) is what networkx takes by default."""
import os
import random
import sys
from collections.abc import Callable, Mapping

import networkx

from forestplan import proved_programs
from forestplan.network import Network
from forestplan.networks import kinds
from forestplan.networks.places import near
from forestplan.networks.texts import plain_text

PASSES = ("1", "8", "64")


def towns(nodes: int, reach: float) -> Network:
    """Sites around a hundred towns, of which the first ones are the largest, in a square of 500 km."""
    source, places = random.Random(nodes), []
    middles = [(500 * source.random(), 500 * source.random()) for _ in range(100)]
    for _ in range(nodes):
        x, y = middles[int(100 * source.random() ** 2)]
        places.append((source.gauss(x, 12), source.gauss(y, 12), 0.0))
    pairs = near(places, reach, is_globe=False)
    return Network(nodes, [(v + 1, w + 1) for v, w in pairs])


NETWORKS: dict[str, Callable[[], Network]] = {
    "uniform500": lambda: kinds.disk(500, 0.091, 1),
    "thin500": lambda: kinds.disk(500, 0.081, 2),
    "towns500": lambda: towns(500, 24),
    "uniform2000": lambda: kinds.disk(2000, 0.0552, 1),
    "towns2000": lambda: towns(2000, 13),
    "uniform20000": lambda: kinds.disk(20000, 0.01265, 1),
    "dense20000": lambda: kinds.disk(20000, 0.018, 1),
    "towns20000": lambda: towns(20000, 5.95),
    "random200": lambda: kinds.random_network(200, 993, 7),
    "queen8x8": lambda: kinds.queen(8, 8),
    "grid50x50": lambda: kinds.grid(50, 50),
    "tree1000": lambda: kinds.tree(1000, 1),
}


# Those of networkx; its DSATUR looks at all nodes for each, so it isn't asked of large networks.
STRATEGIES = ("smallest_last", "largest_first", "DSATUR")
MOST = 2000


# What `os.times` counts of this process, and of the processes that it has started and waited for.
OWN_TIMES = slice(0, 2)
TIMES_OF_CHILDREN = slice(2, 4)


def by_program(network: Network, name: str, arguments: list[str]) -> dict[int, int]:
    """The channel of each node by a program, in whose lines it is the last word."""
    rows = proved_programs.output_of(name, arguments, plain_text(network).encode()).splitlines()
    return {v: int(row.split()[-1]) for v, row in zip(network.node_numbers, rows[-network.nodes :])}


def greedy(graph: networkx.Graph, strategy: str) -> dict[int, int]:
    """The colour of each node by a greedy colouring of networkx."""
    found: dict[int, int] = networkx.greedy_color(graph, strategy)
    return found


def cell(network: Network, times: slice, colouring: Callable[[], Mapping[int, int]]) -> str:
    """How many channels a colouring has, and the processor seconds that it takes."""
    begun = sum(tuple(os.times())[times])
    found = colouring()
    seconds = sum(tuple(os.times())[times]) - begun
    if any(found[v] == found[w] for v, w in network.edges):
        raise SystemExit("quality: a plan isn't proper")
    return f"{len(set(found.values()))} ({seconds:.2f})"


def cells_of(network: Network) -> list[str]:
    """A cell for `plain`, one for each number of passes, and one for each greedy colouring that is asked."""
    found = [cell(network, TIMES_OF_CHILDREN, lambda: by_program(network, "forestplan", ["plain"]))]
    for passes in PASSES:
        arguments = ["ends", "--program", "recolouring", "--passes", passes]
        found.append(
            cell(network, TIMES_OF_CHILDREN, lambda: by_program(network, "forestplay", arguments))
        )
    graph = networkx.Graph(network.neighbours)
    for strategy in STRATEGIES:
        if network.nodes <= MOST or strategy != "DSATUR":
            found.append(cell(network, OWN_TIMES, lambda: greedy(graph, strategy)))
    return found


def main() -> None:
    if sys.argv[1:]:
        raise SystemExit(__doc__)
    passes = [f"{number} passes" for number in PASSES]
    print("network", "nodes", "edges", "plain", *passes, *STRATEGIES, sep=" | ")
    for name, make in NETWORKS.items():
        network = make()
        row = [name, network.nodes, len(network.edges), *cells_of(network)]
        print(*row, sep=" | ", flush=True)


if __name__ == "__main__":
    main()
