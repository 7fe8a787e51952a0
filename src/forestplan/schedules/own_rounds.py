"""The rounds of a program of one's own: whether they end right, on one network or on many by chance, and in words what
each node hears, sends and finds in each pulse.

In every order of events each node finds what it finds in the rounds, so a file that is wrong is wrong here already,
and here it is easier to see."""
from collections.abc import Iterator
from itertools import combinations
from random import Random

from forestplan.definitions.own_program import check_repeats, results_of, wrong_end
from forestplan.definitions.program import Payload, Program, Slot, synchronous_pulses
from forestplan.network import Network
from forestplan.networks.reductions import smaller
from forestplan.networks.texts import plain_text
from forestplan.wording import as_text, counted, in_words

# The most nodes of a network by chance, and how many smaller networks are tried in place of one that is wrong.
MOST_NODES = 12
MOST_TRIED = 2000


def own_rounds_text(net: Network, program: Program) -> str:
    """The rounds pulse by pulse: a line for each node that hears or sends something, or finds something else."""
    lines: list[str] = []
    found: dict[int, str] = {}
    for pulse, nodes, inboxes, sent in synchronous_pulses(net, program):
        lines.append(f"pulse {pulse}")
        for v in net.node_numbers:
            now = nodes[v].result()
            said = [
                payload_sentence("hears", "from", net.neighbours[v], inboxes.get(v, [])),
                payload_sentence("sends", "to", net.neighbours[v], sent[v]),
                f"has {now}" if now != found.get(v) else "",
            ]
            found[v] = now
            if any(said):
                lines.append(f"  {node_name(net, v)} {'; '.join(filter(None, said))}")
    lines.append("the end")
    lines += [f"  {node_name(net, v)} has {result}" for v, result in found.items()]
    return as_text(lines)


def node_name(net: Network, v: int) -> str:
    """A node by its number, and by its identifier if that is another."""
    name = net.identifiers[v]
    return f"node {v}" if name == v else f"node {v} ({name})"


def payload_sentence(verb: str, way: str, neighbours: list[int], slots: list[Slot]) -> str:
    """`sends best 4 to 1 and 3`: the payloads of the ports that have one, equal ones together."""
    ends: dict[Payload, list[int]] = {}
    for w, slot in zip(neighbours, slots):
        if slot is not None:
            ends.setdefault(slot, []).append(w)
    said = [f"{payload} {way} {in_words(ws)}" for payload, ws in ends.items()]
    return f"{verb} {', '.join(said)}" if said else ""


def by_chance(count: int, seed: str, connected: bool) -> Iterator[Network]:
    """So many networks, the smaller ones first: any edges, or those of a connected network, identifiers in any order,
    and now and then bars."""
    for number in range(count):
        chance = Random(f"{seed} {number}")
        nodes = 1 + number * MOST_NODES // count
        pairs = list(combinations(range(1, nodes + 1), 2))
        edges = chance.sample(pairs, chance.randint(0, min(len(pairs), 2 * nodes)))
        if connected:
            edges += [(chance.randint(1, w - 1), w) for w in range(2, nodes + 1)]
        names = chance.sample(range(1, 3 * nodes + 1), nodes)
        barred = [v for v in range(1, nodes + 1) if number % 5 == 0 and chance.random() < 0.3]
        yield Network(
            nodes,
            edges,
            dict(enumerate(names, 1)),
            {v: [chance.randint(1, 3)] for v in barred},
            name=f"network {number}",
        )


def is_connected(net: Network) -> bool:
    reached = {1}
    work = [1]
    while work:
        new = set(net.neighbours[work.pop()]) - reached
        reached |= new
        work += new
    return len(reached) == net.nodes


def smallest_wrong_network(
    program: Program, count: int, seed: str, connected: bool
) -> tuple[Network | None, int]:
    """Of so many networks the smallest on which the rounds end wrong, made smaller as far as that goes; and on how
    many they do."""
    wrong = []
    for net in by_chance(count, seed, connected):
        check_repeats(net, program)
        if wrong_end(net, program):
            wrong.append(net)
    if not wrong:
        return None, 0
    return shrunk(min(wrong, key=size), program, connected), len(wrong)


def size(net: Network) -> tuple[int, int]:
    return net.nodes, len(net.edges)


def shrunk(net: Network, program: Program, connected: bool) -> Network:
    """A network on which the rounds end wrong, made smaller as long as they do, and as long as it is connected if it
    has to be."""
    tried = 0
    while tried < MOST_TRIED:
        better = None
        for other, _ in smaller(net):
            tried += 1
            is_one = other.nodes > 0 and (not connected or is_connected(other))
            if is_one and wrong_end(other, program):
                better = other
                break
        if better is None:
            return net
        net = better
    return net


def verdict_of(net: Network, program: Program) -> tuple[bool, str]:
    """Whether the rounds of a network end right, and in words how they end, or all of them if they end wrong."""
    pulses = counted(program.last_pulse(net), "pulse")
    if why := wrong_end(net, program):
        return (
            False,
            f"not right after {pulses} of {net.name}: {why}\n{own_rounds_text(net, program)}",
        )
    found = ", ".join(f"{v} {result}" for v, result in results_of(net, program).items())
    return True, f"right after {pulses} of {net.name}: {found}\n"


def verdict_on_many(
    program: Program, count: int, seed: str, connected: bool = False
) -> tuple[bool, str]:
    """Whether the rounds end right on so many networks by chance; if not, a smallest one with its rounds."""
    net, wrong = smallest_wrong_network(program, count, seed, connected)
    if net is None:
        return True, f"right on {counted(count, 'network')} of up to {MOST_NODES} nodes\n"
    why = wrong_end(net, program)
    return False, (
        f"not right on {wrong} of {counted(count, 'network')}; a smallest one: {why}\n"
        f"{plain_text(net)}{own_rounds_text(net, program)}"
    )
