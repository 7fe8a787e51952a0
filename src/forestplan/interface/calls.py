"""The calls of `import forestplan`: the proved programs make and judge plans, rounds and runs of a graph of Python."""
from collections.abc import Mapping
from typing import Any

from forestplan import limits
from forestplan import processors
from forestplan.interface.answers import Entry, Message, Plan, Pulse, Refused, Rounds, Transcript
from forestplan.interface.graphs import Bars, Channels, Graph, Licence, Node, text_of, whole_value
from forestplan.interface.programs import status_and_outputs, program_path
from forestplan.networks import codes
from forestplan.networks.verdicts import Verdict, parsed_verdict
from forestplan.wording import in_words


def plan(
    G: Graph,
    bars: Bars = None,
    licence: Channels = None,
    workers: int | None = None,
    passes: int = 0,
) -> Plan:
    """A plan of a graph G, in which neighbours have different channels.

    `bars` is a dict with the channels that are barred at a node. `licence` has the channels that all nodes may use, in
    order of preference; without a licence channels count from 1. In each of the `passes` all nodes choose their
    channels again, which usually takes fewer channels, and never more. With `workers`, 1 to 64, that many threads find
    the plan without a clock, but no more threads than this process may use processors. Without `workers` one thread
    finds the same plan, in much less time.

    >>> plan({"Ulm": ["Aue", "Hof"], "Aue": ["Hof"], "Hof": []}, licence=[36, 40, 44])
    {'Ulm': 40, 'Aue': 44, 'Hof': 36}

    Raises `Refused` if it takes more channels than the licence has, or if a node has more than 1,023 neighbours.
    """
    network, order, text = _asked(_command_of(workers, passes), G, bars, licence)
    lines = text.removeprefix("plan\n").splitlines()
    number = {node: int(line.split()[-1]) for node, line in zip(order, lines, strict=True)}
    found = Plan((node, number[node]) for node in dict.fromkeys([*G, *order]))
    found.network = network
    found.order = order
    most = max(number.values(), default=0)
    if licence is not None and most > len(licence):
        message = f"the plan takes {most} channels, and the licence has {len(licence)}"
        lacking = [node for node, k in found.items() if k > len(licence)]
        raise Refused(message, "licence", lacking, found)
    if licence is not None:
        found.update((node, int(licence[k - 1])) for node, k in found.items())
    found.licence = Licence(licence)
    return found


def check(G: Graph, plan: Mapping[Any, int], bars: Bars = None, licence: Channels = None) -> int:
    """Has the proved program judge a `plan` of a graph G, yours or ours, and returns its greatest channel, counted from
    1. With a licence it returns the highest place in the licence that the plan uses, also counted from 1. `bars` and
    `licence` are as `forestplan.plan` has them.

    >>> check({"Ulm": ["Aue"], "Aue": []}, {"Ulm": 2, "Aue": 1})
    2

    Raises `Refused` if the plan isn't proper, lacks a node, has a barred channel, or a channel above D + B + 1, where
    D is the largest number of neighbours, and B the largest number of barred channels, of any node.
    """
    network, order = text_of(G, bars, licence)
    if not isinstance(plan, Mapping):
        raise TypeError(
            f"a {type(plan).__name__} is no plan: a dict with the channel of each node is wanted"
        )
    judged = Plan(plan)
    known = set(order)
    for node in plan:
        if node not in known:
            raise ValueError(f"the plan has {node!r}, which is no node of the graph")
    judged.order = order
    judged.licence = Licence(licence)
    return int(_called(["forestplan", "check"], network + judged.text, order).split()[1])


def rounds(G: Graph, bars: Bars = None, licence: Channels = None) -> Rounds:
    """The rounds of the algorithm on a graph G, in which all nodes step together: a list with a `Pulse` for each round.
    For a large graph the list is long. `bars` and `licence` are as `forestplan.plan` has them.

    >>> [pulse.phase for pulse in rounds({"Ulm": []})][:2]
    ['greet', 'orient']
    """
    found = Rounds()
    found.network, order, found.text = _asked(["forestplay", "rounds"], G, bars, licence)
    for line in found.text.splitlines()[1:]:
        first, *fields = line.split()
        if first == "pulse":
            found.append(Pulse(int(fields[0]), " ".join(fields[1:]), [], []))
        elif fields[0] == "put":
            ends = order[int(first) - 1], order[int(fields[1]) - 1]
            found[-1].messages.append(Message(*ends, fields[4], int(fields[5])))
        else:
            found[-1].states.append((order[int(first) - 1], " ".join(fields)))
    return found


def transcript(
    G: Graph, bars: Bars = None, workers: int = 2, licence: Channels = None
) -> Transcript:
    """A run on a graph G without a clock, by worker threads: a list with an `Entry` for each event, in an order in
    which the events were possible. There are as many threads as `workers` says, 1 to 64, but no more than this process
    may use processors. Two calls give different lists, as two runs differ, unless there is one worker. `bars` and
    `licence` are as `forestplan.plan` has them.

    >>> transcript({"Ulm": ["Aue"], "Aue": []}, workers=1)[0]
    Entry(stamp=1, node='Ulm', kind='put', other='Aue', wire='payload 0 hello 1')
    """
    arguments = ["transcript", *_workers(workers)]
    found = Transcript()
    found.network, order, found.text = _asked(["forestplan", *arguments], G, bars, licence)
    for line in found.text.splitlines()[1:]:
        stamp, v, kind, other, *wire = line.split()
        beside = order[int(other) - 1] if kind != "pulse" else int(other)
        found.append(Entry(int(stamp), order[int(v) - 1], kind, beside, " ".join(wire)))
    return found


def _workers(workers: int) -> list[str]:
    """The words that ask for so many worker threads, or for fewer where there are fewer processors."""
    asked = whole_value(workers, "workers", 1, limits.MAX_WORKERS)
    return ["--workers", str(processors.workers(asked))]


def _command_of(workers: int | None, passes: int) -> list[str]:
    """The program and its arguments that find a plan."""
    more = [] if workers is None else _workers(workers)
    command = ["forestplan", "plan" if more else "plain"]
    if many := whole_value(passes, "passes", 0, limits.MAX_PASSES):
        command = ["forestplay", "run" if more else "ends"]
        more += ["--program", "recolouring", "--passes", str(many)]
    return [*command, *more]


def _asked(
    command: list[str], G: Graph, bars: Bars, licence: Channels
) -> tuple[str, list[Node], str]:
    """A graph as the programs read it, its nodes in the order of their numbers, and what a program writes of it."""
    network, order = text_of(G, bars, licence)
    return network, order, _called(command, network, order)


def _called(command: list[str], text: str, order: list[Node]) -> str:
    """What a program writes of a text in which nodes have numbers of this order."""
    status, out, said = status_and_outputs([program_path(command[0]), *command[1:]], text)
    if not status:
        return out
    verdict = parsed_verdict(said) or Verdict()
    nodes = [order[number - 1] for number in verdict.nodes]
    place = in_words(map(repr, nodes)) or codes.fault_place(verdict.of, verdict.numbers)
    told = codes.told_of(verdict.code, place, verdict.more)
    if told is None:
        raise RuntimeError(f"{command[0]} has ended with status {status}: {said}")
    raise Refused("\n".join(codes.tell_code(told)), told.name, nodes)
