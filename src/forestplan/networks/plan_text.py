"""The plan of a text, beside its network."""
from collections.abc import Iterator

from forestplan.fault_codes import Code
from forestplan.faults import Fault, InText
from forestplan.network import Edge, Network
from forestplan.networks.fields import fields_of, shown_field, field_number


# The line, the node and the channel.
PlanRow = tuple[int, int, int]


def plan_rows(text: str, name: str, least: int = 1, below: int = 2**32) -> list[PlanRow]:
    """(line, node, channel) of the lines of a plan, with channels from `least` on and numbers below `below`.

    >>> plan_rows("plan\\n1 3\\n", "the plan")
    [(2, 1, 3)]

    Raises `Fault` of the first line that is no line of a plan.
    """
    rows = fields_by_line(text)
    line, fields = next(rows, (1, []))
    if fields != ["plan"]:
        raise Fault(Code.NO_PLAN, InText(name, line))
    found = []
    for line, fields in rows:
        numbers = [
            number for number in map(field_number, fields) if number is not None and number < below
        ]
        if not len(numbers) == len(fields) == 2 or numbers[1] < least:
            raise Fault(
                Code.NO_LINE_OF_A_PLAN, InText(name, line), row=shown_field(" ".join(fields))
            )
        found.append((line, numbers[0], numbers[1]))
    return found


def fields_by_line(text: str) -> Iterator[tuple[int, list[str]]]:
    """(line, fields) of the lines that aren't blank."""
    for line, raw in enumerate(text.split("\n"), 1):
        fields = [field for field in fields_of(raw) if field]
        if fields:
            yield line, fields


def read_plan(text: str, name: str, network: Network) -> dict[int, int]:
    """{node: channel} of a `text` of a plan of a `network`, which a fault calls by this `name`. Channels count from
    1. Neighbours may share a channel: `clashes` finds them, and a picture shows that.

    >>> read_plan("plan\\n1 2\\n2 1\\n", "the plan", Network(2, [(1, 2)]))
    {1: 2, 2: 1}

    Raises `Fault` of the first fault that the programs would report, but for neighbours that share a channel.
    """
    plan = {}
    for line, node, channel in plan_rows(text, name):
        if node not in network.node_numbers:
            raise Fault(Code.PLAN_OF_OTHER_NODE, InText(name, line), node=node, nodes=network.nodes)
        if node in plan:
            raise Fault(Code.SECOND_PLAN_LINE, InText(name, line), node=node)
        if channel > network.channels:
            raise Fault(
                Code.CHANNEL_ABOVE_LIMIT,
                InText(name, line),
                node=node,
                channel=channel,
                channels=network.channels,
            )
        if channel in network.bars.get(node, ()):
            raise Fault(Code.CHANNEL_BARRED, InText(name, line), node=node, channel=channel)
        plan[node] = channel
    for node in network.node_numbers:
        if node not in plan:
            raise Fault(Code.NO_PLAN_LINE, InText(name), node=node)
    return plan


def clashes(network: Network, plan: dict[int, int]) -> list[Edge]:
    """The edges of a `network` whose two nodes share a channel in a `plan`, {node: channel}. A plan without any is
    proper.

    >>> clashes(Network(3, [(1, 2), (2, 3)]), {1: 1, 2: 1, 3: 2})
    [(1, 2)]
    """
    return [(v, w) for v, w in network.edges if plan[v] == plan[w]]
