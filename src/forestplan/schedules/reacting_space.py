"""Every schedule of a network whose nodes react to messages, as the file of a program of one's own says. A reaction
that ends with an error of the file goes wrong, as one does after which `always` isn't true."""
from collections.abc import Collection, Hashable

from forestplan.definitions.reacting_program import Reacting, ReactingNode
from forestplan.faults import Fault
from forestplan.network import Network
from forestplan.schedules.space import After, Gone, Space

# Some hundred bytes each.
MOST_KEPT = 5_000_000


class ReactingSpace(Space[ReactingNode]):
    """The states of such a network, once `search` has found them."""

    def __init__(
        self, net: Network, program: Reacting, without: Collection[str] = (), limit: int = 1_000_000
    ) -> None:
        super().__init__(net, program.node, program.file, without, limit)
        self.program = program
        # Of all different nodes and links, in parts of what they keep and in messages that they hold.
        self.size = 0

    @property
    def is_full(self) -> bool:
        return self.size > MOST_KEPT

    def after(self, a: int, node: ReactingNode) -> tuple[int, Gone]:
        count = len(self.locals[a])
        found = super().after(a, node)
        if len(self.locals[a]) > count:
            self.size += count_of_parts(node.kept)
        return found

    def find_with_wires(self, c: int, wires: int) -> int:
        count = len(self.contents)
        found = super().find_with_wires(c, wires)
        if len(self.contents) > count:
            self.size += len(self.contents[found])
        return found

    def find_act(self, a: int, i: int) -> After:
        try:
            return super().find_act(a, i)
        except Fault as why:
            return None, (), str(why)

    def find_take(self, a: int, i: int, port: int, number: int) -> After:
        try:
            return super().find_take(a, i, port, number)
        except Fault as why:
            return None, (), str(why)


def count_of_parts(key: Hashable) -> int:
    """How many parts a key of what a node keeps has."""
    count = 0
    work = [key]
    while work:
        part = work.pop()
        count += 1
        if isinstance(part, (tuple, frozenset)):
            work += part
    return count
