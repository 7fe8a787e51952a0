"""A node of any assignment: the talking is done, the algorithm is yours. docs/learn/PROTOCOL.md says what the words
mean."""
import sys

KNOWN = ("identifier", "degree", "nodes", "delta", "bars", "forests", "last", "barred")


class Node:
    def __init__(self, own):
        """`own` has identifier, degree, nodes, delta, bars, and the list of the barred channels; but for `open` forests
        and last, too."""
        self.own = own

    def pulse(self, p, inbox):
        """With a clock, in `rounds` and `open`: what the node does in pulse p, as lines; `inbox` is {port: words}, as
        {0: ["hello", "3"]}, and empty in pulse 0."""
        if p == 0:
            return [
                f"put {port} hello {self.own['identifier']}" for port in range(self.own["degree"])
            ]
        # Yours: `put PORT WORD NUMBER`, and once, in the last pulse or of `open` when you know it, `channel C`.
        return []

    def start(self):
        """Without a clock, in `alpha`: what the node does at its start, in pulse 0, as lines."""
        return [
            f"put {port} payload 0 hello {self.own['identifier']}"
            for port in range(self.own["degree"])
        ]

    def take(self, port, wire):
        """What it does after it has taken a wire, as lines; a wire is a list of words: ["payload", "0", "hello", "3"],
        ["ack", "0"], ["safe", "0"] or ["close"]."""
        # Yours: `put PORT WIRE`, `pulse P`, and after the last pulse, once, `channel C`.
        return []


def own_data(lines):
    """What a node knows, by name; lines of a later edition are passed over."""
    told = {name: [int(value) for value in values] for name, *values in lines if name in KNOWN}
    return {name: values[0] for name, values in told.items()} | {"barred": told["barred"][1:]}


def main():
    nodes, message = {}, []
    for line in sys.stdin:
        words = line.split()
        if words != ["end"]:
            message.append(words)
            continue
        # With --one-process a message begins with `to K`, and K says which node is meant.
        which = message.pop(0)[1] if message[0][0] == "to" else "only"
        first, *more = message
        if first[0] == "workshop":
            nodes[which] = Node(own_data(more))
            answer = nodes[which].start() if first[2] == "alpha" else nodes[which].pulse(0, {})
        elif first[0] == "pulse":
            answer = nodes[which].pulse(
                int(first[1]), {int(port): words for _, port, *words in more}
            )
        else:
            answer = nodes[which].take(int(first[1]), first[2:])
        print("\n".join([*answer, "end"]), flush=True)
        message = []


if __name__ == "__main__":
    main()
