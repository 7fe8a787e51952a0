"""An own algorithm, with a clock: a node that waits for no higher neighbour takes the least channel that is
free, and says so."""
from talk import serve


class GreedyNode:
    def __init__(self, own):
        self.name, self.ports, self.channel = own["identifier"], range(own["degree"]), None
        self.waits, self.taken = set(), set(own["barred"])

    def start(self):
        """In pulse 0 each node sends its identifier. A node without neighbours waits for nothing."""
        return [f"put {port} name {self.name}" for port in self.ports] or self.choose()

    def react(self, lines):
        for _, port, word, number in lines[1:]:
            if word == "name" and int(number) > self.name:
                self.waits.add(port)
            elif word == "mine":
                self.waits.discard(port)
                self.taken.add(int(number))
        return [] if self.waits or self.channel else self.choose()

    def choose(self):
        self.channel = next(c for c in range(1, len(self.taken) + 2) if c not in self.taken)
        return [
            f"channel {self.channel}",
            *(f"put {port} mine {self.channel}" for port in self.ports),
        ]


if __name__ == "__main__":
    serve(GreedyNode)
