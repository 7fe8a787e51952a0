"""The colouring, as one node sees it: what it sends in each pulse, after what came in by its ports."""


class Colouring:
    def __init__(self, own):
        self.name = own["identifier"]
        self.ports = range(own["degree"])
        self.forests, self.last = own["forests"], own["last"]
        self.width = own["delta"] + own["bars"] + 1  # as many colours are enough
        self.up, self.down = {}, {}  # port: the forest in which a parent, or a child, is there
        self.colours = [self.name] * self.forests
        self.before = list(self.colours)  # before a shift: the colours of the children after it
        self.barred = {channel - 1 for channel in own["barred"]}
        self.merged = self.least_free(set())
        self.old, self.taken = self.merged, set()

    def least_free(self, taken):
        return min(set(range(self.width)) - self.barred - taken)

    def lines(self, p):
        """Its colours after pulse p, as lines: not asked for, but then the workshop finds mistakes earlier."""
        if not 2 <= p <= 12:
            return []
        return [f"colour {forest} {colour}" for forest, colour in enumerate(self.colours)]

    def result(self):
        return f"channel {self.merged + 1}"

    def greet(self):
        return {port: ("hello", self.name) for port in self.ports}

    def pulse(self, p, inbox):
        """What it sends in pulse p, {port: (word, number)}; the inbox has the same form."""
        if p == 1:
            return self.orient({port: number for port, (_, number) in inbox.items()})
        if p == 2:
            self.down = {port: forest for port, (_, forest) in inbox.items()}
            return self.to_children()
        if p <= 12:
            self.recolour(p, {self.up[port]: colour for port, (_, colour) in inbox.items()})
            return self.to_children() if p < 12 else {}
        return self.merge(p - 13, {colour for _, colour in inbox.values()})

    def orient(self, names):
        higher = sorted((name, port) for port, name in names.items() if name > self.name)
        self.up = {port: forest for forest, (_, port) in enumerate(higher)}
        return {port: ("label", forest) for port, forest in sorted(self.up.items())}

    def to_children(self):
        return {port: ("colour", self.colours[forest]) for port, forest in self.down.items()}

    def recolour(self, p, parents):
        """`parents` has the parent's colour in each forest in which there is a parent."""
        for forest in range(self.forests):
            own, above = self.colours[forest], parents.get(forest)
            if p <= 6:
                self.colours[forest] = bit_step(own, above)
            elif p % 2 == 1:
                self.before[forest] = own
                self.colours[forest] = least_but(own) if above is None else above
            elif own == {8: 5, 10: 4, 12: 3}[p]:
                self.colours[forest] = least_but(self.before[forest], above)

    def merge(self, t, heard):
        forest, step = divmod(t, 3 * self.width)
        if step == 0:
            self.old, self.taken = self.merged, set()
        else:
            self.taken |= heard
        if (self.colours[forest], self.old) != divmod(step, self.width):
            return {}
        self.merged = self.least_free(self.taken)
        if step == 3 * self.width - 1:
            return {}
        merged_so_far = [
            port for port, f in sorted({**self.up, **self.down}.items()) if f <= forest
        ]
        return {port: ("chosen", self.merged) for port in merged_so_far}


def bit_step(own, above):
    digit = 0
    while above is not None and (own >> digit & 1) == (above >> digit & 1):
        digit += 1
    return 2 * digit + (own >> digit & 1)


def least_but(*taken):
    return min({0, 1, 2} - set(taken))
