"""Pictures of every schedule: the lattice beside the explorer's states, which tests/programs/test_schedules.py compares
with the definitions and with `forestplay events`. What is read here is the SVG alone."""
import functools
from collections import Counter
from itertools import pairwise

from forestplan.definitions.leader import LEADER
from forestplan.definitions.nodes import COLOURING
from forestplan.networks.network_text import network_in_bytes
from forestplan.schedules.alpha_space import AlphaSpace
from tests.cases import example
from tests.pictures.base import PictureCase
from tests.pictures.marks import SVG, centre, ends, marks, parsed, texts, title

# What the legend says of the fill of a mark.
FAR = ["all at one pulse", "neighbours a pulse apart", "two", "more"]
NETWORKS = {name: example(name) for name in ("two", "path", "triangle")}


@functools.cache
def space_of(name, without=(), program=COLOURING):
    return AlphaSpace(network_in_bytes(NETWORKS[name]), without, program=program).search()


def columns_of(root, mark):
    """How many marks of a class are at each place from left to right."""
    return Counter(centre(group.find(f"{SVG}circle"))[0] for group in marks(root, mark))


def lattice_options(without, window):
    rules = [f"--without={','.join(without)}"] if without else []
    return rules + (["--columns={}..{}".format(*window)] if window else [])


def first_wrong(space):
    """The states that are wrong, or to which a step leads that is."""
    return {s if e is None else space.steps(s)[e][1] for s, e in space.faults} - {None}


def refusals(space):
    """The depths to which the steps lead that are refused, and so come to no state."""
    steps = [(s, e) for s, e in space.faults if e is not None]
    return [space.depth[s] + 1 for s, e in steps if space.steps(s)[e][1] is None]


def right_and_wrong(space, red):
    """How many states are right at each depth, and how many states and steps are wrong, if these states are red."""
    good = Counter(space.depth[s] for s in range(space.count) if s not in red)
    return good, Counter(space.depth[s] for s in red) + Counter(refusals(space))


def apart_in(space, shown):
    """How many pulses two neighbours are apart at most, in the states at these depths."""
    states = [s for s in range(space.count) if space.depth[s] in shown]
    nodes = map(space.nodes, states)
    return max(abs(of[v].pulse - of[w].pulse) for of in nodes for v, w in space.links)


def gaps_in(bold):
    """The steps of the bold run at whose end the next one doesn't begin."""
    return [step for step, after in pairwise(bold) if step[1] != after[0]]


class Schedules(PictureCase):
    def test_lattices(self):
        for name, without, window in (
            ("two", (), (0, 104)),
            ("two", (), (0, 3)),
            # The pulses inside marks are as small as they may be, and have no room.
            ("two", (), (0, 57)),
            ("path", (), (0, 54)),
            ("two", (), None),
            ("path", (), None),
            ("path", (), (0, 20)),
            ("triangle", (), (364, 374)),
            ("two", ("safes",), None),
            ("two", ("early",), None),
            ("two", ("fifo",), None),
            ("two", ("acks", "fifo"), None),
            ("triangle", ("safes",), None),
        ):
            self.lattice_rows(name, without, window)
        # The colouring refuses each wrong inbox, and a leader goes on.
        self.lattice_rows("path", ("early",), None, LEADER)

    def lattice_rows(self, name, without, window, program=COLOURING):
        """The states, by columns; the steps between them; a bold run from column to column; and in red what goes wrong:
        up to the first such events, where the bold run ends."""
        space = space_of(name, without, program)
        options = [*lattice_options(without, window), "--program", program.name]
        root = parsed(self.drawn("schedules", NETWORKS[name], *options))
        row = self.rows_of(f"lattice of {name} {options}")
        right, wrong = columns_of(root, "state"), columns_of(root, "state wrong")
        columns = sorted(right | wrong)
        low, high = window or (0, len(columns) - 1)
        good, bad = right_and_wrong(space, first_wrong(space))
        shown = range(low, high + 1)
        row("its columns", [right[x] for x in columns], [good[far] for far in shown])
        row("red marks", [wrong[x] for x in columns], [bad[far] for far in shown])
        row("the first column has its number", str(low) in texts(root), True)
        last = max(+(good + bad))
        text = " ".join(texts(root))
        row("one end", "ends in one state" in text, not space.faults)
        kinds = [text for text in texts(root) if text in FAR]
        row("how far neighbours are", kinds, FAR[: max(2, apart_in(space, shown) + 1)])
        has_pulses = any(group.find(f"{SVG}text") is not None for group in marks(root, "state"))
        row("it says that pulses are inside", "inside are" in text, has_pulses)
        part = f"{low} to {high} of {last}" in text
        row("it says which part is drawn", part, (low, high) != (0, last))
        bold = sorted((*ends(group), title(group)) for group in marks(root, "bold"))
        row("the bold run is one", gaps_in(bold), [])
        if not without:
            row("as long as the window", len(bold), high - low)
