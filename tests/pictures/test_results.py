"""Pictures of what nodes have found, read off their marks; each result is worked by hand. Those of matching, of the
independent set and of recolouring are stored."""
import re

from forestplan.pictures.palette import INK
from tests.cases import example
from tests.pictures.base import PictureCase
from tests.pictures.marks import (
    SVG,
    centre,
    data_of,
    marks,
    pairs_joined,
    parsed,
    texts,
    titles,
    texts_of,
)

ROW, TRIANGLE = example("path"), example("triangle")
POINTING = (
    "greet = next = lambda me, *_: None\ndef result(me):\n    return 'points'\n"
    "def drawn(me):\n    return 2, me.degree - 1\n"
)
# By program and network: what the titles say of the nodes, what is beside them, which edges are chosen, how many of
# them are arrows, which nodes are filled, and a sentence.
DRAWN = [
    (
        "colouring",
        TRIANGLE,
        ["channel 2", "channel 3", "channel 1"],
        ["1", "2", "3"],
        [],
        0,
        [],
        "3 channels.",
    ),
    ("leader", ROW, ["leader 3"] * 3, ["leader 3"] * 3, [], 0, [], "3 nodes."),
    # Each node of a row points at its last neighbour: 1 at 2, 2 and 3 at each other.
    (
        "points.py",
        ROW,
        ["points"] * 3,
        ["points"] * 3,
        [(1, 2), (2, 3)],
        1,
        [1, 2, 3],
        "3 of 3 nodes.",
    ),
]


class Results(PictureCase):
    def setUp(self):
        self.own = self.file("points.py", POINTING)

    def test_what_is_found(self):
        for program, network, found, beside, pairs, arrows, filled, said in DRAWN:
            words_of_program = ["--program", program.replace("points.py", self.own)]
            root = parsed(self.drawn("results", network, *words_of_program))
            groups = dict(enumerate(marks(root, "map-node"), 1))
            places = {v: centre(group.find(f"{SVG}circle")) for v, group in groups.items()}
            row, text = self.rows_of(program), " ".join(texts(root))
            titled = [f"node {v}: {end}" for v, end in enumerate(found, 1)]
            row("titles", titles(root, "map-node"), titled)
            row("words", texts_of(root, "found"), beside)
            row("chosen edges", pairs_joined(root, "chosen", places), pairs)
            tips = [path for path in root.iter(f"{SVG}path") if path.get("fill") == INK]
            row("arrows", len(tips), arrows)
            row("filled", [v for v, group in groups.items() if marks(group, "filled")], filled)
            row("said", said in text, True)

    def test_what_is_new(self):
        """In pulse 0 each node finds something, and later it is drawn only where it is something else: on a row the
        greatest number comes to node 2 first, and then to node 1."""
        found = texts_of(parsed(self.drawn("rounds", ROW, "--program", "leader")), "found")
        pulses = (("leader 1", "leader 2", "leader 3"), ("leader 2", "leader 3"), ("leader 3",))
        self.same("pulse by pulse", found, [result for pulse in pulses for result in pulse])

    def test_the_player_names_who_finds_something(self):
        """In a star each leaf finds its layer in pulse 1, and twelve of them are named."""
        for leaves, more in ((12, ""), (13, " ..")):
            star = b"p edge %d %d\n" % (leaves + 1, leaves)
            star += b"".join(b"e %d %d\n" % (v, leaves + 1) for v in range(1, leaves + 1))
            options = ["--program", "layers", "--root", str(leaves + 1)]
            film = data_of(self.drawn("player", star, *options))["film"]
            said = re.findall(r"found by ([0-9, ]+?)( \.\.)?\.", film["pulses"][1]["said"])
            named = ", ".join(map(str, range(1, 13)))
            self.same(f"{leaves} leaves", said, [(named, more)])

    def test_the_player_draws_the_same(self):
        """Partners; and channels in the circles, of a program whose nodes have some."""
        pairs, channels = (
            data_of(self.drawn("player", network, "--program", program))["film"]
            for program, network in (("matching", ROW), ("recolouring", TRIANGLE))
        )
        partners = {"1": [None, None], "2": [None, 3], "3": [None, 2]}
        self.same("partners", pairs["pulses"][-1]["drawn"], partners)
        last = [colour for colour, _ in channels["pulses"][33]["drawn"].values()]
        self.same("colours after", last, [1, 0, 2])
        self.same(
            "whether they are channels", [pairs["channels"], channels["channels"]], [False, True]
        )
