"""Tests of `forestlab picture watch`: what is read here is the page's table. What a node waits for, has and keeps after
each entry is in the stored page."""
import os
from unittest import mock

from forestplan.definitions.nodes import last_pulse
from forestplan.definitions.rounds import ColouringRounds
from forestplan.networks.network_text import network_in_bytes
from forestplan.pictures import watch_page
from forestplan.pictures.watch_page import ShownRun, Steps, steps_of_text
from forestplan.schedules.policies import Policy
from forestplan.schedules.simulate import AlphaPlayer, text_of_run
from tests.cases import example
from tests.pictures.base import PictureCase, transcript
from tests.pictures.marks import data_of


def fields_of(text):
    """Of each entry its stamp, its node, its kind and further words."""
    return [line.split(" ") for line in text.decode().splitlines()[1:]]


def stamps_of(wires):
    """The ends of some wires, with the stamps of their puts."""
    return sorted((v, w, stamp) for v, w, _, _, stamp, *_ in wires)


class Watch(PictureCase):
    def page(self, name, *texts, options=()):
        """The page of some runs of an example."""
        paths = [self.file(f"run{at}", text) for at, text in enumerate(texts)]
        return self.drawn("watch", example(name), *paths, *options)

    def test_pulses(self):
        """Of some pulses what is before them comes from the rows that aren't shown."""
        text = transcript(example("petersen"), "pulses")
        page = self.page("petersen", text)
        self.assertNotRegex(page, r"(src|href)=|https?://(?!www\.w3\.org/2000/svg)|@[A-Z]+@")
        (whole,) = data_of(page)["runs"]
        part = data_of(self.page("petersen", text, options=["--pulses", "3..5"]))
        (run,) = part["runs"]
        row = self.rows_of("pulses 3 to 5")
        shown = [run["looks"][run["rows"][at][2]]["pulse"] for at in (0, -1)]
        row("those shown", [part["pulses"], shown], [[3, 5], [3, 5]])
        first = [row[:2] for row in whole["rows"]].index(run["rows"][0][:2])
        before = {row[1]: whole["looks"][row[2]] for row in whole["rows"][:first]}
        row("what the nodes are before", run["start"], [before[v] for v in range(1, 11)])
        flying = [wire for wire in whole["wires"] if wire[3] < first <= wire[5]]
        on_their_way = [wire for wire in run["wires"] if wire[3] < 0]
        row("wires on their way", stamps_of(on_their_way), stamps_of(flying))

    def test_a_run_that_is_too_long_says_how_to_see_the_rest(self):
        text, most = transcript(example("triangle"), "long"), 100
        with mock.patch.object(watch_page, "MOST_ENTRIES", most):
            page = self.page("triangle", text)
        self.assertIn("at most 100 entries of a run; --pulses A..B shows other", page)
        self.assertLessEqual(len(data_of(page)["runs"][0]["rows"]), most)

    def test_channels(self):
        """A node has no channel before its turn in the first merge, and from then on that of the rounds."""
        for name in ("petersen", "triangle"):
            rounds = ColouringRounds(network_in_bytes(example(name)))
            wanted = {}
            for v in rounds.network.node_numbers:
                channel = 0
                for pulse in rounds.pulses:
                    channel = pulse.chosen.get(v, channel - 1) + 1
                    wanted[v, pulse.number] = channel
            (run,) = data_of(self.page(name, transcript(example(name), "channels")))["runs"]
            looks = [(row[1], run["looks"][row[2]]) for row in run["rows"]]
            found = {(v, look["pulse"]): look["found"] for v, look in looks if look["pulse"]}
            wanted = {at: channel for at, channel in wanted.items() if at[1]}
            self.same(name, found, wanted)

    def test_closes(self):
        """In its last pulse a node waits for the close of each neighbour whose it hasn't taken yet, and earlier for
        none."""
        text = transcript(example("petersen"), "closes")
        net = network_in_bytes(example("petersen"))
        (run,) = data_of(self.page("petersen", text))["runs"]
        lacks = {v: set(ws) for v, ws in net.neighbours.items()}
        wrong = []
        for entry, row in zip(fields_of(text), run["rows"]):
            v, look = int(entry[1]), run["looks"][row[2]]
            if entry[2] == "take" and entry[4] == "close":
                lacks[v].remove(int(entry[3]))
            waits = {w for what, w in look["waits"] if what == "close"}
            if waits != (lacks[v] if look["pulse"] == last_pulse(net) else set()):
                wrong.append((entry, waits))
        self.same("entries", len(run["rows"]), len(fields_of(text)))
        self.same("those with other waits", wrong, [])

    def test_run_of_a_player(self):
        """The steps of a player show what its transcript shows."""
        network = network_in_bytes(example("triangle"))
        player = AlphaPlayer(network)
        steps = Steps(player.state)
        for entry in player.entries(Policy("random", network.node_numbers, network.edges, "watch")):
            steps.add(entry)
        text = text_of_run(network, player.made)
        wanted = ShownRun("run", network, steps_of_text("run", network, text)).table()
        self.same("a player", ShownRun("run", network, steps.by_stamp()).table(), wanted)

    def test_same_rounds(self):
        """Two runs beside each other: a pulse of both is where a node makes it last."""
        net = network_in_bytes(example("petersen"))
        runs = [transcript(example("petersen"), f"two {k}") for k in "ab"]
        table, last = data_of(self.page("petersen", *runs)), last_pulse(net)
        self.assertEqual(table["same"], [True] * (last + 1))
        self.assertEqual(sum(map(len, table["sent"])), 269)
        for run, text in zip(table["runs"], runs):
            lines = enumerate(fields_of(text), 1)
            made = {int(line[3]): [int(line[0]), at] for at, line in lines if line[2] == "pulse"}
            self.same("when each pulse is made last", run["all"], [[0, 0], *made.values()])

    def test_names(self):
        """Two runs have different names on the page: those of their files, or with a number if these are the same."""
        text = transcript(example("triangle"), "names")
        same = [os.path.join(self.folder, name, "run") for name in "ab"]
        for path in same:
            os.makedirs(os.path.dirname(path))
            with open(path, "wb") as file:
                file.write(text)
        apart = [self.file(name, text) for name in ("one", "other")]
        for paths, wanted in ((apart, ["one", "other"]), (same, ["run (1)", "run (2)"])):
            table = data_of(self.drawn("watch", example("triangle"), *paths))
            self.same(f"{wanted}", [run["name"] for run in table["runs"]], wanted)

    def test_a_run_that_is_cut(self):
        """Of a text that ends early the last moment is its end."""
        text = transcript(example("triangle"), "cut")
        # One node alone has made pulse 5.
        cut = text[: text.index(b" pulse 5\n") + len(b" pulse 5\n")]
        page = self.page("triangle", cut, text)
        last = fields_of(cut)[-1]
        self.assertEqual(data_of(page)["runs"][0]["all"][5:], [[int(last[0]), len(fields_of(cut))]])
        self.assertIn("when the last of its nodes makes that pulse", page)
