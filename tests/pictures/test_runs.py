"""Pictures of runs without a clock, read back: into the entries of their transcripts, and what those are by
src/forestplan/definitions/nodes.py."""
from itertools import product

from forestplan.definitions.nodes import last_pulse
from forestplan.faults import Fault
from forestplan.networks.network_text import network_in_bytes
from forestplan.pictures.run_picture import NAMES
from forestplan.pictures.transcripts import window_of
from tests import TOP
from tests.cases import example, said_by
from tests.pictures.base import PictureCase, transcript
from tests.pictures.marks import SVG, ends, marks, parsed, texts, title, texts_of
from tests.programs.made_transcripts import entries_of

WIRES = ("payload", "ack", "safe", "close")


def pulses(window):
    return ["--pulses", "{}..{}".format(*window)] if window else []


def begins_and_tip(group):
    """Where an arrow begins, and where its tip is."""
    return ends(group)[0], ends(group.find(f"{SVG}path"))[0]


def ticks_of(root):
    """Where the ticks of a row are, by the row's place."""
    ticks: dict[float, list[float]] = {}
    for (x, y), _ in map(ends, marks(root, "tick")):
        ticks.setdefault(y + 10, []).append(x)
    return dict(sorted(ticks.items()))


class Runs(PictureCase):
    def test_windows(self):
        """Of pulses 0 to 5 those that are asked for, if they are all there, or else as many of the first as usual."""
        for asked, wanted in (
            *((None, (0, 2)), ((1, 4), (1, 4)), ((0, 5), (0, 5)), ((2, 2), (2, 2))),
            *(((-1, 2), None), ((3, 2), None), ((0, 6), None)),
        ):
            with self.subTest(asked):
                if wanted:
                    self.assertEqual(window_of("two", 5, asked, 3), wanted)
                else:
                    self.assertRaises(Fault, window_of, "two", 5, asked, 3)

    def test_usual_window(self):
        """Of a run whose pulses aren't named the first three are drawn, and of a shorter one all."""
        shorter = ["--program", "layers"]
        rows: list[tuple[str, int, list[str]]] = [("two", 2, []), ("two", 1, shorter)]
        for name, last, options in rows:
            wrote = said_by("simulate", f"examples/{name}.col", *options, cwd=TOP)[1].encode()
            usual = self.drawn("run", example(name), *options, text=wrote)
            window = ["--pulses", f"0..{last}"]
            named = self.drawn("run", example(name), *options, *window, text=wrote)
            self.note(f"{name} {options}", usual == named, usual)

    def test_whole_runs(self):
        for name, seed in product(("two", "path", "chain6"), (1, 2)):
            text = transcript(example(name), seed)
            self.whole_run_rows(f"{name}, made {seed}", example(name), text)
        self.whole_run_rows("chain6_slow", example("chain6"), example("chain6_slow.transcript"))
        for seed in range(4):
            text = transcript(example("triangle"), seed)
            written = texts_of(parsed(self.drawn("run", example("triangle"), text=text)), "words")
            self.note(f"payloads of a triangle's run {seed} have their words", len(written) > 5)

    def whole_run_rows(self, name, network, text):
        """A run that is drawn whole is read back from left to right into its transcript. Its bars go from where a
        payload is taken to the tick that reads it."""
        last = last_pulse(network_in_bytes(network))
        options = [*pulses((0, last)), "--only", ",".join(WIRES)]
        picture = parsed(self.drawn("run", network, *options, text=text))
        (root,) = marks(picture, "upper")
        ticks = ticks_of(root)
        nodes = {y: v for v, y in enumerate(ticks, 1)}
        # Of each node what it does, from left to right.
        found = {
            v: [(x, f"pulse {p}") for p, x in enumerate(ticks[y])][1:] for y, v in nodes.items()
        }
        bars = []
        for group in marks(root, *WIRES):
            (x, y), tip = begins_and_tip(group)
            v, w, said = nodes[y], nodes[tip[1]], title(group).partition(": ")[2]
            found[v].append((x, f"put {w} {said}"))
            found[w].append((tip[0], f"take {v} {said}"))
            if said.startswith("payload"):
                bars.append((tip, (ticks[tip[1]][int(said.split()[1]) + 1], tip[1])))
        row, read = self.rows_of(f"run of {name}"), entries_of(text)
        entries = {v: [said for _, said in sorted(own)] for v, own in found.items()}
        wanted = {v: [" ".join(entry[1:]) for entry in own] for v, own in read.items()}
        row("its entries", entries, wanted)
        row("each payload is kept until it is read", [*map(ends, marks(root, "bar"))], bars)

    def test_legend(self):
        """It names the kinds of wires that are drawn, and no others."""
        for kinds in (["payload"], ["ack", "close"], ["safe"], list(NAMES)):
            text = transcript(example("two"), 1)
            root = parsed(self.drawn("run", example("two"), "--only", ",".join(kinds), text=text))
            named = [said for said in texts(root) if said in NAMES.values()]
            self.same(f"the legend of {kinds}", named, [NAMES[kind] for kind in kinds])
            head = " ".join(texts(root)[:2])
            in_head = [kind for kind in NAMES if f"{NAMES[kind]}s" in head]
            self.same(f"the heading of {kinds}", in_head, kinds if len(kinds) < len(NAMES) else [])

    def test_runs(self):
        """The lower half of some pulses is the same for each run."""
        for name in ("triangle", "petersen"):
            network, lower = example(name), set()
            options = pulses((2, 5)) + ["--only", "payload"]
            for seed in (1, 4):
                picture = self.drawn("run", network, *options, text=transcript(network, seed))
                lower.add(picture[picture.index('<g class="lower"') :])
            self.same(f"lower halves of {name}", len(lower), 1)
