"""The film of the rounds, read off its style sheet: when each message moves, from where to where, and which channel
each node has at which moment."""
import re
from xml.etree import ElementTree

from forestplan.definitions.colours import colours
from forestplan.networks.network_text import network_in_bytes
from tests.cases import example
from tests.pictures.base import BARRED, PictureCase
from tests.pictures.marks import SVG

# What a page may load for one picture.
MOST_BYTES = 300_000
# By hand: in a row of three all greetings (4) are followed by the labels (2), one up each edge, and by the two colours
# that go down to children, in each of the pulses 2 to 11.
ROW = example("path")


class Film(PictureCase):
    def film(self, network: bytes) -> tuple[str, ElementTree.Element]:
        text = self.drawn("film", network)
        return text, ElementTree.fromstring(text)

    def groups(self, root: ElementTree.Element, kind: str) -> list[tuple[str, ElementTree.Element]]:
        """What is shown at a time, or moves, with the name of its moments."""
        found = [(group.get("class", "").split(), group) for group in root.iter(SVG + "g")]
        return [(fields[1], group) for fields, group in found if fields[:1] == [kind]]

    def moments(self, text: str, name: str) -> list[tuple[float, str]]:
        """The steps of an animation: a part of the time, in percent, and what holds from then on."""
        sheet = re.search(rf"@keyframes {name}\{{((?:[^{{}}]*\{{[^{{}}]*\}})*)\}}", text)
        assert sheet, name
        return [
            (float(at.rstrip("%")), what)
            for many, what in re.findall(r"([\d.,%]+)\{([^}]*)\}", sheet[1])
            for at in many.split(",")
        ]

    def test_end(self):
        """At the end, and for who wants no motion, each node has the channel of its plan."""
        for name, network in (("petersen", example("petersen")), ("row", ROW), ("bars", BARRED)):
            net, (text, root) = network_in_bytes(network), self.film(network)
            last = [
                group
                for group in root.iter(SVG + "g")
                if group.get("class", "").endswith(" end")
                and group.find(f"{SVG}circle[@class='channel']") is not None
            ]
            shown = {}
            for group in last:
                texts = group.findall(f"{SVG}text")
                beside = next(one for one in texts if one.get("font-weight") != "bold")
                shown[int((beside.text or "").split()[0])] = int(texts[0].text or 0)
            self.same(name, shown, {v: colour + 1 for v, colour in colours(net).items()})
            self.assertIn(
                "@media(prefers-reduced-motion:reduce){.s,.m{animation:none}.s.end{opacity:1}}",
                text,
            )
            self.assertNotIn("<script", text)
            self.assertLess(len(text), MOST_BYTES)

    def test_one_at_a_time(self):
        """At the end only that is shown which is marked as the end; the rest has been hidden before."""
        text, root = self.film(ROW)
        for name, group in self.groups(root, "s"):
            is_end = group.get("class", "").endswith(" end")
            *_, (_, last) = self.moments(text, name)
            self.same(f"{name} at the end", last, "opacity:1" if is_end else "opacity:0")

    def test_messages(self):
        """In a row of three, by hand: 4 greetings, 2 labels, then a colour down each of the two edges in pulse 2 to 11,
        each from a node to its neighbour, and one pulse after the other."""
        text, root = self.film(ROW)
        moving = self.groups(root, "m")
        by_round: dict[str, list[str]] = {}
        for name, group in moving:
            by_round.setdefault(name, []).append(group.findtext(f"{SVG}title") or "")
        counts = [len(titles) for titles in by_round.values()]
        self.same("messages of the first rounds", counts[:12], [4, 2] + [2] * 10)
        begins = [self.moments(text, name)[1][0] for name in by_round]
        self.same("one after the other", begins, sorted(set(begins)))

    def test_ways(self):
        """Each message moves from its sender to its receiver."""
        _, root = self.film(example("triangle"))
        places = self.places(root)
        for _, group in self.groups(root, "m"):
            title = group.findtext(f"{SVG}title") or ""
            sender, receiver = map(int, re.findall(r"from (\d+) to (\d+)", title)[0])
            box = group.find(f"{SVG}rect")
            assert box is not None
            x = float(box.get("x", 0)) + float(box.get("width", 0)) / 2
            by = list(map(int, re.findall(r"--[xy]:(-?\d+)px", group.get("style", ""))))
            with self.subTest(title):
                self.assertAlmostEqual(x, places[sender][0], delta=0.2)
                self.assertAlmostEqual(x + by[0], places[receiver][0], delta=0.8)
                self.assertAlmostEqual(places[sender][1] + by[1], places[receiver][1], delta=0.8)

    def places(self, root: ElementTree.Element) -> dict[int, tuple[float, float]]:
        """Where the nodes are: a blank circle has its number in it."""
        found = {}
        for _, group in self.groups(root, "s"):
            circle, label = group.find(f"{SVG}circle[@class='blank']"), group.find(f"{SVG}text")
            if circle is not None and label is not None:
                place = float(circle.get("cx", 0)), float(circle.get("cy", 0))
                found[int(label.text or 0)] = place
        return found

    def test_refused(self):
        status, drawn, fault = self.called("film", b"p edge 41 0\n")
        said = (status, drawn) == (1, b"") and b"at most 40" in fault and b"player" in fault
        self.note("too many nodes", said, fault)
        complete = b"p edge 20 190\n" + b"".join(
            b"e %d %d\n" % (v, w) for v in range(1, 21) for w in range(v + 1, 21)
        )
        status, drawn, fault = self.called("film", complete)
        self.note(
            "too many messages",
            (status, drawn) == (1, b"") and b"a film has at most 1,000 messages" in fault,
            fault,
        )
