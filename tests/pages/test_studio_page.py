"""The studio's page in a browser, if one is installed: a network is drawn with a real mouse, and each tab shows what
the definitions say. And what the page repeats of others."""
import glob
import json
import os
import re
import signal
import subprocess
import time
from collections.abc import Iterator

from forestplan.definitions.colours import colours
from forestplan.networks.network_text import network_in_bytes
from forestplan.pictures.palette import (
    CHANNEL_HUES,
    FOREST_COLOURS,
    INK,
    PALE,
    PAPER,
    WIRES,
    grey,
    text_on,
)
from tests import TOP, browser
from tests.cases import Case, complaints_of, said_by, text_in
from tests.programs.test_studio import begin
from tests.tools import need

EVIL = "<img src=x onerror=document.title='bad'></script><script>document.title='bad'</script>"
TABS = ("rounds", "run", "adversary", "check", "pictures")
# Keeps each picture that the page makes.
KEEP = """(() => { const make = URL.createObjectURL.bind(URL); window.kept = [];
  URL.createObjectURL = blob => { kept.push(blob); return make(blob); }; })()"""
VIRTUAL = {"Enter": 13, " ": 32, "Delete": 46}
SHOWN = (
    "example=barred&tab=draw&node=3",
    "example=petersen&tab=rounds&at=15",
    "example=petersen&tab=run&seed=7&at=8.5&other=newest.2",
    "example=triangle&tab=adversary&slow=1-3&dare=apart",
    "example=petersen&tab=check&plan=1_1",
    "example=petersen&tab=pictures&kind=rounds",
    "lesson=1&step=3",
    "lesson=3&step=2",
    "lesson=6&step=3",
    "lesson=8",
    "lecture=4",
)
# The controls above the network, below it, and in cards that are cut off, or lie over another one.
UNSEEN = """(() => { const all = Array.from(document.querySelectorAll(
  'nav button, .tools > *, #time > *, #lesson :is(button, input, summary), #dared button'))
    .map(one => [one.id || one.textContent, one.getBoundingClientRect(), one]).filter(one => one[1].width > 2);
  const over = (a, b) => Math.min(a.right, b.right) - Math.max(a.left, b.left) > 1
    && Math.min(a.bottom, b.bottom) - Math.max(a.top, b.top) > 1;
  return all.filter(([, box, it]) => box.left < 0 || box.right > innerWidth + 1 || it.scrollWidth > it.clientWidth + 1
    || all.some(other => other[2] !== it && over(box, other[1]))).map(one => one[0]); })()"""
# Whether each node and each edge is drawn at its place.
DRAWN = """Array.from(document.querySelectorAll('#net .node circle:last-of-type'), (one, k) =>
    Math.abs(one.cx.baseVal.value - studio.stage.X(k + 1)) < 1).every(Boolean)
  && Array.from(document.querySelectorAll('#net [data-edge]'), one => { const [a, b] = one.dataset.edge.split('-'),
    end = one.getPointAtLength(one.getTotalLength()); return Math.hypot(end.x - studio.stage.X(+b),
    end.y - studio.stage.Y(+b)) < 1 && one.getPointAtLength(0).x - studio.stage.X(+a) < 1; }).every(Boolean)"""
# What nodes find in the triangle, whose plan is 2 3 1, once a field is changed. In the first pass node 2 chooses first,
# then 1, then 3. In the second the odd channels are first, and so it is 3, then 2, then 1.
FOUND = [
    (
        "program4",
        "recolouring",
        ["channel 2", "channel 1, was channel 3", "channel 3, was channel 1"],
    ),
    ("passes", "2", ["channel 3, was channel 2", "channel 2, was channel 3", "channel 1"]),
]


def contrast(one, other):
    """Of two colours, by WCAG 2."""
    lights = []
    for colour in (one, other):
        parts = [int(colour[at : at + 2], 16) / 255 for at in (1, 3, 5)]
        red, green, blue = (
            x / 12.92 if x <= 0.04045 else ((x + 0.055) / 1.055) ** 2.4 for x in parts
        )
        lights.append(0.2126 * red + 0.7152 * green + 0.0722 * blue + 0.05)
    return max(lights) / min(lights)


def rows_of_the_palette() -> Iterator[tuple[str, str, float]]:
    """A colour, what it is on, and the least contrast."""
    for hue in CHANNEL_HUES + FOREST_COLOURS:
        yield text_on(hue), hue, 4.5
    for digits in range(24):
        fill, ink = grey(1 << digits)
        yield ink, fill, 4.5
    for pale in PALE.values():
        yield INK, pale, 4.5
    for kind in ("payload", "ack", "safe"):
        yield WIRES[kind], PAPER, 3


def rows_of_a_look(variables: str) -> Iterator[tuple[str, str, float]]:
    """The same, of the page's variables in the light or in the dark."""
    here = dict(re.findall(r"--(\w+):(#\w+)", variables))
    grounds = [here.pop("paper"), here.pop("panel")]
    del here["hair"]
    yield here["ink"], here.pop("chosen"), 4.5
    card = here.pop("card")
    # The fills of nodes, whose rims are of ink.
    for name in ("safe", "done"):
        yield here["ink"], here.pop(name), 4.5
    for name in ("ink", "soft", "wrong", "good", "accent"):
        yield here[name], card, 4.5
    for name, hue in here.items():
        for ground in grounds:
            yield hue, ground, 4.5 if name in ("ink", "soft", "wrong", "good") else 3
    for kind in WIRES:
        rim = max(WIRES[kind], PALE[kind], key=lambda hue: contrast(hue, grounds[0]))
        yield rim, grounds[0], 3


class Repeated(Case):
    def test_contrast(self):
        """Text has a contrast of 4.5, a mark (a fill by its rim) one of 3, in the light and in the dark."""
        looks = re.findall(
            r":root\{(.*?)\}", text_in("src/forestplan/pictures/page/page.css"), re.S
        )
        self.note("a light and a dark look", len(looks) == 2)
        rows = [*rows_of_the_palette(), *(row for look in looks for row in rows_of_a_look(look))]
        for one, other, least in rows:
            self.note(f"{one} on {other}", contrast(one, other) >= least, contrast(one, other))

    def test_names_in_the_page(self):
        """Each element that the modules ask for by its name is in the page."""
        folder = os.path.join(TOP, "src", "forestplan", "studio", "page")
        there = set(re.findall(r'\bid="(\w+)"', text_in(folder, "page.html")))
        for name in glob.glob("*.js", root_dir=folder):
            asked = set(re.findall(r'\bby\("(\w+)"\)', text_in(folder, name)))
            self.note(name, asked <= there, asked - there)


class Page(Case):
    """A studio and a browser for all tests of a class; `words` are those of its command."""

    arguments: tuple[str, ...] = ()
    process: subprocess.Popen[str]
    address: str
    page: browser.Browser

    @classmethod
    def setUpClass(cls):
        program = browser.command()
        if program is None:
            return
        cls.process, cls.address = begin(*cls.arguments)
        cls.addClassCleanup(cls.end_server)
        cls.page = browser.Browser(program)
        cls.addClassCleanup(cls.page.end)
        cls.page.size(1280, 800)
        cls.page.go(cls.address)
        cls.page.until("window.studio && studio.seen.hello && studio.rounds.film", 60)

    @classmethod
    def end_server(cls):
        cls.process.send_signal(signal.SIGINT)
        cls.process.wait(20)
        complaints_of(cls.process).close()

    def setUp(self):
        need(self, "a browser")
        self.value, self.click_on = self.page.value, self.page.click_on

    def go_to(self, address):
        """Has the page follow an address, and waits until it has. Chromium ignores a change of the address after some
        200 in ten seconds, so it is made again until it is taken."""
        place = json.dumps(address)
        self.page.until(
            "(() => { const link = document.createElement('a'); link.href = location.href; "
            f"link.hash = {place}; location.hash = {place}; return location.hash === link.hash; }})()"
        )
        self.page.until("!studio.isFollowing()", 40)

    def at(self, place):
        """A place of the stage in the window: that of a node, or the middle of an edge."""
        found = (
            f"[studio.stage.X({place}), studio.stage.Y({place})]"
            if isinstance(place, int)
            else (f"studio.stage.along({place[0]}, {place[1]}, 0.5)")
        )
        return self.value(
            "(() => { const b = document.getElementById('net').getBoundingClientRect(), p = "
            f"{found}; return [b.x + p[0], b.y + p[1]]; }})()"
        )

    def click(self, place):
        self.page.click(*self.at(place))

    def leave_out(self, boxes, rule):
        """Clicks the box of a rule: it is left out, or no more."""
        self.value(f"document.querySelector('#{boxes} [value={rule}]').click()")

    def reads(self, name, code, wanted):
        """The row of a value on the page."""
        self.same(name, self.value(code), wanted)

    def sees(self, name, code, seconds=40):
        self.note(name, self.page.until(code, seconds), self.page.text("wrong"))


class Drawn(Page):
    def test_welcome(self):
        """The rounds of a small network play before the first click: few sentences, each for a while, of which the last
        one says what has been reached. What isn't needed isn't there."""
        self.page.go("about:blank")
        self.page.go(self.address)
        self.sees("it plays", "window.studio && studio.time.at > 2")
        self.value(
            "window.told = []; new MutationObserver(() => told.push(story.textContent))"
            ".observe(story, {childList: true, characterData: true, subtree: true})"
        )
        self.sees("to the end", "studio.time.at === 48 && !studio.time.timer", 90)
        said = self.value("story.textContent")
        used = self.value("new Set(Object.values(studio.rounds.film.merged[48])).size")
        self.note("it ends in a sentence", said.startswith(f"Done: {used} channels"), said)
        self.note("after few others", len(self.value("told")) <= 4, self.value("told"))
        for name in ("side", "time", "zoom", "hint", "unproved"):
            shown = f"document.getElementById('{name}').getClientRects().length"
            self.reads(f"without {name}", shown, 0)
        self.reads("one primary action", "document.querySelectorAll('.primary').length", 1)
        self.click_on("#replay")
        self.sees("it plays again", "studio.time.timer && studio.time.at < 40")
        for number, wanted in (
            (2, "studio.seen.tab === 'draw' && !studio.net.nodes.length"),
            (1, "studio.seen.lesson === 1"),
        ):
            self.value(f"document.querySelectorAll('#welcome a')[{number - 1}].click()")
            self.sees(f"button {number}", wanted)
            self.reads("without the buttons", "document.getElementById('welcome').hidden", True)
            self.reads("and steadily", "studio.time.speed.value", "1")
        self.value("document.querySelector('h1 a').click()")
        self.sees("the first screen again", "!document.getElementById('welcome').hidden")
        self.sees("is there", "studio.rounds.film && studio.seen.tab === 'rounds'")
        time.sleep(1)
        self.click(1)
        self.sees("a click on a node says why", "why.textContent.includes('why node 1')")
        self.reads("beside it", "side.getClientRects().length", 1)

    def test_changes(self):
        """A button, and what plays, leave out the pulses in which nothing happens."""
        self.go_to("example=petersen&tab=rounds&at=13")
        self.sees("a place", "document.getElementById('when').textContent === 'pulse 13 of 48'")
        for wanted in (17, 25, 26):
            self.click_on("#change")
            self.reads("the next change", "studio.time.at", wanted)
        idle = "studio.rounds.film.found.pulses.slice(18, 25).map(one => one.puts.length)"
        self.reads("nothing is sent between", idle, [0] * 7)
        self.value("studio.time.set(17.99); studio.time.toggle()")
        self.sees("played past", "studio.time.at >= 25")
        self.note("and soon", self.value("studio.time.at") < 27)
        self.value("studio.time.stop()")

    def test_question(self):
        """A prediction is judged with the reason, and then looked at; a dare goes with the steps."""
        self.go_to("example=petersen&tab=rounds&at=2&forest=0&node=8&predict=1")
        self.sees("a question", "document.querySelector('#question input')")
        answer = "document.querySelector('#question input').value = {}; "
        answer += "document.querySelector('#question form').requestSubmit()"
        for said, mark in (("3", "Not yet: it isn’t 3."), ("2", "✓ Yes: 2.")):
            self.value(answer.format(said))
            self.sees(mark, f"document.getElementById('question').textContent.includes('{mark}')")
        self.click_on("#question .quiet")
        self.sees("looked at", "studio.time.at === 3")
        self.sees(
            "the next one", "document.getElementById('question').textContent.includes('pulse 4')"
        )
        self.go_to("example=path&tab=adversary&dare=ends&lazy=1")
        self.sees("a dare", "document.getElementById('dared').textContent.startsWith('☐')")
        self.sees("what is possible", "!document.getElementById('chance20').disabled")
        self.click_on("#chance20")
        self.sees("on the way", "studio.steps.made.length")
        for _ in range(3):
            self.value("document.getElementById('chance20').click()")
            time.sleep(1)
        self.sees("is won", "document.getElementById('dared').textContent.startsWith('☑')")
        self.sees("its steps are in the address", "/steps=.*dare=ends/.test(location.hash)")

    def test_saves(self):
        """What is saved: the network, its run, and pages that play without a server."""
        self.value(KEEP)
        self.go_to("example=two&tab=run&seed=3")
        self.sees(
            "a run", "studio.run.found && studio.run.found.judge && studio.net.nodes.length === 2"
        )
        for what, button in (
            ("network", "e 1 2"),
            ("transcript", "transcript 2 2"),
            ("rounds", "pulse by pulse"),
            ("run", "a run without a clock"),
        ):
            self.value("kept.length = 0")
            self.page.choose("save", what)
            self.sees(f"{what} is saved", "kept.length")
            saved = self.value("kept[0].text()")
            self.note(f"{what} is itself", button in saved, saved[:200])
            if what in ("rounds", "run"):
                self.note("it needs no server", not re.search(r'src="|href="(?!data:)', saved))
                self.file(what + ".html", saved)
        for what in ("rounds", "run"):
            self.page.go(f"file://{self.folder}/{what}.html#pulse-3")
            self.sees(f"{what}: two nodes", "document.querySelectorAll('#net .node').length === 2")
            self.sees(f"{what}: at its place", "time.at >= 3")
            self.click_on("#play")
            self.sees(f"{what}: it plays", "time.at > 5")
            self.page.size(360, 780, True)
            wide = self.value("document.documentElement.scrollWidth")
            self.note(f"{what}: no wider than a phone", wide <= 360, wide)
            self.page.size(1280, 800)
        self.page.go(self.address)
        self.sees("the studio again", "window.studio && studio.rounds.film")

    def test_labels(self):
        """No label covers another one or another node where there is room, on a desk and on a phone on its side."""
        covered = """(() => { const box = e => e.getBoundingClientRect(), hit = (a, b) =>
            Math.min(a.right, b.right) - Math.max(a.left, b.left) > 1
            && Math.min(a.bottom, b.bottom) - Math.max(a.top, b.top) > 3;
          const nodes = Array.from(document.querySelectorAll('#net .node'));
          const said = nodes.map(n => box(n.querySelector('text:last-of-type')));
          const rounds = nodes.map(n => box(n.querySelector('circle')));
          return said.flatMap((a, v) => said.concat(rounds).filter((b, w) =>
            w !== v && w !== v + nodes.length && hit(a, b))).length; })()"""
        for name, sizes in (
            ("petersen", ((1280, 800), (844, 390))),
            ("chain6", ((1280, 800), (844, 390))),
            ("disk100", ((1440, 900), (1280, 800))),
        ):
            self.go_to(f"example={name}&tab=draw")
            self.sees(name, f"studio.net.example === '{name}' && studio.drawn.plan")
            for wide, high in sizes:
                self.page.size(wide, high)
                time.sleep(0.5)
                self.reads(f"labels of {name} at {wide}", covered, 0)
        self.page.size(1280, 800)

    def test_words(self):
        """What a screen reader is told of a node, and the arrows between the tabs."""
        label = "document.querySelector('#net [data-node=\"1\"]').getAttribute('aria-label')"
        for text, wanted in (
            ("example=two&tab=draw", "node 1: channel 1, neighbours 2"),
            ("example=two&tab=rounds&at=3&forest=0", "node 1: pulse 3, colour 1 in forest 0"),
            ("example=two&tab=rounds&at=18", "node 1: pulse 18, channel 1"),
            ("example=two&tab=adversary", "node 1: pulse 0, waits for ack of 2; safe of 2"),
            ("example=two&tab=check&plan=0_2", "node 1: no channel"),
            ("example=path&tab=rounds&program=layers&root=3&at=2", "node 1: pulse 2, layer 2 by 0"),
            ("net=0.0_90.0~1-2~n1-%E2%80%AEabc&tab=check", "node 1 \ufffdabc: no channel"),
        ):
            self.go_to(text)
            self.sees(text, f"{label} === {json.dumps(wanted)}")
        self.value("document.querySelector('[data-tab=draw]').focus()")
        self.page.key("ArrowLeft", code="ArrowLeft", windowsVirtualKeyCode=37)
        self.sees("an arrow from the first tab to the last", "studio.seen.tab === 'pictures'")

    def test_keys(self):
        """With keys alone nodes are added, joined and parted, and an edge is chosen and removed."""
        self.go_to("tab=draw")
        self.value("document.getElementById('clear').click()")
        for _ in range(3):
            self.page.key("a", text="a")
        for one, key, edges, chosen in (
            ("node='1'", "Enter", "", "Node 1"),
            ("node='2'", "Enter", "1,2", ""),
            ("node='3'", "Enter", "1,2", "Node 3"),
            ("node='2'", " ", "1,2,2,3", ""),
            ("node='1'", " ", "1,2,2,3", "Node 1"),
            ("node='2'", "Enter", "2,3", ""),
            ("edge='2-3'", "Enter", "2,3", "Edge 2 – 3"),
            ("edge='2-3'", "Delete", "", ""),
        ):
            self.value(f'document.querySelector("#net [data-{one}]").focus()')
            self.page.key(key, code=key, windowsVirtualKeyCode=VIRTUAL[key])
            found = self.value("studio.net.edges.join()"), self.page.text("chosen")
            name = f"{key} on {one}"
            self.note(name, found[0] == edges and found[1].startswith(chosen), found)
        self.page.size(360, 780, True)
        self.value("document.getElementById('clear').click(); scrollTo(0, 0)")
        for x, y in ((100, 250), (250, 250)):
            self.page.tap(x, y)
        self.page.tap(*self.at(1))
        self.page.tap(*self.at(2))
        self.reads("taps add and join", "studio.net.edges.join()", "1,2")
        self.page.size(1280, 800)
        self.page.tap(*self.at(1))
        self.value("document.querySelector('#chosen input').focus()")
        for text in ("Oslo", "77"):
            self.page.ask("Input.insertText", text=text)
            self.page.key("Tab", code="Tab", windowsVirtualKeyCode=9)
        named = "studio.net.nodes[0].name + studio.net.nodes[0].id"
        self.sees("Tab goes from field to field", f"{named} === 'Oslo77'")

    def test_widths(self):
        """Nothing is cut off or covered on a phone, on its side, and at 400 %."""
        for address in SHOWN:
            self.go_to(address)
            self.sees(address, "document.getElementById('busy').hidden && studio.net.nodes.length")
            for wide, high in ((360, 740), (740, 360), (320, 256), (1280, 800)):
                self.page.size(wide, high, wide == 360 or high == 360)
                time.sleep(0.4)
                self.reads(f"{address} at {wide}", UNSEEN, [])
                shown = self.value("document.documentElement.scrollWidth")
                self.note(f"{address} at {wide}: no wider", shown <= wide, shown)

    def test_token(self):
        """A token counts when the server has taken it: a link with a wrong one harms no later one."""
        place = self.address.partition("?")[0]
        for name, address in (
            ("with a wrong token", f"{place}?token=wrong#example=two"),
            ("after it", f"{place}#example=petersen"),
        ):
            self.page.go("about:blank")
            self.page.go(address)
            self.sees(f"a link {name}", "window.studio && studio.net.nodes.length > 1")
        # What the browser itself notes of the wrong one.
        self.page.faults = [fault for fault in self.page.faults if "403" not in fault]

    def test_back(self):
        """The browser's Back restores the place, the node and what waits."""
        self.go_to("example=chain6&tab=run&seed=7&at=50&slow=2-3&node=4")
        self.sees("a run", "studio.run.found && studio.run.found.judge && studio.time.at === 50")
        self.click_on("[data-tab=rounds]")
        self.sees("its rounds", "studio.seen.tab === 'rounds' && studio.time.at === 0")
        self.value("history.back()")
        self.sees("Back to the run", "studio.seen.tab === 'run' && studio.time.at === 50")
        self.reads(
            "with what waits and the node",
            "[studio.seen.slow.join(), studio.seen.node]",
            ["2,3", 4],
        )
        self.go_to("net=0.0_90.0_90.90~1-2_2-3&tab=draw")
        self.sees("a drawing", "studio.net.nodes.length === 3")
        self.click_on("[data-tab=check]")
        self.sees("its check", "studio.seen.tab === 'check'")
        self.value("history.back()")
        self.sees("Back to the drawing", "studio.seen.tab === 'draw'")
        self.reads("nothing was replaced", "hint.textContent.includes('Undo')", False)

    def test_numbers(self):
        """What waits, and the typed plan, keep their nodes when one is deleted, and when that is undone."""
        self.go_to("example=chain6&tab=check&plan=1_2_1_2_1_2")
        self.sees("a plan", "studio.check.verdict && studio.check.verdict.ok")
        numbers = "JSON.stringify([studio.seen.slow, studio.seen.lazy, studio.check.plan])"
        self.value("Object.assign(studio.seen, {slow: [[5, 6]], lazy: [1, 4], node: null})")
        self.click_on("[data-tab=draw]")
        self.click(1)
        self.click_on("#delete")
        self.reads("without node 1", numbers, "[[[4,5]],[3],[2,1,2,1,2]]")
        self.click_on("#undo")
        self.reads("undone", numbers, "[[[5,6]],[4],[0,2,1,2,1,2]]")
        self.click_on("#redo")
        self.reads("and done again", numbers, "[[[4,5]],[3],[2,1,2,1,2]]")

    def test_make(self):
        """The form takes what the server makes."""
        self.go_to("tab=draw")
        for sizes, is_made in (
            ((30, 420, 1000), True),
            ((401, 12, 1), False),
            (("", 12, 1), False),
        ):
            fields = dict(zip(("nodes", "edges", "seed"), sizes))
            self.value(
                f"Object.entries({json.dumps(fields)}).forEach(([name, value]) => "
                "{ document.querySelector(`#make [name=${name}]`).value = value; })"
            )
            self.reads(f"sizes {sizes}", "make.checkValidity()", is_made)
            if is_made:
                self.click_on("#make button")
                self.sees("it is there", f"studio.net.edges.length === {sizes[1]}")

    def test_draw(self):
        """Four clicks, four edges, the plan, a drag and its undo, and a link."""
        self.go_to("tab=draw")
        self.value("document.getElementById('clear').click()")
        for x, y in ((300, 250), (600, 250), (450, 500), (200, 450)):
            self.page.click(x, y)
        for v, w in ((1, 2), (2, 3), (1, 3), (3, 4)):
            self.click(v)
            self.click(w)
        self.reads("two clicks, an edge", "studio.net.edges.join()", "1,2,1,3,2,3,3,4")
        self.sees("the plan is there", "studio.drawn.fresh && studio.drawn.plan.plan.length === 4")
        plan = self.value("studio.drawn.plan.plan")
        text = self.value("document.getElementById('text').value")
        wanted = [
            colour + 1 for _, colour in sorted(colours(network_in_bytes(text.encode())).items())
        ]
        self.note("it is that of the definitions", plan == wanted, plan)
        at, place = self.at(4), "studio.net.nodes[3].x"
        before = self.value(place)
        self.page.mouse("mousePressed", *at)
        for by in (20, 40):
            self.page.mouse("mouseMoved", at[0] + by, at[1])
        self.note("a drag moves a node", self.value(place) > before)
        self.reads("all is drawn where it is", DRAWN, True)
        self.page.key("+", text="+")
        self.reads("when it is drawn for another reason, too", DRAWN, True)
        self.page.mouse("mouseReleased", at[0] + 40, at[1])
        self.reads("and when it is let go", DRAWN, True)
        self.page.key("z", code="KeyZ", modifiers=2, windowsVirtualKeyCode=90)
        self.reads("undo takes a drag back in one step", place, before)
        self.dropped_on_another()
        self.click_on("#zoomfit")
        self.click((3, 4))
        self.reads("an edge is chosen", "studio.seen.edge", [3, 4])
        self.sees("the address has the network", "/net=.*~1-2_1-3_2-3_3-4&/.test(location.hash)")
        address = self.value("location.href")
        self.note("and no token", "token" not in address, address)
        self.page.go("about:blank")
        self.page.go(address)
        self.sees("a link shows the network", "window.studio && studio.net.edges.length === 4")

    def dropped_on_another(self):
        """A node that is let go on another one goes aside, and the drawing stays as large as it is."""
        radius = self.value("studio.stage.radius")
        here, there, before = self.at(1), self.at(3), self.value("studio.net.nodes[0].x")
        self.page.mouse("mousePressed", *here)
        for part in (0.3, 0.7, 1):
            self.page.mouse("mouseMoved", *(a + part * (b - a) for a, b in zip(here, there)))
        # Longer than it takes until it is asked how the network is drawn.
        time.sleep(0.4)
        self.page.mouse("mouseReleased", *there)
        self.sees("as large as before", f"studio.stage.radius > {radius} - 1", 10)
        away = "Math.hypot(studio.stage.X(1) - studio.stage.X(3), studio.stage.Y(1) - studio.stage.Y(3))"
        self.sees("beside the other one", f"{away} > 2 * {radius}", 10)
        self.value("document.getElementById('undo').click()")
        self.sees("one step back", f"studio.net.nodes[0].x === {before}", 10)

    def test_rounds(self):
        self.go_to("example=petersen&tab=rounds&at=4&forest=0")
        self.sees(
            "squares at a bit step", "document.querySelectorAll('#net .node rect').length === 10"
        )
        self.click(6)
        self.sees(
            "why, as picture why says it",
            "document.getElementById('why').textContent.includes('29 of 269')",
        )
        self.click_on("#next")
        self.reads("one step on", "studio.time.at", 5)
        self.leave_out("without2", "digit")
        self.sees(
            "without a rule",
            "document.getElementById('broken').textContent.includes('both have colour')",
        )
        self.reads("nothing is said of the rounds with all rules", "allrules.hidden", True)
        self.leave_out("without2", "root")
        self.sees(
            "without two rules",
            "document.querySelector('#picture img[alt=\"without digit,root\"]') && "
            "location.hash.includes('broken=digit,root')",
        )

    def test_rules_of_other_programs(self):
        """The rules that can be left out are those of the chosen program, and what goes wrong is drawn."""
        rules = "Array.from(document.querySelectorAll('#without2 input'), one => one.value).join()"
        self.go_to("example=path&tab=rounds&program=matching")
        self.sees("its rules", f"{rules} === 'partner,last'")
        self.leave_out("without2", "partner")
        self.sees(
            "what goes wrong",
            "document.getElementById('broken').textContent.includes('partner of node 1 is 2')",
        )
        self.sees(
            "a picture of it", "document.querySelector('#picture img[alt=\"without partner\"]')"
        )
        self.sees(
            "the address has the rule", "/program=matching.*broken=partner/.test(location.hash)"
        )
        self.leave_out("without2", "partner")
        self.leave_out("without2", "last")
        self.sees(
            "what goes right",
            "document.getElementById('broken').textContent.includes('1,094 networks')",
        )
        self.sees(
            "has no picture",
            "document.getElementById('picture').hidden && document.querySelector('#net .node')",
        )
        self.page.choose("program2", "recolouring")
        self.sees("rules of another program", f"{rules} === 'bars,anew' && !studio.rounds.without")
        self.page.choose("program2", "leader")
        self.sees("which may have none", "document.getElementById('rules2').hidden")
        self.go_to("example=two&tab=rounds&program=recolouring&broken=bars")
        self.sees(
            "as the address says",
            "document.getElementById('broken').textContent.includes('smallest network')",
        )
        self.click_on("#broken button")
        self.sees("the smallest network, with its bar", "studio.net.nodes[0].bars.join() === '1'")

    def test_run(self):
        self.go_to("example=chain6&tab=run&slow=2-3&seed=7")
        self.sees(
            "a run is accepted",
            "document.getElementById('judge').textContent.includes('accepts its 866')",
        )
        self.sees("the same as the rounds", "same.textContent.includes('✓')")
        self.value(
            "window.real = fetch; window.fetch = (to, ...more) => to.includes('replay') "
            "? Promise.resolve(new Response('no judge', {status: 500})) : real(to, ...more)"
        )
        self.page.choose("slider", "60")
        self.sees(
            "a judge that fails", "document.getElementById('wrong').textContent === 'no judge'"
        )
        self.value("window.fetch = real")
        self.page.choose("slider", "120")
        self.sees(
            "judged up to here", "document.getElementById('judgehere').textContent.startsWith('✓')"
        )
        self.reads("takes its line back", "wrong.textContent", "")
        self.click_on("#play")
        self.sees("what is said of another place goes", "!judgehere.textContent")
        self.click_on("#play")
        self.click((4, 5))
        self.sees("a click makes a link wait", "studio.seen.slow.length === 2")
        self.go_to("example=chain6&tab=run&seed=7&other=newest.2&at=5")
        self.sees("another order beside", "document.querySelectorAll('#second .node').length === 6")
        for name in ("judge2", "same2"):
            said = f"{name}.textContent.startsWith('Second run: ✓')"
            self.sees(f"the verdict {name} on it", said)
        self.sees(
            "rows of both", "document.getElementById('now').textContent.includes('second, stamp')"
        )
        self.click_on("[data-tab=draw]")
        self.sees("the stage is whole again", "studio.stage.high > stage.clientHeight - 40")

    def test_steps(self):
        """The adversary: a message that is clicked is taken, a held link holds, and No clock plays the rest."""
        self.go_to("example=triangle&tab=adversary")
        self.sees("six messages", "document.querySelectorAll('#net [data-step]').length === 6")
        self.click_on("#net [data-step='2-1']")
        self.sees("a message is taken", "studio.steps.made.join() === '2-1'")
        self.sees("it is in the address", "location.hash.includes('steps=2-1')")
        self.click((1, 3))
        self.sees("a link is held", "!document.querySelector('#net [data-step=\"3-1\"]')")
        self.click_on("#chance20")
        self.sees(
            "by chance, as far as can be",
            "studio.steps.made.length > 2 && document.getElementById('stepsaid')"
            ".textContent.includes('✓')",
        )
        self.click_on("#handover")
        self.sees(
            "No clock plays the rest",
            "studio.seen.tab === 'run' && document.getElementById('judge').textContent"
            ".startsWith('✓')",
        )
        self.reads("with these steps first", "studio.run.steps.length > 2", True)
        self.go_to("example=triangle&tab=adversary&node=1")
        self.sees(
            "all of it again",
            "!studio.steps.made.length && document.querySelector('#possible button')",
        )
        self.value("window.often = setInterval(() => document.getElementById('chance').click(), 2)")
        self.sees("a key that is held makes steps", "studio.steps.made.length > 3")
        self.value("clearInterval(often)")
        self.go_to("example=two&tab=adversary&without=acks,fifo&steps=1-2")
        self.sees(
            "two rules left out",
            "/says safe at once.*may overtake/.test(document.getElementById('rule').textContent)",
        )
        self.leave_out("without", "acks")
        self.sees(
            "one of them again", "studio.steps.without === 'fifo' && !studio.steps.made.length"
        )

    def picture(self, kind, does, *arguments):
        """The picture that is on the page after something is done."""
        self.value("kept.length = 0")
        does(*arguments)
        is_there = f"kept.length && document.querySelector('#picture img[alt={kind}]')"
        self.sees(f"{kind} after {' '.join(arguments)}", is_there)
        return self.value("kept.length ? kept[0].text() : ''")

    def test_pictures(self):
        """Of the chosen program with its passes: what nodes have found, and a run, which ends at pulse 30 + 3 · 2."""
        self.value(KEEP)
        self.go_to("example=two&tab=pictures&kind=plan")
        self.sees(
            "a plan has no program",
            "document.querySelector('#picture img[alt=plan]') && "
            "document.getElementById('ofprogram').hidden",
        )
        self.picture("results", self.go_to, "example=triangle&tab=pictures&kind=results")
        for field, value, wanted in FOUND:
            shown = self.picture("results", self.page.choose, field, value)
            found = re.findall(r"<title>node \d+: (.*?)</title>", shown)
            self.note(f"what nodes find with {field} {value}", found == wanted, found)
        address = "/program=recolouring.*passes=2/.test(location.hash)"
        self.sees("the address has the passes", address)
        shown = self.picture("run", self.click_on, "#kinds [data-kind=run]")
        self.note("the run has them", " of 36" in shown, shown[:400])
        self.go_to("example=triangle&tab=pictures&kind=results&program=recolouring&passes=3")
        self.sees("as the address says", "document.getElementById('passes').value === '3'")

    def test_check(self):
        self.go_to("example=petersen&tab=check&plan=1_1")
        self.sees(
            "an unfinished plan",
            "studio.check.verdict && studio.check.verdict.said === 'C1 vertex 3'",
        )
        self.click_on("#take")
        self.sees("the plan is proper", "studio.check.verdict && studio.check.verdict.ok")
        wanted = self.value("studio.check.plan[1]")
        while self.value("studio.check.plan[0]") != wanted:
            self.click(1)
        self.sees("a clash", "studio.check.verdict && studio.check.verdict.code === 'C4'")
        self.go_to("example=two&tab=check")
        self.sees("two nodes", "studio.net.nodes.length === 2 && studio.check.verdict")
        text = said_by("simulate", "two")[1]
        for changed, said in (
            (text.replace("ack 3", "ack 4", 1), "WrongWire"),
            (text, "whole run"),
        ):
            self.page.choose("transcript", changed)
            self.click_on("#judged")
            self.sees(said, f"document.getElementById('judgement').textContent.includes('{said}')")
        self.click_on("#watchit")
        self.sees("it is watched", "judge.textContent.startsWith('✓') && studio.run.transcript")

    def test_files(self):
        """A file that is dropped is read, and what it doesn't say is asked."""
        self.go_to("tab=draw")
        for name, text, seen in (
            ("x.col", "p edge 2 1\ne 1 3\n", "document.body.textContent.includes('(F5)')"),
            ("x.txt", "a,b\nOslo,Ulm\nUlm,Rom\n", "!document.getElementById('unsaid').hidden"),
        ):
            self.value(
                f"(() => {{ const d = new DataTransfer(); d.items.add(new File([{json.dumps(text)}], "
                f"'{name}')); document.dispatchEvent(new DragEvent('drop', {{dataTransfer: d, "
                "cancelable: true})); })()"
            )
            self.sees(name, seen)
        self.click_on("#unsaidchoices button")
        self.sees(
            "its columns", "document.getElementById('unsaidwhat').textContent.match('heading')"
        )
        self.click_on("#unsaidchoices button")
        self.sees(
            "which are stated", "studio.net.nodes.map(one => one.name).join() === 'Oslo,Ulm,Rom'"
        )
        self.reads("and no longer asked", "unsaid.hidden", True)

    def test_cancel(self):
        """A call that takes long is ended by its button."""
        self.go_to("example=two&tab=draw")
        at_rest = "studio.drawn.plan && document.getElementById('busy').hidden"
        self.sees("two nodes, at rest", f"studio.net.nodes.length === 2 && {at_rest}")
        self.value(
            "window.real = fetch; window.fetch = (to, {signal}) => new Promise((_, end) => "
            "signal.addEventListener('abort', () => { window.ended = true; end(signal.reason); }))"
        )
        self.click_on("#tidy")
        self.sees("it is under way", "!document.getElementById('busy').hidden")
        self.click_on("#busy button")
        self.sees("it ends", "window.ended && document.getElementById('busy').hidden")
        self.value("window.fetch = real")

    def test_addresses(self):
        """What can't be read in an address is said, or left out, and the page goes on."""
        two = "net=0.0_90.0~1-2"
        for address, said in (
            ("net=0.0_90.0~1-1", "a wrong edge"),
            ("net=x", "a place is X.Y"),
            (two + "~n1-%E0", "stands for no letter"),
            (two + "_1-2", "the edge 1-2 twice"),
            (two + "&tab=run&seed=%", "seed=% (the % in"),
            ("example=../x", "no example"),
            (two + "&tab=rounds&forest=99&node=9&at=-1", "left out: node=9 (there is no node 9"),
            (two + "&tab=constructor", "tab=constructor"),
            (
                two + "&tab=run&policy=constructor&slow=1-9_x&lazy=9_x",
                "slow=1-9_x (there is no link 1-9), lazy=9_x (there is no node 9",
            ),
            (two + "&tab=adversary&without=toString", "without=toString"),
            (two + "&tab=pictures&kind=toString", "kind=toString"),
            (two + "&tab=pictures&kind=results&program=recolouring&passes=65", "passes=65"),
            ("example=disk100&tab=run", "at most 40"),
            ("example=disk100&tab=adversary", "at most 40"),
            (two + "&tab=rounds&at=2&node=1&broken=digit,root", ""),
        ):
            self.go_to(address)
            time.sleep(1)
            got = f"document.getElementById('wrong').textContent.includes({json.dumps(said)})"
            self.sees(
                f"the address {address}",
                got if said else "!document.getElementById('wrong').textContent",
            )

    def test_names(self):
        """Names are texts, in each tab."""
        self.go_to("tab=draw")
        self.value(
            f"document.getElementById('text').value = {json.dumps(f'c name 1 {EVIL}')} + "
            "'\\np edge 2 1\\ne 1 2\\n'; document.getElementById('apply').click()"
        )
        self.sees(
            "a network with a name",
            "studio.net.nodes.length === 2 && studio.net.nodes[0].name[0] === '<'",
        )
        for tab in TABS:
            self.click_on(f"[data-tab={tab}]")
            time.sleep(0.6)
            said = self.value("document.title")
            self.note(f"a name is a text in {tab}", said.endswith("forestplan"), said)

    def test_z_no_script_complained(self):
        faults = [fault for fault in self.page.faults if "favicon" not in fault]
        self.note("no script complained", not faults, faults[:5])
