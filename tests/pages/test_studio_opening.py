"""How the studio's page opens, goes back, and says what it can't show: on slow connections, without a token, by the
browser's Back, with files that it can't read and networks that are too large."""

import base64
import glob
import json
import os
import re
import time

from tests import TOP, browser
from tests.cases import Case, text_in
from tests.pages.test_studio_page import Page
from tests.programs.test_studio import begin

# Calls of a name are answered only after a while.
SLOW = """(() => { const real = fetch; window.fetch = async (to, how) => {
  if (%r.test(to)) await new Promise(done => setTimeout(done, %d));
  return real(to, how); }; })()"""
WELCOME = "!document.getElementById('welcome').hidden"
NO_WELCOME = "document.getElementById('welcome').hidden"
THREE = "net=0.0_90.0_90.90~1-2_2-3&tab=draw"
DROP = """(() => { const d = new DataTransfer(), bytes = Uint8Array.from(atob('%s'), c => c.charCodeAt(0));
  d.items.add(new File([bytes], '%s'));
  document.dispatchEvent(new DragEvent('drop', {dataTransfer: d, cancelable: true})); })()"""
PNG = b"\x89PNG\r\n\x1a\n\0\0\0\rIHDR\0\0\0\1\0\0\0\1\x08\6\0\0\0"
ROW = "p edge 3 2\ne 1 2\ne 2 3\n"
# How far each label is from the circle that is around its node, in pixels; and how far the head of an arrow goes into
# such a circle.
LABELS = """(() => Array.from(document.querySelectorAll('#net .node')).flatMap(node => {
  const rings = Array.from(node.querySelectorAll('circle'), one => [one.r.baseVal.value
    + (parseFloat(one.getAttribute('stroke-width')) || 0) / 2, one]).sort((a, b) => b[0] - a[0]);
  const label = node.querySelector(':scope > text:last-of-type'), box = label.getBBox(), [far, ring] = rings[0] || [0];
  if (!ring || !label.textContent) return [];
  const dx = Math.max(box.x - ring.cx.baseVal.value, ring.cx.baseVal.value - box.x - box.width, 0);
  const top = box.y + box.height * 0.2, low = box.y + box.height * 0.8;
  const dy = Math.max(top - ring.cy.baseVal.value, ring.cy.baseVal.value - low, 0);
  return Math.hypot(dx, dy) < far ? [label.textContent] : []; }))()"""
ARROWS = """(() => { const heads = Array.from(document.querySelectorAll('#net > g:nth-of-type(2) path'))
    .filter(one => one.getAttribute('fill') !== 'none'), found = [];
  document.querySelectorAll('#net .node').forEach(node => { const ring = node.querySelector('circle[fill=none]');
    if (!ring || ring.getAttribute('stroke-width') !== '4') return;
    const x = ring.cx.baseVal.value, y = ring.cy.baseVal.value, far = ring.r.baseVal.value + 2;
    heads.forEach(head => { const tip = head.getPointAtLength(0);
      if (Math.hypot(tip.x - x, tip.y - y) < far) found.push(node.dataset.node); }); });
  return found; })()"""
# Nodes whose number is as near to another node as to its own.
WHOSE = """(() => { const nodes = Array.from(document.querySelectorAll('#net .node')), at = nodes.map((_, k) =>
    [studio.stage.X(k + 1), studio.stage.Y(k + 1)]);
  return nodes.filter((node, k) => { const box = node.querySelector('text:last-of-type').getBBox();
    const x = box.x + box.width / 2, y = box.y + box.height / 2;
    const far = at.map(([a, b]) => Math.hypot(x - a, y - b)), own = far[k];
    return far.some((other, w) => w !== k && other < 1.4 * own); }).map(node => node.dataset.node); })()"""


class Opening(Page):
    def open_slowly(self, calls: str, milliseconds: int, place: str = "") -> None:
        """Opens the page anew, with some calls answered late."""
        code = SLOW.replace("%r", f"/{calls}/").replace("%d", str(milliseconds))
        script = self.page.ask("Page.addScriptToEvaluateOnNewDocument", source=code)
        self.page.go("about:blank")
        self.page.go(self.address + place)
        self.page.until("window.studio && studio.seen.hello")
        self.page.ask("Page.removeScriptToEvaluateOnNewDocument", **script)

    def open(self, place: str = "") -> None:
        self.page.go("about:blank")
        self.page.go(self.address + place)
        self.page.until("window.studio && studio.seen.hello && !studio.isFollowing()")

    def test_an_overtaken_first_screen(self) -> None:
        """A lesson that is chosen before the first screen is there isn't covered by it, and doesn't play by itself."""
        self.open_slowly("address|example|rounds$", 1500)
        self.page.choose("lessons", "6")
        self.sees("the lesson", "studio.seen.lesson === 6 && studio.steps.found")
        time.sleep(2)
        self.reads("the first screen is gone", NO_WELCOME, True)
        self.open_slowly("address|rounds$", 1500)
        self.page.choose("lessons", "3")
        self.sees("a lesson with rounds", "studio.seen.lesson === 3 && studio.rounds.film")
        time.sleep(2)
        self.reads("it stays where it begins", "[studio.time.at, studio.time.timer]", [2, None])

    def test_back_to_the_first_screen(self) -> None:
        self.open()
        self.sees("the first screen", WELCOME)
        self.value("document.querySelector('#welcome a').click()")
        self.sees("the first lesson", "studio.seen.lesson === 1 && !studio.isFollowing()")
        self.value("history.back()")
        self.sees("Back leads to the first screen", WELCOME)
        self.go_to("example=two&tab=check")
        self.sees("another place", NO_WELCOME)
        self.click_on("h1 a")
        self.sees("the title leads there, too", WELCOME)

    def test_back_to_a_drawing(self) -> None:
        """What takes the place of a drawing leaves the way back to it: an example, a network that is made, a file."""
        for name, does, wanted in (
            ("an example", lambda: self.page.choose("examples", "star"), "star"),
            ("one that is made", lambda: self.value("make.requestSubmit()"), "random-8-12-1"),
            ("a text", lambda: self.drop("x.col", ROW.encode()), "x"),
        ):
            self.go_to(THREE)
            self.sees("a drawing", "studio.net.nodes.length === 3 && !studio.net.name")
            self.page.until("document.querySelector('#make button')")
            does()
            self.sees(name, f"studio.net.name === '{wanted}' && location.hash.length > 1")
            time.sleep(0.4)
            self.value("history.back()")
            self.sees(
                f"Back from {name}",
                "studio.net.nodes.length === 3 && !studio.net.name && !studio.isFollowing()",
            )

    def drop(self, name: str, data: bytes) -> None:
        self.value(DROP % (base64.b64encode(data).decode(), name))

    def test_the_fault_of_the_address(self) -> None:
        """Of an address that can't be read its own fault is said, whatever was wrong before."""
        self.go_to("tab=adversary&example=petersen&steps=1_2_3")
        self.sees("a step that can't be", "wrong.textContent.includes('step 1 of the list')")
        self.go_to("example=nothere&tab=rounds")
        time.sleep(1.5)
        said = self.page.text("wrong")
        self.note("the example isn't there", "no example nothere" in said, said)

    def test_titles(self) -> None:
        """The browser's list of places tells them apart."""
        self.open()
        titles = [self.value("document.title")]
        for place in (
            "example=two&tab=draw",
            "example=two&tab=run",
            "example=chain6&tab=run",
            "lesson=6",
        ):
            self.go_to(place)
            self.page.until(f"studio.seen.tab === {json.dumps(place)}.split('=').pop() || true")
            time.sleep(0.5)
            titles.append(self.value("document.title"))
        self.same("each is another one", len(set(titles)), len(titles))
        self.note("the tab and the network", "No clock" in titles[2] and "two" in titles[2], titles)

    def test_places_after_the_end(self) -> None:
        """An address that asks for more than there is is told so."""
        for address, said in (
            ("example=two&tab=rounds&at=99999999", "the last pulse is 18"),
            ("example=two&tab=run&seed=3&at=99999999", "the last stamp is"),
            ("example=two&example=path&tab=draw", "two networks"),
            ("net=0.0_90.0~1-2&tab=check&plan=1_2_3", "3 channels, and there are 2 nodes"),
        ):
            self.go_to(address)
            self.sees(address, f"wrong.textContent.includes({json.dumps(said)})", 20)
        self.go_to("example=two&tab=rounds&at=18")
        self.sees("the end", "studio.time.at === 18")
        self.reads("is no fault", "wrong.textContent", "")

    def test_a_file_without_an_ending(self) -> None:
        """Any form may be meant, DIMACS too."""
        self.go_to("tab=draw")
        self.drop("d.txt", ROW.encode())
        self.sees("what it is is asked", "!unsaid.hidden")
        choices = self.value(
            "Array.from(document.querySelectorAll('#unsaidchoices button'), one => one.textContent)"
        )
        dimacs = [k for k, one in enumerate(choices) if "DIMACS" in one]
        self.same("DIMACS is among it", len(dimacs), 1)
        if dimacs:
            self.value(f"document.querySelectorAll('#unsaidchoices button')[{dimacs[0]}].click()")
            self.sees("it is read", "studio.net.nodes.length === 3 && unsaid.hidden")

    def test_a_bad_file_after_a_good_one(self) -> None:
        self.go_to("tab=draw")
        self.drop("good.col", ROW.encode())
        self.sees("it is read", "notes.textContent.startsWith('Read')")
        self.drop("bad.col", b"p edge 2 1\ne 1 3\n")
        self.sees("a bad file", "wrong.textContent.includes('F5')")
        self.reads("nothing is said of the one before", "notes.textContent", "")

    def test_a_picture(self) -> None:
        """What is no text isn't asked which table it is."""
        self.go_to("tab=draw")
        self.drop("picture.png", PNG)
        self.sees("an answer", "wrong.textContent || !unsaid.hidden")
        self.reads("nothing is asked of it", "unsaid.hidden", True)
        said = self.page.text("wrong")
        self.note("it is no text", "no text" in said, said)

    def test_saved_names(self) -> None:
        """What is saved has names that differ."""
        self.value(
            "window.named = []; HTMLAnchorElement.prototype.click = function () "
            "{ if (this.download) named.push(this.download); }"
        )
        self.go_to("example=two&tab=run&seed=3")
        self.sees("a run", "studio.run.found && studio.run.found.judge")
        for k, what in enumerate(("network", "transcript", "rounds", "run"), 1):
            self.page.choose("save", what)
            self.sees(what, f"named.length === {k}")
        names = self.value("named")
        self.same("as many names", len(set(names)), 4)
        self.open()

    def test_large_networks(self) -> None:
        """What a network is too large for is named, with what to do; nothing is named that isn't there."""
        # The threads are named exactly if the programs are built.
        is_built = self.value("studio.seen.hello.proved")
        for address, said in (
            ("example=disk100&tab=run", "A run without a clock"),
            ("example=disk100&tab=adversary", "smaller example"),
            ("example=queen5_5&tab=run", "take the threads" if is_built else "smaller example"),
        ):
            self.go_to(address)
            self.sees(
                address, f"wrong.textContent.includes({json.dumps(said)}) && wrong.textContent"
            )
            got = self.page.text("wrong")
            is_named = "take the threads" in got
            self.note(f"{address}: threads only if built", is_named <= bool(is_built), got)

    def test_no_backquotes(self) -> None:
        """What the server has between backquotes is code on the page."""
        for address, place in (
            ("example=two&tab=adversary&without=safes,acks&steps=1", "stepsaid"),
            ("net=0.0_90.0~1-2_1-2", "wrong"),
            ("example=two&tab=adversary&steps=x", "wrong"),
        ):
            self.go_to(address)
            self.sees(address, f"document.querySelector('#{place} code')", 20)
            said = self.page.text(place)
            self.note(f"{address}: no backquote", "`" not in said, said)

    def test_around_nodes(self) -> None:
        """No ring goes through a number, and no arrow ends below a ring."""
        for address in (
            "example=petersen&tab=rounds&at=15&node=1",
            "example=petersen&tab=rounds&at=14&node=3",
            "example=triangle&tab=rounds&at=13&node=1",
            "example=petersen&tab=draw&node=1",
            "example=petersen&tab=adversary&without=safes,acks",
        ):
            self.go_to(address)
            self.sees(address, "document.querySelector('#net .node circle[fill=none]')", 20)
            time.sleep(0.5)
            self.reads(f"{address}: numbers", LABELS, [])
            self.reads(f"{address}: arrows", ARROWS, [])

    def make_path(self, nodes: int) -> None:
        self.go_to("tab=draw")
        self.value(
            "(() => { const form = document.getElementById('make'), kind = form.querySelector('select'); "
            f"kind.value = 'path'; kind.onchange(); form.querySelector('[name=nodes]').value = {nodes}; "
            "form.requestSubmit(); })()"
        )
        there = f"studio.net.nodes.length === {nodes}"
        self.sees(
            f"a path of {nodes}",
            f"{there} && document.querySelectorAll('.node').length === {nodes}",
        )

    def test_a_picture_without_room(self) -> None:
        """No kind of picture is named that the page doesn't have."""
        self.make_path(300)
        self.click_on("[data-tab=pictures]")
        self.click_on("[data-kind=rounds]")
        self.sees("a refusal", "wrong.textContent")
        said = self.page.text("wrong")
        kinds = self.value(
            "Array.from(document.querySelectorAll('[data-kind]'), one => one.dataset.kind)"
        )
        named = re.findall(r"use (\w+)|pictures (\w+) and (\w+)", said)
        self.note("kinds that there are", named and {*filter(None, named[0])} <= set(kinds), said)

    def test_whose_number(self) -> None:
        """Each number of a long row is nearest to its own node."""
        self.make_path(400)
        time.sleep(0.5)
        self.reads("whose number", WHOSE, [])

    def test_lesson_2(self) -> None:
        """The exercise leads to where it can be done."""
        self.go_to("lesson=2&step=4")
        self.sees("the lesson", "studio.seen.lesson === 2 && studio.seen.step === 4")
        field = "Array.from(document.querySelectorAll('#chosen label')).find(one => /identifier/.test(one.textContent))"
        self.sees(
            "the centre is chosen, with its identifier", f"{field} && studio.net.name === 'star'"
        )
        near = "studio.net.edges.filter(edge => edge.includes(studio.seen.node)).length"
        self.reads("which has all others as neighbours", near, 8)
        self.reads("the lesson stays", "studio.seen.lesson", 2)

    def test_impossible_dares(self) -> None:
        """A dare that nobody can win says so."""
        for address, is_impossible in (
            ("dare=apart", True),
            ("dare=wrong", True),
            ("dare=results", True),
            ("dare=ends", False),
            ("dare=apart&without=safes", False),
        ):
            self.go_to(f"example=path&tab=adversary&{address}")
            self.sees(
                address,
                "dared.textContent.includes('☐') && studio.steps.found && studio.steps.found.dare",
                20,
            )
            said = self.page.text("dared")
            self.same(f"{address}: {said}", "proved" in said, is_impossible)

    def test_zz_no_script_complained(self) -> None:
        self.same("no script complained", self.page.faults, [])


class Closed(Case):
    def test_without_a_token(self) -> None:
        """Who opens a link without a studio of their own is told what it is and what to type."""
        process, address = begin()
        self.addCleanup(process.wait, 20)
        self.addCleanup(process.terminate)
        program = browser.command()
        if program is None:
            self.skipTest("no browser")
        page = browser.Browser(program)
        self.addCleanup(page.end)
        place = address.partition("?")[0]
        for name, query in (("no token", ""), ("a wrong token", "?token=wrong")):
            page.go("about:blank")
            page.go(f"{place}{query}#example=two")
            is_told = page.until(
                "document.body && document.body.innerText.includes('forestlab studio')", 60
            )
            shown = page.value("document.body.innerText")
            self.note(f"{name}: what to type", is_told, shown)
            self.note(f"{name}: what it is", "neighbours" in shown, shown)
            zoom = "document.getElementById('zoom').getClientRects().length"
            self.same(f"{name}: nothing to zoom", page.value(zoom), 0)


class Modules(Case):
    def test_all_begin_at_once(self) -> None:
        """The page names each module that it loads, so that none waits until another one is there."""
        html = text_in("src/forestplan/studio/page/page.html")
        named = set(re.findall(r'rel="modulepreload" href="([^"]+)"', html))
        texts = {
            os.path.basename(path): text_in(path)
            for folder in ("src/forestplan/studio/page", "src/forestplan/pictures/page")
            for path in glob.glob(os.path.join(TOP, folder, "*.js"))
        }
        loaded, waiting = set(), ["studio.js"]
        while waiting:
            name = waiting.pop()
            if name not in loaded:
                loaded.add(name)
                waiting += re.findall(r'from "\./([a-z_]+\.js)"', texts.get(name, ""))
        self.same("all modules", named, loaded - {"studio.js"})

    def test_something_is_seen(self) -> None:
        """Before any script is there the page says what it is."""
        html = text_in("src/forestplan/studio/page/page.html")
        self.note("a sentence", re.search(r'id="closed"><h2>.*?</h2><p>', html, re.S), html)
