"""How the studio's page looks and what it has where: its legend, its type, its head, the dark and the large mode, names
of all controls; and what a question and a dare's card show."""
import re
import time
from typing import get_args

from forestplan.studio.answers import TabName
from tests.browser import Browser
from tests.pages.test_studio_page import Page

PLACES = {
    "draw": "example=barred&tab=draw&node=3",
    "rounds": "example=petersen&tab=rounds&at=15&node=3",
    "run": "example=chain6&tab=run&slow=2-3&seed=7&at=60",
    "adversary": "example=triangle&tab=adversary&dare=apart&slow=1-3",
    "check": "example=petersen&tab=check&plan=1_1",
    "pictures": "example=petersen&tab=pictures&kind=plan",
}
# The sizes of type that are seen, in pixels, but for the digit of a key.
SIZES = """Array.from(new Set(Array.from(
  document.querySelectorAll('header *, #side *, #time *, #legend, #hint, #unproved'))
  .filter(one => !one.closest('svg') && one.tagName !== 'KBD' && one.getClientRects().length
    && Array.from(one.childNodes).some(child => child.nodeType === 3 && child.textContent.trim()))
  .map(one => Math.round(parseFloat(getComputedStyle(one).fontSize))))).sort((a, b) => a - b)"""
# Kinds of marks that the network has, and those that the legend names.
DRAWN = "Array.from(new Set(Array.from(document.querySelectorAll('#net [data-mark]'), one => one.dataset.mark))).sort()"
NAMED = "Array.from(document.querySelectorAll('#legend [data-kind-of-mark]'), one => one.dataset.kindOfMark).sort()"
# Two nodes, of which node 1 can make its pulse: it has taken the greeting, ack and safe of node 2.
READY = "example=two&tab=adversary&node=1&steps=1-2_2-1_1-2_2-1_1-2"
# One node, which has nothing to do but its pulses.
HALTED = "net=0.0&tab=adversary&steps=" + "_".join(["1"] * 12)
WON = "example=two&tab=adversary&without=safes&dare=wrong&steps=1-2_2-1_2-1_2_2"
LONGER = "example=two&tab=adversary&without=safes&dare=wrong&steps=1-2_2-1_1-2_2-1_2_2"
# Roles of what can be used.
ROLES = {
    "button",
    "link",
    "textbox",
    "searchbox",
    "combobox",
    "checkbox",
    "slider",
    "tab",
    "spinbutton",
}
ROLES |= {"DisclosureTriangle"}


def controls(page: Browser) -> tuple[int, list[str]]:
    """How many controls the accessibility tree has, and the roles of those without a name."""
    tree = page.ask("Accessibility.getFullAXTree")["nodes"]
    used = [one for one in tree if not one.get("ignored") and one["role"]["value"] in ROLES]
    nameless = [one for one in used if not one.get("name", {}).get("value", "").strip()]
    return len(used), [one["role"]["value"] for one in nameless]


class Look(Page):
    def go_and_wait(self, place: str) -> None:
        self.go_to(place)
        self.sees(place, "!studio.isFollowing() && busy.hidden")
        time.sleep(0.7)

    def dark(self, is_dark: bool) -> None:
        look = {"name": "prefers-color-scheme", "value": "dark" if is_dark else "light"}
        self.page.ask("Emulation.setEmulatedMedia", features=[look])

    def test_legend(self) -> None:
        """The legend has a swatch for each kind of mark that is drawn, and for no other one."""
        for tab, place in PLACES.items():
            if tab == "pictures":
                continue
            self.go_and_wait(place)
            self.same(tab, self.value(NAMED), self.value(DRAWN))
        for place, kinds in (
            ("example=two&tab=adversary", ["await_ack", "payload", "pulse"]),
            ("example=two&tab=draw", ["channel"]),
            ("example=barred&tab=draw", ["bar", "channel"]),
            ("example=petersen&tab=check&plan=1_1", ["blank", "channel", "clash"]),
            ("example=petersen&tab=rounds&at=5&forest=0", ["arrow", "colour", "payload"]),
        ):
            self.go_and_wait(place)
            self.same(place, self.value(NAMED), kinds)
        # A message that another one comes before, or whose link waits, is dashed.
        self.go_and_wait("example=two&tab=adversary&slow=1-2")
        self.same("held", self.value(NAMED), ["await_ack", "held", "later", "payload", "pulse"])
        # Beside the file of a program there is less room.
        self.go_and_wait("example=two&tab=adversary&program=snapshot&steps=1_1&slow=1-2&node=2")
        named = ["acted", "held", "later", "message", "reacting", "ring_edge", "ring_good"]
        self.same("marks of messages", self.value(NAMED), named)
        self.reads("all is seen", "legend.scrollHeight <= legend.clientHeight", True)
        # Its height stays, so that the network stays where it is.
        heights = set()
        for at in (0, 5, 13, 48):
            self.go_and_wait(f"example=petersen&tab=rounds&at={at}&node=3")
            heights.add(self.value("stage.clientHeight"))
        self.same("one height of the stage", len(heights), 1)

    def test_a_question_gives_nothing_away(self) -> None:
        """As long as it is asked what a node waits for, its ring, its marks and its button don't say it."""
        ring = "document.querySelectorAll('#net [data-node=\"1\"] [data-mark=ring_good]').length"
        button = "document.querySelectorAll('#possible [data-step=\"1\"]').length"
        self.go_and_wait(READY)
        self.sees("a ring", f"{ring} === 1 && {button} === 1")
        self.go_and_wait(READY + "&predict=1")
        self.sees("a question", "document.querySelector('#question2 form')")
        self.reads("no ring and no button", f"[{ring}, {button}]", [0, 0])
        self.value("document.querySelector('#question2 form').requestSubmit()")
        self.sees("it is answered", "question2.textContent.includes('✓ Yes: nothing.')")
        self.sees("both are there again", f"{ring} === 1 && {button} === 1")
        ports = "document.querySelectorAll('#net [data-node=\"1\"] [data-mark^=await]').length"
        self.go_and_wait("example=triangle&tab=adversary&node=1")
        self.sees("ports", f"{ports} === 2")
        self.go_and_wait("example=triangle&tab=adversary&node=1&predict=1")
        self.sees("no port tells", f"{ports} === 0")
        # In rounds what decided a channel isn't shown while one is asked for.
        faded = (
            "document.querySelectorAll('#net [data-mark=faded], #net [data-mark=ring_edge]').length"
        )
        self.go_to("example=petersen&tab=rounds&at=14&node=6")
        self.sees("the reasons", f"{faded} > 0")
        self.value("predicts.click()")
        self.sees("no reason", f"{faded} === 0")

    def test_before_the_lesson_that_says_why(self) -> None:
        """In lesson 3 a chosen node has no marks of what decided its channel: lesson 4 says what these are."""
        faded = (
            "document.querySelectorAll('#net [data-mark=faded], #net [data-mark=ring_edge]').length"
        )
        place = "example=petersen&tab=rounds&at=2&forest=0&node=6"
        self.go_and_wait(place)
        self.sees("reasons", f"{faded} > 0 && why.getClientRects().length")
        self.go_and_wait(place + "&lesson=3&step=1")
        self.sees("the reasons are there", "studio.rounds.whyOf === 6")
        self.sees("and not seen", f"{faded} === 0 && !why.getClientRects().length")
        self.go_and_wait("lesson=4&step=3")
        self.sees("in lesson 4 they are", "why.getClientRects().length")

    def test_dark(self) -> None:
        """In the dark no node is white, in any tab."""
        self.dark(True)
        self.addCleanup(self.dark, False)
        for tab in ("adversary", "run", "check"):
            self.go_and_wait(PLACES[tab])
            fills = self.value(
                "Array.from(document.querySelectorAll('#net .node [data-mark=pulse], #net .node "
                "[data-mark=blank]'), one => getComputedStyle(one).fill)"
            )
            self.note(f"{tab}: dark nodes", fills and set(fills) == {"rgb(23, 25, 28)"}, fills)
        for place, kind in ((READY, "safe_node"), (HALTED, "done_node")):
            self.go_and_wait(place)
            fill = f"getComputedStyle(document.querySelector('#net [data-mark={kind}]')).fill"
            light = max(map(int, re.findall(r"\d+", self.value(fill))))
            self.note(f"{kind} is dark", light < 120, light)

    def test_phone(self) -> None:
        """A phone has the name of the page, and in a lesson more than half of it for what is read."""
        self.page.size(360, 740, True)
        self.addCleanup(self.page.size, 1280, 800)
        for place in ("example=petersen&tab=draw", "lesson=6&step=1", "lesson=3&step=2"):
            self.go_and_wait(place)
            box = self.value(
                "(b => [b.width, b.height, b.right])"
                "(document.querySelector('h1').getBoundingClientRect())"
            )
            self.note(f"{place}: its name", box[0] > 80 and box[1] > 14 and box[2] <= 360, box)
            self.reads("nothing is wider", "document.documentElement.scrollWidth <= 360", True)
            self.reads("nor the legend", "legend.scrollWidth <= legend.clientWidth", True)
        high = self.value("left.getBoundingClientRect().height")
        self.note("room to read in", high <= 420, high)

    def test_room(self) -> None:
        """Nothing has to share its room: the rows of the legend, the hint below two pictures, what is said of a row of
        colours, and what is under way."""
        whole = "legend.scrollHeight <= legend.clientHeight"
        box = "getBoundingClientRect()"
        over = f"small.{box}.bottom <= Math.min(hint.{box}.top, zoom.{box}.top)"
        self.addCleanup(self.page.size, 1280, 800)
        for wide, high in ((1280, 800), (768, 1024), (360, 740)):
            self.page.size(wide, high, wide == 360)
            # Whether a finger points is asked when the page is loaded.
            self.page.go("about:blank")
            self.page.go(self.address)
            self.page.until("window.studio && studio.seen.hello", 60)
            self.go_and_wait("example=chain6&tab=run&slow=2-3&seed=7&at=60&beside=1")
            self.sees(f"{wide}: two pictures", "small.getClientRects().length")
            self.reads(f"{wide}: the hint is below them", over, True)
            if wide > 360:
                for place in (PLACES["rounds"], "lecture=4"):
                    self.go_and_wait(place)
                    self.sees(f"{wide}: {place}: the legend", whole)
                high = self.value(
                    "document.querySelector('#strips rect').getBoundingClientRect().height"
                )
                self.note(f"{wide}: its rows of colours are small", 10 < high < 30, high)
        inside = "(box => [box.left >= 4, box.right <= 356])(busy.getBoundingClientRect())"
        self.value(
            "busy.hidden = false, busy.querySelector('span').textContent = 'playing the run'"
        )
        self.reads("what is under way", inside, [True, True])
        self.value("busy.hidden = true")
        self.go_and_wait("example=petersen&tab=rounds&at=15&node=10")
        said = f"Array.from(strips.querySelectorAll('[text-anchor=start]'), one => one.{box}.right)"
        words = f"Math.max(...{said})"
        drawn = f"Array.from(strips.querySelectorAll('rect'), one => one.{box}.left)"
        squares = f"Math.min(...{drawn})"
        self.sees("the rows of colours", f"{words} > 0 && {squares} > 0")
        self.reads("words are beside them", f"{words} + 1 < {squares}", True)

    def test_a_note_hides_no_node(self) -> None:
        """What is said of a node whose channel is wrong covers no other node, even on a phone."""
        box = "document.querySelector('#net > g:last-child rect').getBoundingClientRect()"
        apart = (
            "(note => Array.from(document.querySelectorAll('#net .node'), one => "
            "[one, one.querySelector('circle:last-of-type').getBoundingClientRect()]).filter(([, at]) => "
            "Math.min(at.right, note.right) - Math.max(at.left, note.left) > 1 && "
            f"Math.min(at.bottom, note.bottom) - Math.max(at.top, note.top) > 1).length)({box})"
        )
        self.addCleanup(self.page.size, 1280, 800)
        for wide, high in ((1280, 800), (360, 740)):
            self.page.size(wide, high, wide == 360)
            # One that has room, and one that has none on a phone: then it isn't there.
            self.go_and_wait("example=star&tab=check&plan=1_1_1_1_1_1_1_1_1")
            self.sees("a note", "document.querySelector('#net > g:last-child rect')")
            self.reads(f"{wide}: covered nodes", apart, 0)
            self.go_and_wait("example=petersen&tab=check&plan=1_2_1_2_3_1_1_1_1_1")
            self.sees("wrong", "legend.querySelector('[data-kind-of-mark=ring_wrong]')")
            is_there = self.value("Boolean(document.querySelector('#net > g:last-child rect'))")
            self.same(f"{wide}: none is covered", is_there and self.value(apart), is_there and 0)

    def test_speech(self) -> None:
        """What a lecturer says begins as a sentence."""
        self.go_and_wait("lecture=4")
        said = self.value("lesson.querySelector('.speaker').textContent")
        self.note("a capital", said[:1].isupper(), said)

    def test_first_screen(self) -> None:
        """What is under way isn't said over the first screen, which plays behind it."""
        self.page.go("about:blank")
        self.page.go(self.address)
        self.page.until("window.studio && studio.seen.hello && !welcome.hidden", 60)
        seen = "busy.getClientRects().length"
        self.value("busy.hidden = false")
        self.reads("not here", seen, 0)
        self.go_to("example=petersen&tab=draw")
        self.value("busy.hidden = false")
        self.sees("but elsewhere", f"{seen} === 1")
        self.value("busy.hidden = true")

    def test_type(self) -> None:
        """Four sizes of type, and no other one."""
        sizes = set()
        for tab in get_args(TabName):
            self.go_and_wait(PLACES[tab])
            sizes |= set(self.value(SIZES))
        self.go_and_wait("lesson=6")
        sizes |= set(self.value(SIZES))
        self.note("a scale", sizes <= {13, 15, 17, 22} and len(sizes) >= 3, sizes)

    def test_head(self) -> None:
        """The tabs stay where they are, whatever the network is called, and the head is one line."""
        for wide in (1440, 1280, 1000):
            self.page.size(wide, 800)
            places = set()
            for name in ("path", "long_names", "triangle", "queen5_5"):
                self.go_and_wait(f"example={name}&tab=draw")
                tabs = "Array.from(document.querySelectorAll('header nav button'), one => "
                places.add(str(self.value(tabs + "one.getBoundingClientRect().x)")))
            self.same(f"{wide}: places of the tabs", len(places), 1)
            self.reads(
                "its height", "document.querySelector('header').getBoundingClientRect().height", 50
            )
        self.page.size(1280, 800)

    def test_crowds(self) -> None:
        """Above sixty messages they are dots, but for those of the chosen node, so that the network is seen."""
        dots = "document.querySelectorAll('#net [data-mark=dot]').length"
        pills = (
            "document.querySelectorAll('#net .token:is([data-mark=payload], :has(text))').length"
        )
        self.go_and_wait("example=disk100&tab=rounds&at=0")
        edges = self.value("studio.net.edges.length")
        self.sees("a dot for each greeting", f"{dots} === {2 * edges} && {pills} === 0")
        self.go_and_wait("example=disk100&tab=rounds&at=0&node=1")
        near = self.value("studio.net.edges.filter(edge => edge.includes(1)).length")
        self.sees("those of node 1 have numbers", f"{pills} === {2 * near}")
        self.go_and_wait("example=petersen&tab=rounds&at=0")
        self.sees("thirty are pills", f"{dots} === 0 && {pills} === 30")

    def test_large(self) -> None:
        """The key F makes all large, for a projector; the speaker's words aren't on it; F again takes that back."""
        self.go_and_wait("lecture=3")
        seen = "lesson.querySelector('.speaker').getClientRects().length"
        before = self.value(
            "[studio.stage.radius, parseFloat(getComputedStyle(document.body).fontSize)]"
        )
        self.sees("the speaker's words", seen)
        self.value("document.activeElement.blur()")
        self.page.key("f", text="f")
        self.sees("large", f"document.documentElement.classList.contains('large') && !{seen}")
        after = self.value(
            "[studio.stage.radius, parseFloat(getComputedStyle(document.body).fontSize)]"
        )
        self.note("larger", after[0] > before[0] and after[1] == 20, (before, after))
        self.reads("no head", "document.querySelector('header').getClientRects().length", 0)
        self.reads(
            "the arrows stay", "lesson.querySelector('[data-way=on]').getClientRects().length", 1
        )
        self.page.key("PageDown", code="PageDown", windowsVirtualKeyCode=34)
        self.sees("and lead on", "studio.seen.lecture === 4")
        self.page.key("f", text="f")
        self.sees("as before", "!document.documentElement.classList.contains('large')")
        self.reads("with the head", "document.querySelector('header').getClientRects().length", 1)
        # A phone has no key F, and a large page no head: a button leads back.
        self.reads("no button for it", "normal.getClientRects().length", 0)
        for place in ("lecture=3", "example=petersen&tab=pictures"):
            self.go_and_wait(place)
            self.value("large.click()")
            self.sees("a button", "normal.getClientRects().length === 1")
            self.click_on("#normal")
            self.sees("leads back", "!document.documentElement.classList.contains('large')")

    def test_names(self) -> None:
        """Each control has a name in the accessibility tree."""
        for place in [*PLACES.values(), "lesson=1", "lesson=6&step=3", "lecture=2"]:
            self.go_and_wait(place)
            count, nameless = controls(self.page)
            self.note(f"{place}: there are controls", count > 12, count)
            self.same(f"{place}: controls without a name", nameless, [])
        self.value("side.append(document.createElement('button'))")
        self.same("one without a name is found", controls(self.page)[1], ["button"])
        self.value("side.lastElementChild.remove()")

    def test_best_so_far(self) -> None:
        """The card of a dare keeps the least steps in which this task was won."""
        self.value("localStorage.removeItem('studio-best')")
        self.go_and_wait("example=two&tab=adversary&without=safes&dare=wrong")
        self.sees("not yet", "dared.textContent.includes('not won yet')")
        for place, best in ((LONGER, 6), (WON, 5), (LONGER, 5)):
            self.go_and_wait(place)
            self.sees(f"{best}", f"dared.textContent.includes('Best so far: won in {best} steps.')")
        self.go_and_wait("example=two&tab=adversary&without=safes&dare=apart")
        self.sees("of another dare", "dared.textContent.includes('not won yet')")

    def test_the_end(self) -> None:
        """The last pulse says what has been reached."""
        self.go_and_wait("example=petersen&tab=rounds&at=48")
        said = self.page.text("said")
        self.note("channels", "Done: 3 channels, no two neighbours alike" in said, said)
        self.note("and no riddle", "There is none" not in said, said)
        self.go_and_wait("example=petersen&tab=rounds&program=matching&at=31")
        said = self.page.text("said")
        self.note(
            "another program", said.startswith("Done:") and "Nothing is sent" not in said, said
        )

    def test_a_run(self) -> None:
        """A run plays if its address says so, a pulse in two seconds; how far apart pulses have been is said; a second
        order beside it keeps the place; nothing is judged before anything has happened."""
        self.go_to("example=chain6&tab=run&slow=2-3&seed=7")
        self.sees("a run", "studio.run.found && judge.textContent.includes('The whole run')")
        time.sleep(0.6)
        self.reads("nothing is judged yet", "judgehere.textContent", "")
        self.go_to("example=chain6&tab=run&slow=2-3&seed=7&play=1")
        self.sees("it plays", "studio.time.timer && studio.time.at > 1")
        self.value("studio.time.stop()")
        pulses = self.value(
            "studio.run.film.table.all.slice(0, -1).map((one, k) => "
            "(studio.run.film.table.all[k + 1][0] - one[0]) / studio.run.film.stampsOfPulse(one[0]))"
        )
        self.same("each pulse at its own pace", set(pulses), {1})
        looked = self.value(
            "(() => { const {film} = studio.run; let near = 0, all = 0; const found = []; "
            "for (let at = 0; at <= film.table.rows.length; at++) { const ps = film.looks(at).map(one => one.pulse); "
            "near = Math.max(near, ...studio.net.edges.map(([v, w]) => Math.abs(ps[v - 1] - ps[w - 1]))); "
            "all = Math.max(all, Math.max(...ps) - Math.min(...ps)); "
            "if (String(film.farthest(at)) !== String([near, all])) found.push(at); } return [found, near, all]; })()"
        )
        self.same("so far", looked[:2], [[], 1])
        self.note("some are farther apart", looked[2] > 1, looked)
        self.value("studio.time.set(200)")
        self.sees("is said", "apart.textContent.includes('So far it was at most 1 for neighbours')")
        pulse = self.value(
            "Math.min(...studio.run.film.looks(studio.run.at).map(one => one.pulse))"
        )
        self.value("two.click()")
        self.sees("beside it at this pulse", f"studio.run.film2 && studio.time.at === {pulse}")
        self.note("not at the start", pulse > 0, pulse)
        self.value("two.click()")
        self.sees("and back", "!studio.run.film2 && studio.time.at > 100")

    def test_zz_no_script_complained(self) -> None:
        self.same("no script complained", self.page.faults, [])
