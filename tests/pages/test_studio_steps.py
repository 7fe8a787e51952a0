"""The steps of the studio's lessons as they are seen, on a phone and on a desk: nothing moves while somebody aims at
it, what a text names is found, and nothing has the answer before the question is asked."""
import json
import re
import time

from forestplan.studio.lessons import LESSONS, PredictedExercise, SaidExercise, values_in
from tests.cases import Case
from tests.pages.test_studio_lessons import steps
from tests.pages.test_studio_look import controls
from tests.pages.test_studio_page import UNSEEN, Page

# Width and height of the window, and whether a finger points; and those of a window of 1280 x 1024 at 400 %.
WINDOWS = ((1280, 800, False), (360, 740, True))
AT_400 = (320, 256, False)
# Notes each control of the side that can be used, and is somewhere else some frames later, though nobody did anything;
# `begin` forgets what was.
WATCH = """(() => {
  window.moved = [];
  const tops = new Map();
  window.begin = () => { tops.clear(); moved.length = 0; };
  const nameOf = one => (one.closest('#lesson') ? 'card: ' : '')
    + (one.id || one.dataset.key || one.getAttribute('aria-label') || one.textContent).trim().slice(0, 30);
  const look = () => {
    document.querySelectorAll('#side :is(button, input, select, summary):not(:disabled)').forEach(one => {
      const box = one.getBoundingClientRect(), was = tops.get(one), now = Math.round(box.top + scrollY);
      if (!box.width || getComputedStyle(one).visibility === 'hidden') return tops.delete(one);
      if (was !== undefined && Math.abs(was - now) > 2) moved.push(`${nameOf(one)} ${was} to ${now}`);
      tops.set(one, now);
    });
    requestAnimationFrame(look);
  };
  look();
})()"""
# Of a part of the panel whether it is seen, and not below the network, which stays where it is on a phone.
IN_SIGHT = """(name => { const one = document.getElementById(name), box = one.getBoundingClientRect();
  const high = getComputedStyle(left).position === 'sticky' ? left.getBoundingClientRect().bottom : 0;
  return box.width > 0 && box.height > 0 && box.top < innerHeight && box.bottom > high; })"""
# How a lesson begins whose exercises nobody has done.
FORGET = "localStorage.removeItem('studio-ticks')"
WRONG = "1-2_2-1_2-1_2_2"
# Places at which a lesson's step is done, where there are more marks than at its beginning.
DONE_AT = (
    "example=two&tab=adversary&lesson=6&step=4&without=safes&dare=wrong&steps=" + WRONG,
    "example=path&tab=adversary&lesson=6&step=1&steps=2-1_2-3_1-2_3-2_2-1_2-3_1-2_1-2_1",
    "example=triangle&tab=adversary&program=exclusion&lesson=8&step=5&steps=3_1-3_2-3_1_3-1_3-2",
    "example=petersen&tab=rounds&lesson=4&step=1&at=22",
)
# The words on the network that are cut.
CUT = "Array.from(net.querySelectorAll('text'), one => one.textContent).filter(said => said.includes('…'))"
# What is said of keys, as far as it is seen.
OF_KEYS = """(document.body.innerText.match(/Ctrl|Shift|\\bTab key|press A\\b|Keys:|Space plays|\\b[Cc]lick/g)
  || []).join()"""


class Texts(Case):
    def test_the_panel(self) -> None:
        """No text speaks of a panel, which isn't one on a phone."""
        for number, k, step in steps():
            texts = [step.do]
            if step.exercise:
                texts += [step.exercise.hint, step.exercise.answer]
            said = " ".join(re.sub(r"\(panel:\w+\)", "", one) for one in texts)
            self.note(f"lesson {number} step {k}", "panel" not in said, said)


class Steps(Page):
    def open(self, wide: int, high: int, is_phone: bool) -> None:
        self.page.size(wide, high, is_phone)
        self.addCleanup(self.page.size, 1280, 800)
        self.value(FORGET)
        self.page.go("about:blank")
        self.page.go(self.address)
        self.page.until("window.studio && studio.seen.hello && !studio.isFollowing()", 40)

    def step(self, lesson: int, k: int) -> None:
        self.go_to(f"lesson={lesson}&step={k}")
        self.sees(
            f"lesson {lesson} step {k}",
            f"studio.seen.lesson === {lesson} && studio.seen.step === {k} && !studio.isFollowing()",
        )

    def test_nothing_moves(self) -> None:
        """From the moment in which a step is there no control that can be used moves by itself; none is cut or covered,
        and each has a name in the accessibility tree."""
        for wide, high, is_phone in (*WINDOWS, AT_400):
            self.open(wide, high, is_phone)
            self.value(WATCH)
            for number, k, _ in steps():
                self.step(number, k)
                self.value("begin()")
                self.page.until("busy.hidden", 20)
                time.sleep(0.7)
                self.same(f"{wide}: lesson {number} step {k}", self.value("moved.slice(0, 4)"), [])
                self.reads("nothing is cut or covered", UNSEEN, [])
                self.same("each control has a name", controls(self.page)[1], [])
                across = self.value("document.documentElement.scrollWidth")
                self.note("nor wider than the window", across <= wide, across)

    def test_what_is_named(self) -> None:
        """A click on words of a step that name a part of the panel has this part in sight."""
        count = 0
        for wide, high, is_phone in WINDOWS:
            self.open(wide, high, is_phone)
            for number, k, step in steps():
                names = re.findall(r"\(panel:(\w+)\)", step.do)
                if not names:
                    continue
                self.step(number, k)
                self.page.until("busy.hidden", 20)
                time.sleep(0.4)
                for place, name in enumerate(names):
                    count += 1
                    there = f"document.getElementById('{name}').getBoundingClientRect().height"
                    self.page.until(there, 20)
                    button = f"lesson.querySelectorAll('.pointer')[{place}]"
                    self.value(f"{button}.scrollIntoView({{block: 'center'}}); {button}.click()")
                    self.sees(f"{wide}: {name} of {number}.{k}", f"{IN_SIGHT}('{name}')", 10)
        self.note("there are some", count > 20, count)

    def test_no_answer_before_the_question(self) -> None:
        """What has the answer to a step's question isn't on the screen before the question is answered."""
        self.open(1280, 800, False)
        for lesson, k, said, answer in (
            (5, 1, "So far it was", "1"),
            (5, 3, "at the same pulse", "5"),
            (6, 2, "nobody wins it", "no"),
            (1, 1, "allowed", "4"),
        ):
            self.step(lesson, k)
            self.page.until("busy.hidden", 20)
            time.sleep(0.5)
            seen = f"side.innerText.includes({json.dumps(said)})"
            self.reads(f"lesson {lesson} step {k}: not yet", seen, False)
            picks = LESSONS[lesson - 1].steps[k - 1].exercise
            assert picks
            if getattr(picks, "picks", ()):
                self.value(
                    "Array.from(lesson.querySelectorAll('form button')).find(one => "
                    f"one.textContent === {json.dumps(answer)}).click()"
                )
            else:
                self.value(
                    f"lesson.querySelector('form input').value = {json.dumps(answer)}; "
                    "lesson.querySelector('form').requestSubmit()"
                )
            self.sees("but once it is answered", seen, 20)

    def test_predictions(self) -> None:
        """What a node is asked to have after the next pulse it doesn't have yet, nor does the page say so."""
        self.open(1280, 800, False)
        for number, k, step in steps():
            if not isinstance(step.exercise, PredictedExercise) or "program=" not in step.place:
                continue
            self.step(number, k)
            self.page.until("busy.hidden && question.querySelector('form')", 20)
            node = values_in(step.place)["node"]
            said = f"Array.from(net.querySelectorAll('[data-node=\"{node}\"] text'), one => one.textContent).join()"
            before = self.value(said)
            self.value("document.getElementById('next').click()")
            self.sees("one pulse on", "studio.time.at % 1 === 0 && busy.hidden")
            self.sees(f"lesson {number} step {k}: it has", f"{said} !== {json.dumps(before)}", 10)

    def test_whole_legend_and_words(self) -> None:
        """The legend of each step is seen whole, also once the step is done, and no node's words are cut."""
        for wide, high, is_phone in WINDOWS:
            self.open(wide, high, is_phone)
            places = [f"lesson={number}&step={k}" for number, k, _ in steps()]
            for place in (*places, *DONE_AT):
                self.go_to(place)
                self.page.until("!studio.isFollowing() && busy.hidden", 20)
                time.sleep(0.3)
                over = self.value("legend.scrollHeight - legend.clientHeight")
                self.note(f"{wide}: {place}", over <= 1, (over, self.page.text("legend")))
                self.same("no words are cut", self.value(CUT), [])

    def test_keys(self) -> None:
        """Where a finger points nothing is said of keys nor of clicks; elsewhere it is."""
        for wide, high, is_phone in WINDOWS:
            self.open(wide, high, is_phone)
            found = []
            for number, k, _ in steps():
                self.step(number, k)
                found.append(self.value(OF_KEYS))
            self.note(f"{wide}: keys", bool("".join(found)) is not is_phone, found)

    def test_nothing_to_bring_back(self) -> None:
        """Undo is said to bring a drawing back only if there was one."""
        self.open(1280, 800, False)
        for number, k, _ in steps():
            self.step(number, k)
            said = self.page.text("hint")
            self.note(f"lesson {number} step {k}", "brings your drawing back" not in said, said)
        self.go_to("net=~&tab=draw")
        self.sees("nothing is drawn", "studio.seen.lesson === null && !studio.net.nodes.length")
        self.page.click(300, 300)
        self.sees("a node", "studio.net.nodes.length === 1")
        self.step(1, 5)
        self.sees("it is said", "hint.textContent.includes('brings your drawing back')", 10)

    def test_what_is_won_is_seen(self) -> None:
        """The node that makes a pulse with a wrong inbox is at that pulse in the picture, too, in a red ring."""
        self.go_to(f"example=two&tab=adversary&without=safes&dare=wrong&steps={WRONG}")
        self.sees("it is won", "dared.className === 'card won'")
        self.sees("it is said", "stepsaid.textContent.includes('node 2 makes pulse 2')")
        number = "document.querySelector('#net [data-node=\"2\"]').textContent"
        self.note("and drawn", "2" in self.value(number).split()[0][:1], self.value(number))
        self.reads(
            "and spoken",
            "document.querySelector('#net [data-node=\"2\"]').getAttribute('aria-label')",
            "node 2: pulse 2",
        )
        self.sees("in red", "legend.querySelector('[data-kind-of-mark=ring_wrong]')")

    def test_clicks_in_a_row(self) -> None:
        """What is clicked while a step is being worked out is done after it."""
        self.go_to("example=triangle&tab=adversary")
        self.sees("its messages", "document.querySelectorAll('#possible [data-step]').length === 6")
        for step in ("1-2", "2-1", "1-3"):
            self.value(f"document.querySelector(\"#possible [data-step='{step}']\").click()")
        self.sees("all three", "studio.steps.made.join() === '1-2,2-1,1-3'", 10)
        self.value(
            "document.getElementById('undostep').click(); document.getElementById('chance').click()"
        )
        self.sees(
            "one back and one on",
            "studio.steps.made.length === 3 && studio.steps.made[1] === '2-1'",
            10,
        )

    def test_left_and_found_again(self) -> None:
        """Who goes on and comes back finds a step as it was left; ↺ shows it from its beginning."""
        self.open(1280, 800, False)
        self.step(6, 3)
        for count, step in enumerate(("1-2", "2-1"), 1):
            button = f"possible.querySelector('[data-step=\"{step}\"]')"
            self.sees(step, button, 10)
            self.value(f"{button}.click()")
            self.sees("taken", f"studio.steps.made.length === {count} && busy.hidden", 10)
        self.value("lesson.querySelector('[data-way=on]').click()")
        self.sees("the next step", "studio.seen.step === 4 && !studio.isFollowing()", 10)
        self.value("lesson.querySelector('[data-way=back]').click()")
        self.sees("back", "studio.seen.step === 3 && studio.steps.made.join() === '1-2,2-1'", 10)
        self.value("lesson.querySelector('.arrows .quiet').click()")
        self.sees("from its beginning", "studio.seen.step === 3 && !studio.steps.made.length", 10)
        self.step(1, 6)
        self.page.click(*self.at(1))
        self.page.click(*self.at(2))
        self.sees("parted", "studio.net.edges.length === 2", 10)
        self.value("lesson.querySelector('[data-way=on]').click()")
        self.sees("step 7", "studio.seen.step === 7 && studio.net.nodes.length === 3", 10)
        self.value("lesson.querySelector('[data-way=back]').click()")
        self.sees("as it was left", "studio.seen.step === 6 && studio.net.edges.length === 2", 10)

    def test_other_channels(self) -> None:
        """What is said of new channels at the end is true of these, and not of those that the nodes don't have."""
        for place, count in (
            ("lesson=7&step=5", 2),
            ("example=petersen&tab=rounds&program=recolouring&at=52", 3),
        ):
            self.go_to(place)
            self.sees(place, "said.textContent.includes('Done')", 20)
            told = self.page.text("said")
            self.note("they differ", f"{count} channels, no two neighbours alike" in told, told)
        self.go_to(f"example=two&tab=adversary&without=safes&dare=wrong&steps={WRONG}")
        self.sees("an end is said to be one", "hint.textContent.includes('Nothing can happen')", 20)

    def test_answered_once_more(self) -> None:
        """A wrong answer is said to be one, also where the exercise was done before."""
        self.open(1280, 800, False)
        self.step(1, 1)
        for answer, said in (
            ("4", "Four. The last"),
            ("99", "not by this: it isn't 99"),
            ("4", "Four. The last"),
        ):
            self.value(f"lesson.querySelector('form input').value = '{answer}'")
            self.value("lesson.querySelector('form').requestSubmit()")
            self.sees(
                answer,
                f"lesson.querySelector('.judged').textContent.includes({json.dumps(said)})",
                10,
            )

    def test_a_menu_gives_the_keys_back(self) -> None:
        """After a choice of a menu the keys are the page's again."""
        self.open(1280, 800, False)
        self.value("lecture.focus()")
        self.page.choose("lecture", "1")
        self.sees("the first place", "studio.seen.lecture === 1 && !studio.isFollowing()", 20)
        self.page.key("PageDown", code="PageDown", windowsVirtualKeyCode=34)
        self.sees("the second one", "studio.seen.lecture === 2 && !studio.isFollowing()", 20)
        self.page.key("f", code="f", windowsVirtualKeyCode=70, text="f")
        self.sees("large", "document.documentElement.classList.contains('large')", 10)
        self.page.key("Escape", code="Escape", windowsVirtualKeyCode=27)
        self.sees("and no more", "!document.documentElement.classList.contains('large')", 10)

    def test_numbers_in_words(self) -> None:
        """A right number in words, or with a word more, is right; one that is wrong, or one of several, isn't."""
        for answer, is_right in (
            ("Eight", True),
            ("8 forests", True),
            ("nine", False),
            ("8 or 9", False),
            ("-8", False),
            ("0.8", False),
            ("eighty", False),
        ):
            self.open(360, 740, True)
            self.step(2, 3)
            self.value(f"lesson.querySelector('form input').value = {json.dumps(answer)}")
            self.value("lesson.querySelector('form').requestSubmit()")
            self.sees(answer, "/☑|Not yet/.test(lesson.querySelector('.judged').textContent)", 10)
            self.reads(
                answer, "lesson.querySelector('.judged').textContent.includes('☑')", is_right
            )
            self.reads(
                "it is in sight",
                "lesson.querySelector('.judged').getBoundingClientRect().bottom <= innerHeight + 1",
                True,
            )

    def test_on_to_a_step_without_a_place(self) -> None:
        """That a step is done is said below the network as long as the step is there."""
        self.open(1280, 800, False)
        self.step(1, 1)
        self.value("lesson.querySelector('form input').value = '4'")
        self.value("lesson.querySelector('form').requestSubmit()")
        self.sees("done", "hint.textContent.startsWith('☑ Done')", 10)
        self.value("lesson.querySelector('[data-way=on]').click()")
        self.sees("on", "studio.seen.step === 2 && lesson.textContent.includes('step 2 of')", 10)
        self.reads("not any more", "hint.textContent.includes('Done')", False)
        self.page.click(*self.at(6))
        self.sees("node 6", "chosen.textContent.includes('Node 6')", 10)
        self.reads("it can't be changed", "chosen.querySelectorAll('input').length", 0)
        self.reads("nor removed", "document.getElementById('delete').disabled", True)
        self.page.key("Delete", code="Delete", windowsVirtualKeyCode=46)
        self.reads("by no key either", "studio.net.nodes.length", 10)

    def test_done_before_another_step(self) -> None:
        """After the last step a lesson doesn't end as long as another step isn't done."""
        self.open(1280, 800, False)
        number, k, right = next(
            (number, len(lesson.steps), last.right)
            for number, lesson in enumerate(LESSONS, 1)
            if isinstance(last := lesson.steps[-1].exercise, SaidExercise) and not last.picks
        )
        self.step(number, k)
        self.value(f"lesson.querySelector('form input').value = {json.dumps(right)}")
        self.value("lesson.querySelector('form').requestSubmit()")
        self.sees("done", "hint.textContent.startsWith('☑ Done')", 10)
        self.reads("what is left", "hint.textContent.includes('Step 1 isn’t done yet.')", True)

    def test_under_way(self) -> None:
        """What says that something is under way covers no node."""
        for wide, high, is_phone in WINDOWS:
            self.open(wide, high, is_phone)
            for lesson, k in ((1, 1), (2, 1), (5, 1), (6, 1), (8, 1)):
                self.step(lesson, k)
                self.page.until("busy.hidden", 20)
                covered = self.value(
                    "(() => { busy.hidden = false; const over = busy.getBoundingClientRect();"
                    " const found = [...net.querySelectorAll('.node circle')].map(one => one.getBoundingClientRect())"
                    ".filter(box => box.left < over.right && box.right > over.left && box.top < over.bottom"
                    " && box.bottom > over.top); busy.hidden = true; return found.length; })()"
                )
                self.same(f"{wide}: lesson {lesson} step {k}", covered, 0)

    def test_no_way_out(self) -> None:
        """In a lesson no button of the chosen node leads out of the step; outside of one it does."""
        self.go_to("lesson=2&step=4")
        self.sees("the centre", "chosen.textContent.includes('Node 9')")
        self.page.until("studio.drawn.plan", 20)
        self.note("no way out", "why this channel" not in self.page.text("chosen"))
        self.go_to("example=star&tab=draw&node=9")
        self.sees("a way", "chosen.textContent.includes('why this channel')")

    def test_a_new_identifier(self) -> None:
        """A node that is given another identifier has it in its heading and beside it, and keeps its number."""
        self.go_to("lesson=2&step=4")
        self.sees("the centre", "chosen.textContent.includes('Node 9')")
        self.page.until("studio.drawn.plan && busy.hidden", 20)
        self.value(
            "(field => { field.value = '0'; field.onchange(); })(chosen.querySelectorAll('input')[1])"
        )
        self.sees(
            "in the heading",
            "chosen.querySelector('h2').textContent.startsWith('Node 9, identifier 0')",
            20,
        )
        self.sees("and beside it", "net.textContent.includes('9 (0)')", 20)

    def test_zz_no_script_complained(self) -> None:
        self.same("no script complained", self.page.faults, [])
