"""Predictions and dares in the studio's page: a first answer may be mended, lists are ticked, and a dare is a card with
its goal, of which the link is copied."""

from tests.pages.test_studio_page import Page

COPIED = """Object.defineProperty(navigator, 'clipboard',
  {value: {writeText: async words => { window.copied = words; }}, configurable: true})"""
# The shortest list of events that `explore` finds for two nodes without safes.
WON = "example=two&tab=adversary&without=safes&dare=wrong&steps=1-2_2-1_2-1_2_2"


class Predictions(Page):
    def answer(self, said: str) -> None:
        self.value(
            f"document.querySelector('#question input').value = '{said}'; "
            "document.querySelector('#question form').requestSubmit()"
        )

    def test_a_second_try(self) -> None:
        """The answer is told after the second try; before it there are the numbers of which it is made."""
        self.go_to("example=petersen&tab=rounds&at=2&forest=0&node=8&predict=1")
        self.sees("a question", "document.querySelector('#question input')")
        self.answer("")
        self.sees("an empty answer is said", "question.textContent.includes('missing')")
        self.answer("5")
        self.sees("a first one", "document.querySelector('#question pre')")
        # Node 8 has the binary digits 1000, and its parent 10 has 1010: they differ in the place 1, so that the
        # colour is 2 * 1 + 0.
        rows = self.value("document.querySelector('#question pre').textContent.split('\\n')")
        self.same("the numbers", [row.split()[-3] for row in rows], ["1000", "1010"])
        self.same("below each other", len({row.index("=") for row in rows}), 1)
        said = self.value("document.querySelector('#question [role=status]').textContent")
        self.note("the answer isn't told", "✗" not in said and ": 2" not in said, said)
        self.answer("4")
        self.sees("then it is told", "question.textContent.includes('✗ Not 4: 2.')")
        self.note("and counted", "0 of 1" in self.page.text("question"), self.page.text("question"))
        self.click_on("#question .quiet")
        self.sees("the next question", "question.textContent.includes('pulse 4')")
        # As lesson 3 works it out.
        self.answer("3")
        self.sees("an answer", "question.textContent.includes('1 of 2 at the first try')")

    def test_ticks(self) -> None:
        """What a node waits for is ticked."""
        self.go_to("example=two&tab=adversary&node=1&predict=1")
        self.sees(
            "boxes", "document.querySelectorAll('#question2 input[type=checkbox]').length === 2"
        )
        self.value("document.querySelector('#question2 form').requestSubmit()")
        self.sees(
            "nothing isn't right", "question2.textContent.includes('Not yet: it isn’t nothing')"
        )
        self.value("document.querySelectorAll('#question2 input').forEach(one => one.click())")
        self.value("document.querySelector('#question2 form').requestSubmit()")
        self.sees("both are", "question2.textContent.includes('✓ Yes: ack 2, safe 2.')")
        self.click_on("#question2 .quiet")
        self.sees(
            "another node, one step on", "studio.steps.made.length === 1 && studio.seen.node === 2"
        )

    def test_dares(self) -> None:
        self.value(COPIED)
        self.go_to(WON)
        self.sees("it is won", "dared.textContent.startsWith('☑')")
        said = self.page.text("dared")
        self.note(
            "its goal, the rules and the steps",
            all(one in said for one in ("another inbox", "Left out: safes", "Won in 5 steps")),
            said,
        )
        self.reads(
            "what else is said isn't a fault",
            "document.querySelectorAll('#stepsaid .bad').length",
            0,
        )
        choices = "Array.from(dare.options).slice(1)"
        ticked = f"{choices}.filter(one => one.textContent.endsWith('✓')).map(one => one.value)"
        self.reads("ticked in the menu", ticked, ["wrong"])
        # What is chosen is read whole: the menu is no wider than the panel.
        wide = "Math.max(...Array.from(dare.options, one => one.textContent.length))"
        self.note("short titles", self.value(wide) < 34, self.value(wide))
        self.click_on("#dared button")
        self.sees(
            "the link to hand in", "window.copied && copied.includes('steps=1-2_2-1_2-1_2_2')"
        )
        self.note("has the dare", "dare=wrong" in self.value("copied"), self.value("copied"))
        self.go_to("example=two&tab=adversary&without=safes&dare=wrong&steps=1-2_2-1")
        self.sees("not yet", "dared.textContent.startsWith('☐')")
        self.value("delete window.copied")
        self.click_on("#dared button")
        self.sees("a task", "window.copied")
        task = self.value("copied")
        wanted = all(one in task for one in ("example=two", "without=safes", "dare=wrong"))
        self.note("has the network, the rules and the dare", wanted and "steps=" not in task, task)

    def test_zz_no_script_complained(self) -> None:
        self.same("no script complained", self.page.faults, [])
