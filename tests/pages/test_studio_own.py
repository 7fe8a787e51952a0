"""The file of a program of one's own beside the movement, in a browser: its text, the function that ran last, loading
it again when it is saved, and the tab Adversary of a file without rounds."""
import os
import re
import shutil
import tempfile

from tests import TOP
from tests.pages.test_studio_page import Page

ALGORITHMS = os.path.join(TOP, "examples", "algorithms")
EVIL = "# <img src=x onerror=document.title='bad'></pre><script>document.title='bad'</script>\n"
SHOWN = "['before', 'ran', 'after'].map(one => document.getElementById(one).textContent).join('')"
MARKED = "document.getElementById('ran').hidden ? '' : document.getElementById('ran').textContent.split('\\n')[0]"
# Whether the function that ran last is seen, with its first line at least.
SEEN = """(() => { const place = one => document.getElementById(one).getBoundingClientRect(), ran = place('ran');
  const box = place('codebox');
  return ran.top >= box.top - 1 && ran.top + 20 <= box.bottom; })()"""
ECHO = "example=triangle&program=echo&tab=adversary"


class OwnFiles(Page):
    folder: str

    @classmethod
    def setUpClass(cls) -> None:
        cls.folder = tempfile.mkdtemp()
        cls.addClassCleanup(shutil.rmtree, cls.folder)
        files = ("echo", "alpha", "exclusion", "independent_set")
        for name in files:
            shutil.copy(os.path.join(ALGORITHMS, f"{name}.py"), cls.folder)
        # The echo, without what it says of states and ends.
        with open(os.path.join(cls.folder, "echo.py"), encoding="utf-8") as echo:
            bare = echo.read().partition("\n\ndef right(")[0]
        with open(os.path.join(cls.folder, "bare.py"), "w", encoding="utf-8") as file:
            file.write(bare + "\n")
        cls.arguments = tuple(
            word
            for name in (*files, "bare")
            for word in ("--own", os.path.join(cls.folder, f"{name}.py"))
        )
        super().setUpClass()

    def path(self, name: str) -> str:
        return os.path.join(self.folder, f"{name}.py")

    def text(self, name: str) -> str:
        with open(self.path(name), encoding="utf-8") as file:
            return file.read()

    def save(self, name: str, text: str) -> None:
        """Saves a file as an editor does, by another one that takes its place."""
        with open(self.path(name) + "~", "w", encoding="utf-8") as file:
            file.write(text)
        os.replace(self.path(name) + "~", self.path(name))

    def open(self, place: str) -> None:
        # From elsewhere, since steps of the test before may not stand in the address yet.
        self.go_to("example=two&tab=draw")
        self.go_to(place)
        self.sees("a run", "studio.steps.found && studio.steps.found.nodes")
        self.sees("a text", "!code.hidden && document.getElementById('numbers').textContent")

    def take(self, step: str) -> None:
        made = self.value("studio.steps.made.length")
        self.click_on(f"#possible [data-step='{step}']")
        self.sees(f"after {step}", f"studio.steps.made.length > {made}")

    def test_echo(self) -> None:
        """The text of the file, and the function that each step has run; what each node has and keeps; the end."""
        self.open(ECHO)
        self.reads("its text", SHOWN, self.text("echo"))
        lines = self.text("echo").count("\n")
        self.reads(
            "its lines", "document.getElementById('numbers').textContent.split('\\n').length", lines
        )
        self.sees("at first", f"({MARKED}) === 'def start(me):'")
        self.take("2-1")
        self.sees("a wave", f"({MARKED}) === 'def on_wave(me, port):'")
        said = self.page.text("codesaid")
        self.note("it is said", "on_wave of node 2 ran last: lines 15 to 19" in said, said)
        self.note("nothing is proved", "Nothing is proved of this file" in said, said)
        first = self.value("document.querySelectorAll('#possible > div')[1].textContent")
        self.note("what node 2 keeps", "me.parent = 0; me.waits = 1; me.count = 1" in first, first)
        self.page.key("1")
        self.sees("by a key", "studio.steps.made.length === 2")
        self.value("document.getElementById('chance20').click()")
        self.sees("the end", "studio.steps.found.ended")
        self.sees("an echo", f"({MARKED}) === 'def on_echo(me, port, count):'")
        said = self.page.text("stepsaid")
        self.note("right", "This is an end" in said and "right is true of it" in said, said)
        self.note("of one order", "one order of one network" in said and "proved" not in said, said)

    def test_dare(self) -> None:
        """Only the dares of such a file, of which one is won by an order that makes another tree."""
        self.open(ECHO)
        names = "Array.from(document.getElementById('dare').options, one => one.value)"
        self.reads("its dares", names, ["", "always", "right", "other"])
        self.value(
            "(() => { const e = document.getElementById('dare'); e.value = 'other'; e.onchange(); })()"
        )
        self.sees("its card", "dared.textContent.includes('Not yet')")
        for step in ("2-1", "3-2"):
            self.take(step)
        self.value("document.getElementById('chance20').click()")
        self.sees("it is won", "dared.textContent.startsWith('☑')")
        self.reads("and looks like it", "dared.className", "card won")
        self.go_to("example=two&program=bare&tab=adversary")
        self.sees("without functions", f"{names}.join() === ',other'")
        self.value("document.getElementById('chance20').click()")
        self.sees("an end", "studio.steps.found.ended")
        said = self.page.text("stepsaid")
        self.note("of which nothing is said", "The file has no right, so" in said, said)
        self.go_to("example=two&tab=adversary")
        self.sees("the synchroniser", "studio.steps.found && studio.steps.found.looks")
        self.reads("its own dares", names, ["", "apart", "ends", "wrong", "results"])

    def test_alpha(self) -> None:
        """A node in a green ring acts; what it sends and takes marks a function each time."""
        self.open("example=two&program=alpha&tab=adversary")
        self.sees("at first", f"({MARKED}) === 'def start(me):'")
        seen = set()
        for _ in range(14):
            made = self.value("studio.steps.made.length")
            self.value("document.getElementById('chance').click()")
            self.sees("a step", f"studio.steps.made.length > {made}")
            step = self.value("studio.steps.made.at(-1)")
            marked = self.value(MARKED)
            seen.add(marked)
            self.note(f"{step}: {marked}", ("def act(" in marked) == ("-" not in step))
        self.note("several functions", len(seen) >= 3, seen)
        self.note("one is act", "def act(me):" in seen, seen)
        ringed = "Array.from(document.querySelectorAll('#possible button.pulse'), one => one.dataset.step)"
        able = "studio.steps.found.nodes.flatMap((one, k) => one.able ? [String(k + 1)] : [])"
        self.same("who may act", self.value(ringed), self.value(able))

    def test_saved(self) -> None:
        """A changed file is loaded soon, with its faults in one line beside what was there, and without asking more
        than once a second."""
        before = self.text("echo")
        self.addCleanup(self.save, "echo", before)
        self.open(ECHO)
        self.take("2-1")
        self.save("echo", EVIL + before.replace("counts", "knows of"))
        self.sees(
            "it is loaded", "document.getElementById('before').textContent.includes('onerror')", 20
        )
        self.reads("as a text", SHOWN, self.text("echo"))
        self.reads(
            "it is said",
            "document.getElementById('codefault').textContent",
            "It has been saved, and is loaded again.",
        )
        self.note("nothing of it runs", self.value("document.title") != "bad")
        self.sees(
            "and played",
            "studio.steps.found && studio.steps.found.nodes[0].found === 'knows of 1 so far'",
        )
        self.reads("with the same steps", "studio.steps.made.join('_')", "2-1")
        text = self.text("echo")
        self.save("echo", text.replace("def start(me):", "def start(me:"))
        self.sees(
            "its fault",
            "document.getElementById('codefault').textContent.includes('echo.py line ')",
            20,
        )
        self.reads("what was there stays", SHOWN, text)
        self.reads("and the run", "studio.steps.made.length", 1)
        self.save("echo", text.replace('me.send_all("wave")', 'me.send(0, "wave")'))
        self.sees(
            "mended",
            "document.getElementById('codefault').textContent.includes('loaded again')",
            20,
        )
        self.sees("other steps", "studio.steps.found && studio.steps.made.length === 1")
        self.save("echo", text.replace('me.send_all("wave")', "pass"))
        self.sees(
            "steps that aren't possible", "studio.steps.found && !studio.steps.made.length", 20
        )
        self.sees("are said", "wrong.textContent.includes('the run begins again')")
        self.value("performance.clearResourceTimings()")
        self.value("new Promise(done => setTimeout(done, 5000))")
        asked = "performance.getEntriesByType('resource').filter(one => one.name.endsWith('/call/file_text')).length"
        count = self.value(asked)
        self.note("asked at most once a second, and at least sometimes", 1 <= count <= 5, count)

    def test_rounds(self) -> None:
        """Of a file with rounds the greeting and then the step are marked, in both tabs; it has what the built-in
        programs have."""
        self.go_to("example=petersen&program=independent_set&tab=rounds&at=0")
        self.sees("its text", f"({SHOWN}).includes('def greet')")
        self.sees("the greeting", f"({MARKED}) === 'def greet(me):'")
        self.value("studio.time.set(2)")
        self.sees("a step", f"({MARKED}) === 'def step(me, pulse, inbox):'")
        self.value("document.getElementById('codebox').focus()")
        self.page.key("ArrowRight", code="ArrowRight", windowsVirtualKeyCode=39)
        self.page.key("ArrowDown", code="ArrowDown", windowsVirtualKeyCode=40)
        self.reads("keys of the text make no step", "studio.time.at", 2)
        self.go_to("example=two&program=independent_set&tab=adversary")
        self.sees(
            "the greeting once more", f"studio.steps.found && ({MARKED}) === 'def greet(me):'"
        )
        self.value("document.getElementById('instep').click()")
        self.sees("a pulse", f"({MARKED}) === 'def step(me, pulse, inbox):'")
        self.reads("rules of all", "document.querySelectorAll('#without input').length", 4)
        self.go_to("example=petersen&tab=rounds")
        self.sees("no file, no text", "document.getElementById('code').hidden")

    def test_what_makes_no_sense(self) -> None:
        """Without rounds there are no pulses to make in step, no waits to predict and no tab No clock; Rounds says
        why in one line."""
        self.open(ECHO)
        for name in ("instep", "handoverbox", "question2"):
            self.reads(name, f"document.getElementById('{name}').getClientRects().length", 0)
        rules = "Array.from(document.querySelectorAll('#without input'), one => one.value).join()"
        self.reads("one rule", rules, "fifo")
        said = self.value("document.querySelector('[data-panel=adversary]').innerText")
        self.note("no pulses", not re.search(r"pulse|\back\b|\bsafe|payload", said), said)
        for tab in ("rounds", "run"):
            self.go_to(f"example=triangle&program=echo&tab={tab}")
            self.sees(f"{tab} says why", "wrong.textContent.startsWith('echo has no rounds: ')")
            self.reads("without a text", "document.getElementById('code').hidden", True)

    def test_picture(self) -> None:
        """The run that was made is drawn."""
        self.open(ECHO)
        self.take("2-1")
        self.value(
            "URL.createObjectURL = (make => blob => { blob.text().then(words => { window.svg = words; }); "
            "return make(blob); })(URL.createObjectURL.bind(URL))"
        )
        self.click_on("#drawnrun")
        self.sees(
            "a picture",
            "studio.seen.tab === 'pictures' && window.svg && window.svg.includes('class=\"message\"')",
        )
        self.reads("its messages", "window.svg.split('class=\"message\"').length - 1", 3)
        self.reads("no pulses are asked for", "document.getElementById('ofrun').hidden", True)

    def test_predict(self) -> None:
        """The question is what a node sends in its next step, and then it is seen."""
        self.open(ECHO + "&predict=1&node=2")
        asked = "document.getElementById('question2').textContent"
        self.sees(
            "a question", f"{asked}.startsWith('Node 2 takes wave from 1. What does it send then?')"
        )
        choices = "Array.from(document.querySelectorAll('#question2 input'), one => one.value).sort().join()"
        self.sees("its choices", f"{choices} === 'echo 1,echo 3,wave 1,wave 3'")
        self.value("document.querySelector('#question2 form').requestSubmit()")
        self.sees("not nothing", f"{asked}.includes('Not yet: it isn’t nothing.')")
        self.value("document.querySelector('#question2 [value=\"wave 3\"]').click()")
        self.value("document.querySelector('#question2 form').requestSubmit()")
        self.sees(
            "right", f"{asked}.includes('✓ Yes: wave 3.') && {asked}.includes('on_wave runs')"
        )
        self.click_on("#question2 .quiet")
        self.sees("it is seen", "studio.steps.made.join() === '2-1'")
        self.sees("another question", f"{asked}.startsWith('Node 3 takes wave from 1.')")

    def test_keys_and_names(self) -> None:
        """The text is reached by the keyboard and scrolled by it; it has a name, and its numbers aren't read out."""
        self.open("example=triangle&program=exclusion&tab=adversary")
        self.value("document.getElementById('codebox').focus()")
        self.reads("it has the focus", "document.activeElement.id", "codebox")
        top = self.value("document.getElementById('codebox').scrollTop")
        self.page.key("PageDown", code="PageDown", windowsVirtualKeyCode=34)
        self.sees("it scrolls", f"document.getElementById('codebox').scrollTop > {top}")
        self.reads("no step is made", "studio.steps.made.length", 0)
        names = "['code', 'codebox'].map(one => document.getElementById(one).ariaLabel)"
        self.reads("names", names, ["the file of the program", "the text of the file"])
        self.reads("numbers", "document.getElementById('numbers').ariaHidden", "true")
        self.take("1")
        self.sees(
            "it is announced",
            "live.textContent.includes('node 1 acts') && live.textContent.includes('act ran')",
        )

    def test_on_a_phone(self) -> None:
        """No sideways scroll, and the text has room."""
        self.addCleanup(self.page.size, 1280, 800)
        for wide, high, is_phone in ((360, 740, True), (768, 1024, False), (1280, 800, False)):
            self.page.size(wide, high, is_phone)
            self.open(ECHO)
            shown = self.value("document.documentElement.scrollWidth")
            self.note(f"{wide}: no wider", shown <= wide, shown)
            high_ = self.value("document.getElementById('codebox').clientHeight")
            self.note(f"{wide}: lines of text", high_ >= 100, high_)
            self.take("2-1")
            self.reads(f"{wide}: what ran is seen", SEEN, True)
            stage = self.value("document.getElementById('stage').clientHeight")
            self.note(f"{wide}: a stage", stage >= 200, stage)
        self.page.size(360, 740, True)
        self.sees("and after a turn", SEEN)

    def test_zz_no_script_complained(self) -> None:
        self.same("no script complained", self.page.faults, [])


class NoOwnFile(Page):
    def test_it_is_said(self) -> None:
        """A studio without a file says that there could be one, where a program is chosen."""
        for tab in ("rounds", "adversary"):
            self.go_to(f"example=triangle&tab={tab}")
            said = f"document.querySelector('[data-panel={tab}] .noown').innerText"
            self.sees(tab, f"({said}).includes('forestlab studio --own FILE.py')")
