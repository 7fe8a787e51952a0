"""Pages that stand alone, in a browser: the rounds (`picture player`) and runs (`picture watch`). They have the
studio's style, a title on a phone, no path of the machine that made them, and an address that has them play."""
import os
import shutil
import tempfile

from tests import TOP, browser
from tests.cases import Case, said_by
from tests.tools import need

STORED = os.path.join(TOP, "examples", "chain6_slow.transcript")


class Alone(Case):
    folder: str
    page: browser.Browser

    @classmethod
    def setUpClass(cls) -> None:
        program = browser.command()
        if program is None:
            return
        cls.folder = tempfile.mkdtemp()
        cls.addClassCleanup(shutil.rmtree, cls.folder, True)
        other = os.path.join(cls.folder, "elsewhere", "chain6_slow.transcript")
        os.mkdir(os.path.dirname(other))
        shutil.copy(STORED, other)
        chain = os.path.join(TOP, "examples", "chain6.col")
        for name, arguments in (
            ("rounds", ("player", os.path.join(TOP, "examples", "petersen.col"))),
            ("run", ("watch", chain, STORED)),
            ("two", ("watch", chain, STORED, other)),
        ):
            said_by("picture", *arguments, "-o", os.path.join(cls.folder, f"{name}.html"))
        cls.page = browser.Browser(program)
        cls.addClassCleanup(cls.page.end)

    def setUp(self) -> None:
        need(self, "a browser")
        self.page.size(1280, 800)

    def open(self, name: str, place: str = "") -> None:
        self.page.go("about:blank")
        self.page.go(f"file://{self.folder}/{name}.html{place}")
        self.note(name, self.page.until("(document.getElementById('when') || {}).textContent", 60))

    def test_titles(self) -> None:
        """The whole title is seen, on a phone, too, where nothing is wider than the page."""
        for wide, high in ((1280, 800), (360, 740)):
            self.page.size(wide, high, wide == 360)
            for name, title in (
                ("rounds", "petersen, pulse by pulse"),
                ("run", "chain6: a run without a clock"),
                ("two", "chain6: two orders of events, the same rounds"),
            ):
                self.open(name)
                head = "document.querySelector('h1')"
                said = self.page.value(f"{head}.textContent")
                self.note(f"{name}: title", said.startswith(title), said)
                box = self.page.value(
                    f"(b => [b.width, b.right, {head}.scrollWidth - {head}.clientWidth])"
                    f"({head}.getBoundingClientRect())"
                )
                self.note(
                    f"{name} at {wide}: whole", box[0] > 80 and box[1] <= wide and box[2] <= 0, box
                )
                widest = self.page.value("document.documentElement.scrollWidth")
                self.same(f"{name} at {wide}: no wider", widest, wide)

    def test_no_path(self) -> None:
        """Two runs are told apart by the names of their files, without the folders."""
        for name in ("rounds", "run", "two"):
            with open(os.path.join(self.folder, f"{name}.html"), encoding="utf-8") as file:
                text = file.read()
            self.note(f"{name}: of no folder", TOP not in text and self.folder not in text)
        self.open("two")
        said = self.page.text("table")
        names = [f"chain6_slow.transcript ({number}): " for number in (1, 2)]
        self.note("two names", all(name in said for name in names), said)

    def test_play(self) -> None:
        """An address that ends in `play` has the page play, from the place that it names."""
        for name, place, begins in (
            ("rounds", "#play", 0),
            ("rounds", "#pulse-13-play", 13),
            ("run", "#play", 0),
            ("two", "#pulse-3-play", 3),
        ):
            self.open(name, place)
            self.note(f"{name} {place}", self.page.until(f"+slider.value > {begins}", 30))
            self.note("and it can be stopped", "stop" in self.page.text("play"))
        self.open("rounds", "#pulse-13")
        self.same(
            "it stands still", self.page.value("[slider.value, play.textContent]"), ["13", "▶ play"]
        )

    def test_zz_no_script_complained(self) -> None:
        self.same("no script complained", self.page.faults, [])
