"""The studio as static files, `forestlab studio --publish DIR`: the page from a folder in a browser without network, on
which the lessons are gone through as in the studio; each answer that is recorded asked again; and the folder."""
import contextlib
import gzip
import io
import json
import os
import random
import re
import shutil
import subprocess
import sys
import tempfile
import threading
import time
from collections.abc import Iterator, Mapping, Sequence
from functools import partial
from http.server import SimpleHTTPRequestHandler, ThreadingHTTPServer
from typing import Any
from unittest import mock

from forestplan import proved_programs
from forestplan.definitions.programs import any_program_at
from forestplan.definitions.reacting_program import Reacting
from forestplan.faults import Fault
from forestplan.networks.network_text import read_network
from forestplan.pictures.page_data import as_object
from forestplan.schedules.reacting_stepwise import ReactingStepwise
from forestplan.schedules.stepwise import Stepwise
from forestplan.studio import publishing, studio
from forestplan.studio.calls import CALLS
from forestplan.studio.judges import MACHINE, PYTHON
from forestplan.studio.lessons import LECTURE, LESSONS, PredictedExercise, SaidExercise
from forestplan.studio.networks import opened_by
from forestplan.studio.own_dares import own_dares_of
from forestplan.studio.recording import Recording, spots, tell, text_of_page
from forestplan.studio.session import Session
from forestplan.studio.studio import own_programs
from tests import SOURCES, TOP, browser
from tests.cases import Case, text_in, working_in
from tests.pages.test_studio_lessons import (
    APART,
    COINS,
    Cards,
    LATER,
    MADE,
    PREDICTED,
    TICKED,
    TREE,
    WRONG,
    steps,
)
from tests.settings import PATHS
from tests.tools import need

# Bytes of the page, compressed.
MOST = 3 << 20
WHOLE = range(1, len(LESSONS) + 1)
# Plays lessons 4 and 7 alone, and says a digest of each file.
DIGESTS = """
import hashlib, sys
from forestplan.studio.publishing import published
from forestplan.studio.recording import spots
from forestplan.studio.session import Session
places = [spot for spot in spots() if spot.lesson in (4, 7)]
for name, data in published(Session(), places).items():
    print(name, hashlib.sha256(data).hexdigest())
"""
# The calls that the page has made by itself are answered; what is asked here goes the same way.
# A call of the page itself of the same name would end one without a key.
CALL = "$$recorded.call({}, {}, {{key: 'test'}}).catch(why => ({{wrong: why.message}}))"


def session() -> Session:
    own, forms = own_programs([])
    return Session(own=own, forms=forms)


def as_json(value: object) -> object:
    return json.loads(json.dumps(value, default=as_object))


def answer(name: str, asked: Mapping[str, object]) -> object:
    """What the studio's own call answers, or why it refuses."""
    try:
        return as_json(CALLS[name].answer(asked, session(), tell))
    except Fault as why:
        return {"wrong": str(why)}


def plain(name: str, found: Any) -> Any:
    """An answer to be compared. The picture of what goes wrong has the places and the name of the page's network, which
    no key has: of it only counts that there is one."""
    if name != "broken" or "wrong" in found:
        return found
    return {"answer": found["answer"] | {"picture": bool(found["answer"]["picture"])}}


class Quiet(SimpleHTTPRequestHandler):
    """A web server that says nothing."""

    def log_message(self, format: str, *args: object) -> None:
        """Says nothing."""


class Folder(Case):
    """Where the page is written, and what is said if it isn't."""

    def setUp(self) -> None:
        self.folder = tempfile.mkdtemp()
        self.addCleanup(shutil.rmtree, self.folder, True)

    def refused(self, folder: str, files: dict[str, bytes]) -> str:
        with mock.patch.object(publishing, "published", lambda *_: files):
            try:
                publishing.publish(folder, Session())
            except Fault as why:
                return str(why)
        return ""

    def test_new_and_empty(self) -> None:
        for name in ("new", "empty"):
            at = os.path.join(self.folder, name)
            if name == "empty":
                os.mkdir(at)
            self.same(name, self.refused(at, {"index.html": b"x", "answers/a.js": b"y"}), "")
            self.same(f"{name}: files", sorted(os.listdir(at)), ["answers", "index.html"])
        self.same("nothing else", sorted(os.listdir(self.folder)), ["empty", "new"])

    def test_taken(self) -> None:
        """A folder with a file in it, and a file, are refused, and stay as they were."""
        with open(os.path.join(self.folder, "mine"), "w", encoding="utf-8") as file:
            file.write("mine")
        for at in (self.folder, os.path.join(self.folder, "mine")):
            said = self.refused(at, {"index.html": b"x"})
            self.note("refused", "name a new folder, or an empty one" in said, said)
        self.same("as it was", os.listdir(self.folder), ["mine"])
        self.same("the file", text_in(self.folder, "mine"), "mine")

    def test_full_disk(self) -> None:
        """A disk that is full: one line, and the folder is as it was."""
        at = os.path.join(self.folder, "empty")
        os.mkdir(at)
        with mock.patch("builtins.open", side_effect=OSError(28, os.strerror(28))):
            said = self.refused(at, {"index.html": b"x"})
        self.same("one line", said, f"{at}: it can't be written: {os.strerror(28)}")
        self.same("as it was", os.listdir(at), [])
        self.same("nothing beside it", os.listdir(self.folder), ["empty"])

    def test_the_folder_stays(self) -> None:
        """It may be a disk, or the folder that the user is in: it keeps its place on the disk, and who may read it."""
        at = os.path.join(self.folder, "empty")
        os.mkdir(at)
        os.chmod(at, 0o751)
        before = os.stat(at)
        for name in ("", "again"):
            with working_in(at):
                said = self.refused(f"./{name}", {"index.html": b"x"})
            self.same("written", said, "")
            self.same(f"files of {name}", text_in(at, name, "index.html"), "x")
            os.remove(os.path.join(at, name, "index.html"))
        after = os.stat(at)
        self.same("the same", (after.st_ino, after.st_mode), (before.st_ino, before.st_mode))

    def test_a_folder_that_is_given(self) -> None:
        """The folder is the user's, and the one around it isn't."""
        outer, user = os.path.join(self.folder, "outer"), 12345 if os.geteuid() == 0 else None
        own = os.path.join(outer, "own")
        os.makedirs(own)
        os.chmod(self.folder, 0o755)
        os.chmod(outer, 0o555)
        self.addCleanup(os.chmod, outer, 0o755)
        if user:
            os.chown(own, user, user)
            os.seteuid(user)
            self.addCleanup(os.seteuid, 0)
        self.same("written", self.refused(own, {"index.html": b"x"}), "")
        self.same("its files", os.listdir(own), ["index.html"])

    def test_a_folder_of_somebody_else(self) -> None:
        """Whoever guesses the name under which the page is made, as any user can in /tmp, gets nothing of it into a
        folder of their own, and loses nothing."""
        at = os.path.join(self.folder, "page")
        theirs = f"{at}.{os.getpid()}.new"
        os.mkdir(theirs)
        with open(os.path.join(theirs, "evil.js"), "w", encoding="utf-8") as file:
            file.write("theirs")
        said = self.refused(at, {"index.html": b"x"})
        self.same("one line", said, f"{at}: it can't be written: {os.strerror(17)}")
        self.same("nothing is there", os.listdir(self.folder), [os.path.basename(theirs)])
        self.same("theirs", os.listdir(theirs), ["evil.js"])

    def test_filled_meanwhile(self) -> None:
        """A file that somebody puts into the folder while the page is made stays, and is alone there."""
        for name in ("new", "empty"):
            at = os.path.join(self.folder, name)
            if name == "empty":
                os.mkdir(at)

            def fill(*_: object, at: str = at) -> dict[str, bytes]:
                os.makedirs(at, exist_ok=True)
                with open(os.path.join(at, "mine"), "w", encoding="utf-8") as file:
                    file.write("mine")
                return {"index.html": b"x", "a.js": b"y"}

            with mock.patch.object(publishing, "published", fill):
                with self.assertRaisesRegex(Fault, "name a new folder, or an empty one"):
                    publishing.publish(at, Session())
            self.same(name, os.listdir(at), ["mine"])
        self.same("nothing else", sorted(os.listdir(self.folder)), ["empty", "new"])

    def test_a_move_that_fails(self) -> None:
        """A disk that is full after some of the files are in their place: none is left."""
        at, rename = os.path.join(self.folder, "empty"), os.rename
        os.mkdir(at)

        def fails(old: str, new: str) -> None:
            if os.path.basename(new) == "index.html":
                raise OSError(28, os.strerror(28))
            rename(old, new)

        with mock.patch("os.rename", fails):
            said = self.refused(at, {"index.html": b"x", "a.js": b"y", "answers/b.js": b"z"})
        self.same("one line", said, f"{at}: it can't be written: {os.strerror(28)}")
        self.same("as it was", os.listdir(at), [])

    def test_ended(self) -> None:
        """Who ends the command while the page is made finds the folder as it was."""
        for name in ("new", "empty"):
            at = os.path.join(self.folder, name)
            if name == "empty":
                os.mkdir(at)
            arguments = [
                sys.executable,
                "-S",
                os.path.join(TOP, "src", "forestplan"),
                "studio",
                "--publish",
                at,
            ]
            run = subprocess.Popen(arguments, stderr=subprocess.PIPE, text=True)
            until = time.monotonic() + 60
            while not self.made() and time.monotonic() < until:
                time.sleep(0.05)
            self.note("it is made", self.made())
            run.terminate()
            said = run.communicate(timeout=60)[1]
            self.note("no traceback", "Traceback" not in said and said.count("\n") <= 1, said)
            self.same(name, self.made(), [])
        self.same("as it was", (os.listdir(self.folder), os.listdir(at)), (["empty"], []))

    def made(self) -> list[str]:
        """The folders in which a page is made."""
        return [
            name for _, names, _ in os.walk(self.folder) for name in names if name.endswith(".new")
        ]

    def test_nowhere(self) -> None:
        at = os.path.join(self.folder, "not", "there", "mine")
        os.chmod(self.folder, 0o755)
        self.same("made", self.refused(at, {"index.html": b"x"}), "")
        below = os.path.join(at, "index.html", "page")
        said = self.refused(below, {"index.html": b"x"})
        self.note("below a file", said.startswith(below) and "\n" not in said, said)

    def test_what_there_is(self) -> None:
        """The page says of which commit it is; an installed folder, or a copy, may not know."""
        found = publishing.hello_of(Session(), Recording(Session(), [])).published
        assert found is not None
        commit = r"[0-9a-f]{12}(, with changes)?|unknown.*"
        self.note("a commit", re.fullmatch(commit, found.commit), found.commit)

    def test_places(self) -> None:
        """Each step of each lesson is recorded, and each place of the lecture."""
        found = list(spots())
        wanted = [(n, k) for n, one in enumerate(LESSONS, 1) for k in range(1, len(one.steps) + 1)]
        self.same("steps", [(one.lesson, one.step) for one in found if one.lesson], wanted)
        places = [one.place for one in found if one.piece == "lecture"]
        self.same("places", places, [one.place for one in LECTURE])

    def test_command_line(self) -> None:
        """What the page can't have is refused, and nothing is written."""
        for arguments in (["petersen"], ["--own", "a.py"], ["--links", "links"]):
            done = self.called("--publish", "x", *arguments)
            self.note(f"no {arguments} with it", done.returncode == 2, done)
            self.note("one line", done.stderr.count("\n") == 1 and "takes no" in done.stderr)
            self.same("nothing is written", os.listdir(self.folder), [])
        # A folder that it can't have isn't a wrong command line.
        with open(os.path.join(self.folder, "mine"), "wb"):
            done = self.called("--publish", ".")
        said = (done.returncode, done.stdout, done.stderr.count("\n"))
        self.same("a folder with a file in it", said, (1, "", 1))
        self.same("its file is left", os.listdir(self.folder), ["mine"])

    def test_one_line(self) -> None:
        """A name with a line feed, and with what a terminal takes as an order, is said in one line."""
        name = "a\nstudio: b\x1b[31m"
        with mock.patch.object(studio, "publish", return_value=10):
            out = io.StringIO()
            with contextlib.redirect_stderr(out):
                self.same("written", studio.main(["--publish", name]), 0)
        said = out.getvalue()
        self.note("one line", said.count("\n") == 1 and said[:-1].isprintable(), said)

    def called(self, *arguments: str) -> subprocess.CompletedProcess[str]:
        path = os.path.join(TOP, "src", "forestplan")
        line = [sys.executable, "-S", path, "studio", *arguments]
        return subprocess.run(line, cwd=self.folder, capture_output=True, text=True)


class Bytes(Case):
    def test_same_bytes(self) -> None:
        """The same sources give the same bytes, in whatever order sets and dictionaries are."""
        runs = [
            subprocess.Popen(
                [sys.executable, "-c", DIGESTS],
                cwd=TOP,
                env=os.environ | {"PYTHONHASHSEED": seed, "PYTHONPATH": SOURCES},
                stdout=subprocess.PIPE,
                text=True,
            )
            for seed in ("1", "2")
        ]
        one, other = [run.communicate()[0].splitlines() for run in runs]
        self.note("files", len(one) > 3, one)
        self.same("the same", one, other)


class Published(Cards):
    """The cards of the lessons, on the published page: from a folder, in a browser that is offline."""

    folder: str

    @classmethod
    def setUpClass(cls) -> None:
        program = browser.command()
        if program is None:
            return
        cls.folder = tempfile.mkdtemp()
        cls.addClassCleanup(shutil.rmtree, cls.folder, True)
        at = os.path.join(cls.folder, "a folder", "page")
        os.mkdir(os.path.dirname(at))
        publishing.publish(at, session())
        cls.address = f"file://{at.replace(' ', '%20')}/index.html"
        cls.page = browser.Browser(program)
        cls.addClassCleanup(cls.page.end)
        cls.page.ask("Network.enable")
        cls.page.ask(
            "Network.emulateNetworkConditions",
            offline=True,
            latency=0,
            downloadThroughput=0,
            uploadThroughput=0,
        )
        cls.page.size(1280, 800)
        cls.page.go(cls.address)
        cls.page.until("window.studio && studio.seen.hello && studio.rounds.film", 60)

    def test_bends(self) -> None:
        """A drawing of one's own bends its edges, too, and has its numbers above: no server is asked."""
        self.page.go(self.address + "#net=0.0_90.0_180.0_270.0~1-2_1-4_2-3_3-4&tab=draw")
        edge = "document.querySelector('#net [data-edge=\"1-4\"]')"
        self.page.until(f"!studio.isFollowing() && {edge}", 60)
        drawn = self.page.value(f"{edge}.getAttribute('d')")
        self.note("bent", "Q" in drawn, drawn)
        beside = "[...document.querySelectorAll('#net [data-label]')].map(one => one.textContent)"
        self.same("numbers", self.page.value(beside), ["1", "2", "3", "4"])

    def files(self) -> Iterator[tuple[str, bytes]]:
        for folder, _, names in sorted(os.walk(os.path.join(self.folder, "a folder", "page"))):
            for name in sorted(names):
                with open(os.path.join(folder, name), "rb") as file:
                    yield name, file.read()

    def pieces(self) -> Iterator[tuple[str, dict[str, Any]]]:
        for name, data in self.files():
            found = re.fullmatch(r'recorded\("(\w+)", (.*)\);\n', data.decode(errors="replace"))
            if found:
                yield found[1], json.loads(found[2])

    def asked(self, name: str, **what: object) -> object:
        """What the published page answers."""
        return self.value(CALL.format(json.dumps(name), json.dumps(what)))

    def make_path(self, nodes: str) -> None:
        """The sizes are a menu."""
        self.value("make.querySelector('select').focus()")
        self.value(f"make.querySelector('[name=nodes]').value = '{nodes}'")
        self.press("Enter", "#make button")

    def test_all_lessons(self) -> None:
        """Each lesson is gone through by N alone, and each exercise done by keys; the ticks stay."""
        self.value("localStorage.removeItem('studio-ticks')")
        self.open()
        self.go_to("lesson=1")
        for number, k, step in steps():
            self.step_to(number, k)
            self.reads("no fault", "wrong.textContent", "")
            if step.exercise:
                self.reads("not done yet", f"Boolean({TICKED})", False)
                self.do(number, step.exercise)
                self.ticked(f"{number} {step.exercise.name}")
            self.press("n")
        self.open()
        self.go_to("lesson=1")
        self.step_to(1, 1)
        ticks = self.value("Array.from(lesson.querySelectorAll('.all a'), one => one.textContent)")
        self.same("ticks", ticks, [f"{n}✓" for n in WHOLE])

    def test_where_nothing_is_kept(self) -> None:
        """What the page does then is the studio's matter (test_studio_lessons.py)."""

    def test_size(self) -> None:
        files = dict(self.files())
        size = sum(len(gzip.compress(data)) for data in files.values())
        self.note("below the limit", size < MOST, size)
        self.note("whole", {"index.html", "studio.js"} <= set(files), sorted(files))

    def test_nothing_from_elsewhere(self) -> None:
        """No file names a folder of this machine; the page's policy lets it ask for nothing."""
        for name, data in self.files():
            self.note(name, TOP.encode() not in data and self.folder.encode() not in data)
        html = dict(self.files())["index.html"].decode()
        policy = re.search(r'Content-Security-Policy" content="([^"]*)"', html)
        self.note("a policy", policy is not None and "default-src 'none'" in policy[1])
        self.note("that lets nothing out", policy is not None and "connect-src" not in policy[1])
        self.same("no module", re.findall(r'type="module"|modulepreload', html), [])
        outside = self.value(
            "performance.getEntriesByType('resource').map(one => one.name)"
            ".filter(one => !one.startsWith('file:') && !one.startsWith('blob:') && !one.startsWith('data:'))"
        )
        self.same("nothing is asked for elsewhere", outside, [])

    def test_says_what_it_is(self) -> None:
        """The commit, and by whom its plans are: none was written by a proved program here."""
        said = self.value("document.querySelector('#side .recorded').textContent")
        commit = json.loads(self.value("JSON.stringify(RECORDED.hello.published.commit)"))
        self.note("the commit", commit and commit in said, said)
        self.note("not proved", "not proved" in said and "proved program wrote" not in said, said)
        self.note("the studio", "forestlab studio" in said, said)

    def test_each_answer_again(self) -> None:
        """Each recorded answer of a call is what the call answers now."""
        count = 0
        for piece, found in self.pieces():
            for key, number in found["answers"].items():
                name, _, rest = key.partition(" ")
                text = rest.split("\n")[-1]
                asked = json.loads(text)
                if rest != text:
                    asked["network"] = rest.removesuffix(text)
                kept = found["values"][number]
                again = answer(name, asked)
                wanted = again if "wrong" in kept else {"answer": again}
                is_same = plain(name, kept) == plain(name, wanted)
                self.note(f"{piece}: {key[:60]}", is_same, [kept, again] if not is_same else "")
                count += 1
        self.note("there are many", count > 1000, count)

    def test_runs(self) -> None:
        """A run that is made step by step: after steps by chance the page says what the studio says, under all rules
        that are recorded, and of what each node waits for; and a list that wins a dare wins it."""
        source = random.Random("published")
        for name, rules in (
            ("two", ""),
            ("two", "safes"),
            ("two", "acks,fifo"),
            ("two", "early"),
            ("path", "safes"),
            ("chain6", ""),
        ):
            place = opened_by(f"example={name}", Session())
            assert place.network
            text = text_of_page(place.network)
            network = read_network(text, name)
            without = tuple(filter(None, rules.split(",")))
            lists = (
                [APART.split("_"), WRONG.split("_")] if (name, rules) == ("two", "safes") else []
            )
            for seed in range(6):
                player = Stepwise(network, without=without)
                for _ in range(source.randrange(5, 90)):
                    steps = player.possible()
                    if steps and not player.is_over:
                        player.follow([source.choice(steps)])
                lists.append(player.chosen)
            for made in lists:
                self.run_as_in_the_studio(text, rules, made, len(network.neighbours))

    def run_as_in_the_studio(self, text: str, without: str, made: list[str], nodes: int) -> None:
        asked = {"network": text, "without": without, "steps": "_".join(made)}
        for dare in ("apart", "ends", "wrong", "results"):
            got, wanted = self.asked("steps", **asked, dare=dare), answer(
                "steps", asked | {"dare": dare}
            )
            for found in (got, wanted):
                assert isinstance(found, dict)
                found["steps"] = sorted(found["steps"])
                # The judge of the studio isn't asked on the published page.
                found.pop("judge", None)
            self.same(f"{without} {dare} after {len(made)} steps", got, wanted)
        for v in range(1, nodes + 1):
            for said in ("nothing", f"ack {v % nodes + 1}"):
                more = {"node": v, "guess": said}
                self.same(
                    f"waits {v}",
                    self.asked("waits", **asked, **more),
                    answer("waits", asked | more),
                )
        for lesson, step in ((5, 4), (6, 1), (6, 3), (6, 4)):
            more = {"lesson": lesson, "step": step}
            got, wanted = self.asked("exercise", **asked, **more), answer("exercise", asked | more)
            self.same(f"exercise {lesson} {step}", got, wanted)

    def test_reactions(self) -> None:
        """The same of nodes that react to messages: after steps by chance, also where messages overtake others, and of
        what a node sends next; the lists of lesson 8 do its exercises."""
        source = random.Random("reactions")
        own, _ = own_programs([])
        for name, sample, rules, made in (
            ("triangle", "echo", "", TREE),
            ("triangle", "exclusion", "", LATER),
            ("triangle", "exclusion", "fifo", ""),
            ("two", "snapshot", "fifo", COINS),
            ("two", "snapshot", "", ""),
        ):
            place = opened_by(f"example={name}", Session())
            program = any_program_at(own[sample])
            assert place.network and isinstance(program, Reacting)
            text = text_of_page(place.network)
            lists = [made.split("_")] if made else []
            for _ in range(4):
                player = ReactingStepwise(
                    read_network(text, name), program, rules.split(",") if rules else ()
                )
                for _ in range(source.randrange(1, 30)):
                    if steps := player.possible():
                        player.follow([source.choice(steps)])
                lists += [player.chosen, player.chosen[: len(player.chosen) // 2]]
            for one in lists:
                asked: dict[str, object] = {
                    "network": text,
                    "program": sample,
                    "without": rules,
                    "steps": "_".join(one),
                }
                self.reactions_as_in_the_studio(asked, own_dares_of(program))

    def reactions_as_in_the_studio(self, asked: dict[str, object], dares: Sequence[str]) -> None:
        for dare in ("", *dares):
            more = asked | {"dare": dare} if dare else asked
            got, wanted = self.asked("steps", **more), answer("steps", more)
            self.same(f"{more}", got, wanted)
        assert isinstance(wanted, dict)
        for step in wanted["steps"]:
            for said in ("nothing", "wave 3", "echo 1, wave 3"):
                more = asked | {"step": step, "guess": said}
                self.same(f"{more}", self.asked("sends", **more), answer("sends", more))
        for step in (2, 5, 6):
            more = asked | {"lesson": 8, "step": step}
            self.same(f"{more}", self.asked("exercise", **more), answer("exercise", more))

    def test_plans(self) -> None:
        """The verdict on a typed plan, and on the exercise, is that of the studio."""
        source = random.Random("plans")
        place = opened_by("example=petersen", Session())
        assert place.network
        text = text_of_page(place.network)
        good = [2, 3, 1, 2, 1, 3, 2, 2, 1, 3]
        plans = [good, [1] * 10, [0] * 10, [99] * 10] + [
            [source.choice((0, 1, 2, 3, 4, 5)) if source.random() < 0.3 else one for one in good]
            for _ in range(30)
        ]
        for plan in plans:
            for name in ("check", "exercise"):
                asked: dict[str, object] = {"network": text, "plan": plan}
                if name == "exercise":
                    asked |= {"lesson": 1, "step": 3}
                self.same(f"{name} {plan}", self.asked(name, **asked), answer(name, asked))

    def test_questions(self) -> None:
        """Predictions, and exercises that are answered: right and wrong ones are judged as in the studio."""
        text = text_of_page(opened_by("example=petersen", Session()).network)  # type: ignore[arg-type]
        for node, pulse, forest, said in (
            (8, 3, 0, "2"),
            (8, 3, 0, " 7"),
            (10, 3, 0, "0"),
            (3, 20, 1, "-"),
        ):
            asked = {"network": text, "node": node, "pulse": pulse, "forest": forest, "guess": said}
            self.same(f"{node} {pulse}", self.asked("predict", **asked), answer("predict", asked))
        for said in ("4", " 4 ", "5", "", "<b>"):
            asked = {"network": "", "lesson": 1, "step": 1, "guess": said}
            self.same(said, self.asked("exercise", **asked), answer("exercise", asked))

    def test_nothing_drawn(self) -> None:
        """An exercise with an empty drawing is judged as in the studio: the step says what to draw first."""
        # Where the page itself has nothing judged.
        self.go_to("lecture=1")
        for step, said in ((4, "draw 4 transmitters first"), (6, "draw 4 transmitters first")):
            asked = {"network": "p edge 0 0\n", "lesson": 1, "step": step}
            self.same(f"step {step}", self.asked("exercise", **asked), {"wrong": said})
        self.value("localStorage.removeItem('studio-ticks')")
        self.open()
        self.go_to("lesson=1&step=4")
        self.step_to(1, 4)
        said = "lesson.querySelector('.judged').textContent"
        self.sees("what to do", f"{said} === '☐ Not yet: draw 4 transmitters first.'")
        for nodes in range(1, 7):
            self.press("a")
            self.sees("a node", f"studio.net.nodes.length === {nodes}", 20)
        self.sees("one full stop", f"/forestlab studio starts it[.]$/.test({said})")

    def test_addresses(self) -> None:
        """The places of the tables and links are read as the studio reads them."""
        places = sorted(
            {spot.place for spot in spots()}
            | {f"lesson={n}" for n in WHOLE}
            | {"lesson=2&step=4", "lecture=3"}
        )
        for place in places:
            got, wanted = self.asked("address", place=place), answer("address", {"place": place})
            assert isinstance(got, dict) and isinstance(wanted, dict)
            for found in (got, wanted):
                # How a network is drawn whose nodes are in the address is asked of the studio only.
                network = found["network"]
                found["network"] = network and [
                    network["edges"],
                    [(node["x"], node["y"]) for node in network["nodes"]],
                ]
            self.same(place, got, wanted)

    def test_hostile_addresses(self) -> None:
        """Whoever wrote it, an address breaks nothing: what can't be read is said in a line, and no node that isn't
        there, no half edge and no name of another thing gets into the page."""
        two, left_out = "net=0.0_90.0~1-2", "is left out"
        for place, said in (
            (f"{two}&tab=rounds&node=1.5", left_out),
            (f"{two}&tab=draw&node=1.5", left_out),
            (f"{two}&tab=check&plan=1-2", left_out),
            (f"{two}&tab=adversary&dare=__proto__", left_out),
            (f"{two}&tab=rounds&program=constructor", left_out),
            ("net=0.0_1.1~1.5-2&tab=rounds", "can’t be read"),
            (f"{two}~b1-0&tab=draw", "can’t be read"),
            (f"{two}~n1-%zz&tab=draw", "can’t be read"),
            (f"net={'0.0_' * 100_000}0.0&tab=draw", "can’t be read"),
            (f"{two}~n1-%5F%5Fproto%5F%5F_2-constructor&tab=draw", ""),
            (f"{two}~n1-%3C%2Fscript%3E%3Cscript%3Ealert(1)&tab=draw", ""),
        ):
            self.page.faults.clear()
            self.page.go("about:blank")
            self.page.go(f"{self.address}#{place}")
            self.sees(
                "it is followed", "window.studio && studio.seen.hello && !studio.isFollowing()"
            )
            self.sees(place[:60], f"wrong.textContent.includes({json.dumps(said)})")
            self.reads(f"{place[:60]}: no fault", "wrong.textContent.includes('a fault')", False)
            self.same(f"{place[:60]}: none is thrown", self.page.faults, [])

    def test_a_network_that_is_not_recorded(self) -> None:
        self.page.until("window.studio && studio.seen.hello && !studio.isFollowing()", 60)
        text = "p edge 7 3\ne 1 2\ne 3 4\ne 5 6\n"
        for name in ("plan", "rounds", "steps", "check"):
            said = self.asked(name, network=text, plan=[])
            self.note(
                name, isinstance(said, dict) and "forestlab studio" in str(said.get("wrong")), said
            )

    def test_with_a_finger_over_http(self) -> None:
        """From a web server, below a path, on a phone: all lessons are done by taps alone, and nothing is asked for
        that isn't there."""
        quiet = partial(Quiet, directory=self.folder)
        server = ThreadingHTTPServer(("127.0.0.1", 0), quiet)
        threading.Thread(target=server.serve_forever, daemon=True).start()
        self.addCleanup(server.server_close)
        self.addCleanup(server.shutdown)
        offline, usual = self.address, {
            "latency": 0,
            "downloadThroughput": -1,
            "uploadThroughput": -1,
        }
        self.page.ask("Network.emulateNetworkConditions", offline=False, **usual)
        self.page.size(360, 740, phone=True)
        type(self).address = f"http://127.0.0.1:{server.server_port}/a%20folder/page/"
        self.addCleanup(self.back_to, offline)
        self.open()
        self.value("localStorage.removeItem('studio-ticks')")
        self.open()
        self.tap_on("#welcome a.primary")
        for number, k, step in steps():
            self.step_to(number, k)
            if step.exercise:
                self.do_with_a_finger(number, step.exercise)
                self.ticked(f"{number} {step.exercise.name}")
            if (number, k) != (len(LESSONS), len(LESSONS[-1].steps)):
                self.tap_on("#lesson [data-way=on]")
        done = self.value("Array.from(lesson.querySelectorAll('.all a'), one => one.textContent)")
        self.same("all are done", done, [f"{number}✓" for number in WHOLE])
        self.reads("nothing is wider", "document.documentElement.scrollWidth", 360)
        self.same("nothing is missing", self.page.faults, [])

    def back_to(self, address: str) -> None:
        type(self).address = address
        self.page.size(1280, 800)
        usual = {"latency": 0, "downloadThroughput": 0, "uploadThroughput": 0}
        self.page.ask("Network.emulateNetworkConditions", offline=True, **usual)
        self.open()

    def tap_on(self, selector: str) -> None:
        """Taps an element where it is seen, below the drawing that stays; what isn't seen there can't be tapped."""
        found = f"document.querySelector({json.dumps(selector)})"
        self.sees(selector, f"{found} && {found}.getClientRects().length", 20)
        self.value(f"{found}.scrollIntoView({{block: 'center'}})")
        place = self.value(
            f"(() => {{ const b = {found}.getBoundingClientRect(), x = b.x + b.width / 2, y = b.y + b.height / 2; "
            f"const on = document.elementFromPoint(x, y); return on && ({found}.contains(on) || on.contains({found})) "
            "? [x, y] : null; })()"
        )
        self.note(f"{selector} is under the finger", place, self.value("scrollY"))
        if place:
            self.page.tap(*place)

    def tap_node(self, v: int) -> None:
        self.value("scrollTo(0, 0)")
        self.page.tap(*self.at(v))

    def write(self, selector: str, text: str) -> None:
        """Taps a field, and types with the keys of the phone."""
        self.page.until("busy.hidden && !studio.isFollowing()", 20)
        self.tap_on(selector)
        self.sees(
            "has the focus",
            f"document.activeElement === document.querySelector({json.dumps(selector)})",
            20,
        )
        self.value("document.activeElement.select()")
        self.page.ask("Input.insertText", text=text)

    def join_by_taps(self, *pairs: tuple[int, int]) -> None:
        for v, w in pairs:
            before = self.value("studio.net.edges.length")
            self.tap_node(v)
            self.sees(f"{v} is chosen", f"studio.seen.node === {v}", 20)
            self.tap_node(w)
            self.sees(f"{v} and {w}", f"studio.net.edges.length !== {before}", 20)

    def do_with_a_finger(self, lesson: int, exercise: object) -> None:
        name = getattr(exercise, "name")
        if isinstance(exercise, SaidExercise) and exercise.picks:
            self.tap_on(
                f"#lesson form button:nth-of-type({exercise.picks.index(exercise.right) + 1})"
            )
        elif isinstance(exercise, SaidExercise):
            self.write("#lesson form input", exercise.right)
            self.tap_on("#lesson form button")
        elif isinstance(exercise, PredictedExercise):
            self.predict_with_a_finger(name)
        elif name in MADE:
            for count, one in enumerate(MADE[name].split("_"), 1):
                self.tap_on(f"#possible [data-step='{one}']")
                self.sees(one, f"studio.steps.made.length === {count}", 20)
        else:
            self.see_with_a_finger(name)

    def see_with_a_finger(self, name: str) -> None:
        match name:
            case "proper":
                for v, channel in enumerate((2, 3, 1, 2, 1, 3, 2, 2, 1, 3), 1):
                    while self.value(f"studio.check.plan[{v - 1}]") != channel:
                        self.tap_node(v)
            case "row":
                self.draw_with_a_finger()
                self.join_by_taps((3, 1), (1, 4), (4, 2))
            case "two":
                self.join_by_taps((1, 2), (3, 4), (1, 3), (2, 4))
            case "long":
                self.value("make.querySelector('[name=nodes]').value = '400'")
                self.tap_on("#make button")
            case "far":
                self.hold_with_a_finger()
            case _:
                self.fill_with_a_finger(*{"centre": (2, "0"), "bar": (3, "1")}[name])

    def draw_with_a_finger(self) -> None:
        self.value("scrollTo(0, 0)")
        x, y, wide, high = self.value(
            "(b => [b.x, b.y, b.width, b.height])(net.getBoundingClientRect())"
        )
        for k in range(1, 5):
            self.page.tap(x + k * wide / 5, y + high * (0.3 if k % 2 else 0.6))
            self.sees("a node", f"studio.net.nodes.length === {k}", 20)

    def hold_with_a_finger(self) -> None:
        self.tap_on("[data-key='hold 1']")
        while self.value(f"!({TICKED}) && !chance20.disabled"):
            before = self.value("studio.steps.made.length")
            self.tap_on("#chance20")
            self.page.until(f"studio.steps.made.length > {before} || chance20.disabled", 20)
            time.sleep(0.3)

    def fill_with_a_finger(self, place: int, value: str) -> None:
        field = f"#chosen label:nth-of-type({place}) input"
        self.sees("the field", f"document.querySelector({json.dumps(field)})", 20)
        self.page.until("busy.hidden && studio.drawn.fresh", 20)
        self.write(field, value)
        self.page.key("Enter", code="Enter", windowsVirtualKeyCode=13, text="\r")

    def predict_with_a_finger(self, name: str) -> None:
        if name == "waits":
            for one in ("ack 3", "safe 2", "safe 3"):
                self.tap_on(f"#question2 [value='{one}']")
            return self.tap_on("#question2 form button")
        self.write("#question input", PREDICTED.get(name, "partner 1"))
        self.tap_on("#question form button")

    def test_narrow(self) -> None:
        """Nothing is wider than a phone."""
        need(self, "a browser")
        self.page.size(360, 740, phone=True)
        self.addCleanup(self.page.size, 1280, 800)
        for place in ("lesson=1&step=4", "lesson=5&step=4", "lesson=6&step=4", "lecture=2"):
            self.go_to(place)
            self.reads(place, "document.documentElement.scrollWidth", 360)


class ByPrograms(Case):
    """A page that is recorded with the built programs."""

    def test_says_so(self) -> None:
        """It says that the proved program wrote its plans, and its judge of runs is the proved machine."""
        for tool in ("forestplan", "forestplay", "a browser"):
            need(self, tool)
        places = [
            spot for spot in spots() if spot.piece == "first" or (spot.lesson, spot.step) == (5, 3)
        ]
        own, forms = own_programs([])
        with mock.patch.object(proved_programs, "program_file", PATHS.__getitem__):
            files = publishing.published(Session(own=own, forms=forms, is_proved=True), places)
        self.note("the judge", MACHINE.encode() in files["answers/lesson5.js"])
        self.note("and no other one", PYTHON.encode() not in files["answers/lesson5.js"])
        folder = tempfile.mkdtemp()
        self.addCleanup(shutil.rmtree, folder, True)
        for name, data in files.items():
            path = os.path.join(folder, name)
            os.makedirs(os.path.dirname(path), exist_ok=True)
            with open(path, "wb") as file:
                file.write(data)
        page = browser.Browser(browser.command())
        self.addCleanup(page.end)
        page.go(f"file://{folder}/index.html")
        said = "document.querySelector('#side .recorded').textContent"
        wanted = "The proved program wrote its plans, and the proved machine accepted its runs."
        self.note("it is said", page.until(f"window.studio && {said}.includes('{wanted}')", 60))


del Cards
