"""The lessons of the studio as steps, and its lecture: their table, who judges their exercises, and the cards on the
page, which are gone through whole by the keyboard alone."""
import json
import os
import re
import shutil
import tempfile
import time
from collections.abc import Collection, Iterator, Sequence
from unittest import mock

from forestplan.definitions.colours import bit
from forestplan.definitions.programs import any_program_at, program_at
from forestplan.definitions.reacting_program import Reacting
from forestplan.definitions.rounds import ColouringRounds
from forestplan.faults import Fault
from forestplan.network import Network
from forestplan.networks.network_text import read_network
from forestplan.pictures.program_rounds import program_rounds
from forestplan.schedules.reacting_stepwise import ReactingStepwise
from forestplan.schedules.stepwise import Stepwise
from forestplan.studio import lessons as table
from forestplan.studio.answers import ExerciseJudged
from forestplan.studio.exercises import GOALS, answer_exercise
from forestplan.studio.fields import parsed_call
from forestplan.studio.lessons import (
    LECTURE,
    LESSONS,
    PredictedExercise,
    SaidExercise,
    SeenExercise,
    TableStep,
    exercise_of,
)
from forestplan.studio.messages import ExerciseCall
from forestplan.studio.networks import opened_by
from forestplan.studio.session import Session
from forestplan.studio.studio import own_programs
from tests import TOP
from tests.cases import Case, said_by, text_in
from tests.pages.test_studio_page import Page

# As the studio is without a file of one's own: with the samples.
OWN, FORMS = own_programs(())
SESSION = Session(own=OWN, forms=FORMS)
# The network of an edge list, in the DIMACS format.
STAR = [(v, 9) for v in range(1, 9)]
# Refuses all that a browser keeps, as one does whose user wants nothing kept.
NOTHING_KEPT = """Object.defineProperty(window, 'localStorage',
  {get() { throw new DOMException('refused', 'SecurityError'); }})"""
# A browser that tells no page of another size of anything, as one does whose page has been asleep.
NO_SIZES = "window.ResizeObserver = class { observe() {} disconnect() {} }"
# Where a node is seen in the window.
SEEN_AT = """(v => { const b = document.querySelector(`#net [data-node="${v}"] circle`).getBoundingClientRect();
  return [b.x + b.width / 2, b.y + b.height / 2]; })"""
# The keys that the tests press, with their numbers.
KEYS = {"Enter": 13, " ": 32, "Tab": 9, "End": 35, "PageDown": 34}
# How much is seen of what has the answer to a question; and the texts beside the network, outside of code, that have
# marks of their source.
TELLS = "Array.from(document.querySelectorAll('.tells')).filter(one => one.getClientRects().length).length"
MARKS = """(() => { const walk = document.createTreeWalker(side, NodeFilter.SHOW_TEXT), found = [];
  for (let one = walk.nextNode(); one; one = walk.nextNode()) {
    if (/[`*]|\\]\\(/.test(one.data) && !one.parentElement.closest('code, pre, textarea')) found.push(one.data);
  }
  return found.join(' | '); })()"""
TICKED = (
    "lesson.querySelector('.judged') && lesson.querySelector('.judged').textContent.startsWith('☑')"
)
# Two nodes without safes: node 1 makes pulses 1 and 2, and node 2 none; node 2 makes pulse 2 without a label.
APART = "1-2_2-1_1-2_1_2-1_1-2_2-1_2-1_1-2_1"
WRONG = "1-2_2-1_2-1_2_2"
# Without rounds: node 3 hears the wave of node 2 first; node 3 is inside, and node 1 asks; a marker overtakes coins.
TREE = "2-1_3-2_1-3_3-1_2-3_1-2"
LATER = "3_1-3_2-3_1_3-1_3-2"
COINS = "1_1_2-1-1_1-2"
# One row of three: node 1 makes pulse 1.
FIRST = "2-1_2-3_1-2_3-2_2-1_2-3_1-2_1-2_1"
# The steps of the adversary that do an exercise, by its name.
MADE = {
    "pulse": FIRST,
    "apart": APART,
    "wrong": WRONG,
    "tree": TREE,
    "later": LATER,
    "coins": COINS,
}
# The right predictions, but for one that isn't a number.
PREDICTED = {"bit": "4", "root": "1", "again": "0", "shift": "5", "drop": "2", "turn": "3"}


def tell(done: int = 0, of: int = 0, part: object = None) -> None:
    """Nobody is told how far a call is."""


def example(name: str) -> Network:
    return read_network(text_in("examples", name + ".col"), name)


def words_of(edges: list[tuple[int, int]], nodes: int, *more: str) -> str:
    lines = [f"p edge {nodes} {len(edges)}", *more, *(f"e {v} {w}" for v, w in edges)]
    return "\n".join(lines) + "\n"


def steps() -> Iterator[tuple[int, int, TableStep]]:
    """All steps: the lesson, the number of the step, and it."""
    for number, lesson in enumerate(LESSONS, 1):
        for k, step in enumerate(lesson.steps, 1):
            yield number, k, step


def step_of(lesson: int, name: str) -> int:
    """The step of a lesson that has an exercise of this name."""
    found = [
        k
        for number, k, step in steps()
        if number == lesson and step.exercise and step.exercise.name == name
    ]
    return found[0]


def verdict(lesson: int, name: str, **asked: object) -> ExerciseJudged:
    body = {"network": "", "lesson": lesson, "step": step_of(lesson, name)} | asked
    try:
        return answer_exercise(parsed_call(ExerciseCall, body), SESSION, tell)
    except Fault as why:
        return ExerciseJudged(False, str(why))


def answers_of_rounds() -> dict[tuple[int, str], int]:
    """The right answers of the lessons on the colouring, worked out from the definitions."""
    ring, star = example("four_cycle"), example("star")
    higher = {v: w for (v, f), w in ColouringRounds(ring).parents.items() if f == 0}
    at = 1
    while at in higher:
        at = higher[at]
    low = Network(star.nodes, star.edges, {9: 0})
    nexts = {
        bit(Network(2, [(1, 2)], {1: 0, 2: 1}), 0, {1: own, 2: other})[1]
        for own in range(6)
        for other in range(6)
        if own != other
    }
    merge = [v for v, p in ColouringRounds(example("triangle")).turns.items() if p == 22]
    player = Stepwise(example("path"), program_at("colouring"), ())
    player.by_chance(10_000, "7", (), ())
    return {
        (1, "enough"): example("petersen").greatest_degree + 1,
        (1, "rounds"): 4,
        (2, "root"): at,
        (2, "forests"): low.forest_count,
        (3, "six"): max(nexts),
        (4, "first"): merge[0][1],
        (4, "identifiers"): 1,
        (4, "pulse"): ColouringRounds(ring).turns[1, 4],
        (5, "neighbours"): 1,
        (5, "ends"): 5,
        (6, "events"): len(player.chosen),
    }


def answers_of_programs() -> dict[tuple[int, str], int]:
    """Those of lesson 7, from the rounds of its programs."""
    drops, petersen = example("drops"), example("petersen")
    results = {
        name: list(program_rounds(net, program_at(name)).pulses[-1].results.values())
        for name, net in (
            ("matching", petersen),
            ("independent-set", petersen),
            ("recolouring", drops),
        )
    }
    return {
        (7, "alone"): 1,
        (7, "pairs"): sum(one != "partner none" for one in results["matching"]) // 2,
        (7, "in"): results["independent-set"].count("in"),
        (7, "fewer"): len(set(results["recolouring"])),
    }


def by_hand(network: str, name: str, without: Collection[str] = ()) -> ReactingStepwise:
    """A run of a sample without rounds, at its start."""
    program = any_program_at(OWN[name])
    assert isinstance(program, Reacting)
    return ReactingStepwise(example(network), program, without)


def all_ends(made: Sequence[str] = ()) -> Iterator[tuple[Sequence[str], dict[int, str]]]:
    """Each list of steps of the echo on the triangle, and what nodes have found at its end."""
    player = by_hand("triangle", "echo")
    player.follow(made)
    steps = player.possible()
    if not steps:
        yield made, player.results
    for step in steps:
        yield from all_ends([*made, step])


def answers_of_reactions() -> dict[tuple[int, str], int]:
    """Those of lesson 8: list by list, and of some runs by chance in which all ask before any message is taken."""
    ends = list(all_ends())
    first: set[int] = set()
    for seed in range(20):
        player = by_hand("triangle", "exclusion")
        player.follow(["3", "2", "1"])
        while "inside" not in player.results.values():
            player.by_chance(1, f"{seed} {len(player.chosen)}", (), ())
        first.update(v for v, result in player.results.items() if result == "inside")
    return {
        (8, "messages"): max(len(made) for made, _ in ends),
        (8, "all"): sum(results[1] == "counts 3" for _, results in ends),
        (8, "first"): max(first) if len(first) == 1 else 0,
    }


class Table(Case):
    def test_what_the_page_has_of_an_exercise(self) -> None:
        """Each exercise of the table is on the page, with its hint; a prediction names a node and a pulse."""
        for n, k, step in steps():
            found, own = exercise_of(step), step.exercise
            pair = found and (found.name, found.hint), own and (own.name, own.hint)
            self.same(f"lesson {n}, step {k}", *pair)
            if found and found.kind == "predicted":
                self.note("a node and a pulse", found.node > 0 <= found.pulse, found)

    def test_pages(self) -> None:
        """Each lesson's page has the title and the question of the table, and a link that opens the lesson."""
        for number, lesson in enumerate(LESSONS, 1):
            page = text_in("docs", "learn", f"LESSON_{number}.md")
            title, _, rest = page.partition("\n\n")
            self.same(f"title of lesson {number}", title, f"# {number}. {lesson.title}")
            asked = " ".join(rest.split("*")[1].split())
            self.same(f"question of lesson {number}", asked, lesson.ask)
            link = f"http://127.0.0.1:8321/#lesson={number})"
            self.note(f"link of lesson {number}", link in page, link)

    def test_lecture(self) -> None:
        """The page of the lecture has the places of the table, with the words to say."""
        page = " ".join(text_in("docs", "learn", "LECTURE.md").split())
        for place in LECTURE:
            line = f"- **{place.minutes}**, [{place.title}](http://127.0.0.1:8321/#{place.place}): {place.say}"
            self.note(place.title, line in page, line)
        self.same("no other place", page.count("http://127.0.0.1:8321/#"), len(LECTURE))

    def test_links(self) -> None:
        """Each link to the studio in a page is read whole."""
        count = 0
        for folder in ("docs/learn", "docs/claim", "docs/work", "."):
            for name in sorted(os.listdir(os.path.join(TOP, folder))):
                if name.endswith(".md"):
                    for place in re.findall(
                        r"http://127\.0\.0\.1:8321/#([^)\s`\"]*)", text_in(folder, name)
                    ):
                        count += 1
                        faults = opened_by(place, SESSION).address.faults()
                        self.same(f"{name}: {place}", faults, "")
        self.note("there are some", count > 15, count)

    def test_places(self) -> None:
        """Each place of the table is read whole, opens a network and a tab, and is opened by its lesson and step."""
        for number, k, step in steps():
            place = table.step_place(number, k)
            opened = opened_by(place, SESSION)
            self.same(f"lesson {number} step {k}", opened.address.faults(), "")
            self.note("has a network", opened.network)
            by_name = opened_by(f"lesson={number}&step={k}", SESSION).address
            wanted = opened.address.values
            self.same(
                "by its number",
                (by_name.values.tab, by_name.values.at, by_name.values.step),
                (wanted.tab, wanted.at, k),
            )
            self.note("an own place, but for some", step.place or k > 1)
            if isinstance(step.exercise, PredictedExercise):
                self.note("a question", wanted.predict and wanted.node, place)
        for k, one in enumerate(LECTURE, 1):
            values = opened_by(f"lecture={k}", SESSION).address.values
            self.same(f"lecture {k}", (values.tab, values.lecture), (table.tab_of(one.place), k))

    def test_refused(self) -> None:
        """A step that a lesson doesn't have, and a step of no lesson, are named."""
        for place, why in (
            ("example=two&tab=draw&lesson=2&step=9", "it is a number from 1 to 4"),
            ("example=two&tab=draw&step=2", "no lesson is named"),
            ("example=two&tab=draw&lecture=8", "it is a number from 1 to 7"),
        ):
            faults = opened_by(place, SESSION).address.faults()
            self.note(place, why in faults, faults)

    def test_names(self) -> None:
        """An exercise has a name of its own in its lesson, by which its tick is kept; each goal is that of one."""
        for number, lesson in enumerate(LESSONS, 1):
            names = [step.exercise.name for step in lesson.steps if step.exercise]
            self.same(f"lesson {number}", len(set(names)), len(names))
            self.note("and some exercises", len(names) >= 3, names)
        seen = {
            (n, one.exercise.name)
            for n, _, one in steps()
            if isinstance(one.exercise, SeenExercise)
        }
        self.same("goals", set(GOALS), seen)

    def test_changed_pages(self) -> None:
        """A page that is changed or missing stops nothing: the studio has all lessons all the same."""
        with tempfile.TemporaryDirectory() as folder:
            os.makedirs(os.path.join(folder, "docs", "learn"))
            source = os.path.join(TOP, "docs", "learn", "LESSON_1.md")
            with open(source, encoding="utf-8") as file:
                changed = file.read().replace("# 1. ", "## Lesson one: ").replace("---", "")
            target = os.path.join(folder, "docs", "learn", "LESSON_1.md")
            with open(target, "w", encoding="utf-8") as file:
                file.write(changed)
            with mock.patch.object(table, "TOP", folder):
                found = table.lessons()
            shutil.rmtree(os.path.join(folder, "docs"))
        self.same("all lessons", [one.title for one in found], [one.title for one in LESSONS])
        self.note("its text", "transmitters that interfere" in found[0].text, found[0].text[:80])
        self.note("that of another one is missing", "isn't here" in found[1].text, found[1].text)


class Judged(Case):
    def test_right_answers(self) -> None:
        """The right answers of the table, worked out from the definitions."""
        wanted = {**answers_of_rounds(), **answers_of_programs(), **answers_of_reactions()}
        asked = {
            (n, step.exercise.name): step.exercise
            for n, _, step in steps()
            if isinstance(step.exercise, SaidExercise)
        }
        for name, exercise in asked.items():
            if exercise.picks:
                self.note(f"{name}: one of the picks", exercise.right in exercise.picks)
            else:
                self.same(f"{name}", exercise.right, str(wanted[name]))
            right = verdict(*name, guess=f"  {exercise.right.upper()} ")
            self.same(f"{name}: right", (right.done, right.said), (True, exercise.answer))
            others = [one for one in exercise.picks if one != exercise.right] or ["99", "", "x"]
            for said in others:
                found = verdict(*name, guess=said)
                self.note(f"{name}: {said} is wrong", not found.done, found)
                self.note("without the answer", exercise.answer not in found.said, found)
                is_quoted = f"“{said}”" in found.said
                self.same("a sentence that is picked is quoted", is_quoted, bool(exercise.picks))

    def test_the_second_rule(self) -> None:
        """Of the rules that can be picked it is the only one that gives no wrong inbox alone, but one with `acks`."""
        exercise = LESSONS[5].steps[-1].exercise
        assert isinstance(exercise, SaidExercise)
        for rule in exercise.picks:
            inboxes = [
                "makes pulse" in said_by("explore", "two", "--without", rules)[1].split("\n")[0]
                for rules in (rule, f"acks,{rule}")
            ]
            self.same(rule, inboxes == [False, True], rule == exercise.right)

    def test_goals(self) -> None:
        """What is done in the studio is done if and only if it is; what is said says how far it is."""
        row = [(1, 3), (1, 4), (2, 4)]
        of = words_of
        triangle = [(1, 2), (1, 3), (2, 3)]
        petersen = text_in("examples", "petersen.col")
        path, two, chain = (
            text_in("examples", f"{name}.col") for name in ("path", "two", "chain6")
        )
        held = Stepwise(example("chain6"), program_at("colouring"), ())
        held.by_chance(300, "1", (), (1,))
        far = "_".join(held.chosen)
        rows: list[tuple[int, str, bool, str, dict[str, object]]] = [
            (
                1,
                "proper",
                True,
                "3 channels",
                {"network": petersen, "plan": [2, 3, 1, 2, 1, 3, 2, 2, 1, 3]},
            ),
            (
                1,
                "proper",
                False,
                "6 transmitters without",
                {"network": petersen, "plan": [1, 2, 1, 2]},
            ),
            (1, "proper", False, "the same channel", {"network": petersen, "plan": [1] * 10}),
            (1, "row", True, "3 channels", {"network": of(row, 4)}),
            (1, "row", False, "2 channels", {"network": of([(1, 2), (2, 3), (3, 4)], 4)}),
            (1, "row", False, "aren't one row", {"network": of([(1, 2), (3, 4)], 4)}),
            (1, "row", False, "aren't one row", {"network": of(triangle, 4)}),
            (1, "row", False, "here are 5", {"network": of([*row, (2, 5)], 5)}),
            (1, "row", False, "draw 4 transmitters first", {"network": of([], 0)}),
            (1, "two", True, "2 rounds", {"network": of([(1, 3), (2, 3), (2, 4)], 4)}),
            (1, "two", False, "4 rounds", {"network": of([(1, 2), (2, 3), (3, 4)], 4)}),
            (1, "long", True, "0 to 21", {"network": of([(v, v + 1) for v in range(1, 400)], 400)}),
            (1, "long", True, "100 tr", {"network": of([(v, v + 1) for v in range(1, 100)], 100)}),
            (1, "long", False, "no row", {"network": of([(v, v + 1) for v in range(1, 99)], 99)}),
            (1, "long", False, "no row", {"network": path}),
            (1, "long", False, "no row", {"network": of([], 120)}),
            (2, "centre", True, "8 forests", {"network": of(STAR, 9, "i 9 0")}),
            (2, "centre", False, "1 forest", {"network": of(STAR, 9)}),
            (2, "centre", False, "any more", {"network": path}),
            (
                4,
                "bar",
                True,
                "node 3 has channel 2 instead of 1",
                {"network": of(triangle, 3, "b 3 1")},
            ),
            (4, "bar", False, "isn't barred", {"network": of(triangle, 3, "b 1 1")}),
            (5, "far", True, "5 of 5", {"network": chain, "steps": far}),
            (5, "far", False, "0 of 5", {"network": chain, "steps": ""}),
            (6, "pulse", True, "pulse 1", {"network": path, "steps": FIRST}),
            (6, "pulse", False, "no node", {"network": path, "steps": FIRST[:-2]}),
            (6, "apart", True, "2 of 2", {"network": two, "steps": APART, "without": "safes"}),
            (6, "apart", False, "isn't possible", {"network": two, "steps": APART}),
            (6, "wrong", True, "label 0", {"network": two, "steps": WRONG, "without": "safes"}),
            (
                6,
                "wrong",
                False,
                "5 are enough",
                {"network": two, "steps": "1-2_2-1_1-2_2-1_2_2", "without": "safes"},
            ),
        ]
        triangle3 = text_in("examples", "triangle.col")
        echo = {"network": triangle3, "program": "echo"}
        exclusion = {"network": triangle3, "program": "exclusion"}
        snapshot = {"network": two, "program": "snapshot", "without": "fifo"}
        rows += [
            (8, "tree", True, "node 2 is `counts 2`, after 6 steps", echo | {"steps": TREE}),
            (
                8,
                "tree",
                False,
                "the result of node 1 is `counts 1 so far`",
                echo | {"steps": "2-1_3-2"},
            ),
            (
                8,
                "tree",
                False,
                "the result of node 2 is `counts 1`",
                echo | {"steps": "2-1_3-1_2-3_3-2_1-2_1-3"},
            ),
            (8, "tree", False, "colouring makes rounds", {"network": triangle3}),
            (8, "later", True, "node 3 is `inside`, after 6 steps", exclusion | {"steps": LATER}),
            (8, "later", False, "the result of node 1 is `idle`", exclusion | {"steps": ""}),
            (8, "later", False, "the result of node 3 is `asks`", exclusion | {"steps": "3_1"}),
            (8, "coins", True, "17 coins are noted of 20", snapshot | {"steps": COINS}),
            (8, "coins", False, "is true here", snapshot | {"steps": COINS[:-4]}),
        ]
        for lesson, name, done, said, asked in rows:
            found = verdict(lesson, name, **asked)
            self.same(f"{lesson} {name}: {found.said}", found.done, done)
            self.note(f"says {said}", said in found.said, found.said)

    def test_refused(self) -> None:
        for lesson, step in ((0, 1), (9, 1), (1, 99), (3, 1), (3, 2)):
            with self.assertRaises(Fault):
                answer_exercise(ExerciseCall(network="", lesson=lesson, step=step), SESSION, tell)


class Cards(Page):
    """The cards on the page, by keys alone."""

    def press(self, key: str, on: str = "") -> None:
        """Presses a key on an element, which has to be one that a key can reach, or on the page."""
        if on:
            is_there = (
                f"(() => {{ const e = document.querySelector({json.dumps(on)}); if (!e || e.tabIndex < 0 "
                "|| !e.getClientRects().length || e.disabled) return false; e.focus(); "
                "return document.activeElement === e; })()"
            )
            self.sees(f"{on} can be reached", is_there, 20)
        else:
            self.value("document.activeElement.blur()")
        texts = {"Enter": "\r"} | ({key: key} if len(key) == 1 else {})
        more = {"text": texts[key]} if key in texts else {}
        self.page.key(
            key, code=key, windowsVirtualKeyCode=KEYS.get(key, ord(key[0].upper())), **more
        )

    def type_in(self, on: str, text: str) -> None:
        self.press("End", on)
        self.page.ask("Input.insertText", text=text)
        self.press("Enter", on)

    def ticked(self, name: str) -> None:
        self.sees(name, TICKED, 60)

    def node(self, v: int) -> str:
        return f"#net [data-node='{v}']"

    def join(self, *pairs: tuple[int, int]) -> None:
        for v, w in pairs:
            before = self.value("studio.net.edges.length")
            self.press("Enter", self.node(v))
            self.press("Enter", self.node(w))
            self.sees(f"{v} and {w}", f"studio.net.edges.length !== {before}", 20)

    def step_to(self, lesson: int, step: int) -> None:
        self.sees(
            f"lesson {lesson} step {step}",
            f"studio.seen.lesson === {lesson} && studio.seen.step === {step} && !studio.isFollowing() "
            f"&& lesson.textContent.includes('step {step} of')",
        )

    def take(self, *taken: str) -> None:
        """Makes steps of the adversary by their buttons."""
        for step in taken:
            made = self.value("studio.steps.made.length")
            self.press("Enter", f"#possible [data-step='{step}']")
            self.sees(step, f"studio.steps.made.length === {made + 1}", 20)

    def do_seen(self, lesson: int, name: str) -> None:
        """Does an exercise in the studio, by keys."""
        match name:
            case "proper":
                self.choose_channels(2, 3, 1, 2, 1, 3, 2, 2, 1, 3)
            case "row":
                for k in range(1, 5):
                    self.press("a")
                    self.sees("a node", f"studio.net.nodes.length === {k}", 20)
                self.join((3, 1), (1, 4), (4, 2))
            case "two":
                self.join((1, 2), (3, 4), (1, 3), (2, 4))
            case "long":
                self.make_path("400")
            case "centre":
                self.fill("identifier", "0")
            case "bar":
                self.fill("barred channels", "1")
            case "far":
                self.hold_node_1()
            case _:
                self.take(*MADE[name].split("_"))

    def choose_channels(self, *channels: int) -> None:
        for v, channel in enumerate(channels, 1):
            self.press(str(channel), self.node(v))
            self.sees(f"channel of {v}", f"studio.check.plan[{v - 1}] === {channel}", 20)
            time.sleep(0.05)

    def make_path(self, nodes: str) -> None:
        self.value("make.querySelector('select').focus()")
        self.value(
            "make.querySelector('select').value = 'path'; make.querySelector('select').onchange()"
        )
        self.value("make.querySelector('[name=nodes]').value = ''")
        self.type_in("#make [name=nodes]", nodes)

    def fill(self, label: str, value: str) -> None:
        """Fills a field of the chosen node, once the plan is there: with it the fields are made again."""
        self.page.until("busy.hidden && !studio.isFollowing() && studio.drawn.plan", 20)
        self.value(
            "Array.from(document.querySelectorAll('#chosen label')).find(one => "
            f"one.textContent.startsWith('{label}')).querySelector('input').id = 'field'"
        )
        self.type_in("#field", value)

    def hold_node_1(self) -> None:
        """Holds node 1, and lets chance go on until the exercise is done."""
        self.press("Enter", "[data-key='hold 1']")
        for _ in range(12):
            # All that can happen is held at last, which is judged a moment later.
            if self.value(f"{TICKED} || chance20.disabled"):
                return
            before = self.value("studio.steps.made.length")
            self.press("Enter", "#chance20")
            self.page.until(f"studio.steps.made.length > {before} || chance20.disabled", 20)
            time.sleep(0.3)

    def do_predicted(self, lesson: int, name: str) -> None:
        if name == "waits":
            for one in ("ack 3", "safe 2", "safe 3"):
                self.press(" ", f"#question2 [value='{one}']")
            self.press("Enter", "#question2 form button")
            return
        self.type_in("#question input", PREDICTED.get(name, "partner 1"))

    def do(self, lesson: int, exercise: SaidExercise | SeenExercise | PredictedExercise) -> None:
        if isinstance(exercise, SeenExercise):
            self.do_seen(lesson, exercise.name)
        elif isinstance(exercise, PredictedExercise):
            self.do_predicted(lesson, exercise.name)
        elif exercise.picks:
            k = exercise.picks.index(exercise.right) + 1
            self.press("Enter", f"#lesson form button:nth-of-type({k})")
        else:
            self.type_in("#lesson form input", exercise.right)

    def test_all_lessons(self) -> None:
        """Each lesson is gone through by N alone, and each exercise done by keys; its hint and its answer are its own;
        the ticks stay."""
        self.value("localStorage.removeItem('studio-ticks')")
        self.open()
        self.go_to("lesson=1")
        for number, k, step in steps():
            self.step_to(number, k)
            self.reads("no fault", "wrong.textContent", "")
            if step.exercise:
                self.own_words(step.exercise)
                self.reads("not done yet", f"Boolean({TICKED})", False)
                if isinstance(step.exercise, SaidExercise):
                    self.reads("nothing tells the answer", TELLS, 0)
                self.do(number, step.exercise)
                self.ticked(f"{number} {step.exercise.name}")
                self.looks_done(f"{number} {step.exercise.name}")
            self.same(f"lesson {number} step {k} has no marks of its source", self.value(MARKS), "")
            self.press("n")
        self.open()
        self.go_to("lesson=1")
        self.step_to(1, 1)
        self.sees("all are ticked", "lesson.querySelectorAll('.all a').length === 8")
        said = self.value("Array.from(lesson.querySelectorAll('.all a'), one => one.textContent)")
        self.same("ticks", said, [f"{n}✓" for n in range(1, 9)])
        self.ticked("and so is its exercise")
        menu = self.value(
            "Array.from(document.querySelectorAll('#lessons option')).slice(1)"
            ".map(one => one.textContent.endsWith('✓'))"
        )
        self.same("in the menu, too", menu, [True] * 8)

    def looks_done(self, name: str) -> None:
        """What is done is said below the network, too, where it is seen on a phone, and the card has another look."""
        self.sees(f"{name} is said to be done", "hint.textContent.startsWith('☑ Done.')", 20)
        self.reads("it looks done", "lesson.classList.contains('done')", True)
        self.reads("in full colour", "lesson.querySelector('.judged').className", "judged good")

    def own_words(self, exercise: SaidExercise | SeenExercise | PredictedExercise) -> None:
        """The hint and the answer are those of this exercise; they are read only when they are opened."""
        parts = "Array.from(lesson.querySelectorAll('.exercise details'))"
        before = self.value(f"{parts}.map(one => one.textContent)")
        self.same("closed", before, ["a hint", "the answer"])
        self.value(f"{parts}.forEach(one => {{ one.open = true; }})")
        self.page.until(f"{parts}.every(one => one.children.length > 1)", 10)
        for said, wanted in zip(
            self.value(f"{parts}.map(one => one.textContent)"), (exercise.hint, exercise.answer)
        ):
            plain = "".join(re.sub(r"[*`]", "", wanted).split())
            self.note("its own words", plain in "".join(said.split()), said)
        self.value(f"{parts}.forEach(one => {{ one.open = false; }})")

    def open(self) -> None:
        self.page.go("about:blank")
        self.page.go(self.address)
        self.page.until("window.studio && studio.seen.hello && !studio.isFollowing()", 40)

    def test_arrows(self) -> None:
        """Arrows lead on, back, and over the ends of lessons; the browser's Back leads back, too."""
        self.go_to("lesson=2")
        self.step_to(2, 1)
        self.click_on("#lesson [data-way=on]")
        self.step_to(2, 2)
        self.click_on("#lesson [data-way=back]")
        self.step_to(2, 1)
        self.value("history.back()")
        self.step_to(2, 2)
        self.go_to("lesson=2&step=4")
        self.step_to(2, 4)
        self.click_on("#lesson [data-way=on]")
        self.step_to(3, 1)
        self.press("p")
        self.step_to(2, 4)
        self.go_to("lesson=1")
        self.step_to(1, 1)
        self.reads(
            "no way back from the first", "lesson.querySelector('[data-way=back]').hidden", True
        )
        self.go_to("lesson=8&step=7")
        self.step_to(8, 7)
        self.reads("no way on from the last", "lesson.querySelector('[data-way=on]').hidden", True)
        self.click_on("#lesson .all a:nth-of-type(3)")
        self.step_to(3, 1)

    def test_the_title_of_a_step(self) -> None:
        """On a phone the title of a step is seen just below the drawing, however far the step before was read."""
        self.page.size(360, 740, True)
        self.addCleanup(self.page.size, 1280, 800)
        title = "lesson.querySelector('h2').getBoundingClientRect()"
        below = f"{title}.top - left.getBoundingClientRect().bottom"
        self.go_to("lesson=1")
        self.step_to(1, 1)
        for way, step in (("on", 2), ("on", 3), ("on", 4), ("back", 3)):
            self.value("scrollTo(0, document.documentElement.scrollHeight)")
            self.sees("out of sight", f"{below} < 0", 20)
            self.value(f"lesson.querySelector('[data-way={way}]').click()")
            self.step_to(1, step)
            self.sees(f"step {step}", f"{below} >= 0 && {below} < 40", 20)

    def test_a_step_that_goes_on(self) -> None:
        """A step without a place of its own keeps what was drawn."""
        self.go_to("lesson=1&step=5")
        self.step_to(1, 5)
        self.join((1, 4))
        self.press("n")
        self.step_to(1, 6)
        self.reads("the drawing is there", "studio.net.edges.length", 4)
        self.sees(
            "and judged",
            "lesson.textContent.includes('aren’t one row') || lesson.textContent.includes(\"aren't one row\")",
        )
        self.sees("its address", "/lesson=1&step=6/.test(location.hash)")

    def test_elsewhere(self) -> None:
        """In another tab the card has only its title and the way back."""
        self.go_to("lesson=2&step=1")
        self.step_to(2, 1)
        self.click_on("header [data-tab=check]")
        shown = "lesson.querySelector('.instruction').getClientRects().length"
        self.sees("no instruction", f"!{shown} && studio.seen.tab === 'check'")
        self.click_on("#lesson .away")
        self.sees("it is there again", f"{shown} && studio.seen.tab === 'rounds'")
        self.click_on("#lesson .head button")
        self.reads("closed", "lesson.hidden", True)
        self.sees("and not in the address", "!/lesson/.test(location.hash)")

    def test_only_looked_at(self) -> None:
        """A step that asks something of an example lets nobody change it by a click; with the card closed, and where
        the exercise is to change it, a click does."""
        for place in ("lesson=1", "lesson=1&step=2", "lesson=2&step=3"):
            # Of a drawing that is replaced the hint says how to bring it back; an example isn't a drawing.
            self.go_to("example=two")
            self.go_to(place)
            self.sees("its card", "lesson.textContent.includes('step ')")
            box = self.value("(b => [b.x + 12, b.y + 12])(net.getBoundingClientRect())")
            before = self.value("[studio.net.nodes.length, studio.net.edges.length]")
            self.page.click(*box)
            self.click(1)
            self.sees("it is chosen", "studio.seen.node === 1")
            self.click(2)
            self.sees("the other one is", "studio.seen.node === 2")
            self.press("a")
            now = self.value("[studio.net.nodes.length, studio.net.edges.length]")
            self.same(f"{place}: as it was", now, before)
            self.sees("it is said", "hint.textContent.includes('stays as it is')")
        self.click_on("#lesson .head button")
        self.click(1)
        self.sees(
            "without the card they are joined or parted", f"studio.net.edges.length !== {before[1]}"
        )
        self.go_to("lesson=2&step=4")
        self.step_to(2, 4)
        self.click(1)
        self.sees("a step to change it", "studio.net.edges.length === 7")

    def test_a_click_is_where_a_node_is_seen(self) -> None:
        """From one file to another the network keeps its width, and a click is on the node that is seen there, also
        after the network has been moved."""
        script = self.page.ask("Page.addScriptToEvaluateOnNewDocument", source=NO_SIZES)
        self.addCleanup(self.open)
        self.addCleanup(self.page.ask, "Page.removeScriptToEvaluateOnNewDocument", **script)
        for is_moved in (False, True):
            self.open()
            self.go_to("lesson=8&step=3")
            self.step_to(8, 3)
            self.page.until("!code.hidden && codetext.textContent.includes('def ')", 20)
            if is_moved:
                self.value("studio.stage.pan(20, 10)")
            self.press("n")
            self.step_to(8, 4)
            self.page.until("codetext.textContent.includes('me.state') && studio.steps.found", 20)
            time.sleep(0.3)
            for count, v in enumerate((3, 2, 1), 1):
                self.page.click(*self.value(f"{SEEN_AT}({v})"))
                self.sees(f"node {v} acts", f"studio.steps.made.length === {count}", 5)

    def test_cleared(self) -> None:
        """Once the step's network is cleared its card only has its title and the way back, whatever is drawn then."""
        shown = "Boolean(lesson.querySelector('.instruction').getClientRects().length)"
        self.go_to("lesson=1&step=2")
        self.step_to(1, 2)
        self.reads("the instruction", shown, True)
        self.value("document.getElementById('clear').click()")
        self.sees("none any more", f"!{shown}")
        for k in range(1, 3):
            self.press("a")
            self.sees("drawn on", f"studio.net.nodes.length === {k} && !{shown}")
        self.click_on("#lesson button.away")
        self.sees("it is there again", f"{shown} && studio.net.nodes.length === 10")
        # A step whose exercise is a drawing keeps its card.
        self.go_to("lesson=1&step=4")
        self.step_to(1, 4)
        self.press("a")
        self.value("document.getElementById('clear').click()")
        self.sees("it stays", f"{shown} && !studio.net.nodes.length")

    def test_a_question_in_its_card(self) -> None:
        """The tab's question is in the card of the step that it is the exercise of, and elsewhere in its panel; ↺ goes
        back to the beginning of the step."""
        inside = "[lesson.contains(question), allrules.contains(question)]"
        self.go_to("lesson=3&step=2")
        self.step_to(3, 2)
        self.reads("in the card", inside, [True, False])
        self.type_in("#question input", "4")
        self.sees("it is answered", "question.textContent.includes('✓ Yes: 4.')")
        # The lesson leads on, and no other question.
        self.reads("no next question", "question.querySelectorAll('.verdict button').length", 0)
        self.click_on("#next")
        self.sees("one pulse on", "studio.time.at === 3")
        self.click_on("#lesson [aria-label='this step from its beginning']")
        self.sees("and back", "studio.time.at === 2 && !studio.isFollowing()")
        self.click_on("#lesson [data-way=back]")
        self.step_to(3, 1)
        self.reads("in the panel", inside, [False, True])
        self.go_to("lesson=5&step=2")
        self.step_to(5, 2)
        self.reads("the other tab's", "lesson.contains(question2)", True)
        self.click_on("header [data-tab=check]")
        self.sees("brought back", "!lesson.contains(question2)")

    def test_wrong_answers(self) -> None:
        """A wrong answer is said to be none, without the right one."""
        self.value("localStorage.removeItem('studio-ticks')")
        self.open()
        self.go_to("lesson=1")
        self.step_to(1, 1)
        self.type_in("#lesson form input", "3")
        self.sees("not yet", "lesson.querySelector('.judged').textContent.includes('Not yet')")
        said = self.value("lesson.querySelector('.judged').textContent")
        self.note("only that", "3" in said and "four" not in said.lower(), said)
        self.type_in("#lesson form input", "")
        self.value("lesson.querySelector('form input').value = ''")
        self.press("Enter", "#lesson form button")
        self.sees("missing", "lesson.querySelector('.judged').textContent.includes('missing')")
        self.go_to("lesson=3&step=2")
        self.step_to(3, 2)
        self.sees("a question", "document.querySelector('#question input')")
        for answer in ("7", "6"):
            self.value("document.querySelector('#question input').value = ''")
            self.type_in("#question input", answer)
            self.sees(answer, f"/{answer}/.test(question.lastElementChild.textContent)")
        self.reads("a prediction that is told isn't done", f"Boolean({TICKED})", False)

    def test_marks_of_an_answer(self) -> None:
        """The answer that is said at last has its words in italics, and no asterisks."""
        exercise = LESSONS[2].steps[4].exercise
        assert exercise and "*i*" in exercise.answer
        self.value("localStorage.removeItem('studio-ticks')")
        self.open()
        self.go_to("lesson=3&step=5")
        self.step_to(3, 5)
        self.type_in("#lesson form input", "5")
        self.ticked("it is done")
        judged = "lesson.querySelector('.judged')"
        self.reads(
            "italics", f"Array.from({judged}.querySelectorAll('i'), one => one.textContent)", ["i"]
        )
        self.reads("no asterisks", f"{judged}.textContent.includes('*')", False)

    def test_whole_texts(self) -> None:
        """Each lesson has its whole text with its pictures."""
        for number in range(1, 9):
            self.go_to(f"lesson={number}")
            self.step_to(number, 1)
            part = "lesson.querySelector(':scope > details')"
            self.value(f"{part}.open = true")
            self.sees("opened", f"{part}.children.length > 5")
            said = self.page.text("lesson")
            left = [mark for mark in ("](", "**", "    $", "\n|") if mark in said]
            self.note(f"lesson {number} has no marks of its source", not left, left)
            pictures = "Array.from(document.querySelectorAll('#lesson img'))"
            self.sees("its pictures", f"{pictures}.every(one => one.naturalWidth)")

    def test_where_nothing_is_kept(self) -> None:
        """A browser that refuses to keep anything shows the lessons all the same, and says that ticks go."""
        script = self.page.ask("Page.addScriptToEvaluateOnNewDocument", source=NOTHING_KEPT)
        self.addCleanup(self.open)
        self.addCleanup(self.page.ask, "Page.removeScriptToEvaluateOnNewDocument", **script)
        self.page.go("about:blank")
        self.page.go(self.address + "#lesson=1")
        self.sees("it opens", "window.studio && studio.seen.hello && !studio.isFollowing()")
        self.step_to(1, 1)
        self.type_in("#lesson form input", "4")
        self.ticked("it is ticked")
        self.sees("and said not to be kept", "lesson.textContent.includes('keeps no ticks')")

    def test_spoilt(self) -> None:
        """What somebody else has kept under the name of the ticks harms nothing."""
        for text in ("{", "7", '{"a": 1}', "[7, null]", '["1.enough"]'):
            self.value(f"localStorage.setItem('studio-ticks', {json.dumps(text)})")
            self.open()
            self.go_to("lesson=1")
            self.step_to(1, 1)
            self.reads(text, f"Boolean({TICKED})", text == '["1.enough"]')
        self.value("localStorage.removeItem('studio-ticks')")

    def test_lecture(self) -> None:
        """Each place of the lecture has its words, and arrows on and back; the address says which it is."""
        self.go_to("lecture=1")
        for k, place in enumerate(LECTURE, 1):
            self.sees(f"place {k}", f"studio.seen.lecture === {k} && !studio.isFollowing()")
            where = f"{k} of {len(LECTURE)}, minutes {place.minutes}"
            self.sees("its minutes", f"lesson.textContent.includes({json.dumps(where)})")
            said = "".join(self.page.text("lesson").split())
            words = "".join(re.sub("[*`]", "", place.say).split())
            self.note("its words", words[0].upper() + words[1:] in said, said)
            self.reads("its tab", "studio.seen.tab", table.tab_of(place.place))
            self.sees("its address", f"location.hash.includes('lecture={k}')")
            if k < len(LECTURE):
                self.press("PageDown")
        self.reads("no further one", "lesson.querySelector('[data-way=on]').hidden", True)
        self.press("p")
        self.sees("back", f"studio.seen.lecture === {len(LECTURE) - 1}")
        self.page.choose("lecture", "5")
        self.sees("from the menu", "studio.seen.lecture === 5 && studio.time.at === 13")
        self.go_to("lesson=2")
        self.step_to(2, 1)
        self.reads("a lesson is no lecture", "studio.seen.lecture", None)

    def test_zz_no_script_complained(self) -> None:
        self.same("no script complained", self.page.faults, [])
