"""What the published studio answers (publishing.py): each call that its page can make at the places of the lessons, of
the lecture, and of the links in docs/learn is asked here, and its answer is kept.

The places are walked over in their tables, so that a lesson which is added there is recorded, too. Four kinds of
answers aren't kept one by one, since there is no end of them: the runs that are made step by step are kept by the
states of single nodes (local_states.py), the verdicts on typed plans by what each verdict is about, an answer to a
question with what is right, and an exercise on either of the first two with what it asks for."""
import json
import os
import re
from collections.abc import Callable, Collection, Iterator, Mapping, Sequence
from dataclasses import MISSING, dataclass, fields, is_dataclass, replace
from itertools import combinations

from forestplan.definitions.nodes import COLOURING
from forestplan.definitions.own_program import what_is_wrong
from forestplan.definitions.programs import PROGRAMS
from forestplan.definitions.reacting_program import Reacting
from forestplan.definitions.rounds import ColouringRounds
from forestplan.faults import Fault
from forestplan.folders import TOP
from forestplan.network import Network
from forestplan.networks.verdicts import Verdict
from forestplan.pictures.page_data import Look, Net, NetNode, as_object
from forestplan.pictures.program_rounds import ProgramRounds, program_rounds
from forestplan.schedules.reacting_stepwise import refused_by_always
from forestplan.schedules.rules import OF_LINKS, OF_PROGRAMS, OF_SCHEDULES
from forestplan.studio import dares
from forestplan.studio.address import values_by_name, program_named
from forestplan.studio.answers import (
    BadPlan,
    Broken,
    ExerciseJudged,
    FileSays,
    GoodPlan,
    Reacted,
    Values,
)
from forestplan.studio.call_values import either_program_asked, network_asked, program_of_call
from forestplan.studio.calls import CALLS
from forestplan.studio.exercises import (
    GOALS,
    NO_END,
    TRUE_HERE,
    Dared,
    HasResults,
    blank_words,
    answer_exercise,
    first_pulse,
    first_pulse_after,
    has_words,
    proper,
    proper_words,
    refused_state,
)
from forestplan.studio.lessons import (
    LECTURE,
    LESSONS,
    SaidExercise,
    SeenExercise,
    step_place,
    steps_in,
)
from forestplan.studio.local_reactions import LocalReactions
from forestplan.studio.local_states import OWN_STEP, LocalState, LocalStates, LocalStep, TooMany
from forestplan.studio.messages import (
    BrokenCall,
    ExampleCall,
    ExerciseCall,
    FileCall,
    MakeCall,
    OfProgram,
    PictureCall,
    PlanCall,
    RoundsCall,
    RunCall,
    WhyCall,
)
from forestplan.studio.networks import opened_by
from forestplan.studio.own_dares import NO_END as NO_END_YET, always_words, end_judged, own_dares_of
from forestplan.studio.predictions import found_after, waited
from forestplan.studio.recorded_answers import (
    MOST,
    SAID,
    STEPS,
    AllReactions,
    AllRuns,
    AllVerdicts,
    DareGoal,
    EndSaid,
    Explained,
    Kept,
    LocalRow,
    OneNode,
    OneState,
    Piece,
    PlanJudged,
    ReactionsJudged,
    GuessJudged,
    StepsJudged,
)
from forestplan.studio.rounds import of_verdict
from forestplan.studio.session import Session

# What the first screen plays (page/studio.js).
FIRST = "example=petersen&tab=rounds"
LINK = re.compile(r"http://127\.0\.0\.1:8321/#([^)\s`\"]+)")
# The networks that can be made on the page, and their sizes. A lesson asks for a row of 400 nodes.
MADE = ("path", "ring")
SIZES = (3, 4, 5, 6, 8, 12, 16, 30, 100, 400)
# A network of so few nodes is recorded with all edges that it can have; of one with up to so many each that comes of
# it is, by two edges more or less, or one node with another identifier or bar.
FEW = 5
MORE = 10
# Nodes of a network whose runs are recorded by the states of its nodes, and neighbours of each: more have too many.
# With one link they are recorded without any rules, and with so many links without one rule.
MOST_IN_RUNS = 6
MOST_NEIGHBOURS = 2
MOST_LINKS = 2


@dataclass(frozen=True)
class Spot:
    """A place that is recorded: the piece in which what is new goes, and if it is a lesson's the lesson and step."""

    piece: str
    place: str
    lesson: int = 0
    step: int = 0


def spots() -> Iterator[Spot]:
    """All places, in the order in which a class comes to them."""
    yield Spot("first", FIRST)
    for number in range(1, len(LESSONS) + 1):
        for k in range(1, len(steps_in(number)) + 1):
            yield Spot(f"lesson{number}", step_place(number, k), number, k)
    for one in LECTURE:
        yield Spot("lecture", one.place)
    for place in linked_places():
        yield Spot("links", place)


def linked_places() -> Iterator[str]:
    """The places to which the pages of docs/learn link, but for lessons and the lecture, which have their tables."""
    folder = os.path.join(TOP, "docs", "learn")
    for name in sorted(os.listdir(folder)) if os.path.isdir(folder) else ():
        with open(os.path.join(folder, name), encoding="utf-8") as file:
            for place in LINK.findall(file.read()):
                if not {"lesson", "lecture"} & set(values_by_name(place)[0]):
                    yield place


def tell(done: int = 0, of: int = 0, part: object = None) -> None:
    """Nobody is told how far a call is."""


def text_of_page(net: Net) -> str:
    """A network in the DIMACS format, as the page sends it (`text` of page/model.js)."""
    numbered = list(enumerate(net.nodes, 1))
    lines = [f"c at {v} {round(one.x, 1):.12g} {round(one.y, 1):.12g}" for v, one in numbered]
    lines += [f"c name {v} {' '.join(one.name.split())}" for v, one in numbered if one.name]
    lines += [f"p edge {len(net.nodes)} {len(net.edges)}"]
    lines += [f"i {v} {one.id}" for v, one in numbered if one.id]
    lines += [f"b {v} {bar}" for v, one in numbered for bar in one.bars]
    lines += [f"e {v} {w}" for v, w in net.edges]
    return "".join(f"{line}\n" for line in lines)


def bare(text: str) -> str:
    """A network without places and names, on which no answer but a picture depends."""
    return re.sub("(?m)^c .*\n", "", text)


def asked_of(call: object) -> dict[str, object]:
    """What a call asks, but for what is usual."""
    if not is_dataclass(call) or isinstance(call, type):
        raise TypeError(f"{call!r} is no call")
    values = {one.name: getattr(call, one.name) for one in fields(call)}
    for name in ("slow", "lazy"):
        if name in values:
            values[name] = tuple(sorted(values[name]))
    usual = {one.name: one.default for one in fields(call) if one.default is not MISSING}
    return {name: one for name, one in values.items() if name not in usual or one != usual[name]}


def key_of(call: object) -> str:
    """By what an answer is found: the call, its network without places, and what else is asked, but for what is usual.
    `keyOf` of page/recorded.js is the page's."""
    asked = asked_of(call)
    network = bare(str(asked.pop("network", "")))
    if network:
        asked.pop("name", None)
    rest = json.dumps(asked, sort_keys=True, separators=(",", ":"), ensure_ascii=False)
    return f"{call_name(call)} {network}{rest}"


def call_name(call: object) -> str:
    return next(name for name, one in CALLS.items() if one.asked is type(call))


@dataclass(frozen=True)
class OnPage:
    """A network as the page has it: its text, and the words for its program."""

    net: Net
    text: str
    program: str = COLOURING.name

    def network(self) -> Network:
        return network_asked(OfProgram(network=self.text))


class Recording:
    """The answers at some places, or at all, by their pieces, once `record` has asked for them."""

    def __init__(self, session: Session, places: Sequence[Spot] | None = None) -> None:
        self.session = session
        self.places = places
        self.pieces: dict[str, Piece] = {}
        self.known: set[str] = set()
        self.examples: set[str] = set()
        self.now = Piece()
        self.numbers: dict[str, dict[str, int]] = {}
        self.name = ""

    def record(self) -> "Recording":
        for spot in spots() if self.places is None else self.places:
            self.begin(spot.piece)
            self.at(spot)
        return self

    def begin(self, name: str) -> None:
        self.name = name
        self.now = self.pieces.setdefault(name, Piece())
        self.numbers.setdefault(name, {})

    def is_new(self, key: str) -> bool:
        is_new = key not in self.known
        self.known.add(key)
        return is_new

    def ask(self, call: object) -> object | None:
        """Keeps the answer of a call, or its refusal, if it isn't kept already."""
        key = key_of(call)
        if not self.is_new(key):
            return None
        found = None
        try:
            found = CALLS[call_name(call)].function(call, self.session, tell)
            kept = Kept(answer=found)
        except Fault as why:
            kept = Kept(wrong=str(why))
        text = json.dumps(kept, default=as_object)
        numbers = self.numbers[self.name]
        if text not in numbers:
            numbers[text] = len(self.now.values)
            self.now.values.append(kept)
        self.now.answers[key] = numbers[text]
        return found

    def at(self, spot: Spot) -> None:
        """All that the page can ask at a place."""
        opened = opened_by(spot.place, self.session)
        values = opened.address.values
        net = opened.network or Net("", [], [])
        if values.example:
            self.examples.add(values.example)
            self.ask(ExampleCall(name=values.example))
        on = OnPage(net, text_of_page(net), program_named(values))
        if net.nodes:
            self.every_tab(on)
        if on.program in self.session.own:
            self.ask(FileCall(own=on.program))
            for count in range(len(OF_LINKS) + 1):
                for rules in combinations(OF_LINKS, count):
                    self.all_reactions(on, rules)
        else:
            OF_TABS[values.tab or "draw"](self, on, values)
        if spot.lesson:
            self.exercise(spot, on)

    def every_tab(self, on: OnPage) -> None:
        """What any tab shows of a network before anything is chosen there."""
        if not self.is_new(f"network {bare(on.text)}"):
            return
        self.ask(PlanCall(network=on.text))
        self.rounds(replace(on, program=COLOURING.name), Values())
        for program in PROGRAMS:
            self.film(replace(on, program=program))
        self.run(replace(on, program=COLOURING.name), Values())
        self.all_runs(replace(on, program=COLOURING.name), "")
        self.verdicts(on)

    def film(self, on: OnPage) -> None:
        """The rounds of a program, and what goes wrong without one of its rules."""
        self.ask(RoundsCall(network=on.text, program=on.program))
        name = on.program.partition(" ")[0]
        for rule in OF_PROGRAMS.get(name, {}):
            self.broken(on, rule)

    def broken(self, on: OnPage, rules: str) -> None:
        call = BrokenCall(network=on.text, name=on.net.name, program=on.program, without=rules)
        found = self.ask(call)
        if isinstance(found, Broken) and found.found:
            self.ask(PlanCall(network=text_of_page(found.found)))

    def rounds(self, on: OnPage, values: Values) -> None:
        """The rounds, why each node has its channel, and each question on what comes next."""
        self.film(on)
        if values.broken:
            self.broken(on, values.broken)
        network = on.network()
        if on.program != COLOURING.name:
            program = program_of_call(
                OfProgram(network=on.text, program=on.program), network, self.session
            )
            return self.questions(on, program_rounds(network, program), 1)
        rounds = ColouringRounds(network)
        for v in network.node_numbers:
            self.ask(WhyCall(network=on.text, node=v))
            for forest in range(max(1, rounds.forests)):
                self.ask(PictureCall(network=on.text, kind="bits", node=v, forest=forest))
        self.questions(on, rounds, max(1, rounds.forests))

    def questions(self, on: OnPage, rounds: ColouringRounds | ProgramRounds, forests: int) -> None:
        for pulse in range(1, len(rounds.pulses)):
            for v in rounds.network.node_numbers:
                for forest in range(forests):
                    key = f"predict {bare(on.text)}{on.program} {v} {pulse} {forest}"
                    try:
                        found = Explained(*found_after(rounds, v, pulse, forest))
                    except Fault:
                        continue
                    if self.is_new(key):
                        self.now.questions[key] = found

    def run(self, on: OnPage, values: Values) -> None:
        """The run of a place, without and with each link and each node that may wait."""
        asked = RunCall(
            network=on.text,
            program=on.program,
            policy=values.policy or "random",
            seed=values.seed or "1",
            slow=tuple(values.slow or ()),
            lazy=tuple(values.lazy or ()),
        )
        self.ask(asked)
        if values.other:
            self.ask(
                RunCall(
                    network=on.text,
                    program=on.program,
                    policy=values.other.policy,
                    seed=values.other.seed,
                )
            )
        if values.tab != "run":
            return
        self.ask(RunCall(network=on.text, program=on.program, policy="newest", seed="2"))
        for edge in on.net.edges:
            self.ask(replace(asked, slow=(edge,), lazy=()))
            self.ask(replace(asked, slow=tuple({*asked.slow} ^ {edge}), lazy=()))
        for v in range(1, len(on.net.nodes) + 1):
            self.ask(replace(asked, lazy=(v,)))
        self.ask(replace(asked, slow=(), lazy=()))

    def adversary(self, on: OnPage, values: Values) -> None:
        for count in range(most_left_out(len(on.net.edges)) + 1):
            for rules in combinations(OF_SCHEDULES, count):
                self.all_runs(on, ",".join(rules))
        if values.without:
            self.all_runs(on, values.without)

    def all_runs(self, on: OnPage, without: str) -> None:
        network = on.network()
        key = f"steps {bare(on.text)}{on.program} {','.join(sorted(without.split(',')))}"
        is_small = network.nodes <= MOST_IN_RUNS and network.greatest_degree <= MOST_NEIGHBOURS
        if not is_small or not self.is_new(key):
            return
        program = program_of_call(
            OfProgram(network=on.text, program=on.program), network, self.session
        )
        rules = tuple(filter(None, without.split(",")))
        try:
            found = LocalStates(network, program, rules).find()
        except TooMany:
            return
        goals = {dare: goal_of(network, rules, dare, found) for dare in dares.DARES}
        self.now.runs[key] = all_runs_of(found, goals, dares.channels_or_results(network, program))

    def all_reactions(self, on: OnPage, rules: tuple[str, ...]) -> None:
        """The runs of nodes that react to messages, if they are few and no function of their file fails."""
        network = on.network()
        key = f"steps {bare(on.text)}{on.program} {','.join(sorted(rules))}"
        program = either_program_asked(
            OfProgram(network=on.text, program=on.program), network, self.session
        )
        if not isinstance(program, Reacting) or not self.is_new(key):
            return
        try:
            self.now.reactions[key] = reactions_of(LocalReactions(network, program, rules).find())
        except TooMany:
            return

    def check(self, on: OnPage, _values: Values) -> None:
        self.verdicts(on)

    def verdicts(self, on: OnPage) -> None:
        """The verdicts on all plans."""
        key = f"check {bare(on.text)}"
        if self.is_new(key):
            self.now.verdicts[key] = verdicts_of(on.network())

    def draw(self, on: OnPage, _values: Values) -> None:
        for net in drawn_from(on.net):
            self.ask(PlanCall(network=text_of_page(net)))
        for call in made_calls():
            made = self.ask(call)
            if isinstance(made, Net):
                self.ask(PlanCall(network=text_of_page(made)))

    def exercise(self, spot: Spot, on: OnPage) -> None:
        """How the exercise of a step is judged."""
        exercise = steps_in(spot.lesson)[spot.step - 1].exercise
        call = ExerciseCall(network="", lesson=spot.lesson, step=spot.step)
        key = f"exercise {spot.lesson} {spot.step}"

        def judged(guess: str) -> ExerciseJudged:
            return answer_exercise(replace(call, guess=guess), self.session, tell)

        if isinstance(exercise, SaidExercise):
            self.now.guesses[key] = GuessJudged(
                exercise.right, judged(exercise.right), judged(SAID), judged("")
            )
        elif isinstance(exercise, SeenExercise):
            goal = GOALS.get((spot.lesson, exercise.name))
            if goal is proper:
                counts = range(1, len(on.net.nodes) + 1)
                self.now.plans[key] = PlanJudged(
                    list(map(proper_words, counts)), list(map(blank_words, counts))
                )
            elif goal is first_pulse:
                said = first_pulse_after(False, STEPS), first_pulse_after(True, STEPS)
                self.now.steps[key] = StepsJudged("", None, "", *said)
            elif isinstance(goal, Dared):
                self.now.steps[key] = StepsJudged(goal.dare, goal.most, goal.enough(), None, None)
            elif isinstance(goal, HasResults):
                self.now.reacted[key] = ReactionsJudged(
                    goal.wanted,
                    {v: has_words(v, MOST) for v in goal.wanted},
                    NO_END if goal.is_end else "",
                    goal.done_words(STEPS),
                    "",
                )
            elif goal is refused_state:
                self.now.reacted[key] = ReactionsJudged({}, {}, "", MOST, TRUE_HERE)
            else:
                self.drawn_exercise(call, on)

    def drawn_exercise(self, call: ExerciseCall, on: OnPage) -> None:
        """An exercise on the network that is drawn: for each that can be drawn or made on the page."""
        nets = [of_edges(0, ()), on.net, *drawn_from(on.net)]
        for asked in made_calls():
            made = CALLS["make"].function(asked, self.session, tell)
            if isinstance(made, Net):
                nets.append(made)
        for net in nets:
            self.ask(replace(call, network=text_of_page(net)))


# What is recorded of a place of a tab.
OF_TABS: dict[str, Callable[[Recording, OnPage, Values], None]] = {
    "draw": Recording.draw,
    "rounds": Recording.rounds,
    "run": Recording.run,
    "adversary": Recording.adversary,
    "check": Recording.check,
    "pictures": lambda *_: None,
}


def most_left_out(links: int) -> int:
    """How many rules are left out at a time, in a network with so many links: all of them in the smallest ones."""
    if links <= 1:
        return len(OF_SCHEDULES)
    return int(links <= MOST_LINKS)


def made_calls() -> Iterator[MakeCall]:
    """The networks that can be made on the page."""
    for kind in MADE:
        for size in SIZES:
            yield MakeCall(kind=kind, sizes={"nodes": str(size)})


def of_edges(nodes: int, edges: Collection[tuple[int, int]]) -> Net:
    """A network without places: no answer that is recorded of it depends on them."""
    return Net("", [NetNode(0, 0, "", "", (), "")] * nodes, sorted(edges))


def drawn_from(net: Net) -> Iterator[Net]:
    """The networks that come of one by a few changes on the page."""
    for nodes in range(1, FEW + 1):
        yield from all_of_nodes(nodes)
    if 0 < len(net.nodes) <= MORE:
        yield from changed(net)


def all_of_nodes(nodes: int) -> Iterator[Net]:
    """All networks of so many nodes."""
    every = list(combinations(range(1, nodes + 1), 2))
    for count in range(len(every) + 1):
        for edges in combinations(every, count):
            yield of_edges(nodes, edges)


def changed(net: Net) -> Iterator[Net]:
    """A network with other edges at one or two places, and with another identifier or other bars at a node."""
    there = set(net.edges)
    numbers = range(1, len(net.nodes) + 1)
    changes = list(combinations(numbers, 2))
    for count in (1, 2):
        for some in combinations(changes, count):
            yield replace(net, edges=sorted(there ^ set(some)))
    for v in numbers:
        others = list(net.nodes)
        for identifier in range(3 * len(others)):
            others[v - 1] = replace(net.nodes[v - 1], id=str(identifier))
            yield replace(net, nodes=list(others))
        degree = max(sum(v in edge for edge in net.edges) for v in numbers)
        channels = range(1, degree + 3)
        for bars in [(channel,) for channel in channels] + list(combinations(channels, 2)):
            others[v - 1] = replace(net.nodes[v - 1], bars=bars)
            yield replace(net, nodes=list(others))


def goal_of(network: Network, rules: tuple[str, ...], dare: str, found: LocalStates) -> DareGoal:
    pairs, least = dares.goal(network, dare)
    said = ""
    if pairs:
        said = dares.apart_words(MOST, least, STEPS)
    elif dare == "wrong":
        said = dares.wrong_words(MOST, STEPS)
    return DareGoal(list(pairs), least, said, dares.impossible(found.program, rules, dare))


def all_runs_of(
    found: LocalStates, goals: Mapping[str, DareGoal], results: list[str | int]
) -> AllRuns:
    """The table of the states of the nodes."""
    looks: dict[Look, int] = {}
    waits: dict[Explained, int] = {}

    def waits_in(v: int, number: int, is_over: bool) -> Explained:
        found.state.nodes[v] = found.nodes[v][number]
        what, why = waited(found.state, v, found.without, is_over)
        return Explained(", ".join(what), why)

    def state_of(v: int, k: int, one: LocalState, numbers: dict[tuple[int, str], int]) -> OneState:
        takes = {numbers[key]: row for key, row in one.rows.items() if key != OWN_STEP}
        same = [number for number, row in takes.items() if row.to == k and not row.puts]
        own = one.rows.get(OWN_STEP)
        return OneState(
            looks.setdefault(one.look, len(looks)),
            waits.setdefault(waits_in(v, k, False), len(waits)),
            row_of(own) if own else None,
            {number: row_of(row) for number, row in takes.items() if number not in same},
            same,
        )

    nodes = []
    for v, states in found.found.items():
        keys = dict.fromkeys(key for one in states for key in one.rows if key != OWN_STEP)
        numbers = {key: k for k, key in enumerate(keys)}
        rows = [state_of(v, k, one, numbers) for k, one in enumerate(states)]
        nodes.append(OneNode(found.network.neighbours[v], found.starts[v], list(numbers), rows))
    return AllRuns(
        last=found.last,
        overtakes="fifo" in found.without,
        nodes=nodes,
        looks=list(looks),
        waits=list(waits),
        over=waits_in(1, 0, True),
        dares=goals,
        results=results,
        ends=(dares.NOT_HALTED, dares.SAME_RESULTS, dares.OTHER_RESULTS),
    )


def reactions_of(found: LocalReactions) -> AllReactions:
    """The table of the states of nodes that react to messages."""
    looks: dict[str, tuple[int, Reacted]] = {}
    nodes = [one_node(found, v, looks) for v in found.network.node_numbers]
    always = {by_lines(results): wrong for results, wrong in sorted(found.always.items())}
    return AllReactions(
        overtakes="fifo" in found.without,
        nodes=nodes,
        looks=[look for _, look in looks.values()],
        always=always if "always" in found.program.file.functions else None,
        ends={by_lines(results): end_said(found, results) for results in sorted(found.ends)},
        dares=own_dares_of(found.program),
        kept=always_words("", STEPS),
        refused=always_words(MOST, STEPS),
        fault=refused_by_always(STEPS, MOST),
        no_end=NO_END_YET,
    )


def one_node(found: LocalReactions, v: int, looks: dict[str, tuple[int, Reacted]]) -> OneNode:
    """A node, whose looks are added to those that are known."""
    states = found.found[v]
    keys = dict.fromkeys(key for one in states for key in one.rows if key != OWN_STEP)
    numbers = {key: k for k, key in enumerate(keys)}
    rows = []
    for one in states:
        text = json.dumps(one.look, default=as_object)
        look, _ = looks.setdefault(text, (len(looks), one.look))
        own = one.rows.get(OWN_STEP)
        takes = {numbers[key]: row_of(row) for key, row in one.rows.items() if key != OWN_STEP}
        rows.append(OneState(look, 0, row_of(own) if own else None, takes, ()))
    return OneNode(found.network.neighbours[v], found.starts[v], list(numbers), rows)


def end_said(found: LocalReactions, results: tuple[str, ...]) -> EndSaid:
    """What is said of an end with these results."""
    network = found.network
    program = found.program
    by_node = dict(zip(network.node_numbers, results))
    wrong = what_is_wrong(network, program.file, by_node)
    has_right = "right" in program.file.functions
    judged = {
        dare: end_judged(network, program, by_node, dare, STEPS)
        for dare in own_dares_of(program)
        if dare != "always"
    }
    return EndSaid(FileSays(not wrong, wrong) if has_right else None, judged)


def by_lines(results: tuple[str, ...]) -> str:
    return "\n".join(results)


def row_of(row: LocalStep) -> LocalRow:
    return LocalRow(row.to, row.puts or None, row.fault)


def verdicts_of(network: Network) -> AllVerdicts:
    """The verdict on each plan, by what it is about."""

    def bad(code: str, *numbers: int) -> BadPlan:
        verdict = of_verdict(Verdict(code, "vertex" if len(numbers) == 1 else "vertices", numbers))
        if not isinstance(verdict, BadPlan):
            raise TypeError(f"{code} is no fault of a plan")
        return verdict

    def good(greatest: int) -> GoodPlan:
        verdict = of_verdict(Verdict(of="channels", numbers=(greatest,)))
        if not isinstance(verdict, GoodPlan):
            raise TypeError("no code is a fault of a plan")
        return verdict

    return AllVerdicts(
        of=[
            {bar: bad("C8", v) for bar in network.bars.get(v, ()) if bar <= network.channels}
            for v in network.node_numbers
        ],
        above=[bad("C5", v) for v in network.node_numbers],
        most=network.channels,
        blank=[bad("C1", v) for v in network.node_numbers],
        alike=[(v, w, bad("C4", v, w)) for v, w in sorted(network.edges)],
        good=[good(greatest) for greatest in range(1, network.channels + 1)],
    )
