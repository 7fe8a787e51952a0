"""The exercises of the lessons, judged: an answer that a student has said, or what the page shows. Each verdict comes
from the definitions, and says in one sentence how far the student is."""
from collections.abc import Callable, Mapping
from dataclasses import dataclass

from forestplan.definitions.colours import colours
from forestplan.definitions.nodes import last_pulse
from forestplan.definitions.reacting_program import Reacting
from forestplan.fault_codes import Code
from forestplan.faults import Fault
from forestplan.network import Network
from forestplan.pictures.layout import distances
from forestplan.schedules.reacting_stepwise import ReactingStepwise
from forestplan.schedules.rules import OF_LINKS, OF_SCHEDULES
from forestplan.schedules.stepwise import Stepwise
from forestplan.studio import dares
from forestplan.studio.answers import ExerciseJudged
from forestplan.studio.call_progress import Tell
from forestplan.studio.call_values import (
    either_program_asked,
    network_asked,
    program_of_call,
    rules_asked,
)
from forestplan.studio.lessons import LESSONS, SaidExercise, SeenExercise
from forestplan.studio.messages import CheckCall, ExerciseCall
from forestplan.studio.rounds import answer_check
from forestplan.studio.session import Session
from forestplan.wording import counted, in_words

# What judges a goal.
Goal = Callable[[ExerciseCall, Session, Tell], ExerciseJudged]
# Nodes of a row that is long; and in how many steps a wrong inbox is to be reached: no list has fewer (lesson 6).
LONG = 100
FEWEST = 5
# What is said of a run without rounds that isn't where it has to be.
NO_END = "something can still happen"
TRUE_HERE = "`always` is true here"


def answer_exercise(call: ExerciseCall, session: Session, tell: Tell) -> ExerciseJudged:
    """Whether the exercise of a step is done."""
    if not 1 <= call.lesson <= len(LESSONS):
        raise Fault(Code.NO_LESSON, lessons=len(LESSONS))
    steps = LESSONS[call.lesson - 1].steps
    if not 1 <= call.step <= len(steps):
        raise Fault(Code.NO_STEP_OF_LESSON, lesson=call.lesson, steps=len(steps))
    exercise = steps[call.step - 1].exercise
    if isinstance(exercise, SaidExercise):
        return said_right(exercise, call.guess)
    if isinstance(exercise, SeenExercise):
        return GOALS[call.lesson, exercise.name](call, session, tell)
    raise Fault(Code.NO_EXERCISE)


def said_right(exercise: SaidExercise, said: str) -> ExerciseJudged:
    if " ".join(said.lower().split()) == exercise.right:
        return ExerciseJudged(True, exercise.answer)
    answer = said.strip()[:60]
    if not answer:
        return ExerciseJudged(False, "an answer is missing")
    return ExerciseJudged(
        False, f"the answer isn't “{answer}”" if exercise.picks else f"it isn't {answer}"
    )


def proper(call: ExerciseCall, session: Session, tell: Tell) -> ExerciseJudged:
    """A plan that is typed in the tab Check."""
    verdict = answer_check(CheckCall(network=call.network, plan=call.plan), session, tell)
    if verdict.ok:
        return ExerciseJudged(True, proper_words(len(set(call.plan))))
    left = network_asked(call).nodes - sum(map(bool, call.plan))
    return ExerciseJudged(False, blank_words(left) if left else verdict.sentence)


def proper_words(used: int) -> str:
    return f"the plan is proper, with {counted(used, 'channel')}"


def blank_words(left: int) -> str:
    return f"{counted(left, 'transmitter')} without a channel"


def ends_of_row(network: Network) -> list[int]:
    """The two ends of a network that is one row; nothing of any other one."""
    degrees = {v: len(ws) for v, ws in network.neighbours.items()}
    ends = [v for v, degree in degrees.items() if degree == 1]
    is_row = len(ends) == 2 and max(degrees.values()) <= 2
    return ends if is_row and len(distances(network.neighbours, ends[0])) == network.nodes else []


def row_asked(call: ExerciseCall, nodes: int) -> Network:
    """A row of so many nodes; refused in words."""
    try:
        network = network_asked(call)
    except Fault as why:
        if why.code is not Code.NO_NODE_YET:
            raise
        raise Fault(Code.ROW_OF_NONE, nodes=nodes) from None
    if network.nodes != nodes:
        code = Code.ROW_OF_ONE if network.nodes == 1 else Code.ROW_OF_OTHER_LENGTH
        raise Fault(code, nodes=nodes, here=network.nodes)
    if not ends_of_row(network):
        raise Fault(Code.NO_ROW_YET, nodes=nodes)
    return network


def three_channels(call: ExerciseCall, session: Session, _tell: Tell) -> ExerciseJudged:
    network = row_asked(call, 4)
    used = max(colours(network).values()) + 1
    return ExerciseJudged(used == 3, f"the plan of this row takes {used} channels")


def two_rounds(call: ExerciseCall, session: Session, _tell: Tell) -> ExerciseJudged:
    """In how many rounds a row of four chooses in the order of the numbers."""
    network = row_asked(call, 4)
    at: dict[int, int] = {}
    for v in sorted(network.node_numbers, key=network.identifiers.__getitem__):
        at[v] = 1 + max((at[w] for w in network.neighbours[v] if w in at), default=0)
    rounds = max(at.values())
    return ExerciseJudged(
        rounds == 2, f"in the order of the numbers this row takes {rounds} rounds"
    )


def long_row(call: ExerciseCall, session: Session, _tell: Tell) -> ExerciseJudged:
    network = network_asked(call)
    if network.nodes < LONG or not ends_of_row(network):
        return ExerciseJudged(False, f"this is no row of {LONG} nodes or more")
    said = f"{network.nodes} transmitters in a row take the rounds 0 to {last_pulse(network)}"
    return ExerciseJudged(True, said)


def lowest_centre(call: ExerciseCall, session: Session, _tell: Tell) -> ExerciseJudged:
    """A star of eight leaves, whose centre has the least identifier."""
    network = network_asked(call)
    is_star = sorted(map(len, network.neighbours.values())) == [1] * 8 + [8]
    if not is_star:
        return ExerciseJudged(False, "this isn't the star of eight leaves any more")
    forests = counted(network.forest_count, "forest")
    return ExerciseJudged(network.forest_count == 8, f"the star has {forests}")


def bar(call: ExerciseCall, session: Session, _tell: Tell) -> ExerciseJudged:
    """Channel 1 barred at node 3 of the triangle: what has changed."""
    network = network_asked(call)
    if network.nodes != 3 or len(network.edges) != 3:
        return ExerciseJudged(False, "this isn't the triangle any more")
    if 1 not in network.bars.get(3, ()):
        return ExerciseJudged(False, "channel 1 isn't barred at node 3 yet")
    free = Network(3, network.edges, network.given_identifiers)
    before = colours(free)
    now = colours(network)
    changes = [
        f"node {v} has channel {now[v] + 1} instead of {before[v] + 1}"
        for v in network.node_numbers
        if now[v] != before[v]
    ]
    return ExerciseJudged(True, in_words(changes))


def first_pulse(call: ExerciseCall, session: Session, _tell: Tell) -> ExerciseJudged:
    player = steps_played(call, session)
    made = max(node.pulse_number for node in player.state.nodes.values())
    return first_pulse_after(made > 0, counted(len(player.chosen), "step"))


def first_pulse_after(is_made: bool, steps: str) -> ExerciseJudged:
    if is_made:
        return ExerciseJudged(True, f"a node has made pulse 1, after {steps}")
    return ExerciseJudged(False, f"no node has made pulse 1 yet, after {steps}")


def steps_played(call: ExerciseCall, session: Session) -> Stepwise:
    network = network_asked(call)
    player = Stepwise(
        network, program_of_call(call, network, session), rules_asked(call, OF_SCHEDULES)
    )
    player.follow(filter(None, call.steps.split("_")))
    return player


@dataclass(frozen=True)
class Dared:
    """The goal of a dare that has to be won, in at most so many steps."""

    dare: str
    most: int | None = None

    def __call__(self, call: ExerciseCall, session: Session, _tell: Tell) -> ExerciseJudged:
        network = network_asked(call)
        program = program_of_call(call, network, session)
        steps = list(filter(None, call.steps.split("_")))
        rules = rules_asked(call, OF_SCHEDULES)
        is_ = dares.dare_judged(network, program, rules, steps, self.dare)
        if is_.won and self.most is not None and len(steps) > self.most:
            return ExerciseJudged(False, is_.said + self.enough())
        return ExerciseJudged(is_.won, is_.said)

    def enough(self) -> str:
        """What is said of a dare that is won in more steps."""
        return f", and {self.most} are enough"


def reactions_played(call: ExerciseCall, session: Session) -> ReactingStepwise:
    """The steps of the page, of nodes that react to messages."""
    network = network_asked(call)
    program = either_program_asked(call, network, session)
    if not isinstance(program, Reacting):
        raise Fault(Code.HAS_ROUNDS, program=program.name)
    player = ReactingStepwise(network, program, rules_asked(call, OF_LINKS))
    player.follow(filter(None, call.steps.split("_")))
    return player


@dataclass(frozen=True)
class HasResults:
    """Results that some nodes have to have, at an end or anywhere."""

    wanted: Mapping[int, str]
    is_end: bool = False

    def __call__(self, call: ExerciseCall, session: Session, _tell: Tell) -> ExerciseJudged:
        player = reactions_played(call, session)
        results = player.results
        lacking = [v for v, result in self.wanted.items() if results.get(v) != result]
        if lacking:
            v = lacking[0]
            said = has_words(v, results[v]) if v in results else f"there is no node {v}"
            return ExerciseJudged(False, said)
        if self.is_end and not player.is_ended:
            return ExerciseJudged(False, NO_END)
        return ExerciseJudged(True, self.done_words(counted(len(player.chosen), "step")))

    def done_words(self, steps: str) -> str:
        has = in_words([has_words(v, result) for v, result in self.wanted.items()])
        return f"{has}, after {steps}"


def has_words(v: int, result: str) -> str:
    return f"the result of node {v} is `{result}`"


def refused_state(call: ExerciseCall, session: Session, _tell: Tell) -> ExerciseJudged:
    """A state that the file's `always` refuses."""
    player = reactions_played(call, session)
    if player.refused:
        return ExerciseJudged(True, player.refused)
    return ExerciseJudged(False, TRUE_HERE)


# What judges the exercises that are done in the studio, by the lesson and the name.
GOALS: dict[tuple[int, str], Goal] = {
    (1, "proper"): proper,
    (1, "row"): three_channels,
    (1, "two"): two_rounds,
    (1, "long"): long_row,
    (2, "centre"): lowest_centre,
    (4, "bar"): bar,
    (5, "far"): Dared("ends"),
    (6, "pulse"): first_pulse,
    (6, "apart"): Dared("apart"),
    (6, "wrong"): Dared("wrong", FEWEST),
    (8, "tree"): HasResults({1: "counts 3", 2: "counts 2"}, is_end=True),
    (8, "later"): HasResults({1: "asks", 3: "inside"}),
    (8, "coins"): refused_state,
}
