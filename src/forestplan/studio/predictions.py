"""Predict, then look: what a node has after a pulse, or what it waits for, as a student says it, beside what the
definitions find and why."""
from collections.abc import Collection

from forestplan.definitions.events import PUT, Entry, Message
from forestplan.definitions.machine import NetState
from forestplan.definitions.nodes import COLOURING, AlphaNode
from forestplan.definitions.reacting_program import Reacting
from forestplan.definitions.rounds import ColouringRounds, SEED
from forestplan.fault_codes import Code
from forestplan.faults import Fault
from forestplan.pictures.player_page import SAY
from forestplan.pictures.program_rounds import ProgramRounds, program_rounds
from forestplan.pictures.watch_page import waits_of
from forestplan.pictures.why_picture import Cone, choice_lines
from forestplan.schedules.reacting_stepwise import ReactingStepwise
from forestplan.schedules.rules import OF_LINKS, OF_SCHEDULES
from forestplan.schedules.stepwise import Stepwise
from forestplan.studio.answers import Predicted
from forestplan.studio.call_progress import Tell
from forestplan.studio.call_values import (
    MOST_ROUNDS,
    MOST_RUN,
    either_program_asked,
    network_asked,
    program_of_call,
    rules_asked,
    node_asked,
)
from forestplan.studio.messages import PredictCall, SendsCall, WaitsCall
from forestplan.studio.session import Session
from forestplan.wording import in_words

# What a node's next pulse needs, by the rule that has it wait; and what it doesn't wait for without the rule.
NEEDED = {"acks": "its payloads are acknowledged", "safes": "its neighbours are safe"}
NOT_NEEDED = {"acks": "acknowledgements", "safes": "safes"}

OF_ROOT = "It has no parent in this forest, so its new colour is its own digit in the place i = 0 (bit step)."


def answer_predict(call: PredictCall, session: Session, _tell: Tell) -> Predicted:
    """Whether it is right what is said of a node after a pulse; of the colouring in a forest, or in its merge."""
    network = network_asked(call, MOST_ROUNDS)
    program = program_of_call(call, network, session)
    v = node_asked(call, network)
    pulse = call.pulse
    last = program.last_pulse(network)
    if not 1 <= pulse <= last:
        raise Fault(Code.NO_PULSE, pulse=pulse, last=last)
    rounds: ColouringRounds | ProgramRounds = ColouringRounds(network)
    if program != COLOURING:
        rounds = program_rounds(network, program)
    found, why = found_after(rounds, v, pulse, call.forest)
    return Predicted(small_text(call.guess) == small_text(found), found, why)


def found_after(
    rounds: ColouringRounds | ProgramRounds, v: int, pulse: int, forest: int
) -> tuple[str, str]:
    """What a node has after a pulse, and why; of the colouring in a forest, or in its merge."""
    if isinstance(rounds, ColouringRounds):
        return of_colouring(rounds, v, pulse, forest)
    return of_program(rounds, v, pulse)


def small_text(said: str) -> str:
    """As it is compared: in small letters, with single blanks."""
    return " ".join(said.lower().split())


def of_colouring(rounds: ColouringRounds, v: int, pulse: int, forest: int) -> tuple[str, str]:
    now = rounds.pulses[pulse]
    if now.step:
        return of_merge(rounds, v, pulse, now.step[0])
    if pulse < SEED or not rounds.forests:
        raise Fault(Code.NO_COLOUR_YET)
    if forest not in range(rounds.forests):
        raise Fault(Code.NO_FOREST_OF_FIELD, forest=forest)
    causes = Cone(rounds, v).causes_of_colour(v, forest, pulse)
    is_root = (v, forest) not in rounds.parents
    why = OF_ROOT if is_root and now.phase == "step" else SAY[now.phase].format(9 - pulse // 2)
    return (
        str(now.colours[v, forest]),
        f"{why} Here: {in_words([cause(rounds, *one) for one in causes])}.",
    )


def cause(rounds: ColouringRounds, kind: str, v: int, forest: int = 0, pulse: int = 0) -> str:
    """A fact on which a colour depends, in words."""
    if kind == "identifier":
        return f"the identifier of node {v} is {rounds.network.identifiers[v]}"
    colour = rounds.pulses[pulse].colours[v, forest]
    return f"node {v} had colour {colour} ({colour:b} in binary) after pulse {pulse}"


def of_merge(rounds: ColouringRounds, v: int, pulse: int, forest: int) -> tuple[str, str]:
    turn = rounds.turns[forest, v]
    if turn != pulse:
        return "-", f"Its turn in the merge of forest {forest} is pulse {turn}."
    lines = [line.strip() for line in choice_lines(Cone(rounds, v), v, forest)]
    return str(rounds.merged[forest + 1][v] + 1), "; ".join(lines) + "."


def of_program(rounds: ProgramRounds, v: int, pulse: int) -> tuple[str, str]:
    """What it has found, and the messages that it has read."""
    read = [
        f"`{word} {sent}` from {w}"
        for w, to, word, sent in rounds.pulses[pulse - 1].puts
        if to == v
    ]
    return rounds.pulses[pulse].results[v], f"It reads {in_words(read) or 'nothing'}."


def answer_waits(call: WaitsCall, session: Session, _tell: Tell) -> Predicted:
    """The same of what a node waits for after some steps, as `ack 2, safe 3`: the word, and of whom."""
    network = network_asked(call, MOST_RUN)
    v = node_asked(call, network)
    program = program_of_call(call, network, session)
    player = Stepwise(network, program, rules_asked(call, OF_SCHEDULES))
    player.follow(call.steps.split("_"))
    found, why = waited(player.state, v, player.without, player.is_over)
    return Predicted(is_whole_list(call.guess, found), ", ".join(found) or "nothing", why)


def is_whole_list(said: str, found: list[str]) -> bool:
    """Whether a student has said all of a list, with commas between; of none it is `nothing`."""
    parts = sorted(filter(None, map(small_text, said.split(","))))
    return parts == found or not found and parts == ["nothing"]


def answer_sends(call: SendsCall, session: Session, _tell: Tell) -> Predicted:
    """Whether it is right what a node without rounds is said to send in a step, as `wave 2, echo 3`."""
    network = network_asked(call, MOST_RUN)
    program = either_program_asked(call, network, session)
    if not isinstance(program, Reacting):
        raise Fault(Code.ROUNDS_HERE, program=program.name)
    player = ReactingStepwise(network, program, rules_asked(call, OF_LINKS))
    player.follow(call.steps.split("_"))
    before = len(player.made)
    player.follow([call.step])
    if len(player.made) == before and not player.is_over:
        raise Fault(Code.STEP_NOT_POSSIBLE, number=len(player.chosen) + 1, step=call.step)
    function, _ = player.ran
    if player.is_over:
        return Predicted(
            is_whole_list(call.guess, []), "nothing", f"`{function}` fails: {player.fault}."
        )
    puts = [entry for entry in player.made[before:] if entry.kind is PUT]
    sent = in_words([f"`{entry.what}` to {entry.neighbour}" for entry in puts]) or "nothing"
    found = sorted(set(map(word_and_end, puts)))
    why = f"`{function}` runs, and sends {sent}."
    return Predicted(is_whole_list(call.guess, found), ", ".join(found) or "nothing", why)


def word_and_end(put: Entry) -> str:
    """The word of a message that is put, and to whom it goes."""
    word = put.what.word if isinstance(put.what, Message) else ""
    return f"{word} {put.neighbour}"


def waited(
    state: NetState[AlphaNode], v: int, left_out: Collection[str], is_over: bool
) -> tuple[list[str], str]:
    """What a node waits for, as it runs: without the rules that are left out; and why."""
    node = state.nodes[v]
    if is_over:
        return [], "The run has ended here, so nothing more can come."
    found = sorted(f"{what} {w}" for what, w in waits_of(state, v))
    if node.pulse_number == node.last:
        return found, "It has made its last pulse" + (
            ", and halts when its neighbours have closed their links." if found else "."
        )
    needs = [says for rule, says in NEEDED.items() if rule not in left_out]
    when = f"when {' and '.join(needs)}" if needs else "at any time"
    not_for = [what for rule, what in NOT_NEEDED.items() if rule in left_out]
    more = f" It waits for no {' and no '.join(not_for)}: that is left out." if not_for else ""
    return found, f"It may make its next pulse {when}.{more}"
