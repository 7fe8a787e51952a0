"""The calls on runs without a clock: a run by a seed, by threads or of a transcript, its verdicts, and a run that is
made step by step."""
import re
from collections.abc import Iterator
from dataclasses import replace

from forestplan import processors
from forestplan.definitions.events import Event
from forestplan.definitions.machine import AnyNode
from forestplan.definitions.nodes import COLOURING
from forestplan.definitions.program import Program
from forestplan.definitions.programs import program_words
from forestplan.definitions.reacting_program import Reacting
from forestplan.fault_codes import Code
from forestplan.faults import Fault
from forestplan.network import Edge, Network
from forestplan.pictures.program_rounds import is_of_file, least_wires, rounds_of
from forestplan.pictures.watch_page import (
    MOST_ENTRIES,
    ShownRun,
    Steps,
    watch_html,
    look_of,
    run_of_text,
)
from forestplan.schedules.policies import Policy
from forestplan.schedules.reacting_stepwise import ReactingStepwise
from forestplan.schedules.rules import OF_LINKS, OF_SCHEDULES
from forestplan.schedules.simulate import AlphaPlayer, events_of, text_of_run
from forestplan.schedules.stepwise import ByHand, Stepwise
from forestplan.studio.answers import (
    JudgedText,
    Ran,
    ReactionsFound,
    Replayed,
    RunPart,
    StepsFound,
    WholeRun,
)
from forestplan.studio.call_progress import Tell
from forestplan.studio.call_values import (
    MOST_DRAWN,
    MOST_RUN,
    MOST_STEPS,
    either_program_asked,
    network_asked,
    program_of_call,
    rules_asked,
)
from forestplan.studio.dares import channels_or_results, dare_judged, impossible
from forestplan.studio.judges import (
    PYTHON,
    beginning_judged,
    by_definitions,
    transcript_judged,
    text_from,
)
from forestplan.studio.messages import Held, JudgeCall, ReplayCall, RunCall, RunPageCall, StepsCall
from forestplan.studio.reactions import reactions_found
from forestplan.studio.session import Session
from forestplan.transcripts.reading import line_of

# More wires than this are played by threads alone: the slow definitions would take minutes.
MOST_WIRES_PLAYED = 60_000
# A part of a run is shown after so many entries, while the rest is worked out.
PART = 1_500
KINDS = "payload", "ack", "safe", "close"
MOST_BY_CHANCE = 200


def held_of(held: Held, net: Network) -> tuple[set[tuple[int, int]], set[int]]:
    """The links and nodes that wait."""
    slow = {(min(edge), max(edge)) for edge in held.slow}
    lazy = set(held.lazy)
    if not slow <= set(net.edges) or not lazy <= set(net.neighbours):
        raise Fault(Code.NOT_IN_NETWORK)
    return slow, lazy


def run_by_seed(
    call: RunCall, network: Network, program: Program, session: Session, tell: Tell
) -> tuple[str, ShownRun]:
    """(transcript, run) by a seed, which no thread made; steps of somebody's may come first."""
    most = least_wires(network, program)
    if most > MOST_WIRES_PLAYED:
        code = Code.RUN_TOO_LONG if session.is_proved else Code.RUN_TOO_LONG_UNBUILT
        raise Fault(code, wires=most, most=MOST_WIRES_PLAYED)
    if call.policy is None:
        raise Fault(Code.NO_POLICY)
    policy = Policy(
        call.policy, network.node_numbers, network.edges, call.seed, *held_of(call, network)
    )
    player = AlphaPlayer(network, program)
    made = Steps(player.state)
    for step in first_steps(call.steps, network, program):
        made.add(player.make(step))
    # About: twice a wire for each of its puts and takes, and as many again for the payloads and their acknowledgements.
    of = 2 * most + network.nodes * program.last_pulse(network)
    next_part = PART
    for entry in player.entries(policy):
        made.add(entry)
        if not len(player.made) % 200:
            tell(min(len(player.made), of), of)
        if len(player.made) == next_part:
            next_part *= 2
            tell(part=run_part(ShownRun("the run", network, made.by_stamp())))
    return text_of_run(network, player.made, program), ShownRun("the run", network, made.by_stamp())


def first_steps(steps: str, net: Network, program: Program) -> Iterator[Event]:
    """The events that steps of somebody's come to."""
    if not steps:
        return  # even the greetings are the policy's, as `forestlab simulate` plays them
    stepwise = Stepwise(net, program)
    stepwise.follow(steps.split("_"))
    for _, event in events_of("\n".join(stepwise.lines), "the steps"):
        yield event


def run_part(found: ShownRun) -> RunPart:
    """What is shown of a run."""
    return RunPart(found.table(), found.last, found.pulses, found.is_cut)


def by_threads(call: RunCall, program: Program, session: Session) -> str:
    if not session.is_proved:
        raise Fault(Code.NO_THREADS)
    name = "forestplan" if program == COLOURING else "forestplay"
    arguments = (
        ["transcript"] if program == COLOURING else ["run", "--transcript", *program_words(program)]
    )
    workers = processors.workers(call.workers)
    return text_from(
        name, [*arguments, f"--workers={workers}", f"--capacity={call.capacity}"], call.network
    )


def answer_run(call: RunCall, session: Session, tell: Tell) -> WholeRun:
    """A run: its transcript, the rows that the page follows, the judge's verdict, and whether its payloads are those of
    the rounds."""
    network = network_asked(call, MOST_RUN)
    program = program_of_call(call, network, session)
    found = None
    if call.transcript:
        text = call.transcript
    elif call.how == "threads" and not is_of_file(program):
        text = by_threads(call, program, session)
    else:
        text, found = run_by_seed(call, network, program, session, tell)
    if found is None:
        lines = text.splitlines(keepends=True)
        if text.startswith("transcript 2 "):
            # Of a text in the order of a run only as much is read as is shown.
            del lines[MOST_ENTRIES + 3 :]
        found = run_of_text("the run", "".join(lines), network, program=program)
    same, results = compared(found, network, program)
    return WholeRun(
        table=found.table(),
        last=found.last,
        pulses=found.pulses,
        cut=found.is_cut,
        text=text,
        judge=transcript_judged(network, call.network, text, program, session),
        same=same,
        results=results,
        costs={kind: len(re.findall(f"^.* put \\d+ {kind}", text, re.M)) for kind in KINDS},
        of=singled_out(call, network),
    )


def answer_run_page(call: RunPageCall, session: Session, _tell: Tell) -> str:
    """The same of a run, as the command `picture watch` draws it."""
    network = network_asked(call, MOST_RUN)
    program = program_of_call(call, network, session)
    return watch_html([run_of_text("the run", call.transcript, network, program=program)])


def singled_out(call: RunCall, network: Network) -> str | None:
    """The link or the node that the policy has chosen by its seed, if it chooses one."""
    if call.transcript or call.how == "threads" or call.policy is None:
        return None
    of = Policy(call.policy, network.node_numbers, network.edges, call.seed).chosen
    if of is None:
        return None
    return f"node {of}" if isinstance(of, int) else "the link {}–{}".format(*of)


def compared(
    found: ShownRun, network: Network, program: Program
) -> tuple[tuple[int, int, int], list[str | int]]:
    """(pulses whose payloads are those of the rounds, pulses compared, payloads), and what the rounds find."""
    there = rounds_of(network, program)
    results = channels_or_results(network, program)
    pulses = range(found.pulses[0], found.pulses[1] + 1)
    sent = {
        p: sorted((v, w, f"{word} {what}") for v, w, word, what in there.pulses[p].puts)
        for p in pulses
    }
    same = sum(sent[p] == found.payloads(p) for p in pulses)
    return (same, len(pulses), sum(map(len, sent.values()))), results


def answer_replay(call: ReplayCall, session: Session, _tell: Tell) -> Replayed:
    """What the judge says of the first entries of a run: it plays them, and says where each node is. Without stamps a
    beginning of a run is no fault."""
    network = network_asked(call, MOST_RUN)
    entries = [line.partition(" ")[2] for line in call.transcript.splitlines()[1:]]
    return beginning_judged(
        network, call.network, entries, program_of_call(call, network, session), session
    )


def answer_judge(call: JudgeCall, session: Session, _tell: Tell) -> JudgedText:
    """What is said of a transcript, whoever wrote it: in words by the definitions, and by the proved machine."""
    network = network_asked(call, MOST_DRAWN)
    text = call.transcript
    program = program_of_call(call, network, session)
    before = call.network.count("\n") + 1
    proved = (
        transcript_judged(network, call.network, text, program, session, before)
        if session.is_proved
        else None
    )
    said, line = by_definitions(network, text, program)
    return JudgedText(ok=line is None, said=said, line=line, by=PYTHON, proved=proved)


def follow(player: ByHand[AnyNode], call: StepsCall, held: tuple[set[Edge], set[int]]) -> None:
    """Makes the steps that are listed, and plays what is left to chance, with some links and nodes held up."""
    if call.list is not None:
        player.follow_list(call.list)
    else:
        player.follow(call.steps.split("_"))
    if len(player.chosen) > MOST_STEPS:
        raise Fault(Code.TOO_MANY_STEPS_BY_HAND, most=MOST_STEPS)
    if call.by:
        player.by_chance(min(call.by, MOST_BY_CHANCE), call.seed, *held)


def answer_steps(call: StepsCall, session: Session, _tell: Tell) -> StepsFound | ReactionsFound:
    """A run that is made step by step: where it is after some steps, or the events of a `list`, and what can come next.
    `by` steps more are left to chance, or up to all nodes' next pulse `in step`."""
    network = network_asked(call, MOST_RUN)
    program = either_program_asked(call, network, session)
    held = held_of(call, network)
    if isinstance(program, Reacting):
        reacting = ReactingStepwise(network, program, rules_asked(call, OF_LINKS))
        follow(reacting, call, held)
        return reactions_found(call, network, program, reacting)
    player = Stepwise(network, program, rules_asked(call, OF_SCHEDULES))
    follow(player, call, held)
    if call.in_step:
        player.in_step(*held)
    return pulses_found(call, network, player, program, session)


def pulses_found(
    call: StepsCall, network: Network, player: Stepwise, program: Program, session: Session
) -> StepsFound:
    """Where a run under the synchroniser is."""
    without = tuple(player.without)
    dare = judge_found = None
    if call.dare:
        dare = replace(
            dare_judged(network, program, without, player.chosen, call.dare),
            impossible=impossible(program, without, call.dare),
        )
    if not without and not player.is_over:
        lines = [line_of(entry) for entry in player.made]
        judge_found = beginning_judged(network, call.network, lines, program, session)
    return StepsFound(
        made=player.chosen,
        steps=[] if player.is_over else player.possible(),
        last=player.state.nodes[1].last,
        looks=[look_of(player.state, v) for v in network.node_numbers],
        wires=player.words_under_way(),
        said=player.last_step,
        fault=player.fault,
        over=player.is_over,
        list=player.lines,
        entries=len(player.made),
        ran=ran_last(player, program),
        dare=dare,
        judge=judge_found,
    )


def ran_last(player: Stepwise, program: Program) -> Ran | None:
    """Which function of a file ran last: that of the last pulse, or at first the greeting of each node."""
    if program.file is None:
        return None
    pulses = [int(step) for step in player.chosen if "-" not in step]
    if not pulses:
        return Ran("greet", 0)
    return Ran("step" if "step" in program.file.functions else "next", pulses[-1])
