"""The calls on plans and rounds: the plan, its verdict, the rounds pulse by pulse, why a node has its channel, what
goes wrong without a rule, and pictures."""

from forestplan.definitions.nodes import COLOURING, last_pulse
from forestplan.definitions.reacting_program import Reacting
from forestplan.definitions.rounds import ColouringRounds
from forestplan.fault_codes import Code
from forestplan.faults import Fault
from forestplan.network import Network
from forestplan.networks.codes import fault_place, told_of
from forestplan.networks.plan_text import read_plan
from forestplan.networks.verdicts import Verdict
from forestplan.pictures import broken_picture, player_page, reacting_picture, why_picture
from forestplan.pictures.page_data import RoundsFound
from forestplan.pictures.pages import net_of
from forestplan.pictures.picture import KINDS as KINDS_OF_PICTURES, Source, Text, drawing_of
from forestplan.pictures.program_rounds import ProgramRounds, program_rounds
from forestplan.pictures.transcripts import stamp_of
from forestplan.schedules.reacting_stepwise import ReactingStepwise
from forestplan.schedules.ruled_rounds import ruled, smallest_wrong_rounds
from forestplan.schedules.rules import OF_PROGRAMS
from forestplan.studio.answers import BadPlan, Broken, GoodPlan, PlanFound, WhyFound
from forestplan.studio.call_progress import Tell
from forestplan.studio.call_values import (
    MOST_ROUNDS,
    MOST_RUN,
    either_program_asked,
    network_asked,
    program_of_call,
    rules_asked,
    node_asked,
)
from forestplan.studio.judges import proved_plan, proved_rounds, verdict_on
from forestplan.studio.messages import (
    BrokenCall,
    CheckCall,
    OfProgram,
    PictureCall,
    PlanCall,
    RoundsCall,
    RoundsPageCall,
    WhyCall,
)
from forestplan.studio.session import Session


def answer_plan(call: PlanCall, session: Session, _tell: Tell) -> PlanFound:
    """The plan, and what the network comes to."""
    network = network_asked(call)
    channels = read_plan(proved_plan(network, call.network, session), "the plan", network)
    return PlanFound(
        plan=[channels[v] for v in network.node_numbers],
        allowed=network.channels,
        degree=network.greatest_degree,
        bars=network.greatest_bars,
        last=last_pulse(network),
        forests=network.forest_count,
    )


def answer_check(call: CheckCall, session: Session, _tell: Tell) -> GoodPlan | BadPlan:
    """The verdict on a plan, whoever made it, and what its code means."""
    network = network_asked(call)
    if len(call.plan) > network.nodes or min(call.plan, default=0) < 0:
        raise Fault(Code.PLAN_OF_FIELD, nodes=network.nodes)
    channels = {v: channel for v, channel in zip(network.node_numbers, call.plan) if channel}
    return of_verdict(verdict_on(network, call.network, channels, session))


def of_verdict(verdict: Verdict) -> GoodPlan | BadPlan:
    """A verdict on a plan, and what its code means."""
    if not verdict.code:
        return GoodPlan(verdict.short, [], verdict.numbers[0])
    place = fault_place(verdict.of, verdict.numbers)
    found = told_of(verdict.code, place)
    if found is None:
        raise Fault(Code.PROGRAM_REFUSES, why=verdict.line)
    return BadPlan(
        said=verdict.short, code=found.name, at=verdict.nodes, sentence=found.what, do=found.do
    )


def rounds_asked(call: OfProgram, session: Session) -> ProgramRounds | ColouringRounds:
    network = network_asked(call, MOST_ROUNDS)
    program = program_of_call(call, network, session)
    if program != COLOURING:
        return program_rounds(network, program)
    return proved_rounds(network, call.network, session)


def answer_rounds(call: RoundsCall, session: Session, _tell: Tell) -> RoundsFound:
    """The rounds, pulse by pulse."""
    return player_page.film_of(rounds_asked(call, session))


def answer_rounds_page(call: RoundsPageCall, session: Session, _tell: Tell) -> str:
    """A page that plays the rounds and needs no server, as the command `picture player` draws it."""
    return player_page.player_html(rounds_asked(call, session))


def answer_why(call: WhyCall, session: Session, _tell: Tell) -> WhyFound:
    """Why a node has its channel."""
    network = network_asked(call, MOST_ROUNDS)
    cone = why_picture.Cone(ColouringRounds(network), node_asked(call, network))
    return WhyFound(
        lines=why_picture.why_text(cone).splitlines(),
        identifiers=cone.identifiers(),
        messages=[(p, v, w) for p, v, w, _ in sorted(cone.messages)],
    )


def answer_broken(call: BrokenCall, session: Session, _tell: Tell) -> Broken:
    """What the rounds of this network do without a rule, in words; and a picture of it, or of a smallest network on
    which they go wrong, if there is one."""
    network = network_asked(call, MOST_ROUNDS)
    program = program_of_call(call, network, session)
    without = rules_asked(call, OF_PROGRAMS.get(program.name, {}))
    if not without:
        raise Fault(Code.NO_RULE_LEFT_OUT)
    here = ruled(program, network, without)
    if here.clash is not None:
        picture_here = broken_picture.broken_svg(network, without, program)
        return Broken(True, here.sentence().split("\n"), None, picture_here)
    sentence = "the rounds of this network go right without it"
    least, tried, what, most = smallest_wrong_rounds(without, program)
    if least is None:
        sentence += f", and so do those of all {tried:,} {what} of up to {most} nodes"
        return Broken(False, sentence.split("\n"), None, None)
    smallest = broken_picture.broken_svg(None, without, program)
    return Broken(False, sentence.split("\n"), net_of(least.net), smallest)


def answer_picture(call: PictureCall, session: Session, _tell: Tell) -> str:
    """A picture, as the command `picture` draws it."""
    network = network_asked(call)
    if call.kind == "run" and isinstance(
        reacting := either_program_asked(call, network, session), Reacting
    ):
        return picture_of_steps(call, network_asked(call, MOST_RUN), reacting)
    texts: list[Text] = []
    most = KINDS_OF_PICTURES[call.kind].most
    if most and network.nodes > most[0]:
        # What a command line is told to use instead isn't on the page.
        raise Fault(Code.PICTURE_TOO_LARGE, kind=call.kind, most=most[0], nodes=network.nodes)
    if call.kind == "plan":
        texts = [Text("the plan", proved_plan(network, call.network, session))]
    if call.kind == "run":
        if call.transcript is None:
            raise Fault(Code.NO_TRANSCRIPT_OF_FIELD)
        texts = [Text("the run", call.transcript)]
    if call.node is not None:
        node_asked(call, network)
    if len(call.pulses) not in (0, 2):
        raise Fault(Code.NO_TWO_PULSES)
    return drawing_of(
        call.kind,
        Source(network, program_of_call(call, network, session), texts, title=network.name),
        forest=call.forest,
        node=call.node,
        pulses=call.pulses or None,
    )


def picture_of_steps(call: PictureCall, network: Network, program: Reacting) -> str:
    """Space and time of a run of nodes without rounds that is made by steps."""
    player = ReactingStepwise(network, program)
    player.follow(call.steps.split("_"))
    made = sorted(player.made, key=lambda entry: (stamp_of(entry), entry.node))
    return reacting_picture.reacting_svg(network.name, network, program, made)
