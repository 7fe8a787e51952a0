"""Who answers: the proved programs, or before they are built the definitions of src/forestplan/, which are tested and
not proved; `Session.is_proved` says which it is. Rounds are always those of the definitions. Once the programs are
built, those of the colouring have to be what `forestplay rounds` writes; no other answers are compared here. A program
in a file is always judged by the definitions."""

from forestplan.definitions.colours import plan_text
from forestplan.definitions.machine import NotPossible, entry_words, make_entry
from forestplan.definitions.nodes import alpha_start
from forestplan.definitions.program import Program
from forestplan.definitions.programs import program_words
from forestplan.definitions.rounds import ColouringRounds
from forestplan.fault_codes import Code
from forestplan.faults import Fault, InText
from forestplan.network import Network
from forestplan.networks.plan_text import clashes
from forestplan.networks.verdicts import Verdict, parsed_verdict, states_of
from forestplan.pictures.program_rounds import is_of_file
from forestplan.proved_programs import called
from forestplan.sentences import WORDS
from forestplan.studio.answers import Judged, Replayed
from forestplan.studio.session import Session
from forestplan.transcripts.judge import whole_run
from forestplan.transcripts.reading import WrongEntry, transcript_read
from forestplan.wording import as_text

MOST_TEXT = 64 << 20
MACHINE = "The proved machine"
PYTHON = "Python (not proved)"


def said_by(name: str, arguments: list[str], *texts: str) -> tuple[int, str, str]:
    """(status, output, what is said on standard error) of a program, as texts."""
    done = called(name, arguments, "".join(texts).encode())
    if len(done.stdout) > MOST_TEXT:
        raise Fault(Code.OUTPUT_TOO_LONG, name=name, bytes_written=len(done.stdout))
    return done.returncode, done.stdout.decode(), done.stderr.decode().strip()


def text_from(name: str, arguments: list[str], network_text: str) -> str:
    status, output, said = said_by(name, arguments, network_text)
    if status:
        if said:
            raise Fault(Code.PROGRAM_REFUSES, why=said)
        raise Fault(Code.PROGRAM_ENDED, name=name, status=status)
    return output


def proved_plan(network: Network, text: str, session: Session) -> str:
    """The plan of a network, as a text."""
    if session.is_proved:
        return text_from("forestplan", ["plain"], text)
    return plan_text(network).decode()


def proved_rounds(network: Network, text: str, session: Session) -> ColouringRounds:
    """The rounds of the colouring, which those of the proved program have to be."""
    rounds = ColouringRounds(network)
    if session.is_proved and text_from("forestplay", ["rounds"], text) != as_text(rounds.lines()):
        raise Fault(Code.OTHER_ROUNDS)
    return rounds


def verdict_on(network: Network, text: str, plan: dict[int, int], session: Session) -> Verdict:
    """What `check` finds of a plan {node: channel}."""
    if session.is_proved:
        lines = as_text(["plan", *(f"{v} {channel}" for v, channel in plan.items())])
        status, output, said = said_by("forestplan", ["check"], text, lines)
        verdict = parsed_verdict(said if status else output.strip())
        if verdict is None:
            raise Fault(Code.PROGRAM_REFUSES, why=said)
        return verdict
    for v, channel in plan.items():
        if channel > network.channels:
            return Verdict("C5", "vertex", (v,))
        if channel in network.bars.get(v, ()):
            return Verdict("C8", "vertex", (v,))
    blank = [v for v in network.node_numbers if v not in plan]
    if blank:
        return Verdict("C1", "vertex", (blank[0],))
    same = sorted(clashes(network, plan))
    if same:
        return Verdict("C4", "vertices", same[0])
    return Verdict(of="channels", numbers=(max(plan.values()),))


def by_definitions(network: Network, text: str, program: Program) -> tuple[str, int | None]:
    """What they say of a whole transcript, and the line of its fault if it has one."""
    try:
        return whole_run(network, text.encode(), program)[1], None
    except WrongEntry as fault:
        return str(fault), fault.line


def transcript_judged(
    network: Network,
    network_text: str,
    text: str,
    program: Program,
    session: Session,
    before: int = 0,
) -> Judged:
    """What is said of a whole transcript. The machine counts lines from the network's first one; here they count after
    `before` others."""
    entries = max(0, text.count("\n") - 1)
    if not session.is_proved or is_of_file(program):
        said, line = by_definitions(network, text, program)
        return Judged(ok=line is None, said=said, by=PYTHON, entries=entries)
    status, output, said = machine_answer(network_text, text, program)
    verdict = parsed_verdict(said)
    if verdict is not None and before:
        said = verdict.after(before).line
    return Judged(ok=status == 0, said=said or output, by=MACHINE, entries=entries)


def machine_answer(network_text: str, text: str, program: Program) -> tuple[int, str, str]:
    """(status, output, what is said) of the proved program."""
    arguments = ["replay", *program_words(program)]
    return said_by("forestplay", arguments, network_text, "\n", text)


def beginning_judged(
    network: Network, network_text: str, entries: list[str], program: Program, session: Session
) -> Replayed:
    """What is said of the first entries of a run, each without its stamp."""
    text = as_text([f"transcript 1 {network.nodes}", *entries])
    if session.is_proved and not is_of_file(program):
        status, output, said = machine_answer(network_text, text, program)
        states = states_of(output)
        return Replayed(
            ok=status == 0,
            said=said,
            by=MACHINE,
            entries=len(entries),
            pulses=states.pulses,
            wires=states.wires,
        )
    state = alpha_start(network, program)
    said = ""
    try:
        for entry in transcript_read(text.encode(), program.name)[1]:
            try:
                make_entry(state, entry)
            except NotPossible as refused:
                raise Fault(
                    Code.ENTRY_REFUSED,
                    InText("", entry.line),
                    word=WORDS[refused.code],
                    what=entry_words(state, entry, refused)[2:],
                ) from None
    except Fault as fault:
        said = str(fault)
    return Replayed(
        ok=not said,
        said=said,
        by=PYTHON,
        entries=len(entries),
        pulses=[state.nodes[v].pulse_number for v in network.node_numbers],
        wires=sum(map(len, state.link.values())),
    )
