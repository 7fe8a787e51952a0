"""The calls on a program of one's own: the text of its file, and a run of nodes that react to messages, made step by
step. What is said of such a file is tried out, and nothing is proved of it."""
import hashlib
from collections.abc import Mapping
from types import CodeType

from forestplan.definitions.own_program import MOST_BYTES
from forestplan.definitions.program import ProgramFile
from forestplan.definitions.reacting_program import Reacting
from forestplan.fault_codes import Code
from forestplan.faults import Fault
from forestplan.files import bytes_at
from forestplan.network import Network
from forestplan.schedules.reacting_stepwise import ReactingStepwise
from forestplan.studio.answers import FileSays, FileText, Ran, Reacted, ReactionsFound
from forestplan.studio.call_progress import Tell
from forestplan.studio.call_values import own_program_now
from forestplan.studio.messages import FileCall, StepsCall
from forestplan.studio.own_dares import own_dare_judged, own_dares_of
from forestplan.studio.session import Session

# The version of a file that can't be read.
UNREAD = "unread"


def answer_file_text(call: FileCall, session: Session, _tell: Tell) -> FileText:
    """The text of a program of one's own, if it isn't the version that the page has."""
    path = session.own.get(call.own)
    if path is None:
        raise Fault(Code.NO_FILE_OF_PROGRAM, name=call.own)
    version = UNREAD
    try:
        data = bytes_at(path, MOST_BYTES)
        version = hashlib.sha256(data).hexdigest()[:16]
        if version == call.seen:
            return FileText(version)
        program = own_program_now(call.own, session)
        text = data.decode("utf-8-sig")
    except Fault as why:
        return FileText(version, fault=None if version == call.seen else str(why))
    lines = {} if program.file is None else lines_by_function(program.file)
    return FileText(version, text, lines)


def lines_by_function(file: ProgramFile) -> Mapping[str, tuple[int, int]]:
    """The lines of each function that a file defines itself."""
    found = {}
    for name, function in file.functions.items():
        code = getattr(function, "__code__", None)
        if isinstance(code, CodeType) and code.co_filename == file.path:
            found[name] = code.co_firstlineno, last_line(code)
    return found


def last_line(code: CodeType) -> int:
    """The last line of a function's code, with that of the functions in it."""
    own = [line for *_, line in code.co_lines() if line]
    inside = [last_line(one) for one in code.co_consts if isinstance(one, CodeType)]
    return max([code.co_firstlineno, *own, *inside])


def reactions_found(
    call: StepsCall, network: Network, program: Reacting, player: ReactingStepwise
) -> ReactionsFound:
    """Where a run is that is made step by step, what each node has and keeps, and what the file says of it."""
    dare = None
    if call.dare:
        dare = own_dare_judged(network, program, player.without, player.chosen, call.dare)
    always, right = verdicts(program, player)
    function, node = player.ran
    return ReactionsFound(
        made=player.chosen,
        steps=[] if player.is_over else player.possible(),
        wires=player.words_under_way(),
        said=player.last_step,
        fault=player.fault,
        over=player.is_over,
        list=player.lines,
        entries=len(player.made),
        ran=Ran(function, node or 0),
        dare=dare,
        nodes=[reacted(player, v) for v in network.node_numbers],
        ended=player.is_ended,
        always=always,
        right=right,
        dares=own_dares_of(program),
    )


def verdicts(
    program: Reacting, player: ReactingStepwise
) -> tuple[FileSays | None, FileSays | None]:
    """What `always` says of where the run is, and `right` of the end if it is there."""
    always = right = None
    if "always" in program.file.functions and not player.is_over:
        always = FileSays(not player.refused, player.refused)
    if "right" in program.file.functions and player.is_ended:
        wrong = player.said_by_right()
        right = FileSays(not wrong, wrong)
    return always, right


def reacted(player: ReactingStepwise, v: int) -> Reacted:
    """What a node has and keeps. Of a node that has failed it is what it had found before."""
    node = player.state.nodes[v]
    return Reacted(
        acts=node.acts,
        able=node.may_act() and not player.is_over,
        found=player.results.get(v, ""),
        keeps=list(player.kept_by(v)),
    )
