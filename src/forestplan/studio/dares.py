"""The dares of the tab Adversary: a goal for any network, won by steps that the definitions play."""
from collections.abc import Collection, Iterable

from forestplan.definitions.program import Program
from forestplan.definitions.rounds import ColouringRounds
from forestplan.fault_codes import Code
from forestplan.faults import Fault
from forestplan.network import Edge, Network
from forestplan.pictures.layout import distances
from forestplan.pictures.program_rounds import is_of_file, rounds_of
from forestplan.pictures.watch_page import look_of
from forestplan.schedules.stepwise import Stepwise
from forestplan.studio.answers import DareJudged, DareSaid
from forestplan.wording import counted

DARES = {
    "apart": DareSaid("neighbours two pulses apart", "bring two neighbours two pulses apart"),
    "ends": DareSaid(
        "the two ends far apart",
        "bring the two nodes that are farthest from each other as many pulses apart as they are links apart",
    ),
    "wrong": DareSaid(
        "a wrong inbox", "have a node make a pulse with another inbox than that of its round"
    ),
    "results": DareSaid(
        "other results", "have all nodes halt with other results than those of the rounds"
    ),
}

# Why nobody wins a dare with all rules: it is proved, and where (docs/claim/THEOREMS.md). Nothing is proved of a
# program in a file.
PROVED = {
    "apart": "neighbours are at most one pulse apart (Theorem 5)",
    "wrong": "each pulse has the inbox of its round (Theorem 2)",
    "results": "all nodes halt with the results of the rounds (Theorem 4)",
}

# How the dare of the results stands.
NOT_HALTED = DareJudged(False, "not all nodes have halted")
SAME_RESULTS = DareJudged(False, "they halted with the same results")
OTHER_RESULTS = DareJudged(True, "they halted with other results")


def impossible(program: Program, without: tuple[str, ...], dare: str) -> str:
    """Why a dare can't be won, if it is proved that it can't; or nothing."""
    if without or is_of_file(program) or dare not in PROVED:
        return ""
    return f"With all rules nobody wins it: it is proved that {PROVED[dare]}. Leave out a rule"


def dare_judged(
    network: Network, program: Program, without: tuple[str, ...], steps: Iterable[str], dare: str
) -> DareJudged:
    """Whether steps win the dare, and how far they come."""
    if dare not in DARES:
        raise Fault(Code.NO_DARE, dare=dare)
    player = Stepwise(network, program, without)
    pairs, least = goal(network, dare)
    most = 0
    for step in filter(None, steps):
        player.follow([step])
        made = {v: node.pulse_number for v, node in player.state.nodes.items()}
        most = max([most, *(abs(made[v] - made[w]) for v, w in pairs)])
    count = counted(len(player.chosen), "step")
    if pairs:
        return DareJudged(most >= least, apart_words(most, least, count))
    if dare == "wrong":
        return DareJudged(bool(player.fault), wrong_words(player.fault, count))
    return results_judged(player, network, program)


def apart_words(most: object, least: int, steps: str) -> str:
    return f"{most} of {least} pulses apart, in {steps}"


def wrong_words(fault: str | None, steps: str) -> str:
    return f"{fault or 'nothing is wrong'}, in {steps}"


def goal(network: Network, dare: str) -> tuple[Collection[Edge], int]:
    """The pairs of which one has to come apart, and by how many pulses."""
    if dare == "apart":
        return network.edges, 2
    if dare != "ends":
        return [], 0
    ways = {v: distances(network.neighbours, v) for v in network.node_numbers}
    pairs = [(v, w) for v in ways for w in sorted(ways[v]) if v < w]
    if not pairs:
        raise Fault(Code.NO_TWO_JOINED)
    v, w = max(pairs, key=lambda pair: ways[pair[0]][pair[1]])
    return [(v, w)], ways[v][w]


def channels_or_results(network: Network, program: Program) -> list[str | int]:
    """What the nodes find in the rounds: their channels, or the words of another program."""
    rounds = rounds_of(network, program)
    if isinstance(rounds, ColouringRounds):
        return [rounds.merged[-1][v] + 1 for v in network.node_numbers]
    return [rounds.pulses[-1].results[v] for v in network.node_numbers]


def results_judged(player: Stepwise, network: Network, program: Program) -> DareJudged:
    looks = [look_of(player.state, v) for v in network.node_numbers]
    if player.is_over or not all(look.done for look in looks):
        return NOT_HALTED
    is_same = [look.found for look in looks] == channels_or_results(network, program)
    return SAME_RESULTS if is_same else OTHER_RESULTS
