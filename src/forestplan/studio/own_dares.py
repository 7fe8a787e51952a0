"""The dares of a file whose nodes react to messages: to break what its own functions `always` and `right` say. Nothing
is proved of a file, so whether a dare can be won isn't known; `forestlab explore` finds out on a small network."""
from collections.abc import Collection, Iterable, Sequence

from forestplan.definitions.own_program import what_is_wrong
from forestplan.definitions.reacting_program import Reacting, results_in
from forestplan.fault_codes import Code
from forestplan.faults import Fault
from forestplan.network import Network
from forestplan.schedules.policies import Policy
from forestplan.schedules.reacting_stepwise import ReactingStepwise
from forestplan.schedules.simulate import Player
from forestplan.studio.answers import DareJudged, DareSaid
from forestplan.wording import counted

OWN_DARES = {
    "always": DareSaid("what always refuses", "reach a state that the file’s always refuses"),
    "right": DareSaid("an end that right refuses", "reach an end that the file’s right refuses"),
    "other": DareSaid(
        "other results",
        "reach an end with other results than if what has been possible for longest always comes first",
    ),
}
# How the dares that are about an end stand before it.
NO_END = DareJudged(False, "this is no end: something can still happen")
# The end of that order is looked for among so many entries.
MOST_ENTRIES = 20_000


def own_dares_of(program: Reacting) -> Sequence[str]:
    """The dares that make sense for a file, by its functions."""
    return [dare for dare in OWN_DARES if dare == "other" or dare in program.file.functions]


def own_dare_judged(
    network: Network, program: Reacting, without: Collection[str], steps: Iterable[str], dare: str
) -> DareJudged:
    """Whether steps win the dare, and how far they come."""
    if dare not in own_dares_of(program):
        raise Fault(Code.NO_DARE, dare=dare)
    player = ReactingStepwise(network, program, without)
    refused = player.refused
    for step in filter(None, steps):
        player.follow([step])
        refused = refused or player.refused
    count = counted(len(player.chosen), "step")
    if dare == "always":
        return DareJudged(bool(refused), always_words(refused, count))
    if not player.is_ended:
        return (
            DareJudged(False, "this is no end: a function of the file has failed")
            if player.is_over
            else NO_END
        )
    return end_judged(network, program, player.results, dare, count)


def always_words(refused: str, count: str) -> str:
    said = f"`always` says: {refused}" if refused else "`always` is true so far"
    return f"{said}, in {count}"


def end_judged(
    network: Network, program: Reacting, results: dict[int, str], dare: str, count: str
) -> DareJudged:
    """Whether an end with these results wins a dare that is about an end."""
    if dare == "right":
        wrong = what_is_wrong(network, program.file, results)
        said = f"`right` says: {wrong}" if wrong else "`right` is true at this end"
        return DareJudged(bool(wrong), f"{said}, in {count}")
    try:
        usual = usual_end(network, program)
    except Fault as why:
        return DareJudged(False, f"in that order there is no end: {why}")
    return other_judged(results, usual, count)


def other_judged(results: dict[int, str], usual: dict[int, str], count: str) -> DareJudged:
    differs = [v for v, result in results.items() if result != usual[v]]
    if not differs:
        return DareJudged(False, "the results are the same as in that order")
    v = differs[0]
    return DareJudged(True, f"node {v} has {results[v]}, and {usual[v]} in that order, in {count}")


def usual_end(network: Network, program: Reacting) -> dict[int, str]:
    """What nodes have found at the end, if what has been possible for longest always comes first."""
    player = Player(program.start(network))
    policy = Policy("oldest", network.node_numbers, network.edges, "1")
    for number, _ in enumerate(player.entries(policy), 1):
        if number == MOST_ENTRIES:
            raise Fault(Code.RUN_WITHOUT_END, policy=policy.name, most=MOST_ENTRIES)
    return results_in(player.state)
