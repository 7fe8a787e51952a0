"""The player: one HTML page without any library, the network at each pulse, with a slider and a play button; of the
colouring, or of another program. page/player.js draws it."""
from forestplan.definitions.recolouring import recolouring
from forestplan.definitions.rounds import Pulse, ColouringRounds, SEED
from forestplan.pictures.page_data import (
    RoundsFound,
    Numeral,
    PlayerData,
    PulseOfColouring,
    PulseOfProgram,
)
from forestplan.pictures.pages import net_of, page
from forestplan.pictures.program_picture import is_new
from forestplan.pictures.program_rounds import ProgramRounds
from forestplan.wording import counted

# In a newcomer's words, and then the term.
SAY = {
    "greet": "Each node tells its neighbours its identifier (greeting).",
    "orient": "Each node numbers its neighbours with a higher identifier, from 0, and tells each its "
    "number: an edge is in the forest of its number (orientation).",
    "seed": "In every forest each node begins with its identifier as its colour, and sends it to its children.",
    "step": "Each node now compares its colour with its parent’s, in binary digits: i is the lowest "
    "place in which the two differ, and the new colour is 2·i plus its own digit there (bit step).",
    "shift": "Each node takes its parent’s colour, and a root another one than its own (shift-down).",
    "drop": "Each node of colour {} takes the least of the colours 0, 1 and 2 that neither its parent nor a child has "
    "(drop).",
    "merge": "Nodes take turns: those whose turn it is choose the least channel that they may have, "
    "and tell it (merge).",
}


def player_html(rounds: ColouringRounds | ProgramRounds) -> str:
    name = f"{rounds.network.name}, pulse by pulse"
    return page(
        "alone.html",
        "player",
        PlayerData(net_of(rounds.network), film_of(rounds)),
        title=name,
        about="",
    )


def film_of(rounds: ColouringRounds | ProgramRounds) -> RoundsFound:
    """The rounds as the page plays them."""
    if isinstance(rounds, ColouringRounds):
        return RoundsFound(
            last=rounds.last,
            forests=rounds.forests,
            pulses=[pulse_of_colouring(rounds, pulse) for pulse in rounds.pulses],
            first=list(rounds.first.values()),
            channels=False,
            parents=[(v, f, w) for (v, f), w in sorted(rounds.parents.items())],
        )
    return RoundsFound(
        last=rounds.last,
        forests=0,
        pulses=[pulse_of_program(rounds, pulse) for pulse in rounds.pulses],
        first=[],
        channels=rounds.program == recolouring(rounds.program.passes),
        parents=[],
    )


def pulse_of_colouring(rounds: ColouringRounds, pulse: Pulse) -> PulseOfColouring:
    title, said = caption(rounds, pulse.number)
    forests = range(rounds.forests)
    colours = None
    if pulse.colours:
        colours = [
            [script_number(pulse.colours[v, f]) for f in forests]
            for v in rounds.network.node_numbers
        ]
    return PulseOfColouring(
        caption=title,
        said=said,
        step=pulse.step,
        chosen=pulse.chosen,
        colours=colours,
        puts=put_rows(pulse),
    )


def pulse_of_program(rounds: ProgramRounds, pulse: Pulse) -> PulseOfProgram:
    """Of another program than the colouring each node's result, in words."""
    title, said = caption_of_program(rounds, pulse.number)
    nodes = rounds.network.node_numbers
    return PulseOfProgram(
        caption=title,
        said=said,
        step=None,
        chosen={},
        colours=None,
        puts=put_rows(pulse),
        results=[pulse.results[v] for v in nodes],
        drawn={v: (colour, other) for v, (colour, other) in pulse.drawn.items()},
        new=[v for v in nodes if pulse.number and is_new(rounds, pulse, v)],
    )


def put_rows(pulse: Pulse) -> list[tuple[int, int, str, Numeral]]:
    return [(v, w, word, script_number(sent)) for v, w, word, sent in pulse.puts]


def script_number(value: int) -> Numeral:
    """A number that JavaScript can hold, or its digits."""
    return value if value < 2**53 else str(value)


def caption(rounds: ColouringRounds, number: int) -> tuple[str, str]:
    """The title of a pulse, and a sentence of what is done in it."""
    pulse = rounds.pulses[number]
    forests = rounds.forests
    # The pulses 8, 10 and 12 drop the colours 5, 4 and 3.
    title = f"pulse {number} of {rounds.last} · {pulse.phase}"
    said = SAY[pulse.phase].format(9 - number // 2)
    if not forests and number >= SEED:
        least = "the least channel that isn't barred" if rounds.network.bars else "channel 1"
        return title, "No node has a neighbour, so there is no forest" + (
            f", and nothing to merge: each has {least}."
            if number == rounds.last
            else " and no colour in it."
        )
    if pulse.step:
        forest, colour, old = pulse.step
        title += f" · forest {forest}"
        said += (
            f" It is the turn of the nodes with colour {colour} in forest {forest} and channel {old + 1} so far (the "
            f"pair K = {colour}, J = {old})."
            + ("" if pulse.chosen else " No node has this pair, so nothing happens in this pulse.")
        )
    elif number >= SEED:
        title += " · forest 0" if forests == 1 else f" · forests 0 to {forests - 1}"
    return title, said


def caption_of_program(rounds: ProgramRounds, number: int) -> tuple[str, str]:
    """The same of another program than the colouring."""
    pulse = rounds.pulses[number]
    found = [v for v in rounds.network.node_numbers if is_new(rounds, pulse, v)] if number else []
    said = (
        f"{counted(len(pulse.puts), 'message')} sent, to be read in the next pulse."
        if pulse.puts
        else ("Nothing is sent.")
    )
    if found:
        named = ", ".join(map(str, found[:12]))
        more = " .." if len(found) > 12 else ""
        said += f" Something new is found by {named}{more}."
    if number == rounds.last and rounds.wrong:
        said += f" It isn't right: {rounds.wrong}."
    return f"pulse {number} of {rounds.last} · {rounds.program.name}", said
