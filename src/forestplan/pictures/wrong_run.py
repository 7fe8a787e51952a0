"""The run of a transcript up to its first entry that isn't possible, that entry in red, with what the judge says of
it."""
from collections.abc import Collection
from typing import TYPE_CHECKING

from forestplan.definitions.events import Entry, Kind
from forestplan.fault_codes import Code
from forestplan.faults import Fault
from forestplan.pictures.palette import WIRES, WRONG
from forestplan.pictures.svg import Svg
from forestplan.pictures.transcripts import Run

# How long the arrow of a wire that nobody took is: a part of the way to the neighbour's row, and steps of time.
PART_OF_ROW = 0.55
STEPS = 2.2


if TYPE_CHECKING:
    from forestplan.pictures.run_picture import Window


def stop_words(run: Run, stopped: int | None) -> str:
    """What is wrong with a run, if something is. Of one that isn't whole `stopped` may say at which node it
    stopped."""
    if stopped is not None and stopped not in run.network.node_numbers:
        raise Fault(Code.NO_NODE_OF_NETWORK, name=run.network.name, node=stopped)
    if run.wrong:
        return f"Red: {run.wrong[1]}."
    where = "" if stopped is None else f": it stops at node {stopped}"
    return (
        ""
        if run.whole
        else f"Each entry is possible, but the run doesn't reach its end (NotWhole){where}."
    )


def usual_pulses(run: Run, wrong: Entry) -> tuple[int, int]:
    """The pulse of the wrong entry's node, and the one before."""
    pulse = max(run.ticks[wrong.node])
    return max(0, pulse - 1), pulse


def draw_wrong(svg: Svg, window: "Window", kinds: Collection[str], stopped: int | None) -> None:
    """A short arrow for each wire that nobody took; in red the wrong entry, a tick or the beginning or the end of an
    arrow, or a disc behind the last entry of the node at which the run stopped."""
    run = window.run
    for wire in run.wires:
        if wire.kind in kinds and wire.take is None and window.start <= wire.put <= window.stop:
            with svg.group("untaken", f"{wire.title()}, not taken"):
                draw_stub(svg, window, wire.v, wire.w, wire.put, WIRES[wire.kind], 1.4, "2 3")
    if run.wrong:
        # Its stamp may be what is wrong with it: so it is after all that its node did before.
        entry, why = run.wrong
        v = entry.node
        time = run.reached[entry.node] + 1
        with svg.group("wrong", f"line {why.line}, not possible"):
            if entry.neighbour is None:
                svg.line(
                    window.x(time), window.y(v) - 14, window.x(time), window.y(v) + 14, WRONG, 5
                )
            else:
                draw_stub(
                    svg, window, v, entry.neighbour, time, WRONG, 2.4, is_put=entry.kind is Kind.PUT
                )
            svg.circle(window.x(time), window.y(v), 4, WRONG)
    elif stopped and not run.whole:
        with svg.group("wrong", f"node {stopped}, where the run stops"):
            svg.circle(window.x(run.reached[stopped] + 0.5), window.y(stopped), 6, WRONG)


def draw_stub(
    svg: Svg,
    window: "Window",
    v: int,
    w: int,
    time: float,
    colour: str,
    width: float,
    dash: str | None = None,
    is_put: bool = True,
) -> None:
    """A part of the arrow of a put or a take of v's, at v."""
    x, y = window.x(time), window.y(v)
    dx, dy = STEPS * window.scale, window.row * PART_OF_ROW * (1 if w > v else -1)
    if is_put:
        svg.arrow(x, y, x + dx, y + dy, colour, width, 7, dash, hollow=True)
    else:
        svg.arrow(x - dx, y + dy, x, y, colour, width, 9)
