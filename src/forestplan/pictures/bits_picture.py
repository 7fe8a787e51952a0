"""The bit lens: one node above its parent, digit by digit, over the four bit steps."""
from forestplan.definitions.nodes import bit_step
from forestplan.definitions.rounds import ColouringRounds
from forestplan.fault_codes import Code
from forestplan.faults import Fault, InText
from forestplan.pictures.marks import colour_square
from forestplan.pictures.palette import INK, PAPER, digits
from forestplan.pictures.svg import Svg
from forestplan.wording import counted

RING = "#D55E00"
FIRST = 2
LAST = 6
LEFT = 150
TOP = 106
STEP = 84
# How wide a digit is drawn, of numbers of more digits than these.
CELLS = ((80, 7), (40, 11), (8, 18), (0, 26))


def child_asked(rounds: ColouringRounds, forest: int, node: int | None) -> int:
    """The node that is asked for, or else the first one that has a parent in a forest."""
    network = rounds.network
    children = [v for v in network.node_numbers if (v, forest) in rounds.parents]
    if node is None and children:
        return children[0]
    if node not in children:
        if node:
            raise Fault(Code.NO_PARENT_OF_NODE, InText(network.name), forest=forest, node=node)
        raise Fault(Code.NO_PARENT, InText(network.name), forest=forest)
    return node


def bits_svg(rounds: ColouringRounds, forest: int = 0, node: int | None = None) -> str:
    network = rounds.network
    rounds.asked_forests((forest, forest))
    node = child_asked(rounds, forest, node)
    parent = rounds.parents[node, forest]
    pairs = [
        (rounds.pulses[p].colours[node, forest], rounds.pulses[p].colours[parent, forest])
        for p in range(FIRST, LAST + 1)
    ]
    most = max(digits(number) for pair in pairs for number in pair)
    cell = next(size for more, size in CELLS if most > more)
    lengths = ", ".join(str(max(map(digits, pair))) for pair in pairs)
    is_short = all(rounds.network.identifiers[v] == v for v in network.node_numbers)
    said = (
        "Here the names are the nodes’ own numbers, which are short. Names of 128 digits become one of six colours "
        "in four steps, too."
        if is_short
        else "Names of up to 128 digits become one of six colours in four steps."
    )
    rule = (
        "It looks for the least place i in which its digits differ from its parent’s; with its own digit d there, "
        "it becomes 2·i + d."
    )
    svg = Svg(LEFT + most * cell + 350, TOP + 5 * STEP - 12, f"Bit steps of {network.name}")
    svg.heading(
        f"{network.name}: node {node} and its parent {parent} in forest {forest}: {lengths} digits",
        rule,
        said,
    )
    for step, (own, above) in enumerate(pairs):
        with svg.group("pair", f"pulse {FIRST + step}: {own} under {above}"):
            draw_pair(
                svg, TOP + step * STEP, FIRST + step, (node, own), (parent, above), most, cell
            )
    return svg.document()


def draw_pair(
    svg: Svg,
    top: float,
    pulse: int,
    child: tuple[int, int],
    parent: tuple[int, int],
    most: int,
    cell: int,
) -> None:
    """The two numbers after a pulse, and what the child makes of them in the next."""
    _, own = child
    _, above = parent
    is_last = pulse == LAST
    place = -1 if is_last else bit_step(own, above) // 2
    length = max(digits(own), digits(above))
    svg.text(20, top + 13, f"pulse {pulse}", 12, INK, bold=True)
    for row, (label, (node, number)) in enumerate((("node", child), ("parent", parent))):
        y = top + row * 26
        svg.note(LEFT - 8, y + 13, f"{label} {node}", 10.5, "end")
        for at in range(length):
            x = LEFT + (most - 1 - at) * cell
            digit = number >> at & 1
            is_ringed = at == place
            svg.rect(
                x + 1,
                y,
                cell - 2,
                18,
                INK if digit else PAPER,
                RING if is_ringed else "#9A9A9A",
                2.6 if is_ringed else 0.8,
                2,
                mark="ringed" if is_ringed else "digit",
            )
            if cell > 12:
                svg.text(x + cell / 2, y + 13, digit, 11, PAPER if digit else INK, "middle")
    x = LEFT + most * cell + 16
    if is_last:
        for number, y in ((own, top + 9), (above, top + 35)):
            colour_square(svg, x + 10, y, 10, number, mark="last")
        svg.text(x + 30, top + 13, "colours of 0 to 5 are left", 13, INK, bold=True)
        return
    digit = own >> place & 1
    svg.label(LEFT + (most - 1 - place) * cell + cell / 2, top + 58, f"i = {place}", 10, RING)
    svg.text(
        x,
        top + 13,
        f"i = {place}, d = {digit}:  2·{place} + {digit} = {bit_step(own, above)}",
        13,
        INK,
        bold=True,
        mark="next",
    )
    svg.note(x, top + 39, f"{counted(length, 'digit')} → at most {2 * (length - 1) + 1}", 11)
