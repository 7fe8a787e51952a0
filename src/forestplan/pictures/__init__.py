"""Pictures of what the programs computed, as SVG, and pages, as HTML.

Draw the plan of a triangle, what the nodes of a program find, and the run of two nodes without a clock. What is
returned is the text of a file:

>>> from forestplan.definitions import PROGRAMS
>>> from forestplan.networks import network_at, path
>>> from forestplan.pictures import KINDS, drawing
>>> triangle = network_at("triangle")
>>> drawing("plan", triangle)[:4], drawing("results", triangle, program=PROGRAMS["matching"])[:4]
('<svg', '<svg')
>>> drawing("run", path(2), pulses=(3, 5))[:4]
'<svg'
>>> KINDS["film"].does
'The rounds of the colouring as a picture that plays by itself: messages move.'
>>> KINDS["why"].options
['node', 'in_words']

The modules:

    picture             a picture of any kind: `drawing`, `KINDS`; the command `forestlab picture`
    map_picture         the network alone
    plan_picture        the plan on the map
    results_picture     what the nodes of a program have found, on the map
    rounds_picture      the rounds of the colouring: a row for each node, a column for each pulse
    program_rounds      the rounds of any program as pictures need them
    program_picture     the rounds of any program
    bits_picture        a node above its parent, digit by digit, over the four bit steps
    why_picture         the messages that decided a node's channel
    broken_picture      what goes wrong without a rule of the rounds
    film_picture        the rounds as a picture that plays by itself
    player_page         the rounds as a page with a slider
    transcripts         the transcript of a run as pictures need it
    run_picture         space and time of a run without a clock
    wrong_run           a run up to its first entry that isn't possible
    watch_page          a run without a clock as a page
    reacting_picture    space and time of nodes that react to messages
    reacting_watch      their run as a page
    schedules_space     all states of a tiny network, for the next kind
    schedules_picture   every schedule as a lattice
    sheet               question sheets to print; the command `forestlab sheet`
    places              where nodes are drawn
    geometry            fit, radii, bends, labels and messages on links, for pictures and for pages
    translation         geometry as JavaScript
    layout              places for the nodes of a network that names none
    marks               nodes, edges, arrows and legends
    panel               a small map
    palette             all colours
    svg                 a drawing as SVG text
    pages               pages that stand alone
    page_data           what pages get as JSON
"""

from typing import TYPE_CHECKING

from forestplan.public_names import finder

# For checkers of types and editors alone.
if TYPE_CHECKING:
    from forestplan.pictures.palette import channel_hue
    from forestplan.pictures.picture import KINDS, PictureKind, drawing

__all__ = ["KINDS", "PictureKind", "channel_hue", "drawing"]
# The module of each of these names.
MODULES = {
    "forestplan.pictures.palette": "channel_hue",
    "forestplan.pictures.picture": "KINDS PictureKind drawing",
}

__dir__ = __all__.copy


if not TYPE_CHECKING:
    __getattr__ = finder(__name__, MODULES)
