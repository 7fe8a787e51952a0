"""The colours of all pictures. Shape says which number it is (a square: a colour in one forest; a circle: a channel),
and the number is always there too; so colour never speaks alone. The least distances under protanopia, deuteranopia and
tritanopia (Machado's simulation) are 16 and more for any two channels, 22 and more for any two forest colours.

What a mark looks like is decided here, for stored pictures and for pages. The pages get it as the module hues.js."""
from typing import NamedTuple

from forestplan.pictures.geometry import size_in

INK = "#1B1B1B"
SOFT = "#6B6B6B"
PAPER = "#FFFFFF"
# Numbers on fills: INK has too little contrast on some of them.
BLACK = "#000000"
BAND = "#F3EFE4"
BORDER = "#B7A98A"
PULSE = "#7A6A45"
WRONG = "#CC0000"
FONT = "DejaVu Sans, Verdana, Arial, sans-serif"

# Okabe and Ito, reordered: 1 to 4 stay far apart for everyone.
CHANNEL_HUES = [
    "#0072B2",
    "#E69F00",
    "#009E73",
    "#F0E442",
    "#CC79A7",
    "#56B4E9",
    "#D55E00",
    "#444444",
]

# Tol, medium contrast: 3, 4 and 5 are the pale twins of 0, 1 and 2, and are the ones that are dropped.
FOREST_COLOURS = ["#004488", "#997700", "#994455", "#6699CC", "#EECC66", "#EE99AA"]

WIRES = {"payload": "#0072B2", "ack": "#8C8C8C", "safe": "#D55E00", "close": "#111111"}
# The grounds of wires with words in them.
PALE = {"payload": "#E3F0F8", "ack": "#F4F4F4", "safe": "#FBE8DC", "close": "#E4E4E4"}

DARK_FILLS = {"#0072B2", "#444444", "#004488", "#994455"}

# How large a number is: in radii of its circle, or in halves of the side of its square, by the letters that it has. The
# last of the sizes is that of all longer numbers. In a ring a number is smaller.
CHANNEL_SIZES = (1.12, 0.92)
SQUARE_SIZES = (1.1, 1.1, 0.8)
BAR_SIZES = (1.2, 1.0, 0.8, 0.62)
IN_RING = 0.85
# How wide the rim of a node without a channel is, and that of a message; and how large the number of such a node is, in
# radii.
BLANK_RIM = 1.6
PILL_RIM = 1.6
BLANK_SIZE = 0.9
# The radius of a barred channel beside a node, and what is between two of them.
BAR_RADIUS = 9
BAR_GAP = 2
# A ring around a node: how wide it is, what is between it and the node, and how much farther out the next one is.
OUTER_RING = 3.5
RING_GAP = 1.5
NEXT_RING = 4.5
# The most barred channels of a node that are drawn.
MOST_BARS = 4
# A number of more digits than these is written as the number of its binary digits.
MOST_DIGITS = 3
# The level of grey of the darkest square, which a number of so many binary digits has, and any longer one.
DARKEST_DIGITS = 20


def text_on(fill: str) -> str:
    """The colour of a number on a fill."""
    return PAPER if fill in DARK_FILLS else BLACK


def channel_hue(channel: int) -> str:
    """The colour of a `channel`, from 1, as `#0072B2`; channels 9 to 16 have those of 1 to 8, and so on.

    >>> channel_hue(1), channel_hue(9) == channel_hue(1)
    ('#0072B2', True)
    """
    return CHANNEL_HUES[(channel - 1) % len(CHANNEL_HUES)]


def is_ring(channel: int) -> bool:
    """Channels 9 to 16 are rings of the same hues, 17 to 24 full again, and so on.

    >>> [is_ring(channel) for channel in (1, 8, 9, 16, 17)]
    [False, False, True, True, False]
    """
    return (channel - 1) // len(CHANNEL_HUES) % 2 == 1


# Hues and rings of channels come again after so many.
PERIOD = 2 * len(CHANNEL_HUES)


class ChannelLook(NamedTuple):
    """What the circle of a channel looks like: `size` is that of its number, in radii."""

    hue: str
    is_ring: bool
    ink: str
    size: float


def channel_look(channel: int) -> ChannelLook:
    hue = channel_hue(channel)
    is_ringed = is_ring(channel)
    size = size_in(CHANNEL_SIZES, len(str(channel))) * (IN_RING if is_ringed else 1)
    return ChannelLook(hue, is_ringed, INK if is_ringed else text_on(hue), size)


def digits(number: int) -> int:
    """How many binary digits a number has.

    >>> digits(0), digits(6)
    (1, 3)
    """
    return max(1, number.bit_length())


def grey(number: int) -> tuple[str, str]:
    """The fill and the ink of the square of a number that is no colour yet: the more digits, the darker."""
    return grey_of(digits(number))


def grey_of(binary_digits: int) -> tuple[str, str]:
    """The same of a number of so many binary digits."""
    level = 235 - 7 * min(DARKEST_DIGITS, binary_digits)
    return f"#{level:02X}{level:02X}{level:02X}", BLACK if level > 120 else PAPER


def short(number: int) -> str:
    """A number as a square has room for: `128d` is one of 128 binary digits.

    >>> short(17), short(2**127)
    ('17', '128d')
    """
    return str(number) if number < 10**MOST_DIGITS else f"{digits(number)}d"


def page_marks() -> dict[str, object]:
    """What the pages' module hues.js has, by its names: `LOOKS` are those of the channels from 1 on. `HUES`, `FORESTS`
    and `GREYS` are fills with their inks, the greys those of numbers of 0, 1, 2 and more binary digits.
    """
    return {
        "INK": INK,
        "BLACK": BLACK,
        "WHITE": PAPER,
        "WRONG": WRONG,
        "WIRES": WIRES,
        "PALE": PALE,
        "LOOKS": [channel_look(channel)._asdict() for channel in range(1, 10 + PERIOD)],
        "PERIOD": PERIOD,
        "HUES": [(fill, text_on(fill)) for fill in CHANNEL_HUES],
        "FORESTS": [(fill, text_on(fill)) for fill in FOREST_COLOURS],
        "GREYS": [grey_of(length) for length in range(DARKEST_DIGITS + 1)],
        "SQUARE_SIZES": SQUARE_SIZES,
        "BAR_SIZES": BAR_SIZES,
        "BLANK_RIM": BLANK_RIM,
        "PILL_RIM": PILL_RIM,
        "BLANK_SIZE": BLANK_SIZE,
        "BAR_RADIUS": BAR_RADIUS,
        "BAR_GAP": BAR_GAP,
        "OUTER_RING": OUTER_RING,
        "RING_GAP": RING_GAP,
        "NEXT_RING": NEXT_RING,
        "MOST_BARS": MOST_BARS,
        "MOST_DIGITS": MOST_DIGITS,
    }
