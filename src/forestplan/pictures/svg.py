"""One drawing as SVG text. The same calls give the same bytes on every machine: numbers come from +, -, *, / and sqrt,
and are written with one decimal place."""
from collections.abc import Iterable, Iterator
from contextlib import contextmanager
from math import sqrt
from textwrap import wrap

from forestplan.pictures.geometry import arrow_head, text_wide
from forestplan.pictures.palette import FONT, INK, PAPER, SOFT


def written(number: str | float) -> str:
    """A number with at most one decimal place.

    >>> written(2.0), written(0.25), written(-0.04)
    ('2', '0.2', '0')
    """
    if isinstance(number, str):
        return number
    text = f"{number:.1f}"
    text = text.removesuffix(".0")
    return "0" if text == "-0" else text


# An attribute of an element; None is left out.
Attribute = str | float | None

# Letters that XML hasn't.
CONTROLS = dict.fromkeys(
    [*(code for code in range(32) if chr(code) not in "\t\n\r"), 0xFFFE, 0xFFFF]
)


def escaped(text: str | float) -> str:
    """A text between the tags of an element.

    >>> escaped("1 < 2 & 3")
    '1 &lt; 2 &amp; 3'
    """
    return (
        str(text)
        .translate(CONTROLS)
        .replace("&", "&amp;")
        .replace("<", "&lt;")
        .replace(">", "&gt;")
    )


def attribute_text(text: str) -> str:
    """A text between the quotes of an attribute.

    >>> print(attribute_text('5" <'))
    5&quot; &lt;
    """
    return escaped(text).replace('"', "&quot;")


def text_width(text: str | int, size: float) -> float:
    """About how wide a text is: DejaVu Sans takes six tenths of its size for a letter, or a little less."""
    return text_wide(len(str(text)), size)


def wrapped(text: str, width: float, size: float = 11.5) -> list[str]:
    """The text in lines that are no wider; letters are a little narrower than they are reckoned."""
    return wrap(
        text,
        int(width / text_width("a", 0.9 * size)),
        break_long_words=False,
        break_on_hyphens=False,
    )


class Svg:
    """Elements in the order in which they are drawn; what comes later lies on top."""

    def __init__(self, width: float, height: float, title: str) -> None:
        self.width = width
        self.height = height
        self.title = title
        self.parts: list[str] = []

    def element(self, name: str, text: Attribute = None, **attributes: Attribute) -> None:
        """Adds an element; `mark` is its class, by which tests count it, and `_` in a name means `-`."""
        parts = [name]
        for key, value in attributes.items():
            if value is not None:
                key = "class" if key == "mark" else key.replace("_", "-")
                parts.append(f'{key}="{attribute_text(written(value))}"')
        head = " ".join(parts)
        self.parts.append(f"<{head}/>" if text is None else f"<{head}>{escaped(text)}</{name}>")

    @contextmanager
    def group(
        self, mark: str, title: str | None = None, **attributes: str | float
    ) -> Iterator[None]:
        """Elements that are one mark; a browser shows the title under the mouse."""
        more = "".join(
            f' {key.replace("_", "-")}="{attribute_text(written(value))}"'
            for key, value in attributes.items()
        )
        self.parts.append(
            f'<g class="{mark}"{more}>' + (f"<title>{escaped(title)}</title>" if title else "")
        )
        yield
        self.parts.append("</g>")

    def clip(self, name: str, x: float, y: float, width: float, height: float) -> None:
        """A box out of which nothing is drawn of the groups that name it."""
        self.parts.append(
            f'<clipPath id="{name}"><rect x="{written(x)}" y="{written(y)}" width="{written(width)}" '
            f'height="{written(height)}"/></clipPath>'
        )

    def line(
        self,
        x1: float,
        y1: float,
        x2: float,
        y2: float,
        colour: str = INK,
        width: float = 1,
        dash: str | None = None,
        **more: Attribute,
    ) -> None:
        self.element(
            "line",
            x1=x1,
            y1=y1,
            x2=x2,
            y2=y2,
            stroke=colour,
            stroke_width=width,
            stroke_dasharray=dash,
            **more,
        )

    def path(
        self,
        steps: Iterable[str | float],
        colour: str | None = INK,
        width: float | None = 1,
        fill: str = "none",
        **more: Attribute,
    ) -> None:
        """Steps are letters and numbers, as ["M", 0, 0, "L", 5, 5]."""
        self.element(
            "path",
            d=" ".join(map(written, steps)),
            stroke=colour,
            stroke_width=width,
            fill=fill,
            **more,
        )

    def rect(
        self,
        x: float,
        y: float,
        width: float,
        height: float,
        fill: str,
        stroke: str | None = None,
        stroke_width: float | None = None,
        round_by: float | None = None,
        **more: Attribute,
    ) -> None:
        self.element(
            "rect",
            x=x,
            y=y,
            width=width,
            height=height,
            rx=round_by,
            fill=fill,
            stroke=stroke,
            stroke_width=stroke_width,
            **more,
        )

    def circle(
        self,
        x: float,
        y: float,
        radius: float,
        fill: str,
        stroke: str | None = None,
        stroke_width: float | None = None,
        **more: Attribute,
    ) -> None:
        self.element(
            "circle",
            cx=x,
            cy=y,
            r=radius,
            fill=fill,
            stroke=stroke,
            stroke_width=stroke_width,
            **more,
        )

    def text(
        self,
        x: float,
        y: float,
        text: str | int,
        size: float = 11,
        fill: str = INK,
        anchor: str | None = None,
        bold: bool = False,
        halo: float | None = None,
        mark: str | None = None,
        opacity: Attribute = None,
    ) -> None:
        around: dict[str, Attribute] = {}
        if halo:
            around = {"paint_order": "stroke", "stroke": PAPER, "stroke_width": halo}
        self.element(
            "text",
            text,
            x=x,
            y=y,
            font_size=size,
            fill=fill,
            text_anchor=anchor,
            font_weight="bold" if bold else None,
            mark=mark,
            opacity=opacity,
            **around,
        )

    def note(
        self,
        x: float,
        y: float,
        text: str | int,
        size: float = 11.5,
        anchor: str | None = None,
        bold: bool = False,
        halo: float | None = None,
        mark: str | None = None,
    ) -> None:
        """A text that helps to read the picture."""
        self.text(x, y, text, size, SOFT, anchor, bold, halo, mark)

    def label(
        self,
        x: float,
        y: float,
        text: int | str,
        size: float,
        fill: str = INK,
        halo: float | None = None,
        mark: str | None = None,
        opacity: Attribute = None,
    ) -> None:
        """A text in the middle of a mark, or above what it names."""
        self.text(x, y, text, size, fill, "middle", True, halo, mark, opacity)

    def head(
        self,
        x: float,
        y: float,
        dx: float,
        dy: float,
        size: float,
        colour: str,
        hollow: bool = False,
    ) -> None:
        """An arrow's head with its tip at x, y, pointing along dx, dy."""
        (x1, y1), (x2, y2), (x3, y3) = arrow_head((x, y), (dx, dy), size)
        self.path(
            ["M", x1, y1, "L", x2, y2, "L", x3, y3, "Z"], colour, 1, PAPER if hollow else colour
        )

    def arrow(
        self,
        x1: float,
        y1: float,
        x2: float,
        y2: float,
        colour: str,
        width: float,
        size: float,
        dash: str | None = None,
        hollow: bool = False,
    ) -> None:
        """A straight arrow whose tip is at x2, y2."""
        dx, dy = x2 - x1, y2 - y1
        part = 0.8 * size / (sqrt(dx * dx + dy * dy) or 1)
        self.line(x1, y1, x2 - dx * part, y2 - dy * part, colour, width, dash)
        self.head(x2, y2, dx, dy, size, colour, hollow)

    def heading(self, title: str, *lines: str) -> None:
        """The fact that the picture shows, and what helps to read it, from the upper left corner; the picture is made
        as wide as they are."""
        self.text(20, 28, title, 17, INK, bold=True)
        for number, line in enumerate(lines):
            self.note(20, 48 + 16 * number, line)
        self.width = max(
            [
                self.width,
                40 + 1.1 * text_width(title, 17),
                *(40 + 0.9 * text_width(line, 11.5) for line in lines),
            ]
        )

    def inner(self) -> str:
        return "\n".join(self.parts)

    def document(self) -> str:
        width, height = written(self.width), written(self.height)
        return (
            f'<svg xmlns="http://www.w3.org/2000/svg" viewBox="0 0 {width} {height}" width="{width}" height="{height}" '
            f'font-family="{FONT}"><title>{escaped(self.title)}</title>\n'
            f'<rect width="100%" height="100%" fill="{PAPER}"/>\n{self.inner()}\n</svg>\n'
        )
