"""One mark looks the same in a stored picture and on a page: its fill, its ink, its ring and the size of its number.
The page's own module draws it, if node is installed."""

import json
import re
import shutil
from collections.abc import Callable, Sequence

from forestplan.pictures import pages
from forestplan.pictures.marks import (
    bar_row,
    blank_circle,
    channel_circle,
    colour_square,
    message_pill,
)
from forestplan.pictures.palette import INK, PALE, PAPER, WIRES, WRONG
from forestplan.pictures.svg import Svg
from tests.cases import Case, called
from tests.pictures.marks import SVG, number, parsed
from tests.tools import need

# So large that no number is written larger than its mark asks for, which it would be to be read.
RADIUS = 40.0
CHANNELS = [*range(1, 44), 99, 100, 999, 1000, 2048]
COLOURS = range(6)
# Messages, and words of them.
PILLS = [(kind, said) for kind in WIRES for said in ("1", "17", "safe 12")]
NUMBERS = [0, 9, 10, 99, 100, 999, 1000, *(2**n for n in (10, 15, 16, 17, 19, 20, 21, 64, 127))]
DRAW = """\
import {readFileSync} from "node:fs";
import {barMark, blank, channelCircle, colourSquare, pill} from "./marks.mjs";
const {r, channels, colours, numbers, pills} = JSON.parse(readFileSync(0));
const flat = list => list.filter(Boolean).map(({name, attributes, inside}) => ({name, ...attributes, inside}));
console.log(JSON.stringify({channels: channels.map(one => flat(channelCircle(0, 0, r, one))),
  bars: channels.map(one => flat(barMark(0, 0, r, one))),
  blanks: colours.map(one => flat(blank(0, 0, r, one))),
  pills: pills.map(([kind, said]) => flat(pill(0, 0, said, kind, 12))),
  colours: colours.map(one => flat(colourSquare(0, 0, r, one, true))),
  numbers: numbers.map(one => flat(colourSquare(0, 0, r, one, false)))}));
"""
# What is compared of a mark: its fill and its ring, and what is written in it, in which ink, how large and how low.
Shown = tuple[str, str, float, str, str, float, int]


def of_page(parts: list[dict]) -> Shown:
    """Of a mark of the page: a ring lies below an empty circle."""
    shape, text = parts[0], parts[-1]
    is_ring = shape["name"] == "circle" and shape["fill"] == "#FFFFFF"
    ring = (shape["stroke"], float(shape.get("stroke-width", 1))) if is_ring else ("", 0.0)
    size = float(text["font-size"])
    low = round(float(text["y"]))
    return (shape["fill"].upper(), *ring, text["inside"], text["fill"], size, low)


def of_picture(svg: Svg) -> Shown:
    root = parsed(f"<g>{''.join(svg.parts)}</g>")
    shape = next(one for one in root.iter() if one.get("class") in ("channel", "colour", "bar"))
    text = list(root.iter(f"{SVG}text"))[-1]
    is_ring = shape.tag == f"{SVG}circle" and shape.get("fill") == "#FFFFFF"
    ring = (shape.get("stroke"), number(shape, "stroke-width")) if is_ring else ("", 0.0)
    size = number(text, "font-size")
    low = round(number(text, "y"))
    return (shape.get("fill").upper(), *ring, text.text, text.get("fill"), size, low)


class Marks(Case):
    is_one_row = True

    def drawn(self) -> dict[str, list[list[dict]]]:
        """What the page's module draws."""
        need(self, "node")
        made = {name: code() for name, code in pages.MADE.items()}
        for name, code in {**made, "marks": pages.page_file_text("marks.js")}.items():
            self.file(f"{name}.mjs", re.sub(r'from "\./(\w+)\.js"', r'from "./\1.mjs"', code))
        numbers = [str(one) for one in NUMBERS]
        asked = {
            "r": RADIUS,
            "channels": CHANNELS,
            "colours": list(COLOURS),
            "numbers": numbers,
            "pills": PILLS,
        }
        program, node = self.file("draw.mjs", DRAW), shutil.which("node")
        status, out, errors = called(node, program, data=json.dumps(asked).encode())
        self.assertEqual((status, errors), (0, b""))
        found: dict[str, list[list[dict]]] = json.loads(out)
        return found

    def test_pages_draw_as_pictures_do(self) -> None:
        drawn = self.drawn()
        draws: dict[str, tuple[Sequence[int], Callable[[Svg, int], None]]] = {
            "channels": (CHANNELS, lambda svg, one: channel_circle(svg, 0, 0, RADIUS, one)),
            "bars": (CHANNELS, lambda svg, one: bar_row(svg, 0, 0, [one], RADIUS)),
            "colours": (COLOURS, lambda svg, one: colour_square(svg, 0, 0, RADIUS, one)),
            "numbers": (
                NUMBERS,
                lambda svg, one: colour_square(svg, 0, 0, RADIUS, one, is_name=True),
            ),
        }
        for kind, (values, draw) in draws.items():
            for value, parts in zip(values, drawn[kind], strict=True):
                svg = Svg(100, 100, "")
                draw(svg, value)
                with self.subTest(f"{kind} {value}"):
                    self.assertEqual(of_page(parts), of_picture(svg))

    def test_messages_and_nodes_without_a_channel(self) -> None:
        """Shapes with their attributes, and words with their size and ink. The page names its colours."""
        drawn = self.drawn()
        names = {"var(--paper)": PAPER, "var(--ink)": INK}
        for value, parts in zip(COLOURS, drawn["blanks"], strict=True):
            svg = Svg(100, 100, "")
            blank_circle(svg, 0, 0, RADIUS, value)
            self.same(f"node {value}", shapes(parts, names), shapes(of_svg(svg), names))
        for (kind, said), parts in zip(PILLS, drawn["pills"], strict=True):
            svg = Svg(100, 100, "")
            message_pill(svg, 0, 0, said, kind, 12)
            self.same(f"{kind} {said}", shapes(parts, names), shapes(of_svg(svg), names))

    def test_colours_of_the_page(self) -> None:
        """The named colours in the light, and those of messages, are those of the palette."""
        style = pages.page_file_text("page.css")
        named = dict(re.findall(r"--(\w+):(#\w+)", style.partition("}")[0]))
        ours = {"ink": INK, "paper": PAPER, "wrong": WRONG}
        self.same("named", {name: named[name] for name in ours}, ours)
        for kind, rim in WIRES.items():
            found = re.findall(
                rf"^\.{kind}\{{border-color:(#\w+);background:(#\w+)\}}", style, re.M
            )
            self.same(kind, found, [(rim, PALE[kind])])


def of_svg(svg: Svg) -> list[dict]:
    """The marks of a picture as a page has them."""
    root = parsed(f"<g>{''.join(svg.parts)}</g>")
    return [
        {"name": one.tag.removeprefix(SVG), **one.attrib, "inside": one.text}
        for one in root.iter()
        if one.tag != f"{SVG}g"
    ]


KEPT = ("fill", "stroke", "stroke-width", "width", "height", "rx", "r", "font-size", "inside")


def shapes(parts: list[dict], names: dict[str, str]) -> list[dict]:
    """What is seen of marks, numbers with one decimal place."""
    found = []
    for part in parts:
        seen = {key: names.get(part[key], part[key]) for key in KEPT if part.get(key) is not None}
        found.append({"name": part["name"], **{key: rounded(one) for key, one in seen.items()}})
    return found


def rounded(value: object) -> object:
    try:
        return round(float(str(value)), 1)
    except ValueError:
        return value
