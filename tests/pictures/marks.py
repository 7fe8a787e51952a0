"""What a picture shows, read off its SVG: marks by class, with their places, numbers and fills."""
import json
import re
import xml.etree.ElementTree as tree
from tests.cases import found_in

SVG = "{http://www.w3.org/2000/svg}"
# How wide a letter is, in parts of its size: DejaVu Sans takes from a half to six tenths.
LETTER = 0.5


def parsed(picture):
    """A picture, or a part of a page: that names no space of its own."""
    return tree.fromstring(
        picture
        if "xmlns=" in picture
        else re.sub(r"^<(\w+)", r'<\1 xmlns="http://www.w3.org/2000/svg"', picture)
    )


def data_of(page):
    """What a page in HTML follows."""
    return json.loads(found_in(r"(?m)^var D = (.*);$", page)[1])


def marks(root, *names):
    """The elements of some classes, in the order in which they are drawn."""
    return [element for element in root.iter() if element.get("class") in names]


def title(group):
    return group.find(f"{SVG}title").text


def titles(root, *names):
    return [title(group) for group in marks(root, *names)]


def texts_of(root, name):
    """What is written in the texts of a class."""
    return [mark.text or "" for mark in marks(root, name)]


def texts(root):
    return [element.text or "" for element in root.iter(f"{SVG}text")]


def number(element, key):
    return float(element.get(key))


def centre(element):
    """The middle of a circle or of a rectangle."""
    if element.tag == f"{SVG}circle":
        return number(element, "cx"), number(element, "cy")
    return (
        number(element, "x") + number(element, "width") / 2,
        number(element, "y") + number(element, "height") / 2,
    )


def ends(element):
    """Where a line or a curve begins and ends, or the first line of a group."""
    if element.tag == f"{SVG}g":
        return ends(element.find(f"{SVG}line"))
    if element.tag == f"{SVG}line":
        return (number(element, "x1"), number(element, "y1")), (
            number(element, "x2"),
            number(element, "y2"),
        )
    numbers = [float(word) for word in re.findall(r"-?[0-9.]+", element.get("d"))]
    return tuple(numbers[:2]), tuple(numbers[-2:])


def hue(element):
    """The colour that counts: a ring's is its edge's."""
    return element.get("stroke") if element.get("fill") == "#FFFFFF" else element.get("fill")


def is_ring(element) -> bool:
    """Whether a circle is a ring: its hue is its edge, around white."""
    return element.get("fill") == "#FFFFFF" and element.get("stroke") != "#FFFFFF"


def numbered(root, *names):
    """(class, fill, number) of each mark of these classes and of the text drawn next; None for a mark without a
    number."""
    elements, found = [*root.iter(), tree.Element("end")], []
    for element, after in zip(elements, elements[1:]):
        if element.get("class") in names:
            has_number = after.tag == f"{SVG}text" and after.get("font-weight") == "bold"
            found.append((element.get("class"), hue(element), after.text if has_number else None))
    return found


def gap(p, q):
    return ((p[0] - q[0]) ** 2 + (p[1] - q[1]) ** 2) ** 0.5


def nearest(places, point):
    """The key of the place that is nearest to a point."""
    return min(places, key=lambda key: gap(places[key], point))


def pairs_joined(root, name, places):
    """The pairs of keys of places that the lines of a class join."""
    return sorted(
        tuple(sorted(nearest(places, end) for end in ends(mark))) for mark in marks(root, name)
    )


def shapes(root):
    """(element, shape) of all that is drawn in a picture but lines; a shape is a box and a radius that is added around
    it: left, top, right, bottom, radius."""
    for element in root.iter():
        if box := box_of(element):
            yield element, (*box, float(element.get("r", 0)))


def box_of(element):
    """The box of a text or a square, or the middle of a circle; None of what is neither."""
    if element.tag == f"{SVG}text" and element.text:
        x, y, size = (number(element, key) for key in ("x", "y", "font-size"))
        wide = LETTER * size * len(element.text)
        left = x - {"middle": 0.5, "end": 1}.get(element.get("text-anchor"), 0) * wide
        return left, y - 0.75 * size, left + wide, y + 0.02 * size
    if element.tag == f"{SVG}circle":
        return 2 * centre(element)
    if element.tag == f"{SVG}rect" and element.get("class"):
        left, top = number(element, "x"), number(element, "y")
        return left, top, left + number(element, "width"), top + number(element, "height")
    return None


def depth(one, other):
    """How far one shape reaches into another; negative if they are apart."""
    across, down = (max(one[k] - other[k + 2], other[k] - one[k + 2]) for k in (0, 1))
    apart = (across * across + down * down) ** 0.5 if min(across, down) > 0 else max(across, down)
    return one[4] + other[4] - apart
