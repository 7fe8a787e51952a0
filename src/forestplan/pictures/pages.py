"""Pages that stand alone: the modules of page/, which the studio has too, joined into one script, and the data beside
it. Nothing in them comes from elsewhere. What a page decides by itself, where it draws, is translated (geometry.py)."""
import json
import os
import re
import unicodedata
from collections.abc import Callable, Collection, Sequence
from functools import cache

from forestplan.network import Edge, Network
from forestplan.pictures import geometry, palette
from forestplan.pictures.marks import cut_name
from forestplan.pictures.page_data import Net, NetNode, PlainNode, as_object
from forestplan.pictures.places import Places, places_of, spaced
from forestplan.pictures.svg import escaped
from forestplan.pictures.translation import translated

FOLDER = os.path.join(os.path.dirname(os.path.abspath(__file__)), "page")
# Each imports only those before it.
MODULES = ("marks", "legend", "stage", "time", "rounds", "run")
# Which modules more the main module of a page imports.
MORE = {"watch_reactions": ("messages",)}
# In pixels of a large screen; the radius of a node at most and at least (of a hundred and fewer; of more all are
# smaller), and how many radii two are apart.
WIDE = 1000
HIGH = 700
MARGIN = 70
RADIUS = 22
LEAST = 9
APART = 3
# The most digits of an identifier that are written.
MOST_DIGITS = 8


def hues() -> str:
    """What marks look like, as the module hues.js."""
    given = palette.page_marks().items()
    return "".join(f"export const {name} = {json.dumps(value)};\n" for name, value in given)


@cache
def geometry_script() -> str:
    """Where all is drawn, as the module geometry.js."""
    with open(geometry.__file__, encoding="utf-8") as file:
        return translated(file.read())


# The modules of pages that are made of modules of Python, by their names.
MADE: dict[str, Callable[[], str]] = {"hues": hues, "geometry": geometry_script}


def net_of(network: Network) -> Net:
    """A network as the modules have it, laid out for a large screen. Identifiers are texts: they may have 39 digits."""
    least = min(LEAST, 10 * LEAST / max(1, network.nodes) ** 0.5)
    places = (
        spaced(places_of(network), WIDE, HIGH, MARGIN, RADIUS, least, APART)[0]
        if network.nodes
        else {}
    )
    return net_at(network.name, plain_nodes(network, places), network.edges)


def plain_nodes(network: Network, places: Places) -> list[PlainNode]:
    """The nodes of a network at these places."""
    return [
        PlainNode(
            x=round(places[v][0], 1),
            y=round(places[v][1], 1),
            id=str(network.given_identifiers.get(v, "")),
            name=network.names.get(v, ""),
            bars=network.bars.get(v, []),
        )
        for v in network.node_numbers
    ]


def net_at(name: str, nodes: Sequence[PlainNode], edges: Collection[Edge]) -> Net:
    """A network whose nodes are where they are, with what is written beside them."""
    drawn = [
        NetNode(node.x, node.y, node.id, node.name, node.bars, page_label(v, node))
        for v, node in enumerate(nodes, 1)
    ]
    return Net(name, drawn, edges)


def page_label(v: int, node: PlainNode) -> str:
    """What is written after a node's number: its name, and its identifier if it isn't that number. A name that is
    written from right to left turns nothing else."""
    name = cut_name(node.name)
    is_turned = any(unicodedata.bidirectional(letter) in ("R", "AL", "AN") for letter in name)
    shown = f"\u2068{name}\u2069" if is_turned else name
    digits = node.id if len(node.id) <= MOST_DIGITS else node.id[: MOST_DIGITS - 2] + "…"
    own = f"({digits})" if node.id not in ("", str(v)) else ""
    return " ".join(filter(None, [shown, own]))


def page_file_text(name: str) -> str:
    with open(os.path.join(FOLDER, name), encoding="utf-8") as file:
        return file.read()


def joined(main: str) -> str:
    """The modules that a page needs as one script, on one line: imports and exports go, since all names are in one
    place, and comments: what is said to a reader has lines of its own, and types are in `/** .. */` on one line.
    """
    names = (*MODULES, *MORE.get(main, ()), main)
    text = "".join(
        [*(made() for made in MADE.values()), *(page_file_text(f"{name}.js") for name in names)]
    )
    text = re.sub(r"(?m)^export |^ *//.*$|/\*\*.*?\*/ ?", "", text)
    text = re.sub(r"(?ms)^import .*?;$", "", text)
    return " ".join(line.strip() for line in text.split("\n") if line.strip())


def page(template: str, main: str, data: object, **texts: str) -> str:
    """A page whose body is a template of page/ and whose script is the module `main` and those before it; `data` is of
    page_data.py, and `words` are escaped."""
    json_text = json.dumps(data, separators=(",", ":"), ensure_ascii=False, default=as_object)
    given = {name.upper(): escaped(text) for name, text in texts.items()}
    return filled(
        page_file_text("frame.html").replace("@BODY@", page_file_text(template)),
        # JSON that can stand in a script.
        DATA=json_text.replace("<", "\\u003c"),
        SCRIPT=joined(main),
        STYLE=re.sub(r"/\*.*?\*/|\n", "", page_file_text("page.css")),
        **given,
    )


def filled(template: str, **given: str) -> str:
    """A template with these texts, as they are, in the places of their names."""
    return re.sub(r"@([A-Z]+)@", lambda found: given[found.group(1)], template)
