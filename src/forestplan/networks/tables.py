"""Tables of pairs, of sites with places, of barred channels, and of the channels of a licence."""
import re

from forestplan.fault_codes import Code
from forestplan.faults import Fault, InText
from forestplan.limits import MAX_BARS, MAX_CHANNEL, MAX_EDGES, MAX_NODES
from forestplan.network import IDENTIFIERS
from forestplan.networks.fields import shown_field, field_number
from forestplan.networks.forms import Stated
from forestplan.networks.listing import Listed, Where, check_known, name_of
from forestplan.networks.places import Place, across_of, near, on_ground, on_map
from forestplan.networks.table import Table
from forestplan.wording import counted

# How many digits a real number of a channel has at most, as a frequency in kHz.
MOST_DIGITS = 12
# The two columns of places, of which the first pair that is there counts, and what makes kilometres of a unit.
DEGREES = ("lat", "lon")
UNITS = {DEGREES: 1.0, ("x_km", "y_km"): 1.0, ("x_m", "y_m"): 0.001}
SITES = ("identifier", *(column for columns in UNITS for column in columns))


def pairs(text: str, name: str, stated: Stated) -> Listed:
    """What a table of pairs lists: both ends of an edge in each row, with its line.

    >>> pairs("source,target\\nUlm,Hof\\n", "pairs.csv", Stated()).edges
    [(2, 'Ulm', 'Hof')]

    Raises `Fault` of the table's first fault, and `Unsaid` of columns that the user has to state.
    """
    table = Table(name, stated, ("source", "target")).read(text)
    found = Listed("pairs", notes=table.notes())
    for line, row in table.rows:
        ends = (name_of(row["source"], name, line), name_of(row["target"], name, line))
        found.edges.append((line, *ends))
    return found


def licence_of(text: str, name: str, stated: Stated) -> tuple[list[int], list[str]]:
    """The real channel numbers of a table, in its order, and what isn't read of it.

    >>> licence_of("channel\\n36\\n40\\n", "licence.csv", Stated())
    ([36, 40], [])

    Raises `Fault` of the table's first fault, and `Unsaid` of a column that the user has to state.
    """
    table = Table(name, stated, ("channel",)).read(text)
    return [real_channel(table, line, row) for line, row in table.rows], table.notes()


def real_channel(table: Table, line: int, row: dict[str, str]) -> int:
    field = row["channel"]
    if not re.fullmatch(r"[0-9]{1,%d}" % MOST_DIGITS, field):
        raise table.fault(line, Code.NO_CHANNEL_IN_FIELD, field=shown_field(field))
    return int(field)


# Sites.


class SiteTable:
    """A table of sites, once `read` was called: the line of each, its identifier, and its place in kilometres or in
    degrees, if it has them. `columns` are the two by which places are read.

    >>> SiteTable("sites.csv", Stated()).read("site,x_km,y_km\\nUlm,1,2\\n").on_picture()
    {'Ulm': (1.0, -2.0)}
    """

    def __init__(self, path: str, stated: Stated) -> None:
        self.table = Table(path, stated, ("site",), SITES)
        self.columns: tuple[str, str] | None = None
        self.notes: list[str] = []
        self.lines: dict[str, Where] = {}
        self.places: dict[str, Place] = {}
        self.identifiers: dict[str, int] = {}
        self.owners: dict[int, str] = {}

    def read(self, text: str) -> "SiteTable":
        """Reads a text, and returns these sites.

        Raises `Fault` of its first fault, and `Unsaid` of columns that the user has to state."""
        self.table.read(text)
        there = self.table.columns
        self.columns = next((pair for pair in UNITS if there.keys() >= set(pair)), None)
        # Places of other columns aren't read.
        for column in SITES[1:]:
            if column not in (self.columns or ()):
                there.pop(column, None)
        self.notes = self.table.notes()
        for line, row in self.table.rows:
            self.add(name_of(row["site"], self.table.name, line), line, row)
        if self.places:
            across = f"{across_of(self.on_picture().values()):,.3g} km across"
            self.notes.append(f"places are by {' and '.join(self.columns or ())}, and {across}")
        return self

    def add(self, name: str, line: int, row: dict[str, str]) -> None:
        """A site: no name and no identifier comes twice."""
        if self.lines.setdefault(name, line) != line:
            raise self.table.fault(line, Code.SECOND_SITE, name=shown_field(name))
        if len(self.lines) > MAX_NODES:
            raise self.table.fault(line, Code.TOO_MANY_SITES, most=MAX_NODES)
        if self.columns and any(row[column] for column in self.columns):
            self.places[name] = self.place_of(line, row, self.columns)
        field = row.get("identifier", "")
        if not field:
            return
        number = field_number(field)
        if number is None or number >= IDENTIFIERS:
            raise self.table.fault(line, Code.NO_IDENTIFIER, field=shown_field(field))
        if self.owners.setdefault(number, name) != name:
            raise self.table.fault(line, Code.SECOND_SITE_OF_IDENTIFIER, number=number)
        self.identifiers[name] = number

    def place_of(self, line: int, row: dict[str, str], columns: tuple[str, str]) -> Place:
        x, y = (self.table.number(line, row[column]) * UNITS[columns] for column in columns)
        if self.is_globe and not (-90 <= x <= 90 and -180 <= y <= 360):
            raise self.table.fault(line, Code.NO_DEGREES)
        return x, y

    @property
    def is_globe(self) -> bool:
        return self.columns == DEGREES

    def on_picture(self) -> dict[str, Place]:
        """The places with north on top, in kilometres."""
        if self.is_globe:
            return on_map(self.places)
        return {name: (x, -y) for name, (x, y) in self.places.items()}


def with_sites(found: Listed, sites: SiteTable, path: str) -> None:
    """Makes the sites of a table the nodes, in its order, with their identifiers and places."""
    table = sites.table.name
    named = found.ends() if found.nodes is None else list(found.nodes.items())
    for node, where in named:
        check_known(node, sites.lines, path, where, Code.NOT_A_SITE_OF, table=table)
    found.nodes = sites.lines
    found.identifiers |= sites.identifiers
    found.places |= sites.on_picture()
    begin = "" if path == table else f"{table}: "
    found.notes += [begin + note for note in sites.notes]


def join_near(found: Listed, sites: SiteTable, reach: float) -> None:
    """Joins the sites that are less than the reach apart."""
    table = sites.table
    if not sites.places:
        raise table.fault(table.line, Code.NO_SITE_HAS_A_PLACE)
    names = list(sites.places)
    points = [
        on_ground(*place) if sites.is_globe else (*place, 0.0) for place in sites.places.values()
    ]
    there = {frozenset(ends) for _, *ends in found.edges}
    before = len(found.edges)
    for at, other in near(points, reach, sites.is_globe):
        ends = names[at], names[other]
        if frozenset(ends) not in there:
            found.edges.append((sites.lines[names[at]], *ends))
        if len(found.edges) > before + MAX_EDGES:
            raise Fault(Code.TOO_MANY_NEAR_EDGES, InText(table.name), most=MAX_EDGES, reach=reach)
    joined = counted(len(found.edges) - before, "pair")
    without = counted(len(sites.lines) - len(names), "site")
    found.notes.append(
        f"{joined} of sites less than {reach:g} km apart, and {without} without a place"
    )


# Barred channels.


def with_bars(
    found: Listed, text: str, name: str, stated: Stated, licence: list[int] | None
) -> None:
    """Bars the channels of a table; they are real numbers if a licence has channels 1, 2, .. of the plan."""
    table = Table(name, stated, ("site", "channel")).read(text)
    known = set(found.names())
    numbers = range(1, MAX_CHANNEL + 1) if licence is None else licence
    outside = 0
    for line, row in table.rows:
        site = name_of(row["site"], name, line)
        check_known(site, known, name, line, Code.NO_SITE)
        channel = real_channel(table, line, row)
        if channel in numbers:
            found.bars.setdefault(site, set()).add(numbers.index(channel) + 1)
        elif licence is None:
            raise table.fault(line, Code.NO_CHANNEL_WITHIN, most=MAX_CHANNEL, channel=channel)
        else:
            outside += 1
        if len(found.bars.get(site, ())) > MAX_BARS:
            raise table.fault(
                line, Code.BARS_OF_SITE_ABOVE_LIMIT, most=MAX_BARS, site=shown_field(site)
            )
    found.notes += [f"{name}: {note}" for note in table.notes()]
    if outside:
        found.notes.append(f"{counted(outside, 'bar')} of {name} of a channel outside the licence")
