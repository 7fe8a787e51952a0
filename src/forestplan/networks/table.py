"""A table: a text in CSV whose columns have standard titles, or the titles that the user states."""
import csv
import io
import re
from collections import Counter
from collections.abc import Iterator
from itertools import islice

from forestplan.fault_codes import Code
from forestplan.faults import Fault, InText
from forestplan.networks.fields import shown_field
from forestplan.networks.forms import Stated, Unsaid
from forestplan.networks.listing import not_read
from forestplan.wording import in_words

# The standard titles of each column, in small letters. A column of places has its unit in its title.
TITLES = {
    "source": ("source", "from"),
    "target": ("target", "to"),
    "site": ("site", "name", "id"),
    "channel": ("channel",),
    "identifier": ("identifier",),
    "lat": ("lat", "latitude"),
    "lon": ("lon", "lng", "longitude"),
    "x_km": ("x_km",),
    "y_km": ("y_km",),
    "x_m": ("x_m", "easting"),
    "y_m": ("y_m", "northing"),
}
# No coordinate is as great, in metres or kilometres.
FARTHEST = 1e9
# What may be between the fields of a row.
MARKS = ",;\t"
NUMBER = re.compile(r"-?[0-9]{1,20}(?:[.,][0-9]{1,20})?(?:[eE][+-]?[0-9]{1,2})?")
Row = tuple[int, list[str]]
# The line of the first row, the titles of the columns, and the mark between the fields.
Begin = tuple[int, list[str], str]


def table_rows(text: str, name: str, mark: str) -> Iterator[Row]:
    """(line, fields) of each row in which something is; blanks around a field don't belong to it."""
    reader = csv.reader(io.StringIO(text), delimiter=mark, strict=True, skipinitialspace=True)
    line = 1
    try:
        for row in reader:
            fields = [field.strip() for field in row]
            if any(fields):
                yield line, fields
            line = reader.line_num + 1
    except csv.Error as why:
        raise Fault(Code.NO_ROW_OF_A_TABLE, InText(name, line), why=why) from None


def columns_option(columns: dict[str, str]) -> list[str]:
    """The words of a command line that state what columns are called."""
    text = io.StringIO()
    csv.writer(text, lineterminator="").writerow(f"{one}={title}" for one, title in columns.items())
    return ["--columns", text.getvalue()]


class Table:
    """The rows of a table, once `read` was called: `rows` has them as (line, {column: field}).

    Each of the `wanted` columns has to be there, each of the `others` may be. The mark between the fields is the one
    with which the first row has all wanted columns. `line` is that of the first row, `titles` are the columns' titles,
    and `columns` has where those are that are read.

    >>> Table("pairs.csv", Stated(), ("source", "target")).read("from;to\\nUlm;Hof\\n").rows
    [(2, {'source': 'Ulm', 'target': 'Hof'})]
    """

    def __init__(
        self, name: str, stated: Stated, wanted: tuple[str, ...], others: tuple[str, ...] = ()
    ) -> None:
        self.name = name
        self.stated = stated
        self.wanted = wanted
        self.others = others
        self.has_heading = stated.has_heading
        self.named = stated.columns
        if not self.has_heading and not self.named.keys() & set(wanted):
            self.named = {column: str(at) for at, column in enumerate(wanted, 1)} | self.named
        self.line = 1
        self.titles: list[str] = []
        self.columns: dict[str, int] = {}
        self.rows: list[tuple[int, dict[str, str]]] = []
        self.decimals = "."

    def read(self, text: str) -> "Table":
        """Reads a text, and returns this table.

        Raises `Fault` of its first fault, and `Unsaid` of columns that the user has to state."""
        self.line, self.titles, mark = self.begin(text)
        found = {column: self.place_of(column) for column in (*self.wanted, *self.others)}
        self.columns = {column: at for column, at in found.items() if at is not None}
        for column, at in self.columns.items():
            title = self.titles[at]
            if self.stated.columns.get(column, title).casefold() == title.casefold():
                self.stated.found.add(column)
        below = islice(table_rows(text, self.name, mark), self.has_heading, None)
        self.rows = [self.row_of(line, fields) for line, fields in below]
        self.decimals = "." if mark == "," else ".,"
        if not self.rows:
            raise self.fault(self.line, Code.NO_ROW_BELOW_HEADING)
        return self

    def fault(self, line: int, code: Code, **subject: object) -> Fault:
        return Fault(code, InText(self.name, line), **subject)

    def begin(self, text: str) -> Begin:
        """The first row with the mark with which it has all wanted columns."""
        firsts = self.first_rows(text)
        fits = [first for first in firsts if self.has_wanted(first[1])]
        if not fits:
            raise self.unsaid(*max(firsts, key=lambda first: len(first[1]))[:2])
        if len(fits) > 1:
            raise self.fault(fits[0][0], Code.SEVERAL_MARKS)
        return fits[0]

    def first_rows(self, text: str) -> list[Begin]:
        """The first row with each mark that is in the first line, and with which it is a row."""
        first_line = text.lstrip("\n ").partition("\n")[0]
        if first_line.startswith("sep="):
            raise self.fault(1, Code.FOR_EXCEL, row=shown_field(first_line))
        found = []
        fault = Fault(Code.NO_ROW, InText(self.name))
        for mark in [mark for mark in MARKS if mark in first_line] or [","]:
            try:
                for line, first in islice(table_rows(text, self.name, mark), 1):
                    found.append((line, self.titles_of(line, first), mark))
            except Fault as why:
                fault = why
        if not found:
            raise fault
        return found

    def has_wanted(self, titles: list[str]) -> bool:
        return all(self.places_of(column, titles) for column in self.wanted)

    def titles_of(self, line: int, first: list[str]) -> list[str]:
        """The titles of the columns; without a heading their numbers."""
        if self.has_heading:
            return first
        small = {title.casefold() for title in first}
        if all(small & set(TITLES[column]) for column in self.wanted):
            raise self.fault(line, Code.HEADING_IN_SPITE)
        return [str(at) for at in range(1, len(first) + 1)]

    def places_of(self, column: str, titles: list[str]) -> list[int]:
        """Where a column may be: by the title that is stated, if it is there, or by a standard one."""
        small = [title.casefold() for title in titles]
        named = self.named.get(column, "").casefold()
        known = (named,) if named and named in small else TITLES[column]
        return [at for at, title in enumerate(small) if title in known]

    def place_of(self, column: str) -> int | None:
        """The same, if there is one; two that may be meant are refused."""
        places = self.places_of(column, self.titles)
        if len(places) > 1:
            titles = in_words(shown_field(self.titles[at]) for at in places)
            raise self.fault(self.line, Code.TWO_TITLES, titles=titles, column=column)
        return places[0] if places else None

    def unsaid(self, line: int, first: list[str]) -> Fault:
        """The refusal of a first row that doesn't have all wanted columns."""
        columns = in_words(self.named.get(column, column) for column in self.wanted)
        code = Code.NO_HEADING_WITH if self.has_heading else Code.NO_ROW_WITH
        names = {"columns": columns, "row": shown_field(",".join(first))}
        titles = [title for title, count in Counter(first).items() if title and count == 1]
        if len(titles) < len(self.wanted) or set(self.wanted) & self.named.keys():
            return self.fault(line, code, **names)
        return Unsaid(
            Fault(code, InText(self.name, line), **names),
            [
                choice_of(self.wanted, titles),
                (["--no-heading"], f"it is a row, and begins with {columns}"),
            ],
            self.wanted,
            titles,
        )

    # Rows.

    def row_of(self, line: int, fields: list[str]) -> tuple[int, dict[str, str]]:
        if fields == self.titles and self.has_heading:
            raise self.fault(line, Code.HEADING_TWICE)
        if len(fields) != len(self.titles):
            raise self.fault(
                line, Code.OTHER_NUMBER_OF_FIELDS, fields=len(fields), wanted=len(self.titles)
            )
        return line, {column: fields[at] for column, at in self.columns.items()}

    def unread(self) -> list[str]:
        """The titles of the columns that aren't read, or their numbers."""
        return [
            title if title and self.has_heading else f"column {at}"
            for at, title in enumerate(self.titles, 1)
            if at - 1 not in self.columns.values()
        ]

    def notes(self) -> list[str]:
        return not_read("columns", self.unread())

    def number(self, line: int, field: str) -> float:
        """A number with a point, or with a comma if commas don't separate the fields."""
        if not NUMBER.fullmatch(field) or "," in field and "," not in self.decimals:
            raise self.fault(line, Code.NO_NUMBER, field=shown_field(field))
        number = float(field.replace(",", "."))
        if abs(number) >= FARTHEST:
            raise self.fault(line, Code.NO_PLACE_ON_EARTH, field=shown_field(field))
        return number


def choice_of(columns: tuple[str, ...], titles: list[str]) -> tuple[list[str], str]:
    """The words that state the columns to be those of these titles, and what they mean."""
    meant = dict(zip(columns, titles))
    said = in_words(f"{column} is {shown_field(title)}" for column, title in meant.items())
    return columns_option(meant), f"it is a heading, in which {said}"
