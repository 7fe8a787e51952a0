"""The fields of a line, and the numbers in them."""
import re
from functools import lru_cache

from forestplan.wording import one_line

# More digits than any number has that a text of ours may hold.
MOST_DIGITS = 40


def fields_of(line: str) -> list[str]:
    """The fields of a line, with empty ones between two blanks; a carriage return at its end is dropped.

    >>> fields_of("e 1\\t 2\\r")
    ['e', '1', '', '2']
    """
    return line.removesuffix("\r").replace("\t", " ").split(" ")


@lru_cache(1 << 16)
def field_number(field: str) -> int | None:
    """The number of a field, or None if it has something else than digits. A number that no text of ours may hold is
    one that is greater than all of them.

    >>> field_number("007"), field_number("-7")
    (7, None)
    """
    if not re.fullmatch(r"[0-9]+", field):
        return None
    digits = field.lstrip("0")
    return int(digits or "0") if len(digits) <= MOST_DIGITS else 10**MOST_DIGITS


def shown_field(field: str) -> str:
    """A field as it may be printed in one line: of a long one the first letters, and no mark that ends a line.

    >>> shown_field("a" * 50)
    'aaaaaaaaaaaaaaaaaaaaaaaaaaaaaaaaaaaaa..'
    """
    return one_line(field if len(field) <= 40 else field[:37] + "..")
