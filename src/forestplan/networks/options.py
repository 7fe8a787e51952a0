"""The options by which a command line states what a file is, and the commands that a refusal names."""
import argparse
import csv
import shlex

from forestplan.fault_codes import Code
from forestplan.faults import Fault
from forestplan.networks.forms import ENDINGS, Stated, Unsaid
from forestplan.networks.table import TITLES
from forestplan.wording import as_text


def titles_of(text: str) -> list[tuple[str, str]]:
    """`source=Von,target=Nach` as pairs; a title with a comma is in quotes, as a field of a table."""
    try:
        pairs = [word.partition("=") for word in next(csv.reader([text], strict=True))]
    except csv.Error as why:
        raise argparse.ArgumentTypeError(f"{why}") from None
    if not all(column in TITLES and title for column, _, title in pairs):
        raise argparse.ArgumentTypeError(
            f"COLUMN=TITLE with commas between, and a column of {', '.join(TITLES)}"
        )
    return [(column, title) for column, _, title in pairs]


def add_form(command: argparse.ArgumentParser) -> None:
    command.add_argument(
        "--as", dest="form", choices=ENDINGS, help="the form, whatever the file is called"
    )


def add_stated(command: argparse.ArgumentParser) -> None:
    """The options of tables."""
    command.add_argument(
        "--columns",
        type=titles_of,
        action="extend",
        default=[],
        metavar="COLUMN=TITLE,..",
        help="what columns are called, as source=Von,target=Nach",
    )
    command.add_argument(
        "--no-heading",
        action="store_true",
        help="tables have no heading; --columns then has numbers, as source=2,target=3",
    )
    command.add_argument(
        "--encoding",
        metavar="NAME",
        help="the encoding of all files, such as cp1252; default: UTF-8",
    )
    command.set_defaults(form=None, refuse=command.error)


def stated_by(given: argparse.Namespace) -> Stated:
    """What the options state.

    >>> command = argparse.ArgumentParser()
    >>> add_stated(command)
    >>> stated_by(command.parse_args(["--columns", "source=Von", "--encoding", "cp1252"])).columns
    {'source': 'Von'}

    Ends the command, as its parser does, if a column is named twice.
    """
    columns = dict(given.columns)
    if len(columns) < len(given.columns):
        given.refuse("--columns names a column twice")
    return Stated(given.form, columns, not given.no_heading, given.encoding)


def commands_for(why: Unsaid, begin: list[str], arguments: list[str], after: str = "") -> Fault:
    """The fault of what isn't stated, with the commands to choose from, ready to be copied.

    >>> from forestplan.faults import InText
    >>> fault = Fault(Code.FORM_UNSAID, InText("net.txt"))
    >>> why = Unsaid(fault, [(["--as", "pairs"], "a table")])
    >>> print(commands_for(why, ["network", "read"], ["net.txt"]))
    net.txt: its ending doesn't say what it is; say what it is:
      a table:
        forestlab network read --as pairs net.txt
    """
    if not why.choices:
        return why
    lines = []
    for stated, means in why.choices:
        lines += [
            f"  {means}:",
            f"    {shlex.join(['forestlab', *begin, *stated, *arguments])}{after}",
        ]
    return Fault(Code.UNSAID, what=why, commands=as_text(["", *lines]).rstrip("\n"))
