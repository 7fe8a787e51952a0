"""Real channel numbers (36, 40, 44, ..) beside a plan's, which count from 1; and the command `forestlab channels`."""
import os
import re
import sys
from argparse import ArgumentParser, Namespace

from forestplan.fault_codes import Code
from forestplan.faults import Fault, InText
from forestplan.files import bytes_at, text_at, write_output
from forestplan.limits import MAX_CHANNEL
from forestplan.networks.fields import shown_field
from forestplan.networks.forms import Unsaid, decoded_text
from forestplan.networks.options import add_stated, commands_for, stated_by
from forestplan.networks.plan_text import PlanRow, plan_rows
from forestplan.networks.tables import MOST_DIGITS, licence_of
from forestplan.parsers import add_output, parser_of
from forestplan.wording import one_line

HELP = """\
Replaces a plan's channels by real channel numbers, or the other way round.

A plan counts channels from 1. TABLE has the real number of channel 1, then of channel
2, and so on: `36 40 44 48`, or `1-13`, or `36-64/4` for each fourth; or it is a file, CSV
with a column `channel` (or TITLE, by --columns channel=TITLE). The plan is read from
standard input, and written with the other numbers. So `forestplan check` can judge a plan
of real numbers, whoever made it.

With --back without TABLE, channel 1 is the lowest number that the plan has, channel 2
the next, and so on; standard error says which is which. Use this only for a
network without barred channels, because bars are given by number.

With --run the text is what `forestplay ends` or `run` writes of a program whose nodes
find channels, `colouring` or `recolouring`: it is read as the plan that it has. Without
TABLE that plan is written as it is.
"""

MORE_HELP = """\
Status: 0 done, 1 the text is no plan, or has a channel that isn't in the table, 2 the
command line is refused.

Examples:
  forestplan plain < net.col | forestlab channels 1 6 11
  (cat net.col; forestlab channels --back 1 6 11 < real.plan) | forestplan check
  forestplay ends --program recolouring < net.col | forestlab channels --run
"""


def file_in(arguments: list[str]) -> str | None:
    """The file that words name; what has digits and what is between them alone is no file."""
    is_file = len(arguments) == 1 and re.search("[^0-9\\s,;/-]", arguments[0])
    return arguments[0] if is_file and os.path.isfile(arguments[0]) else None


def channels_asked(given: Namespace, arguments: list[str], command: str) -> list[int] | None:
    """The table of real channel numbers that words of a command name, or a file; None without words.

    Its first number is channel 1 of the plan, and none comes twice.
    """
    if not arguments:
        return None
    path = file_in(arguments)
    if path is not None:
        name = one_line(path)
        text = decoded_text(bytes_at(path), name, given.stated.encoding)
        numbers, notes = licence_of(text, name, given.stated)
        for note in notes:
            print(f"{command}: {name}: {note}", file=sys.stderr)
        return each_once(numbers, InText(name))
    try:
        return each_once(numbers_of(arguments))
    except Fault as why:
        given.refuse(str(why))
        raise


def each_once(numbers: list[int], place: InText | None = None) -> list[int]:
    if len(set(numbers)) != len(numbers) or len(numbers) > MAX_CHANNEL:
        raise Fault(Code.CHANNEL_TWICE, place, most=MAX_CHANNEL)
    return numbers


def numbers_of(arguments: list[str]) -> list[int]:
    """The numbers of words, each a number or a range."""
    found: list[int] = []
    for word in re.split(r"[\s,;]+", " ".join(arguments).strip(" ,;")):
        found += range_of(word)
    return found


def range_of(word: str) -> range:
    """`6`, `1-13` or `36-64/4`."""
    digits = f"([0-9]{{1,{MOST_DIGITS}}})"
    parts = re.fullmatch(f"{digits}(?:-{digits}(?:/([0-9]{{1,6}}))?)?", word)
    if not parts:
        raise Fault(Code.NO_CHANNELS, word=shown_field(word))
    first = int(parts[1])
    last = int(parts[2] or first)
    step = int(parts[3] or 1)
    numbers = range(first, last + 1, step) if step else range(0)
    if not numbers or len(numbers) > MAX_CHANNEL or numbers[-1] != last:
        raise Fault(Code.NO_RANGE, word=word, most=MAX_CHANNEL)
    return numbers


def rows_of_run(text: str, name: str) -> list[PlanRow]:
    """(line, node, channel) of the lines of a run whose nodes have found channels."""
    found = []
    for at, line in enumerate(text.split("\n"), 1):
        parts = re.fullmatch(
            r"node ([0-9]{1,%d}) pulse [0-9]+ channel ([0-9]{1,%d})" % (MOST_DIGITS, MOST_DIGITS),
            line,
        )
        if parts:
            found.append((at, int(parts[1]), int(parts[2])))
        elif line:
            raise Fault(Code.NO_NODE_WITH_CHANNEL, InText(name, at), row=shown_field(line))
    return found


def numbers_for(rows: list[PlanRow], table: list[int] | None, given: Namespace) -> dict[int, int]:
    """What is written for each number of a plan, as the command line asks."""
    if table is None and given.run:
        return {channel: channel for _, _, channel in rows}
    if table is None:
        table = sorted({number for _, _, number in rows})
        print(f"channels: 1 to {len(table)} are {' '.join(map(str, table))}", file=sys.stderr)
    found = dict(enumerate(table, 1))
    if given.back:
        found = {number: channel for channel, number in found.items()}
    for line, _, number in rows:
        if number not in found:
            place = InText("the plan", line)
            if given.back:
                raise Fault(Code.CHANNEL_OUTSIDE_TABLE, place, number=number)
            most = max(channel for _, _, channel in rows)
            raise Fault(
                Code.CHANNEL_ABOVE_TABLE, place, number=number, table=len(table), channels=most
            )
    return found


def command_line() -> ArgumentParser:
    asked = parser_of(
        "channels",
        "[--back] TABLE.. < PLAN\n       forestlab channels --run [TABLE..] < RUN",
        HELP,
        MORE_HELP,
    )
    asked.add_argument(
        "--back", action="store_true", help="from real numbers to those that count from 1"
    )
    asked.add_argument(
        "--run",
        action="store_true",
        help="from the channels of a run, as `forestplay ends` writes them",
    )
    asked.add_argument(
        "table",
        nargs="*",
        metavar="TABLE",
        help="the real numbers, in order, or a file that has them",
    )
    add_stated(asked)
    add_output(asked)
    asked.set_defaults(refuse=asked.error)
    return asked


def check_channel_options(given: Namespace) -> None:
    """Refuses words that don't go together."""
    if not given.table and not given.back and not given.run:
        given.refuse("a table is wanted, as 1 6 11")
    if given.back and given.run:
        given.refuse("a run has no real channels, so --back and --run can't be together")


def main(arguments: list[str]) -> int:
    given = command_line().parse_args(arguments)
    given.stated = stated_by(given)
    check_channel_options(given)
    try:
        table = channels_asked(given, given.table, "channels")
        given.stated.check_found()
    except Unsaid as why:
        raise commands_for(why, ["channels"], arguments) from None
    text = text_at("-")
    if given.run:
        rows = rows_of_run(text, "the run")
    else:
        rows = plan_rows(text, "the plan", 0, 10**MOST_DIGITS)
    of = numbers_for(rows, table, given)
    write_output(given, "plan\n" + "".join(f"{node} {of[channel]}\n" for _, node, channel in rows))
    return 0
