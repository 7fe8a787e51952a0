"""The parsers of the command lines, and the options that mean one thing in all commands."""
import argparse
import re
import sys
from collections.abc import Callable, Sequence
from typing import IO, NoReturn, TypeAlias

from forestplan.wording import as_utf8, one_line


class Parser(argparse.ArgumentParser):
    """A parser that refuses in one short line, whatever word it repeats, and passes over no help that can't be
    written."""

    def error(self, message: str) -> NoReturn:
        super().error(re.sub(r"\S{200,}", lambda word: f"{word[0][:80]}..", one_line(message)))

    def _print_message(self, message: str, file: IO[str] | None = None) -> None:
        (file or sys.stderr).write(message)


class Command(Parser):
    """The parser of a command below another one, which refuses the words that it doesn't know with its own usage."""

    def parse_known_args(
        self, args: Sequence[str] | None = None, namespace: argparse.Namespace | None = None
    ) -> tuple[argparse.Namespace, list[str]]:
        given, others = super().parse_known_args(args, namespace)
        if others:
            self.error(f"unrecognized arguments: {' '.join(others)}")
        return given, others


# What holds the commands below one.
Commands: TypeAlias = "argparse._SubParsersAction[Command]"


def parser_of(
    name: str, arguments: str, what: str, more: str | None, door: str = "forestlab"
) -> Parser:
    """The parser of `forestlab NAME WORDS`, whose help begins with `what` and ends with `more`, as they stand."""
    return Parser(
        prog=f"{door} {name}",
        usage=f"{door} {name} {arguments}",
        description=what,
        epilog=more,
        formatter_class=argparse.RawDescriptionHelpFormatter,
    )


def add_commands(parser: Parser, what: str = "command") -> Commands:
    return parser.add_subparsers(
        dest=what,
        metavar=what.upper(),
        required=True,
        help="one of those above",
        parser_class=Command,
    )


def add_command(
    commands: Commands, name: str, arguments: str, what: str, more: str, example: str
) -> Command:
    """The parser of `forestlab NAME WORDS`, one of several commands: its help is a line, more of it, and an example."""
    return commands.add_parser(
        name.split()[-1],
        prog=f"forestlab {name}",
        usage=f"forestlab {name} {arguments}",
        description=f"{what}\n\n{more}".rstrip(),
        epilog=f"Example:\n  {example}",
        formatter_class=argparse.RawDescriptionHelpFormatter,
    )


def add_output(parser: argparse.ArgumentParser) -> None:
    """The option -o, for what `write` writes."""
    parser.add_argument(
        "-o", "--output", metavar="FILE", help="write to this file, and not to standard output"
    )


def add_seed(
    parser: argparse.ArgumentParser, what: str = "whatever is random comes from it"
) -> None:
    parser.add_argument(
        "--seed",
        default="1",
        type=as_utf8,
        metavar="WORD",
        help=f"any word or number; {what}; default: 1",
    )


def count(text: str, most: int = 10**9 - 1) -> int:
    """The number of an option: from 1 up to the greatest."""
    if not (text.isascii() and text.isdecimal() and len(text) < 10 and 1 <= int(text) <= most):
        raise argparse.ArgumentTypeError(f"{text} is no number from 1 to {most:,}")
    return int(text)


def some_of(*names: str) -> Callable[[str], tuple[str, ...]]:
    """The type of an option that takes some of these words, with commas between."""

    def chosen(text: str) -> tuple[str, ...]:
        picked = tuple(dict.fromkeys(text.split(",")))
        if not set(picked) <= set(names):
            raise argparse.ArgumentTypeError(f"some of {','.join(names)}")
        return picked

    return chosen


def source_of(seed: str) -> int | str:
    """What the generator of a seed begins with: a number is one, so that 7 and 07 are one seed."""
    return int(seed) if seed.isascii() and seed.isdecimal() and len(seed) < 100 else seed
