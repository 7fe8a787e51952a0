"""Writes the table of all commands in README.md: what the help texts of forestplan, forestplay and forestlab say of
each command, in their order."""
import argparse
import os
import re

from build.crate_lists import PROGRAMS, TOP
from forestplan.__main__ import READERS

PAGE = "README.md"
BEGIN = "<!-- Written by `python3 build command-table` from the help texts: -->\n"
END = "<!-- Up to here. -->\n"
HELP = """\
Writes the table of commands in README.md again, from the help texts of src/forestplan/help/ and of
forestlab.

Example:
  python3 build command-table
"""


def read(*path: str) -> str:
    with open(os.path.join(TOP, *path), encoding="utf-8") as text:
        return text.read()


def of_program(program: str) -> list[tuple[str, str]]:
    """The commands in a help text, each with its line. If a line names another command, the name is marked as code: it
    comes after `of` or `while`, where no other word of these lines is the name of a command."""
    block = (
        read("src", "forestplan", "help", f"{program}.txt")
        .partition("\nCommands:\n")[2]
        .partition("\n\n")[0]
    )
    found = re.findall(r"^ +([a-z]+) +(\S.*)$", block, re.M)
    names = "|".join(name for name, _ in found)
    marked = rf"\b(of|while) ({names})\b"
    return [(name, re.sub(marked, r"\1 `\2`", does[0].lower() + does[1:])) for name, does in found]


def table() -> str:
    rows = [(program, *row) for program in PROGRAMS for row in of_program(program)]
    rows += [
        ("forestlab", name, does)
        for commands in READERS.values()
        for name, (_, does) in commands.items()
    ]
    return "Command | Does\n---|---\n" + "".join(
        f"`{program} {name}` | {does}\n" for program, name, does in rows
    )


def written(page: str) -> str:
    """The page with its table as it is now."""
    before, rest = page.split(BEGIN)
    return f"{before}{BEGIN}\n{table()}\n{END}{rest.split(END)[1]}"


def main() -> int:
    parser = argparse.ArgumentParser(
        "python3 build command-table",
        description=HELP,
        formatter_class=argparse.RawTextHelpFormatter,
    )
    parser.parse_args()
    text = written(read(PAGE))
    with open(os.path.join(TOP, PAGE), "w", encoding="utf-8") as page:
        page.write(text)
    return 0
