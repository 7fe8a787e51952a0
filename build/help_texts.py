"""Writes src/forestplan/help/, the help texts that the scripts print before anything is built, from their source: the
texts, the commands and the options in crates/command_line/src/, laid out as the programs lay them out."""
import argparse
import os
import re
from dataclasses import dataclass

from build.crate_lists import TOP

SOURCE = os.path.join("crates", "command_line", "src")
FOLDER = os.path.join("src", "forestplan", "help")
HELP = """\
Writes the help texts of src/forestplan/help/ again, from crates/command_line/src/: the texts of
help.rt, the commands of commands.rt and their options of command_options.rt.

Example:
  python3 build help-texts
"""
# A text of Rust, without its marks.
TEXT = r'"((?:[^"\\]|\\.)*)"'


@dataclass(frozen=True)
class Option:
    name: str
    value: str
    default: str
    help: str

    def text(self) -> str:
        value = f" <{self.value}>" if self.value else ""
        default = f"\n          \n          [default: {self.default}]" if self.default else ""
        return f"      --{self.name}{value}\n          {self.help}{default}"


@dataclass(frozen=True)
class Texts:
    """What help says of a program or of a command."""

    about: str
    long_about: str
    format: str


def source(name: str) -> str:
    with open(os.path.join(TOP, SOURCE, name), encoding="utf-8") as text:
        return text.read()


def said(text: str) -> str:
    """A text of Rust as it is printed."""
    return re.sub(r"\\(.)", lambda mark: "\n" if mark[1] == "n" else mark[1], text)


def texts() -> dict[str, Texts]:
    """The texts of the programs and commands, by their names in help.rt."""
    fields = r",\s*".join(rf"{field}:\s*{TEXT}" for field in ("about", "long_about", "format"))
    found = re.findall(rf"const (\w+): Help = Help \{{\s*{fields}", source("help.rt"))
    return {name: Texts(*map(said, parts)) for name, *parts in found}


def option_texts() -> dict[str, str]:
    """What help says of the options, by the names in help.rt."""
    found = re.findall(rf"const (\w+): &'static str =\s*{TEXT};", source("help.rt"))
    return {name: said(text) for name, text in found}


def options() -> dict[str, Option]:
    """The options, by the names of their functions in command_options.rt. A number has its name, its range, its default
    and its help as arguments."""
    helps = option_texts()
    found = {}
    for function, body in re.findall(
        r"^fn (\w+)<'a>\(alloc: Global\) .*?^\{(.*?)^\}", source("command_options.rt"), re.M | re.S
    ):
        default = re.search(rf"default_value\({TEXT}\)|{TEXT}, [A-Z]+\)", body)
        found[function] = Option(
            name=re.findall(TEXT, body)[0],
            value=value_of(body),
            default=(default[1] or default[2]) if default else "",
            help=helps[re.findall(r"[A-Z_]{2,}", body)[-1]],
        )
    return found


def value_of(body: str) -> str:
    """How a help text calls an option's value, of the function that makes the option; empty if it has none."""
    named = re.search(rf"value_name\({TEXT}\)", body)
    if named:
        return named[1]
    return "N" if "number(" in body else ""


def commands(table: str) -> list[tuple[str, str, list[str]]]:
    """The rows of a table of commands.rt: of each the command's name, the name of its texts, and its options."""
    code = source("commands.rt")
    lists = {
        name: [variant.lower() for variant in re.findall(r"CommandOption::(\w+)", listed)]
        for name, listed in re.findall(
            r"const (\w+): &'static \[CommandOption\] = &\[(.*?)\];", code, re.S
        )
    }
    rows = code.partition(f"const {table}:")[2].partition("\n];")[0]
    return [
        (name, texts, lists[options])
        for name, texts, options in re.findall(
            rf"name: {TEXT},\s*help: help::(\w+),\s*options: (\w+)", rows
        )
    ]


def laid_out(usage: str, texts: Texts, parts: str, given: list[Option]) -> str:
    """A help text: what it is about, the usage, the commands, if it has some, the options, and the rest."""
    entries = [*(option.text() for option in given), "  -h, --help\n          Print help"]
    shown = "\n\n".join(entries)
    return f"{texts.long_about}\n\nUsage: {usage}\n\n{parts}Options:\n{shown}\n\n{texts.format}\n"


def help_texts() -> dict[str, str]:
    """The help texts by the names of their files."""
    said_of = texts()
    option_of = options()
    found = {}
    for program, table in (("forestplan", "PLAN_COMMANDS"), ("forestplay", "PLAY_COMMANDS")):
        rows = commands(table)
        width = max(len(name) for name, _, _ in rows)
        parts = "".join(f"  {name:{width}}  {said_of[text].about}\n" for name, text, _ in rows)
        found[f"{program}.txt"] = laid_out(
            f"{program} <COMMAND>", said_of[program.upper()], f"Commands:\n{parts}\n", []
        )
        for name, text, options_given in rows:
            usage = f"{program} {name} [OPTIONS]" if options_given else f"{program} {name}"
            given = [option_of[option] for option in options_given]
            found[f"{program}-{name}.txt"] = laid_out(usage, said_of[text], "", given)
    return found


def main() -> int:
    parser = argparse.ArgumentParser(
        "python3 build help-texts", description=HELP, formatter_class=argparse.RawTextHelpFormatter
    )
    parser.parse_args()
    for name, text in help_texts().items():
        with open(os.path.join(TOP, FOLDER, name), "w", encoding="utf-8") as file:
            file.write(text)
    return 0
