"""The command `forestlab`: bin/forestlab calls `python3 -S src/forestplan COMMAND [words]`. How a command ends in place
of a traceback is in process_exit.py."""
import importlib
import os
import sys
from collections.abc import Callable

HERE = os.path.dirname(os.path.realpath(__file__))
# The module of each command, whose `main` takes the words after the command and returns the status, and its line of
# help; by what a reader wants, in the order of the help text.
READERS = {
    "To see": {
        "studio": (
            "forestplan.studio.studio",
            "opens a page in the browser: draw a network, and everything moves",
        ),
        "picture": (
            "forestplan.pictures.picture",
            "draws plans, rounds and runs, and makes pages that play them",
        ),
        "network": (
            "forestplan.networks.network",
            "makes networks, reads yours from other forms, and describes them",
        ),
        "channels": (
            "forestplan.networks.channels",
            "turns the channels 1, 2, 3 of a plan into your real ones",
        ),
    },
    "To run": {
        "simulate": (
            "forestplan.schedules.simulate",
            "makes a run without a clock, by a seed or a list of events",
        ),
        "explore": (
            "forestplan.schedules.explore",
            "checks each state that any order of events reaches, on a small network",
        ),
    },
    "To judge": {
        "transcript": (
            "forestplan.transcripts.transcript",
            "checks, replays and converts transcripts",
        )
    },
    "To teach": {
        "workshop": (
            "forestplan.workshop.workshop",
            "runs students' nodes, and has the proved programs judge them",
        ),
        "sheet": ("forestplan.pictures.sheet", "prints question sheets, and their answers"),
    },
}
COMMANDS = {name: module for commands in READERS.values() for name, (module, _) in commands.items()}
HELP = """\
Draws, runs, judges and teaches what forestplan computes.

usage: forestlab COMMAND [words]

{commands}
`forestlab COMMAND --help` says more of each, and `forestlab --version` which version
this is. These commands are Python over slow definitions: tested, not proved. The
proved programs are `forestplan` and `forestplay`, and a command that asks one says so.

A NETWORK is the name of an example (petersen), a kind with its size (path5, ring7,
star4, complete4, grid3x4, queen5x5), a file, or - for standard input; where a file has
such a name, ./petersen is the file. -o FILE writes to a file that stays as it was if
something goes wrong. The same --seed gives the same result.

Status: 0 done, and right where something is judged; 1 what was given can't be read, or
isn't right; 2 the command line is refused; 130 stopped by Ctrl-C.
"""


# A Python that is too old reads this file alone, so hints that it doesn't know are in quotes.


def main() -> int:
    # Run as a folder, its own place comes first where modules are looked for; `python3 -m forestplan` runs a package.
    python = importlib.import_module("forestplan._python" if __package__ else "_python")
    if python.IS_TOO_OLD:
        return refused(f"{python.NEEDED} is needed, and python3 is {python.FOUND}")
    # The package is one above, maybe among others, whose modules mustn't come before Python's own; so nothing else is
    # looked for there.
    sys.path[0] = os.path.dirname(HERE)
    importlib.import_module("forestplan")
    del sys.path[0]
    name = sys.argv[1] if len(sys.argv) > 1 else ""
    arguments = sys.argv[2:]
    process_exit = importlib.import_module("forestplan.process_exit")
    # What a file of the user's does mustn't end this command, nor its status.
    calls_a_file = name != "studio" and any(word.endswith(".py") for word in arguments)
    run = process_exit.run_apart if calls_a_file else process_exit.run_command
    status: int = run(
        name if name in COMMANDS else "forestlab", lambda: command_named(name, arguments)
    )
    return status


def command_named(name: str, arguments: "list[str]") -> "Callable[[], int]":
    """The command of this name with its arguments: a function that returns the status."""
    if name == "--version" or name in COMMANDS and arguments == ["--version"]:
        version: "Callable[[], int]" = importlib.import_module("forestplan.version").main
        return version
    if name in ("-h", "--help"):
        return help_text
    # The script `forestplan` asks for `progress`.
    module = (COMMANDS | {"progress": "forestplan.progress"}).get(name)
    if module is None:
        what = f"there is no command {name}" if name else "a command is missing"
        return lambda: refused(f"{what}; try --help")
    if not is_there(module):
        return lambda: refused(
            f"{name} isn't in this folder of a class; your teacher's folder has it, and "
            "docs/pictures the lessons' pictures"
        )
    command: "Callable[[list[str]], int]" = importlib.import_module(module).main
    return lambda: command(arguments)


def is_there(module: str) -> bool:
    """Whether this folder has a module: that of a class lacks those that solve its assignment."""
    return os.path.isfile(os.path.join(HERE, *module.split(".")[1:]) + ".py")


def help_text() -> int:
    lines = []
    for reader, commands in READERS.items():
        found = [
            f"  {name:<12}{does}" for name, (module, does) in commands.items() if is_there(module)
        ]
        lines += [reader, *found] if found else []
    sys.stdout.write(HELP.format(commands="".join(line + "\n" for line in lines)))
    return 0


def refused(what: str) -> int:
    print(f"forestlab: {what}", file=sys.stderr)
    return 2


if __name__ == "__main__":
    sys.exit(main())
