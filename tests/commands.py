"""The one table of all commands: those of the programs and of forestlab.

Each has a small input and the answer to it, worked by hand. What tests every command reads it from here, and
tests/programs/test_commands.py fails if a command is missing. In the texts '|' is a line feed."""
from dataclasses import dataclass

EDGE, TRIANGLE, APART, ALONE = (
    "p edge 2 1|e 1 2|",
    "p edge 3 3|e 1 2|e 1 3|e 2 3|",
    "p edge 2 0|",
    "p edge 1 0|",
)
PULSES = range(1, 13)
# 30 is 12 + 3 U (D + B + 1), with U = D = 2 and B = 0.
ENDS = "node 1 pulse 30 channel 2|node 2 pulse 30 channel 3|node 3 pulse 30 channel 1|"
STEPS = [
    "greet",
    "orient",
    "seed",
    "step",
    "step",
    "step",
    "step",
    "shift",
    "drop",
    "shift",
    "drop",
    "shift",
    "drop",
]


@dataclass(frozen=True)
class Command:
    """A command of a program. Its help text is src/forestplan/help/PROGRAM-NAME.txt."""

    program: str
    name: str
    # A small input, and the answer to it.
    data: str
    answer: str
    # The options that it has, each with a number.
    options: tuple[str, ...] = ()
    # Further words: with them it has threads, and the answer is the same each time.
    arguments: tuple[str, ...] = ()

    @property
    def line(self):
        """The words of a call."""
        return [self.name, *self.arguments]

    @property
    def line_of_one(self):
        """The words of a call with one worker."""
        return [self.name, *(("--workers", "1") if "workers" in self.options else ())]

    @property
    def usage(self):
        """Its usage as a refusal has it."""
        has_options = self.options or self.program == "forestplay"
        return f"{self.program} {self.name}" + (" [OPTIONS]" if has_options else "")


COMMANDS = (
    Command("forestplan", "forests", TRIANGLE, "forests 3 2|0 1 2|0 2 3|1 1 3|"),
    Command("forestplan", "plain", TRIANGLE, "plan|1 2|2 3|3 1|"),
    Command(
        "forestplan",
        "plan",
        TRIANGLE,
        "plan|1 2|2 3|3 1|",
        options=("workers", "capacity", "turns"),
        arguments=("--workers", "2"),
    ),
    Command(
        "forestplan",
        "transcript",
        APART,
        "transcript 2 2|" + "".join(f"{p} {v} pulse {p}|" for p in PULSES for v in (1, 2)),
        options=("workers", "capacity", "turns", "edition"),
        arguments=("--workers", "2"),
    ),
    Command("forestplan", "check", EDGE + "plan|1 2|2 1|", "proper 2|"),
    Command(
        "forestplay",
        "events",
        EDGE + "put 1 0|",
        "node 1 pulse 0|link 1 2 taken 0 payload 0 hello 1|node 2 pulse 0|link 2 1 taken 0|",
        options=("root", "passes"),
    ),
    Command(
        "forestplay",
        "replay",
        ALONE + "transcript 1 1|1 pulse 1|1 pulse 2|",
        "node 1 pulse 2|",
        options=("root", "passes"),
    ),
    Command(
        "forestplay",
        "rounds",
        ALONE,
        "rounds 1 1 0 0 12|" + "".join(f"pulse {p} {step}|" for p, step in enumerate(STEPS)),
        options=("root", "passes"),
    ),
    Command(
        "forestplay",
        "run",
        TRIANGLE,
        ENDS,
        options=("root", "passes", "workers", "capacity", "turns"),
        arguments=("--workers", "2"),
    ),
    Command("forestplay", "alone", TRIANGLE, ENDS, options=("root", "passes")),
    Command("forestplay", "ends", TRIANGLE, ENDS, options=("root", "passes")),
)
PROGRAM_OF = {command.name: command.program for command in COMMANDS}
PROGRAMS = ("forestplan", "forestplay")
# The words of each call for help, and the name of its text in src/forestplan/help/.
HELPS = [([program], program) for program in PROGRAMS] + [
    ([command.program, command.name], f"{command.program}-{command.name}") for command in COMMANDS
]


def commands_of(program):
    return [command for command in COMMANDS if command.program == program]


@dataclass(frozen=True)
class Script:
    """A command of forestlab."""

    name: str
    # The words of a call, its standard input, and a pattern of all that it prints. FILE is a network of two nodes that
    # don't interfere.
    arguments: tuple[str, ...]
    data: str
    answer: str

    @property
    def line(self):
        """The words of a call of it."""
        return ["forestlab", *self.name.split(), *self.arguments]


ENDED = "transcript 1 2|" + "".join(f"{v} pulse {p}|" for v in (1, 2) for p in PULSES)
SCRIPTS = (
    Script("picture", ("plan", "FILE", "--plan", "-"), "plan|1 1|2 1|", r"<svg [^\0]*</svg>\n"),
    Script(
        "network",
        ("path", "3"),
        "",
        r"(c [^\n]*\n)*p edge 3 2\n(c [^\n]*\n)*e 1 2\ne 2 3\n(c [^\n]*\n)*",
    ),
    Script("channels", ("1", "6", "11"), "plan|1 3|2 1|", r"plan\n1 11\n2 1\n"),
    # Each of two nodes that are apart makes its 12 pulses by itself: 13 times 13 states.
    Script(
        "explore",
        ("FILE",),
        "",
        r"every schedule of net: 169 states, [^\0]*\none end: channels 1 1\n",
    ),
    Script(
        "simulate",
        ("FILE", "--policy", "oldest"),
        "",
        r"transcript 2 2\n(\d+ [12] pulse \d+\n){24}",
    ),
    Script("transcript", ("--help",), "", r"usage: forestlab transcript [^\0]*"),
    Script(
        "transcript check",
        ("FILE",),
        ENDED,
        r"whole run of 2 nodes, 24 entries, 0 payloads, 0 wires\n",
    ),
    Script(
        "transcript replay",
        ("FILE",),
        ENDED,
        r"node 1 pulse 12 channel 1\nnode 2 pulse 12 channel 1\n",
    ),
    Script(
        "transcript convert",
        ("json",),
        "transcript 2 1|1 1 pulse 1|",
        r'{"edition": 2, "nodes": 1}\n{"line": 2, "stamp": 1, "node": 1, "kind": "pulse", "pulse": 1}\n',
    ),
    # It doesn't end by itself; tests/programs/test_studio.py asks it more.
    Script("studio", ("--help",), "", r"usage: forestlab studio [^\0]*"),
    Script("workshop", ("--help",), "", r"usage: forestlab workshop [^\0]*"),
    Script("sheet", ("--seed", "7", "--lesson", "2"), "", r"<!doctype html>[^\0]*</html>\n"),
)
