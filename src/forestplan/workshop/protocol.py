"""What the workshop and a node say to each other (docs/learn/PROTOCOL.md): the first message, and the lines of an
answer before its line `end`."""
import re
from functools import cache

from forestplan.network import Network
from forestplan.transcripts.fields import NoEntry, wire_of as read_wire
from forestplan.workshop.findings import NoAnswer

EDITION = 1
COLOURING = "colouring"
# The forms of the lines of an answer: by assignment, and by program those in which a node says what it has found.
LINES = {
    "rounds": ["put PORT WORD NUMBER"],
    "alpha": ["put PORT WIRE", "pulse P"],
    "open": ["put PORT WORDS.."],
}
OF_COLOURING = ["colour FOREST COLOUR", "chose COLOUR"]
FOUND = {
    COLOURING: ["channel C"],
    "leader": ["leader IDENTIFIER"],
    "recolouring": ["channel C"],
    "layers": ["layer N by PORT", "layer 0", "layer none"],
    "matching": ["partner PORT", "partner none"],
    "independent-set": ["in", "out"],
}
# Those that go on after the colouring, by forests and colours.
SEQUELS = ("matching", "independent-set", "recolouring")
MOST_BYTES = 1 << 20
MOST_LETTERS = 1000  # of a payload of an own algorithm
# The line that ends an answer: as in all lines, blanks around it count for nothing.
END = re.compile(rb"(?m)^[ \t\r]*end[ \t\r]*\n")
# What there is for the words of a form: those in small letters are themselves, and all others are numbers.
FIELDS = {
    "WORD": r"(\S+)",
    "WIRE": "(.+)",
    "WORDS..": f"(.{{1,{MOST_LETTERS}}})",
    "P": "0{0,40}([0-9]{1,9})",
}
NUMBER = "0{0,40}([0-9]{1,39})"


def own_data(
    network: Network, v: int, assignment: str, of_rounds: dict[str, int | None]
) -> list[str]:
    """The lines before `end` of the first message of an `assignment` to the node v of a `network`; some are
    `of_rounds`, those that are right, which an own algorithm hasn't.

    >>> edge = Network(2, [(1, 2)])
    >>> own_data(edge, 1, "rounds", {"last": 18})[:3], own_data(edge, 1, "rounds", {"last": 18})[-2]
    (['workshop 1 rounds', 'identifier 1', 'degree 1'], 'last 18')
    """
    barred = network.bars.get(v, [])
    numbers: dict[str, int | None] = {
        "identifier": network.identifiers[v],
        "degree": len(network.neighbours[v]),
        "nodes": network.nodes,
        "delta": network.greatest_degree,
        "bars": network.greatest_bars,
        **of_rounds,
    }
    return [
        f"workshop {EDITION} {assignment}",
        *(f"{word} {n}" for word, n in numbers.items() if n is not None),
        " ".join(map(str, ["barred", len(barred), *barred])),
    ]


def lines_of(text: bytes | bytearray) -> list[str]:
    """The lines before `end`."""
    return [line.rstrip("\r") for line in text.decode("utf-8", "replace").split("\n")[:-1]]


def start_of_output(got: str | bytes | bytearray, most: int = 80) -> str:
    """The first of what a program wrote, as it may be printed in one line."""
    text = got if isinstance(got, str) else bytes(got[:most]).decode("utf-8", "replace")
    text = text.replace("\r", "").replace("\n", " | ").strip(" |")[:most]
    printed = "".join(letter if letter.isprintable() else "?" for letter in text)
    return f"`{printed} ..`" if len(got) > most else f"`{printed}`"


@cache
def forms_of(assignment: str, program: str) -> list[str]:
    """The forms of the lines of an answer in an `assignment` (rounds, alpha, open) of a `program` of this name.

    >>> forms_of("alpha", "leader")
    ['put PORT WIRE', 'pulse P', 'leader IDENTIFIER']
    """
    of_colouring = OF_COLOURING * ((assignment, program) == ("rounds", COLOURING))
    return [*LINES[assignment], *of_colouring, *FOUND[program]]


@cache
def pattern(form: str) -> re.Pattern[str]:
    return re.compile(
        " ".join(
            f"({word})" if word.islower() else FIELDS.get(word, NUMBER) for word in form.split()
        )
    )


def answer_fields(line: str, forms: list[str], degree: int) -> tuple[str, ...]:
    """The fields of a line that has one of these forms, numbers without zeros before them; a port by which something
    is put is one of the node."""
    text = " ".join(line.split())
    for form in forms:
        if found := pattern(form).fullmatch(text):
            break
    else:
        what = start_of_output(line) if text else "an empty line"
        lines = ", ".join(f"`{form}`" for form in forms)
        raise NoAnswer(
            "garbage",
            f"{what} is no line of an answer, which are {lines} and `end`; what a program prints to "
            "find mistakes goes to standard error",
        )
    if found[1] == "put" and int(found[2]) >= degree:
        ports = {0: "no port", 1: "port 0 alone"}.get(degree, f"ports 0 to {degree - 1}")
        text = f"there is no port {found[2][:9]}; the node has {ports}"
        raise NoAnswer("garbage", f"{start_of_output(line)}: {text}")
    return found.groups()


def wire_text(line: str, wire: str, program: str) -> str:
    """The wire that a line names, without zeros before its numbers; a payload is one of the program."""
    try:
        read_wire(program, *wire.encode().split())
    except NoEntry as why:
        raise NoAnswer("garbage", f"{start_of_output(line)}: {why}") from None
    return re.sub("\\b0+(?=[0-9])", "", wire)
