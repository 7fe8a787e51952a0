"""Makes a crate with a node program, from the crate `silent`; or with one that goes on after the colouring, from
`independent_set`."""
import glob
import os
import re

from build.crate_lists import TOP, lines_of
from build.kit import PARTS
from forestplan.fault_codes import Code
from forestplan.faults import Fault, InText
from forestplan.parsers import parser_of
from forestplan.workshop.class_files import write_file

# What a crate is called as a crate, as a type, and as a name in texts.
Model = tuple[str, str, str]
# The crates that are copied.
MODEL = ("silent", "Silent", "silent")
SEQUEL = ("independent_set", "IndependentSet", "independent-set")

HELP = f"""\
Makes the crate crates/NAME with a node program, all of it proved already: a copy of
the crate `{MODEL[0]}`, whose nodes send nothing, with every law, the program's words in
texts, a law about its last states, and a test. NAME is a word of small letters, as
`{MODEL[0]}`, that neither Rust nor the copied code has; it is the program's name in texts
and in `forestplay run --program NAME`, too.

With --sequel it is a copy of the crate `{SEQUEL[0]}`, which goes on after the
colouring: its payloads beside the colouring's, its laws, its theorem, and a test.
"""

MORE_HELP = """\
What to change then, one place after another, is in docs/work/OWN_PROGRAM.md. In the
crate's folder `rt try --test` runs its test unproved, within a minute, and `rt check`
proves it.

Status: 0 done, 1 it can't be made (one line on standard error says why), 2 the command
line is refused.

Example:
  python3 build new-program echoes
"""


def renamed(text: str, model: Model, name: str) -> str:
    """The text of a model with this name in the place of its own."""
    crate, title, word = model
    return text.replace(title, name.title()).replace(crate, name).replace(word, name)


def add_test(name: str, top: str, model: Model) -> None:
    """Writes the model's test, a module of `checks`, as one of the copy."""
    source = os.path.join(top, "crates", name, "src")
    test = f"crates/checks/src/{model[0]}_checks.rt"
    root = os.path.join(source, "lib.rt")
    with open(os.path.join(TOP, test), encoding="utf-8") as text:
        own = renamed(text.read(), model, name).replace(f"use {name}::", "use crate::")
        write_file(os.path.join(source, "tests.rt"), own)
    with open(root, encoding="utf-8") as text:
        write_file(root, text.read().replace("mod texts;", "#[cfg(test)]\nmod tests;\nmod texts;"))


def copy(name: str, top: str, model: Model = MODEL) -> None:
    """Writes the crate, of which nothing is there before, and its line of crates.txt, after the model's.
    Its test makes rounds, so the line has `sync_rounds`, too."""
    if not re.fullmatch("[a-z]{1,20}", name):
        raise Fault(Code.NO_NAME_FOR_A_PROGRAM, InText(name))
    if os.path.exists(os.path.join(top, "crates", name)) or name == "colouring":
        raise Fault(Code.NAME_TAKEN, InText(name))
    source = os.path.join(TOP, "crates", model[0])
    for part in PARTS:
        for path in glob.glob(os.path.join(source, part, "**", "*.*"), recursive=True):
            to = renamed(os.path.relpath(path, source), model, name)
            with open(path, encoding="utf-8") as text:
                write_file(os.path.join(top, "crates", name, to), renamed(text.read(), model, name))
    add_test(name, top, model)
    path = os.path.join(top, "crates.txt")
    with open(path, encoding="utf-8") as text:
        line = lines_of(top)[model[0]]
        write_file(
            path, text.read().replace(line, f"{line}\n{renamed(line, model, name)} sync_rounds")
        )


def main() -> int:
    parser = parser_of("new-program", "[--sequel] NAME", HELP, MORE_HELP, "python3 build")
    parser.add_argument("name", metavar="NAME", help="the program's name, a word of small letters")
    parser.add_argument(
        "--sequel", action="store_true", help="a program that goes on after the colouring"
    )
    given = parser.parse_args()
    copy(given.name, TOP, SEQUEL if given.sequel else MODEL)
    print(
        f"crates/{given.name} is there, and its line in crates.txt. What to change is in "
        f"docs/work/OWN_PROGRAM.md.\n"
        f"Try it: cd crates/{given.name} && rt try --test    Prove it: rt check"
    )
    return 0
