"""What is made of the help of the three commands: what completes their words in bash and zsh, and a manual page of
each."""
import functools
import os
import re
import subprocess
import sys
from collections.abc import Iterable, Iterator

from build.crate_lists import TOP
from forestplan.networks.forms import ENDINGS
from forestplan.pictures.run_picture import KINDS
from forestplan.pictures.sheet import LESSONS
from forestplan.schedules.policies import POLICIES
from forestplan.schedules.rules import OF_ANY_ROUNDS, OF_SCHEDULES
from forestplan.transcripts.conversions import FORMS
from forestplan.transcripts.transcript import ROUNDS
from forestplan.transcripts.fields import PAYLOADS

COMMANDS = ("forestplan", "forestplay", "forestlab")
# The words of a command, what their help prints, and the commands below.
Help = tuple[tuple[str, ...], str, list[str]]
# What of forestlab has commands of its own, each in a line of the help; and `workshop`, whose help has no list.
WITH_COMMANDS = ((), ("picture",), ("network",), ("transcript",))
OF_WORKSHOP = ["grade", "class"]
# The words that a first argument, or an option, may be; with a command's name before it, of that command alone.
ARGUMENTS: dict[str, Iterable[str]] = {
    "convert": (*FORMS, ROUNDS),
    "workshop": ("rounds", "alpha", "open"),
}
VALUES: dict[str, Iterable[str]] = {
    "--as": ENDINGS,
    "--edition": ("1", "2"),
    "--lesson": [str(lesson) for lesson in LESSONS],
    "--only": KINDS,
    "--policies": POLICIES,
    "--policy": POLICIES,
    "--program": PAYLOADS,
    "--without": OF_SCHEDULES | OF_ANY_ROUNDS,
    "broken --without": OF_ANY_ROUNDS,
    "schedules --without": OF_SCHEDULES,
}
HEAD = """\
#compdef forestplan forestplay forestlab
# Completes the words of forestplan, forestplay and forestlab in bash and zsh: `source` it, or put it where these look.
# Made by `python3 build completion`.

# Finds what may come after the words of $1, with a blank after each, of which $2 is the last.
_forestlab_words() {
  options= found=
  case $1 in
"""
TAIL = """\
  esac
}

if [ -n "${ZSH_VERSION-}" ]; then
  _forestlab() {
    local options found before=$words[CURRENT-1]
    if [[ $words[CURRENT] == --*=* ]]; then before=${words[CURRENT]%%=*}; compset -P '*='; fi
    _forestlab_words "${words[1,CURRENT-1]} " "$before"
    [[ $PREFIX != -* ]] || found=$options
    compset -P '*,'
    compadd -- ${=found} || _files
  }
  # Where zsh looks, this file is the function itself, and is read when it is called.
  if [ "${funcstack[1]-}" = _forestlab ]; then
    _forestlab "$@"
  else
    whence compdef >/dev/null || { autoload -Uz compinit && compinit; }
    compdef _forestlab forestplan forestplay forestlab
  fi
else
  _forestlab() {
    local options found word=${COMP_WORDS[COMP_CWORD]} at=$((COMP_CWORD - 1)) start=
    [[ $word != = ]] || { word= at=$((at + 1)); }
    [[ ${COMP_WORDS[at]} != = ]] || at=$((at - 1))
    _forestlab_words "${COMP_WORDS[*]:0:COMP_CWORD} " "${COMP_WORDS[at]}"
    [[ $word != -* ]] || found=$options
    [[ $word != *,* ]] || start=${word%,*},
    COMPREPLY=($(compgen -P "$start" -W "$found" -- "${word##*,}"))
  }
  # If nothing is found bash has the names of files, and quotes them.
  complete -o default -F _forestlab forestplan forestplay forestlab
fi
"""


def commands_in(arguments: tuple[str, ...], text: str) -> list[str]:
    """The commands that the help text of some words lists."""
    listed = re.search(r"^Commands:\n((?:  .*\n)+)", text, re.M)
    if listed:
        return re.findall(r"^  ([a-z]+) ", listed.group(1), re.M)
    if arguments == ("forestlab", "workshop"):
        return OF_WORKSHOP
    if arguments[0] != "forestlab" or arguments[1:] not in WITH_COMMANDS:
        return []
    before = re.split("positional arguments:|^Example", text, flags=re.M)[0]
    return re.findall(r"^  ([a-z]+) (?:[A-Z]+ )* *[a-z]", before, re.M)


@functools.cache
def helps(folder: str, *arguments: str) -> list[Help]:
    """The help of a command in a folder, and then of each below it."""
    text = subprocess.run(
        [os.path.join(folder, arguments[0]), *arguments[1:], "--help"],
        stdin=subprocess.DEVNULL,
        check=True,
        stdout=subprocess.PIPE,
        text=True,
        env=dict(os.environ, COLUMNS="80", PYTHONDONTWRITEBYTECODE="1"),
    ).stdout
    below = commands_in(arguments, text)
    return [
        (arguments, text, below),
        *(found for name in below for found in helps(folder, *arguments, name)),
    ]


def cases_of(arguments: tuple[str, ...], text: str, below: list[str]) -> Iterator[str]:
    """The lines of the shell for some words: which options there are, what else may come, and what after an option."""
    options = sorted(set(re.findall(r"^ +(?:-\w(?: [A-Z.]+)?, )?(--[a-z-]+)", text, re.M)))
    # A path may be before the command's name, and more words after all of them.
    pattern = "*" + "".join(f"{word}\\ " for word in arguments) + "*"
    first = " ".join([*below, *ARGUMENTS.get(arguments[-1], ())])
    yield f'    {pattern}) options="{" ".join(options)}" found="{first}"\n      case $2 in\n'
    for option in options:
        values = VALUES.get(f"{arguments[-1]} {option}", VALUES.get(option))
        if values:
            yield f'        {option}) found="{" ".join(values)}" ;;\n'
    yield "      esac ;;\n"


def completion(folder: str) -> str:
    """The file that completes the words of the commands in a folder. The shell takes the first pattern that fits, so
    those of more words come first."""
    found = [of for name in COMMANDS for of in helps(folder, name)]
    found.sort(key=lambda of: -len(of[0]))
    return HEAD + "".join(line for of in found for line in cases_of(*of)) + TAIL


def as_roff(text: str) -> str:
    """A text that is printed line by line, unchanged."""
    lines = [
        line.replace("\\", "\\e").replace("-", "\\-") for line in text.rstrip("\n").split("\n")
    ]
    return (
        ".nf\n"
        + "".join(("\\&" if line[:1] in (".", "'") else "") + line + "\n" for line in lines)
        + ".fi\n"
    )


def manual(folder: str, name: str) -> str:
    """The manual page of a command: its purpose, the first sentence of its help that isn't its usage, and each help."""
    (_, text, _), *below = helps(folder, name)
    first = (
        re.sub(r"\Ausage: .*\n(?: +.*\n)*", "", text)
        .lstrip("\n")
        .split("\n\n")[0]
        .replace("\n", " ")
    )
    purpose = re.split(r"(?<=[a-z])\.(?:\s|$)", first)[0]
    page = f'.TH "{name.upper()}" 1 "" "forestplan" "User Commands"\n.SH NAME\n'
    page += f"{name} \\- {purpose[:1].lower()}{purpose[1:]}\n.SH DESCRIPTION\n{as_roff(text)}"
    return page + "".join(
        f'.SH "{" ".join(arguments).upper()}"\n{as_roff(said)}' for arguments, said, _ in below
    )


def main() -> int:
    if sys.argv[1:] in (["-h"], ["--help"]):
        print(
            "Prints what completes the words of forestplan, forestplay and forestlab in bash and zsh.\n\n"
            "Example:\n  source <(python3 build completion)"
        )
        return 0
    sys.stdout.write(completion(os.path.join(TOP, "bin")))
    return 0
