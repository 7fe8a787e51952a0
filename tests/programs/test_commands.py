"""The table of all commands (tests/commands.py) beside the help texts and bin/: none is missing."""
import argparse
import contextlib
import os
import pty
import re
import subprocess
import sys

from build import completion, help_texts, page_types
from build.__main__ import MODULES
from forestplan.__main__ import COMMANDS as OF_LAB
from forestplan.parsers import count
from tests import TOP
from tests.cases import Case, called, contents, forestlab, text_in
from tests.commands import HELPS, SCRIPTS, commands_of
from tests.settings import PATHS
from tests.tools import need

# Seconds; a busy machine takes long for the many calls.
LIMIT = 300


# Lines whose next word can't be `nothing`: the refusal lists what it may be.
REFUSED = (
    "forestlab network read --as",
    "forestlab simulate two --policy",
    "forestlab simulate two --program",
    "forestlab workshop alpha --policies",
    "forestlab workshop alpha --program",
    "forestlab picture run two --only",
    "forestlab picture schedules two --without",
    "forestlab picture broken two --without",
    "forestlab explore two --without",
    "forestlab transcript convert",
    "forestplay rounds --program",
)

# How each shell begins without the user's own files, with the completion in a file `_forestlab` of this folder.
SHELLS = {
    "bash": ("bash --norc -i", ". ./_forestlab"),
    "zsh": ("zsh -f -i", "autoload -Uz compinit && compinit -u -D && . ./_forestlab"),
    "zsh by its path": (
        "zsh -f -i",
        "fpath=($PWD $fpath); autoload -Uz compinit && compinit -u -D",
    ),
}
# What is typed before Tab, and the words of the line then.
TYPED = {
    "forestlab network que": "forestlab network queen",
    "bin/forestlab transcript check --j": "bin/forestlab transcript check --json",
    "forestplan tr": "forestplan transcript",
    "forestplay run --tr": "forestplay run --transcript",
    "forestplay run --program mat": "forestplay run --program matching",
    "forestlab network read --as ad": "forestlab network read --as adjacency",
    "forestlab network read --as=ad": "forestlab network read --as=adjacency",
    "forestlab workshop alpha --policies random,late-a": "forestlab workshop alpha --policies random,late-acks",
    "forestlab workshop gra": "forestlab workshop grade",
    "forestlab network read the": "forestlab network read the <net>.csv",
    "forestlab simulate two --program my": "forestlab simulate two --program my_own.py",
}


def typed(shell, folder):
    """What a terminal shows where each line is typed in a folder, completed by Tab, and then printed: before it, after
    the key that goes to its beginning, the command that prints its words is typed."""
    command, begin = SHELLS[shell]
    ours, its = pty.openpty()
    lines = "".join(f"{line}\t\x01printf '<%s> ' \n" for line in TYPED)
    env = dict(os.environ, TERM="dumb")
    with subprocess.Popen(
        command.split(),
        stdin=its,
        stdout=its,
        stderr=its,
        env=env,
        cwd=folder,
        start_new_session=True,
    ) as started:
        os.close(its)
        os.write(ours, f"{begin}\n{lines}exit\n".encode())
        said = b""
        # At its end the other side of the terminal is closed, which is an error to who reads.
        with contextlib.suppress(OSError):
            while more := os.read(ours, 1 << 16):
                said += more
        os.close(ours)
        started.wait(LIMIT)
    return said.decode()


def listed(line: str) -> set[str]:
    """The words that the refusal of another one lists."""
    said = called("bash", "-c", f"bin/{line} nothing", cwd=TOP)[2]
    names = said.decode().split("\n\nFor more")[0].rpartition(": ")[2]
    names = re.sub(r".*some of |.*there are |.*choose from |, and a file.*", "", names)
    return set(re.findall(r"[\w-]+", names))


def completed(script: str, line: str) -> tuple[set[str], bytes]:
    """The words that complete a line, and what is said besides."""
    shell = (
        'source "$0"; COMP_WORDS=("$@") COMP_CWORD=$(($# - 1)); _forestlab; '
        'printf "%s\\n" "${COMPREPLY[@]}"'
    )
    _, words_said, said = called("bash", "-c", shell, script, *line.split(), "")
    return set(words_said.decode().split()), said


class Commands(Case):
    def test_version(self) -> None:
        """It names each kit for which the sources are."""
        kits = text_in("build", "kits.txt").split("\n")
        status, out, _ = forestlab("--version")
        lines = out.decode().splitlines()
        self.same("the kits", (status, lines[2]), (0, f"kit {' or '.join(filter(None, kits))}"))

    def test_numbers_of_options(self) -> None:
        for text, number in (("1", 1), ("007", 7), ("999999999", 999_999_999)):
            self.same(text, count(text), number)
        for text in ("0", "1000000000", "0000000001", "-1", "+1", "1.0", "1_0", "", " 1", "\u0663"):
            with self.subTest(text), self.assertRaises(argparse.ArgumentTypeError):
                count(text)

    def test_page_types(self):
        """The types of what the pages ask and get are those that `python3 build page-types` writes."""
        for path, text in page_types.page_types().items():
            self.same(path, text_in(path), text)

    def test_help_texts(self):
        """The table has each command of a program, and src/forestplan/help/ their texts as `python3 build help-texts`
        writes them; test_black_box.py compares these with the programs'."""
        for program in PATHS:
            listed = completion.commands_in(
                (program,), text_in("src", "forestplan", "help", f"{program}.txt")
            )
            self.same(
                f"the commands of {program}",
                [command.name for command in commands_of(program)],
                listed,
            )
        self.same(
            "src/forestplan/help/",
            {f"{name}.txt" for _, name in HELPS},
            set(os.listdir(os.path.join(TOP, "src", "forestplan", "help"))),
        )
        written = help_texts.help_texts()
        self.same(
            "the texts that help-texts writes", {f"{name}.txt" for _, name in HELPS}, set(written)
        )
        for name, text in written.items():
            self.same(
                f"src/forestplan/help/{name} as its source has it",
                text_in("src", "forestplan", "help", name),
                text,
            )

    def test_scripts(self):
        """The table has each command of forestlab, and each command below one has an example in its help."""
        self.same(
            "bin/", sorted(os.listdir(os.path.join(TOP, "bin"))), ["forestlab", *sorted(PATHS)]
        )
        self.same(
            "the commands of forestlab", {script.name.split()[0] for script in SCRIPTS}, set(OF_LAB)
        )
        found = completion.helps(os.path.join(TOP, "bin"), "forestlab")
        below = [(" ".join(arguments), text) for arguments, text, _ in found if len(arguments) > 2]
        for name, text in below:
            self.note(f"{name} --help has an example", f"{name} " in text.partition("\nExample")[2])
        self.note("commands below others", len(below) > 26, below)
        for name in MODULES:
            done = called(sys.executable, os.path.join(TOP, "build"), name, "--help")
            self.note(
                f"python3 build {name} --help", done[0] == 0 and done[1] and not done[2], done
            )

    def test_output(self):
        """-o writes to a file, and leaves the one that was there if it can't, or if something is wrong."""
        path, run = os.path.join(self.folder, "made"), forestlab("simulate", "two")[1]
        for arguments, data in (
            (["network", "path", "3"], b""),
            (["transcript", "check", "two", "-"], run),
            (["sheet", "--lesson", "1"], b""),
            (["channels", "7"], b"plan\n1 1\n"),
        ):
            wanted, done = (forestlab(*arguments, *more, data=data) for more in ((), ("-o", path)))
            self.same(f"{arguments} -o", (*done[:2], contents(path)), (0, b"", wanted[1]))
        for arguments, said in (
            (["picture", "rounds", "nowhere"], b"picture: nowhere: No such file"),
            (["network", "tell", "path0"], b"network: NODES is 0"),
        ):
            self.refusal(f"{arguments} -o", forestlab(*arguments, "-o", path), 1, said)
            self.same("what was there is left", contents(path), b"plan\n1 7\n")
        done = forestlab("network", "path", "3", "-o", os.path.join(self.folder, "no", "folder"))
        self.refusal("-o in no folder", done, 1, b"No such file or directory")
        self.same("nothing is left beside it", os.listdir(self.folder), ["made"])

    def test_names_of_networks(self):
        """A name means the same network in each command."""
        given = os.path.join(TOP, "examples", "petersen.col")
        for arguments in (["picture", "rounds"], ["simulate"], ["network", "number"]):
            done, wanted = (forestlab(*arguments, it) for it in ("petersen", given))
            self.same(f"{arguments} of a name", done[:2], (0, wanted[1]))
        for name, nodes in (("path5", 5), ("grid3x4", 12), ("queen5x5", 25)):
            done = forestlab("network", "tell", name)
            self.note(f"network tell {name}", done[1].startswith(b"nodes: %d\n" % nodes), done)
        for name, said in (
            ("petersenn", b"No such file or directory"),
            ("path5x5", b"no network of this name"),
            ("disk5", b"no network of this name"),
            ("path99999", b"at most 20000"),
        ):
            self.refusal(f"no network {name}", forestlab("simulate", name), 1, said)

    def test_completion(self):
        """The words that complete a line are all commands of forestlab; and of an option those that a refusal lists."""
        script = self.file("completion", completion.completion(os.path.join(TOP, "bin")))
        self.same("forestlab", completed(script, "forestlab"), (set(OF_LAB), b""))
        for line in REFUSED:
            with self.subTest(line):
                if not line.startswith("forestlab"):
                    need(self, f"bin/{line.split()[0]}")
                self.assertEqual(completed(script, line), (listed(line), b""))

    def test_completion_in_shells(self):
        """Lines that have one completion, after the key Tab."""
        for name in ("the <net>.csv", "my_own.py"):
            self.file(name, "")
        self.file("_forestlab", completion.completion(os.path.join(TOP, "bin")))
        for shell in SHELLS:
            with self.subTest(shell):
                need(self, shell.split()[0])
                said = typed(shell, self.folder)
                for line, wanted in TYPED.items():
                    fields = wanted.replace(" <net>", "\0").split(" ")
                    shown = "".join(f"<{word}> " for word in fields).replace("\0", " <net>")
                    self.note(f"{shell}: {line}", f"{shown}" in said, said)
