"""Gives commands a file without an end, /dev/zero: each refuses it in a line that says how much is read, and takes no
more memory than that."""
import os
import resource
import unittest.mock

from forestplan import files
from tests.cases import Case, forestlab

ZERO = "/dev/zero"
# In bytes: what a command may take, with 512 MiB that are read.
MEMORY = 1200 << 20
# (the words of a command, the most that is read). What has no word for it gets it as its standard input.
COMMANDS = (
    ("transcript check two /dev/zero", "512 MiB"),
    ("transcript check two", "512 MiB"),
    ("transcript convert json /dev/zero", "512 MiB"),
    ("picture run two --transcript /dev/zero", "512 MiB"),
    ("picture plan two --plan /dev/zero", "512 MiB"),
    ("simulate two --events /dev/zero", "256 MiB"),
    ("explore /dev/zero", "256 MiB"),
    ("channels 1 6 11", "256 MiB"),
    ("network read --sites /dev/zero --reach 2", "256 MiB"),
    ("network read /dev/zero --as gml", "256 MiB"),
    ("network tell -", "256 MiB"),
    ("studio --links /dev/zero", "256 MiB"),
    ("simulate two --program LINK.py", "1 MiB"),
)


def limited() -> None:
    resource.setrlimit(resource.RLIMIT_AS, (MEMORY, MEMORY))


class Endless(Case):
    def test_each_is_refused(self) -> None:
        link = os.path.join(self.folder, "link.py")
        os.symlink(ZERO, link)
        for command, most in COMMANDS:
            given = command.replace("LINK.py", link).split()
            with open(ZERO, "rb") as zero:
                done = forestlab(*given, stdin=zero, preexec_fn=limited, limit=100)
            self.refusal(command, done, 1, f": more than {most}, ".encode())

    def test_a_short_text_takes_little(self) -> None:
        """What isn't long is read whatever memory there is, since no more than a part is asked for at once."""

        def little() -> None:
            resource.setrlimit(resource.RLIMIT_AS, (128 << 20, 128 << 20))

        status, said, fault = forestlab("network", "tell", "two", preexec_fn=little)
        self.note("tell", status == 0 and said.startswith(b"nodes: 2\n"), fault)

    def test_the_limit_is_exact(self) -> None:
        """A text as long as the limit is read, and one of a byte more isn't."""
        with unittest.mock.patch.object(files, "PART", 3):
            for size in range(1, 12):
                path = self.file("text", b"x" * size)
                for most in (2, 3, 5, 6, 8, 9):
                    with open(path, "rb") as file:
                        found = files.bytes_in(file, most)
                    wanted = b"x" * size if size <= most else None
                    self.same(f"{size} bytes, at most {most}", found, wanted)
