"""Gives commands short texts that declare something huge, such as a network of 68 billion nodes. Each is refused by one
line before anything of that size is made: the command has little memory, and few seconds of the processor."""
import resource

from forestplan.faults import Fault
from forestplan.limits import MAX_NODES
from forestplan.networks import cross_check
from tests.cases import Case, forestlab
from tests.tools import need

# In bytes, and in seconds of processor time.
MEMORY, SECONDS = 400 << 20, 20
# By bytes that are no letters of the form it declares 112 billion nodes, if nobody looks.
NO_LETTERS = b":\xe2\x80\xa8An>>sparse6<<\n\r"
MORE = f"more than {MAX_NODES} nodes"
# The words of a command of which one is the file, the text, and a part of what is said.
Rows = tuple[tuple[str, str | bytes, str], ...]
BY_NETWORKX: Rows = (
    ("network read net.s6", NO_LETTERS, "line 1: no sparse6: `\\u2028` isn't one of the letters"),
    ("network read net.s6", ":~~~~~~~~~", MORE),
    ("network read net.s6", ":~}??", MORE),
    ("network read net.s6", ":~-~~", "`-` isn't one of the letters from ? to ~"),
    ("network read net.s6", ":~?", "no sparse6: its number of nodes is cut"),
    ("network read net.g6", NO_LETTERS[1:-13], "no graph6: `\\u2028` isn't one of the letters"),
    ("network read net.g6", "~~~~~~~~~", MORE),
    ("network read net.g6", "~C??", "no graph6: the bits of 16,384 nodes take 22,368,256 letters"),
)
BY_US: Rows = (
    ("network tell net.col", "p edge 4294967296 0\n", f"{MORE} (F7)"),
    ("network tell net.col", f"p edge {'9' * 6000} 0\n", f"{MORE} (F7)"),
    ("transcript check two net.txt", "transcript 2 4294967295\n", "Nodes"),
    ("transcript check two net.txt", f"transcript 2 {'9' * 6000}\n", "X1"),
    ("picture run two --transcript net.txt", "transcript 2 4294967295\n", "Nodes"),
    ("simulate two --events net.txt", "put 1 9999999999\n", "NoSuch"),
)


def limited() -> None:
    resource.setrlimit(resource.RLIMIT_AS, (MEMORY, MEMORY))
    resource.setrlimit(resource.RLIMIT_CPU, (SECONDS, SECONDS))


class Declared(Case):
    def refused(self, rows: Rows, where: str = "") -> None:
        for command, text, said in rows:
            name = next(word for word in command.split() if word.startswith("net."))
            path = self.file(name, text)
            arguments = [path if word == name else word for word in command.split()]
            done = forestlab(*arguments, preexec_fn=limited, limit=100)
            self.refusal(f"{command}: {text[:40]!r}", done, 1, said.encode())
            self.same(f"{command}: {text[:40]!r}, lines", done[2].count(b"\n"), 1)
            self.note(f"{command}: {text[:40]!r}, where", where.encode() in done[2], done[2])

    def test_huge_numbers_are_refused(self) -> None:
        self.refused(BY_US)

    def test_huge_numbers_of_letters_are_refused(self) -> None:
        need(self, "networkx")
        self.refused(BY_NETWORKX, " line 1: ")

    def test_the_longest_tag(self) -> None:
        """A comment of so many letters before its `>` is read, and one of a letter more isn't."""
        begin, end = b"<graphml>\n<!--", b"--><graph/></graphml>"
        for more in (0, 1):
            letters = (1 << 20) + more - len(b"<!----")
            try:
                said = str(cross_check.in_xml(begin + b"x" * letters + end, "net.graphml"))
            except Fault as why:
                said = str(why)
            is_refused = "line 2: " in said and "more than 1 MiB" in said
            self.same(f"{more} letters more", is_refused, more == 1)

    def test_the_largest_graph6_is_read(self) -> None:
        """Few edges of as many nodes as a network may have, as bits of all pairs: 33 MB of letters."""
        need(self, "networkx")
        pairs = MAX_NODES * (MAX_NODES - 1) // 2
        number = bytes(63 + (MAX_NODES >> shift) % 64 for shift in (12, 6, 0))
        # The first pair is (0, 1), and the last one is the fourth bit of its letter.
        letters = bytearray(b"~" + number + b"?" * (pairs // 6 + 1))
        letters[4], letters[-1] = 63 + 0b100000, 63 + 0b000100
        self.same("bits of the last letter", pairs % 6, 4)
        arguments = ["network", "read", "--keep-order", self.file("net.g6", bytes(letters))]
        done = forestlab(*arguments, preexec_fn=limited)
        last = f"e {MAX_NODES - 1} {MAX_NODES}"
        lines = [line for line in done[1].decode().splitlines() if line[0] in "pe"]
        self.same("read", (done[0], lines), (0, [f"p edge {MAX_NODES} 2", "e 1 2", last]))
