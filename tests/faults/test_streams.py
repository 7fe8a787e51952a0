"""Breaks the streams of the built programs: each read of the input fails in turn, and each write of what is written, or
it takes nothing.

A stream gives or takes three bytes at a time (broken_streams.c). Behind a read or write that failed there is no other
one, the status is 4 with the line `stream`, and standard output has just the bytes of the writes before. A break of
standard error changes no status. Help and refused words read nothing. Answers are worked by hand. It needs a C
compiler, `cc`."""
import itertools
import tempfile

from tests.cases import Case, text
from tests.commands import APART, COMMANDS, PULSES, TRIANGLE
from tests.faults.test_refused_memory import build_front, under
from tests.settings import PATHS
from tests.tools import needs

PIECE = 3
INPUT, OUTPUT, ERRORS = range(3)

# The program, the words, the input and the answer of each command, and of a transcript of the other edition; '|' is a
# line feed.
CALLS = [(command.program, command.line, command.data, command.answer) for command in COMMANDS] + [
    (
        "forestplan",
        ["transcript", "--workers=2", "--edition=1"],
        APART,
        "transcript 1 2|" + "".join(f"{v} pulse {p}|" for v in (1, 2) for p in PULSES),
    )
]

# Words, input, status and what is written to errors, if that is known.
REFUSALS = [
    (["forests"], "", 1, "forestplan: F1|"),
    (["forests"], "p edge 2 1|e 1 1|", 1, "forestplan: F6 line 2|"),
    (["nothing"], TRIANGLE, 2, None),
    ([], TRIANGLE, 2, None),
    (["forests", "extra"], TRIANGLE, 2, None),
]
HELP = [["--help"], ["-h"], ["plain", "-h"], ["transcript", "--help"]]


def pieces(data):
    return -(-len(data) // PIECE)


@needs("forestplan", "forestplay", "cc")
class Streams(Case):
    # The library that breaks a stream.
    front: str

    @classmethod
    def setUpClass(cls):
        folder = cls.enterClassContext(tempfile.TemporaryDirectory())
        cls.front = build_front(folder, "broken_streams")

    def broken(self, name, arguments, data, stream=-1, call=0, takes_none=False):
        """The answer; and how many reads, writes to output and writes to errors there were."""
        given = {"TAKES_NONE": 1} if takes_none else {}
        return under(
            self.front, [PATHS[name], *arguments], data, BROKEN=stream, BREAKS_AT=call, **given
        )

    def test_reads(self):
        """One read more than the input has pieces meets its end, and the one after that never comes."""
        for name, arguments, data, answer in CALLS:
            reads, wrong = pieces(text(data)) + 1, []
            for call in range(reads + 1):
                got, counts = self.broken(name, arguments, text(data), INPUT, call)
                wanted = (
                    (4, b"", f"{name}: stream\n".encode())
                    if call < reads
                    else (0, text(answer), b"")
                )
                if got != wanted or counts[INPUT] != min(call + 1, reads):
                    wrong.append((call, got, counts))
            self.note(
                f"{name} {' '.join(arguments)}: each of {reads} reads fails", not wrong, wrong[:2]
            )

    def test_writes(self):
        """The write after the last piece never comes."""
        for (name, arguments, data, answer), takes_none in itertools.product(CALLS, (False, True)):
            answer, wrong = text(answer), []
            writes = pieces(answer)
            for call in range(writes + 1):
                got, counts = self.broken(name, arguments, text(data), OUTPUT, call, takes_none)
                fault = (4, answer[: PIECE * call], f"{name}: stream\n".encode())
                if got != (fault if call < writes else (0, answer, b"")) or counts[OUTPUT] != min(
                    call + 1, writes
                ):
                    wrong.append((call, got, counts))
            how = "takes nothing" if takes_none else "fails"
            self.note(
                f"{name} {' '.join(arguments)}: each of {writes} writes {how}", not wrong, wrong[:2]
            )

    def test_refusals(self):
        """What is written to errors; then each write of it breaks in turn: the status stays, and a beginning of the
        text is there."""
        for arguments, data, status, line in REFUSALS:
            data, name = text(data), f"the refusal of {arguments} on {data!r}"
            whole, counts = self.broken("forestplan", arguments, data)
            told = whole[2] if line is None else text(line)
            self.note(
                f"{name} is written, whole",
                whole == (status, b"", told) and counts[OUTPUT] == 0 and told,
                whole,
            )
            self.same(f"{name}: reads", counts[INPUT], pieces(data) + 1 if status == 1 else 0)
            for takes_none in (False, True):
                wrong = []
                for call in range(pieces(told)):
                    got, counts = self.broken(
                        "forestplan", arguments, data, ERRORS, call, takes_none
                    )
                    if got != (status, b"", told[: PIECE * call]) or counts[ERRORS] != call + 1:
                        wrong.append((call, got, counts))
                how = "takes nothing" if takes_none else "fails"
                self.note(
                    f"{name}: each of {pieces(told)} writes to errors {how}", not wrong, wrong[:2]
                )

    def test_help(self):
        """Help reads nothing; if output breaks, it is a stream that failed."""
        for arguments in HELP:
            (status, helped, errors), counts = self.broken("forestplan", arguments, text(TRIANGLE))
            self.note(
                f"help by {arguments} reads nothing",
                (status, errors, counts[INPUT]) == (0, b"", 0) and helped,
                (status, errors, counts),
            )
            for takes_none in (False, True):
                got, counts = self.broken(
                    "forestplan", arguments, text(TRIANGLE), OUTPUT, 2, takes_none
                )
                self.same(
                    f"help by {arguments} into a stream that breaks",
                    (got, counts[OUTPUT]),
                    ((4, helped[: 2 * PIECE], b"forestplan: stream\n"), 3),
                )
