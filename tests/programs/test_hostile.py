"""Feeds the built programs texts that nobody would write: the readers of src/forestplan/ have to refuse what the
programs refuse, for the same reason. What the programs answer is proved.

Each is a good text with another piece in the place of one or before it, or without one, at random, which the same seed
makes again. It needs a C compiler, `cc`. TESTS_TEXTS and TESTS_SEED are for long runs by hand."""
import random
import re
import struct
import subprocess
import tempfile
from itertools import islice, product

from forestplan.definitions.colours import plan_text
from forestplan.definitions.programs import PROGRAMS
from forestplan.networks.network_text import network_in_bytes
from forestplan.schedules.simulate import played, text_of_run
from forestplan.transcripts import fields
from forestplan.transcripts.judge import whole_run
from forestplan.transcripts.reading import WrongEntry, transcript_read
from tests.cases import Case
from tests.faults.test_refused_memory import build_front
from tests.programs.slow_reader import answer_to
from tests.programs.test_plain_networks import networks_by_chance
from tests.settings import PLAN, PLAY, setting
from tests.tools import needs

# Of an answer of run_each.c: the status, and how many bytes there are of standard output and of errors.
HEAD = struct.Struct("=iII")
NETWORK = b"p edge 3 2\ni 2 7\nb 3 1\ne 1 2\ne 2 3\n"
# Refusals of a transcript.
CODES = set(
    "X1 WrongProgram NoSuch NotReady NothingToPut LinkEmpty WrongWire WrongStamp NotWhole".split()
)
LIMITS = [1023, 1024, 2048, 20_000, 10**60, *(2**digits for digits in (16, 32, 64, 128))]
NUMBERS = [b"%d" % (limit + d) for limit in LIMITS for d in (-1, 0, 1)]
# More digits than Python makes a number of; and what is no number, though Python takes some of it for one.
NUMBERS += [b"0" * 5000 + b"2", b"9" * 5000]
NUMBERS += [b"-1", b"+1", b"1.0", b"0x1", b"1_0", b"\xd9\xa1", b"\xb2", b"1\x00", b""]
# Payloads of each program, and of none.
PAYLOADS = [*product((b"hop", *sorted(set().union(*fields.PAYLOADS.values()))), NUMBERS)]
# First lines that no transcript has, after the word `transcript`, and one of another program.
HEADS = (
    b"",
    b"1",
    b"2 02 2",
    b"02 2",
    b"1 -2",
    b"1 4294967296",
    b"4 leader 2",
    b"3 leader",
    b"3 leader x",
    b"3 leader 2 2",
    b"3 lead\x1ber 2",
    b"3 another 2",
)
# Lines of a network, of a plan and of a transcript.
LINES = (
    b"\r",
    b" \t",
    b"c \xff\x00",
    b"p edge 2 1",
    b"p col 3 1",
    b"n 1 1",
    b"e 1 2",
    b"e 1 1",
    b"i 1 5",
    b"i 1 2",
    b"b 1 2048 x",
    b"plan",
    b"1 1",
    b"2 3",
    b"transcript 2 2",
    b"1 1 put 2 payload 0 hello 1",
    b"1 2 take 1 payload 12 free 0",
    b"2 1 put 2 ack 0",
    b"1 1 put 2 safe 0",
    b"3 2 take 1 close",
    b"1 1 pulse 1",
)
WORDS = {word for line in LINES for word in line.split()} | {b"plans", b"\xef\xbb\xbfp", b"p\x00"}
# Byte order marks, line ends of other systems, what is or looks like a space, and what moves a terminal's cursor.
SPACES = (
    b"\xef\xbb\xbf",
    b"\xff\xfe",
    b"\r\n",
    b"\r\r\n",
    b"\0\0",
    b"\xc2\xa0",
    b"\xe2\x80\xa8",
    b"\x1b[2J",
    b" ",
    b"\n",
    b"\t",
    b"\r",
    b"  \t",
    b"\x0b",
    b"\x1c",
)
ODD_BYTES = b"\x00\t\n\x0b\x0c\r \x1a\x1b#%+-.01239bcdeinpvx\x7f\x80\xa0\xc2\xfe\xff"
# How a text is cut into pieces, and what may be in the place of one: of a byte, a field with a space before it, a line,
# and a field or what separates two.
FIELD = rb" ?[^ \n]+|\n"
KINDS = (
    (rb"(?s).", [bytes([b]) for b in (*range(256), *8 * ODD_BYTES)]),
    (FIELD, [b" " + number for number in NUMBERS]),
    (FIELD, [b" %d" % n for n in range(9)]),
    (FIELD, [b" " + word for word in sorted(WORDS)]),
    (rb".*\n|.+", [line + b"\n" for line in LINES]),
    (rb"[ \n]|[^ \n]+", SPACES),
)


def spoiled_texts(source, good):
    """Texts without end."""
    while True:
        data = source.choice(good)
        for _ in range(source.choice((0, 1, 1, 1, 2, 2, 3, 5))):
            data = spoiled(source, data, *source.choice(KINDS))
        yield data


def spoiled(source, data, pieces, others):
    """Another piece in the place of one, of one and all after it, or of all that are like it, or before one; or
    none."""
    cut = [*re.findall(pieces, data), b""]
    at, other = source.randrange(len(cut)), source.choice(
        source.choice((others, others, cut, [b""]))
    )
    if source.random() < 0.25:
        return b"".join(other if piece == cut[at] else piece for piece in cut)
    return b"".join(cut[:at] + [other] + cut[at + source.choice((0, 1, 1, 1, len(cut))) :])


def refusal_of(net, data, program):
    """The code by which the checker refuses a transcript, and the line; None if it doesn't. Lines that are no entries
    come first: the programs read all of a text before they play it. Edition 4 is read by `forestlab` only.
    """
    if data.startswith(b"transcript 4 "):
        return "X1", 1
    try:
        transcript_read(data, program.name)
        whole_run(net, data, program)
    except WrongEntry as wrong:
        return wrong.word, wrong.line


@needs("forestplan", "forestplay", "cc")
class Hostile(Case):
    def answers(self, arguments, texts):
        """The status (or minus the signal that ended it), standard output and errors of a call with each text. The
        program is loaded once, and forked before its main for each text (run_each.c)."""
        front = build_front(self.folder, "run_each")
        with tempfile.TemporaryFile() as given, tempfile.TemporaryFile() as made:
            given.writelines(struct.pack("=I", len(data)) + data for data in texts)
            given.flush()
            files = given.fileno(), made.fileno()
            env = {"LD_PRELOAD": front, "TEXTS": str(files[0]), "ANSWERS": str(files[1])}
            subprocess.run(arguments, pass_fds=files, stdin=subprocess.DEVNULL, env=env, check=True)
            made.seek(0)
            for _ in texts:
                status, output, errors = HEAD.unpack(made.read(HEAD.size))
                yield status, made.read(output), made.read(errors)

    def test_networks_and_plans(self):
        size, seed = int(setting("texts")) // 2, setting("seed")
        networks = [*networks_by_chance(300, 5, seed)]
        plans = [network + plan_text(network_in_bytes(network)) for network in networks]
        for command, good in (("forests", networks), ("check", plans)):
            texts = [*islice(spoiled_texts(random.Random(f"{seed} {command}"), good), size)]
            rows = [(data, answer_to(command, data)) for data in texts]
            got = self.answers([PLAN, command], texts)
            differ = [(*row, done) for row, done in zip(rows, got) if row[1] != done]
            self.note(f"{size} texts of {command}, seed {seed}", not differ, differ[:1])
            count = sum(wanted[0] == 0 for _, wanted in rows)
            self.note("some are good, and most are not", size // 10 < count < size // 2, count)

    def test_transcripts(self):
        """Of a run of each program, with stamps, spoiled after the first line; each payload as the first one; and other
        first lines."""
        size, seed, found = int(setting("texts")) // 30, setting("seed"), set()
        net, before = network_in_bytes(NETWORK), NETWORK.count(b"\n")
        for name, program in PROGRAMS.items():
            run = text_of_run(net, played(net, seed=seed, program=program), program)
            head, rows = run.encode().split(b"\n", 1)
            spoiled_rows = islice(spoiled_texts(random.Random(f"{seed} {name}"), [rows]), size)
            puts = [b"1 1 put 2 payload 0 %s %s\n" % payload for payload in PAYLOADS]
            texts = [head + b"\n" + behind for behind in (*spoiled_rows, *puts)]
            texts += [b"transcript " + other + b"\n" + rows for other in HEADS]
            arguments = [PLAY, "replay", "--program", name]
            got = self.answers(arguments, [NETWORK + data for data in texts])
            for data, (status, _, errors) in zip(texts, got):
                refusal = refusal_of(net, data, program)
                told = re.match(rb"forestplay: (\w+) line (\d+)", errors)
                reason = (told[1].decode(), int(told[2]) - before) if told else None
                found.add(reason and reason[0])
                good = (status, reason) == (int(refusal is not None), refusal)
                self.note(f"{name}: {refusal} of {data[-300:]}", good, (status, errors))
        self.note("refusals of each kind, and none", found >= {*CODES, None}, found)
