"""Tries the readers of tests/readers.py with texts that `hypothesis` makes: good ones that are
spoiled, pieces of them in any order, and any bytes. None may end a command with status 70, and a short
text may take no long time.

It needs python3-hypothesis; who imports this asks for it first."""
import os
import re
import signal
import tempfile
import time
import traceback
from collections.abc import Callable
from dataclasses import dataclass, field

import hypothesis
from hypothesis import strategies

from tests.readers import Reader, parsers_kept

# Seconds of processor time for a text, which has some kilobytes, and those after which it is ended.
LONGEST, MOST = 1.0, 20.0
# Texts of one search, after which the next one begins with another seed.
TEXTS = 2000
# What may stand anywhere: line ends, what is or looks like a space, marks of encodings, what opens
# something, letters of several bytes, limits of numbers, long numbers, many of one letter, and many lists in lists.
ANYWHERE = (
    *(
        b"\n",
        b"\r\n",
        b"\r",
        b" ",
        b"\t",
        b"\0",
        b"\x0b",
        b"\x0c",
        b"\x1c",
        b"\xc2\x85",
        b"\xe2\x80\xa8",
    ),
    *(
        b"\xef\xbb\xbf",
        b"\xff\xfe",
        b"\xfe\xff",
        b"\x1f\x8b",
        b"\xff",
        b"\xed\xa0\x80",
        b"\xc3\xa9",
    ),
    *(
        b'"',
        b"'",
        b"#",
        b"%",
        b"&",
        b"(",
        b")",
        b"[",
        b"]",
        b"{",
        b"}",
        b"<",
        b">",
        b"\\",
        b"/",
        b"=",
        b"-",
        b"+",
    ),
    *(b"0", b"1", b"-1", b"1.5", b"1e999", b"nan", b"inf", b"1_0", b"\xd9\xa1", b"\xc2\xb2"),
    *(b"%d" % (2**digits - 1) for digits in (8, 16, 31, 32, 63, 64, 127, 128)),
    *(
        b"9" * 5000,
        b"0" * 5000,
        b"a" * 3000,
        b"\n" * 3000,
        b" " * 3000,
        b"[" * 3000,
        b"(" * 300,
        b"\\ud800",
    ),
)
PIECES = re.compile(rb"[A-Za-z0-9_.]+|\s|[^\sA-Za-z0-9_.]")


class TooLong(Exception):
    """A text has taken more than `MOST` seconds of processor time."""


def end_it(*_) -> None:
    raise TooLong(f"it takes more than {MOST:g} s")


def texts_for(reader: Reader) -> strategies.SearchStrategy[bytes]:
    """Good texts with other pieces in the place of some, good texts with more after them, pieces in any order, and any
    bytes."""
    own = [piece + blank for piece in reader.pieces for blank in (b"", b" ", b"\n")]
    piece = strategies.sampled_from((*own, *ANYWHERE))
    good = strategies.sampled_from(reader.good)
    pieces = strategies.lists(piece, max_size=16).map(b"".join)
    change = strategies.tuples(strategies.integers(0, 1599), piece)
    return strategies.one_of(
        strategies.builds(spoil, good, strategies.lists(change, min_size=1, max_size=4)),
        strategies.builds(bytes.__add__, good, pieces),
        pieces,
        strategies.binary(max_size=40),
    )


def spoil(data: bytes, changes: list[tuple[int, bytes]]) -> bytes:
    """Puts pieces in the place of some others, or before them; the number says where, and in the place of how many."""
    cut = PIECES.findall(data)
    for number, piece in changes:
        at, count = divmod(number, 4)
        at %= len(cut) + 1
        cut[at : at + count] = [piece]
    return b"".join(cut)


@dataclass
class Tried:
    """What came out for a reader: how many texts were tried, the processor time, and its faults by their place, each
    with the least text that was found."""

    reader: Reader
    texts: int = 0
    seconds: float = 0.0
    faults: dict[str, bytes] = field(default_factory=dict)


def place_of(fault: BaseException) -> str:
    """What was raised, and in which line of the project."""
    frames = [
        f
        for f in traceback.extract_tb(fault.__traceback__)
        if f"{os.sep}forestplan{os.sep}" in f.filename
    ]
    where = f"{os.path.basename(frames[-1].filename)} line {frames[-1].lineno}" if frames else "?"
    return f"{type(fault).__name__} in {where}"


def look(reader: Reader, data: bytes, folder: str) -> None:
    """One text: raises what the reader raises, or that it took too long."""
    signal.setitimer(signal.ITIMER_VIRTUAL, MOST)
    begun = time.process_time()
    try:
        reader.status(data, folder)
    finally:
        signal.setitimer(signal.ITIMER_VIRTUAL, 0)
    if time.process_time() - begun > LONGEST:
        raise TooLong(f"it takes more than {LONGEST:g} s")


def tried(
    reader: Reader,
    seed: int,
    seconds: float,
    most: int = 10**9,
    say: Callable[[str], None] = print,
) -> Tried:
    """Tries texts for so many seconds of processor time, or so many texts. A place at which a fault was found is passed
    over from then on, so that others are found, too."""
    found = Tried(reader)
    before = signal.signal(signal.SIGVTALRM, end_it)
    begun = time.process_time()
    try:
        with tempfile.TemporaryDirectory() as folder, parsers_kept():
            # The first call loads networkx, which takes longer than a text may.
            for data in reader.good:
                reader.status(data, folder)
            while found.seconds < seconds and found.texts < most:
                search(found, seed, min(TEXTS, most - found.texts), folder, say)
                found.seconds = time.process_time() - begun
                seed += 1
    finally:
        signal.signal(signal.SIGVTALRM, before)
    return found


def search(found: Tried, seed: int, texts: int, folder: str, say: Callable[[str], None]) -> None:
    """One search, up to the first new fault."""
    last = b""

    def check(data: bytes) -> None:
        nonlocal last
        found.texts += 1
        try:
            look(found.reader, data, folder)
        except Exception as fault:
            if place_of(fault) not in found.faults:
                last = data
                raise

    search_all = hypothesis.given(texts_for(found.reader))(check)
    settings = hypothesis.settings(
        max_examples=texts,
        deadline=None,
        database=None,
        suppress_health_check=list(hypothesis.HealthCheck),
        report_multiple_bugs=False,
        phases=[hypothesis.Phase.generate, hypothesis.Phase.shrink],
    )
    try:
        hypothesis.seed(seed)(settings(search_all))()
    except Exception as fault:
        found.faults[place_of(fault)] = last
        say(f"{found.reader.name}: {place_of(fault)}: {fault}: {last[:300]!r}")
