"""Measures how the time of a reader grows with a text of one shape: one letter again and again, one long field, blank
lines, lists in lists, a quotation mark without a second one, a long number, comments, and many fields."""
import contextlib
import gc
import math
import re
import tempfile
import time
from collections.abc import Callable, Iterator
from dataclasses import dataclass

from tests.readers import Reader, parsers_kept

# The larger text has so many times the bytes of the smaller one, and may take so many times as long.
TIMES, MOST_TIMES = 4, 6.0
# Calls of which the fastest counts, of the by-hand command; fewer are enough once they show that the time doesn't grow
# too fast.
MOST_CALLS = 3
Shape = Callable[[int], bytes]


def shapes_of(reader: Reader) -> Iterator[tuple[str, Shape]]:
    """By name, what makes a text of a shape of about so many bytes."""
    good = reader.good[0]
    numbers = [found.span() for found in re.finditer(rb"[0-9]+", good)]

    def again(before: bytes, unit: bytes, after: bytes = b"") -> Shape:
        return lambda size: before + unit * (size // len(unit)) + after

    yield "one letter", again(b"", b"a")
    yield "one letter in each line", again(b"", b"a\n")
    yield "a long field at the end", again(good.rstrip(b"\n"), b"a", b"\n")
    spans = [found.span() for found in re.finditer(rb"[A-Za-z]+", good)]
    for at, (begin, end) in enumerate(dict.fromkeys((spans[:1] + spans[-1:])), 1):
        yield f"a long field in the place of word {at}", again(good[:begin], b"a", good[end:])
        marks = "\u0300\u0316".encode()
        yield f"marks over the letters of word {at}", again(good[:end], marks, good[end:])
    yield "blank lines before", again(b"", b"\n", good)
    yield "blank lines after", again(good, b"\n")
    yield "blanks before", again(b"", b" ", good)
    yield "lists in lists", again(*reader.nested)
    yield "lists in lists after", again(good, reader.nested[1])
    yield "a quotation mark without a second one", again(good + b'"', b"x\n")
    yield "many quotation marks", again(good, b'"')
    for at, (begin, end) in enumerate(dict.fromkeys((numbers[:1] + numbers[-1:])), 1):
        yield f"a long number in the place of number {at}", again(good[:begin], b"7", good[end:])
    yield "comments before", again(*reader.comment, good)
    yield "comments after", again(good, reader.comment[1])
    for mark in (b",", b" ", b";", b"\t", b"_", b"&"):
        yield f"many fields with {mark!r} between", again(b"", b"a" + mark)
    yield "the text again and again", again(b"", good)
    lines = good.splitlines(keepends=True)
    yield "its last line again and again", again(good, lines[-1])


@contextlib.contextmanager
def garbage_set_apart() -> Iterator[None]:
    """What other tests have left in this process isn't looked at again by its collections, whose time would count:
    a longer text has more of them."""
    gc.collect()
    gc.freeze()
    try:
        yield
    finally:
        gc.unfreeze()


def seconds_for(reader: Reader, data: bytes, folder: str) -> float:
    """Of the processor, and of this thread: neither other programs nor what another test has begun counts."""
    begun = time.thread_time()
    reader.status(data, folder)
    return time.thread_time() - begun


def compared(
    reader: Reader, shape: Shape, size: int, least: float, folder: str, calls: int
) -> tuple[float, float]:
    """The least seconds for a text of so many bytes, and for one of four times as many, of some calls by
    turns: of fewer if the larger text takes less than `least` seconds, or isn't too slow already.
    """
    small, large = math.inf, math.inf
    for _ in range(calls):
        large = min(large, seconds_for(reader, shape(size * TIMES), folder))
        if large < least:
            return large, large
        small = min(small, seconds_for(reader, shape(size), folder))
        if large <= MOST_TIMES * small:
            break
    return small, large


@dataclass(frozen=True)
class Measured:
    """What came out for a text of one shape: the seconds of the smaller and of the larger one, or what was raised."""

    shape: str
    small: float = 0.0
    large: float = 0.0
    fault: str = ""

    @property
    def times(self) -> float:
        """How many times as long the larger text takes."""
        return self.large / self.small if self.small else 0.0

    def wrong(self) -> str:
        """What is wrong with it, if anything is."""
        is_slow = self.times > MOST_TIMES
        slow = f"{self.large:.2f} s, and a quarter of it {self.small:.2f} s" if is_slow else ""
        return f"{self.shape}: {self.fault or slow}" if self.fault or slow else ""


def measured(
    reader: Reader, size: int, least: float, calls: int = MOST_CALLS
) -> Iterator[Measured]:
    """Each shape, with what a reader does with its texts.

    Where the larger text takes less than `least` seconds, there is nothing to compare."""
    with tempfile.TemporaryDirectory() as folder, parsers_kept(), garbage_set_apart():
        for name, shape in shapes_of(reader):
            try:
                small, large = compared(reader, shape, size, least, folder, calls)
            except Exception as fault:
                yield Measured(name, fault=f"{type(fault).__name__}: {str(fault)[:200]}")
            else:
                yield Measured(name, small, large)


def what_is_wrong(
    reader: Reader, size: int, least: float, calls: int = MOST_CALLS
) -> Iterator[str]:
    """The shapes of which a text takes too long, or raises what would end a command with status 70."""
    for one in measured(reader, size, least, calls):
        if one.wrong():
            yield f"{reader.name}: {one.wrong()}"
