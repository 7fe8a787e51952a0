"""Gives each reader of src/forestplan/ texts of 8 kB and of 32 kB, of many shapes (tests/growth.py): the time
grows with the text and no faster, and none ends a command with status 70. `python3 -m
tests.by_hand.growth` has the same of 1 MB and 4 MB."""
import time

from tests.cases import Case
from tests.growth import what_is_wrong
from tests.readers import Reader, READERS
from tests.tools import need

# Bytes of the smaller text, and the seconds of the larger one below which there is nothing to compare.
SIZE, LEAST = 8_000, 0.1
# Calls of which the fastest counts. Other programs make short calls slower by chance, and hardly all of them.
CALLS = 12


def quadratic(arguments: list[str]) -> int:
    """A reader that looks at each byte for each byte."""
    with open(arguments[0], "rb") as file:
        data = file.read()
    end = time.thread_time() + len(data) ** 2 / 5e9
    while time.thread_time() < end:
        pass
    return 0


def faulty(arguments: list[str]) -> int:
    """A reader that takes a long number for a short one."""
    with open(arguments[0], "rb") as file:
        return int(file.read().split()[1]) % 1


class Growth(Case):
    def test_the_time_grows_with_the_text(self) -> None:
        for reader in READERS:
            with self.subTest(reader.name):
                if reader.needs:
                    need(self, reader.needs)
                self.assertEqual(list(what_is_wrong(reader, SIZE, LEAST, CALLS)), [])

    def test_what_is_wrong_is_found(self) -> None:
        slow = Reader("slow", quadratic, ("{file}",), (b"x 1\n",))
        self.note(
            "slow", next(what_is_wrong(slow, SIZE, LEAST, CALLS), "").startswith("slow: one letter")
        )
        wrong = Reader("faulty", faulty, ("{file}",), (b"x 1\n",))
        found = [line for line in what_is_wrong(wrong, SIZE, LEAST, CALLS) if "4300 digits" in line]
        self.note("faulty", len(found) > 0, found)
