"""Gives each reader of src/forestplan/ texts of 1 MB and of 4 MB, of many shapes (tests/growth.py): the larger one
takes at most 6 times as long, the fastest of up to three calls, and none ends a command with status 70.

  python3 -m tests.by_hand.growth [READER ..] [--size 1000000]

It takes some ten minutes. Of each reader it prints the shape whose time grows most and the slowest one, and what is
wrong; last how many shapes it tried."""
import argparse
import sys

from tests.growth import Measured, measured
from tests.readers import READERS
from tests.tools import is_installed

# Seconds below which there is nothing to compare.
LEAST = 0.05


def main() -> int:
    parser = argparse.ArgumentParser(
        prog="growth", description=__doc__, formatter_class=argparse.RawDescriptionHelpFormatter
    )
    parser.add_argument("readers", metavar="READER", nargs="*", help="all by default")
    parser.add_argument("--size", type=int, default=1_000_000, help="bytes of the smaller text")
    given = parser.parse_args()
    shapes = wrong = 0
    for reader in READERS:
        if given.readers and reader.name not in given.readers:
            continue
        if reader.needs and not is_installed(reader.needs):
            print(f"{reader.name}: {reader.needs} isn't installed, so it isn't tried")
            continue
        found = list(measured(reader, given.size, LEAST))
        shapes += len(found)
        most = max(found, key=lambda one: one.times)
        slowest = max(found, key=lambda one: one.large)
        print(
            f"{reader.name}: {most.times:.1f} times ({most.shape}, {most.large:.2f} s), "
            f"and at most {slowest.large:.2f} s ({slowest.shape})",
            flush=True,
        )
        for one in filter(Measured.wrong, found):
            wrong += 1
            print(f"WRONG: {reader.name}: {one.wrong()}", flush=True)
    print(f"{shapes} shapes, {wrong} are wrong")
    return int(wrong > 0)


if __name__ == "__main__":
    sys.exit(main())
