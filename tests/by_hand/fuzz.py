"""Tries the readers of src/forestplan/ with texts that `hypothesis` makes from a seed (tests/fuzzing.py): none may
end a command with status 70, or take long for a short text.

  nice -n 10 python3 -m tests.by_hand.fuzz [READER ..] [--seconds 180] [--seed 2026]

It needs python3-hypothesis, and for some forms python3-networkx. It prints each new fault with the least text that was
found, and last how many texts were tried."""
import argparse
import resource
import sys

from tests.readers import READERS
from tests.tools import is_installed

# A text of some kilobytes that needs more memory is a fault.
MEMORY = 4 << 30


def main() -> int:
    parser = argparse.ArgumentParser(
        prog="fuzz", description=__doc__, formatter_class=argparse.RawDescriptionHelpFormatter
    )
    parser.add_argument("readers", metavar="READER", nargs="*", help="all by default")
    parser.add_argument("--seconds", type=float, default=180, help="of processor time for each")
    parser.add_argument("--seed", type=int, default=2026)
    given = parser.parse_args()
    unknown = set(given.readers) - {reader.name for reader in READERS}
    if unknown:
        parser.error(f"there is no reader {', '.join(unknown)}")
    if not is_installed("hypothesis"):
        raise SystemExit("fuzz: hypothesis isn't installed: apt install python3-hypothesis")
    from tests.fuzzing import tried

    resource.setrlimit(resource.RLIMIT_AS, (MEMORY, MEMORY))
    texts, seconds, faults = 0, 0.0, 0
    for reader in READERS:
        if given.readers and reader.name not in given.readers:
            continue
        if reader.needs and not is_installed(reader.needs):
            print(f"{reader.name}: {reader.needs} isn't installed, so it isn't tried")
            continue
        found = tried(reader, given.seed, given.seconds, say=lambda line: print(line, flush=True))
        texts += found.texts
        seconds += found.seconds
        faults += len(found.faults)
        print(f"{reader.name}: {found.texts:,} texts in {found.seconds:.0f} s", flush=True)
    print(f"{texts:,} texts in {seconds / 60:.1f} min of processor time, {faults} faults")
    return int(faults > 0)


if __name__ == "__main__":
    sys.exit(main())
