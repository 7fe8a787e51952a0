"""The toolchain's command `rt`, which kit it is of, the user's cache, and sums of what a crate is proved from."""
import hashlib
import os
import shutil
import subprocess
import sys
from collections.abc import Iterable

from build.crate_lists import TOP, lines_of, listed, with_below

PARTS = ("src", "specs", "proofs")


def command() -> str | None:
    """The file of the toolchain's command `rt`, if it is on the PATH."""
    found = shutil.which("rt")
    return os.path.realpath(found) if found else None


def wanted() -> list[str]:
    """The lines of the kits that these sources are for: each fits."""
    return line_in(TOP, "build", "kits.txt").split("\n")


def line_in(*path: str) -> str:
    with open(os.path.join(*path), encoding="utf-8") as line:
        return line.read().strip()


def found() -> str:
    """The line of the kit that `rt` is of, if it says so."""
    rt = command()
    try:
        if rt:
            return line_in(os.path.dirname(os.path.dirname(rt)), "KIT-ID")
    except OSError:
        pass
    return "no kit that says its name"


def is_there(name: str) -> bool:
    """Whether the toolchain's command is there; says if it isn't, and if it is of another kit."""
    if not command():
        print(
            f"{name}: the toolchain's command rt is not on the PATH; one of these kits is needed: "
            f"{', '.join(wanted())}",
            file=sys.stderr,
        )
        return False
    if found() not in wanted():
        print(
            f"{name}: these sources are for {' or '.join(wanted())}, and rt is of {found()}: proofs may fail",
            file=sys.stderr,
        )
    return True


def keeps_proofs() -> bool:
    """Whether `rt ci` keeps what it has proved for the next call. The kit says so where it prints its commands: one
    that keeps has an option to prove all again. It keeps beside itself, so a user who can't write there keeps nothing.
    """
    rt = command()
    if not rt:
        return False
    try:
        done = subprocess.run([rt, "--help"], capture_output=True, timeout=60, check=False)
    except (OSError, subprocess.TimeoutExpired):
        return False
    folder = os.path.dirname(os.path.dirname(os.path.dirname(rt)))
    return b"--anew" in done.stdout and os.access(folder, os.W_OK)


def in_cache(path: str) -> str:
    """A path in the user's cache of forestplan."""
    cache = os.environ.get("XDG_CACHE_HOME") or os.path.join(os.path.expanduser("~"), ".cache")
    return os.path.join(cache, "forestplan", path)


def sum_of(*parts: bytes) -> str:
    total = hashlib.sha256()
    for part in parts:
        total.update(b"%d " % len(part) + part)
    return total.hexdigest()[:32]


def sum_of_texts(folder: str) -> str:
    """A sum of what a crate is proved from: each file's path in the crate, and what it says."""
    files = []
    for part in PARTS:
        for at, _, names in os.walk(os.path.join(folder, part)):
            files += [os.path.join(at, name) for name in names]
    parts: list[bytes] = []
    for file in sorted(files):
        with open(file, "rb") as text:
            parts += [os.path.relpath(file, folder).encode(), text.read()]
    return sum_of(*parts)


def sums(crates: Iterable[str], top: str = TOP) -> dict[str, str]:
    """For each of these crates of a repository and those below them a sum of what it is proved from: its line, its
    sources, and the sums of those below. A crate that isn't asked for may be broken."""
    found: dict[str, str] = {}
    lines = lines_of(top)
    below = listed(top)
    for crate in with_below(crates, below):
        line = lines[crate].partition("#")[0].strip()
        own = sum_of_texts(os.path.join(top, "crates", crate))
        found[crate] = sum_of(
            *(part.encode() for part in (line, own, *(found[lower] for lower in below[crate])))
        )
    return found
