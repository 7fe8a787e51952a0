"""Builds the two programs twice, in two folders, by two users and by two clocks, and compares their bytes.

  python3 -m tests.by_hand.same_bytes FOLDER [NAME ..] [--unproved] [--with DIR] [--clock TIME]

FOLDER gets two repositories of the crates that the programs need, and in each `rt ci` proves and builds them from
nothing. The first is built by who calls this, at the time that it is. The second has a longer path, is built by the
user `nobody`, and has the clock that `faketime` (Debian's package of this name) makes of TIME, 2031-03-04 05:06:07
without the option. NAME is forestplan or forestplay; without one both are built. Each of the two times takes as long as
`./test`'s first part.

With --with only the second is built, and compared with the programs of DIR: `lib` of a release, or crates/NAME/out.
With --unproved the programs are compiled by `rt try`, which proves nothing and takes minutes. It keeps no program, so
this copies the one that it runs, while it runs.

It needs root, and the toolchain's command rt. It prints a line for each program, and the bytes that differ, if any do.
"""
import argparse
import hashlib
import os
import shutil
import subprocess
import sys
import time
from collections.abc import Iterator
from dataclasses import dataclass

from build import crate_lists, gate, kit
from tests import FORESTLAB

NOBODY = 65534
CLOCK = "2031-03-04 05:06:07"
# What a program is given while it is copied: a network on which it works for seconds.
GIVEN = ("grid", "100", "100")
WORDS = {"forestplan": ("plan", "--workers", "1"), "forestplay": ("run", "--workers", "1")}
# Of the bytes that differ, how many places are printed.
MOST = 10


@dataclass(frozen=True)
class Way:
    """In which folder the programs are built, by whom, and by which clock."""

    folder: str
    user: int | None
    clock: str | None

    def arguments(self, *words: str) -> list[str]:
        return [*(["faketime", self.clock] if self.clock else []), *words]

    def options(self) -> dict[str, object]:
        """What `subprocess` is given for this user."""
        environment = dict(os.environ, HOME=self.folder)
        if self.user is None:
            return {"env": environment}
        return {"env": environment, "user": self.user, "group": self.user, "extra_groups": []}

    def make(self, names: list[str]) -> None:
        """Makes the repository of these programs."""
        shutil.rmtree(self.folder, ignore_errors=True)
        wanted = crate_lists.with_below(names, crate_lists.listed())
        crate_lists.copy(wanted, self.folder, gate.LEFT_OUT)
        os.mkdir(os.path.join(self.folder, ".git"))
        if self.user is not None:
            subprocess.run(["chown", "-R", str(self.user), self.folder], check=True)

    def built(self, names: list[str], is_unproved: bool) -> dict[str, str]:
        """Makes the folder and builds the programs in it, and returns their files."""
        begin = time.monotonic()
        self.make(names)
        found = self.compile(names) if is_unproved else self.prove(names)
        print(f"{self.folder}: built in {time.monotonic() - begin:.0f} seconds", flush=True)
        return found

    def prove(self, names: list[str]) -> dict[str, str]:
        """Has all proved and built, and returns the files of the programs."""
        words = ["rt", "ci", *(["--anew"] if kit.keeps_proofs() else [])]
        with open(f"{self.folder}.log", "wb") as log:
            done = subprocess.run(
                self.arguments(*words),
                cwd=self.folder,
                stdin=subprocess.DEVNULL,
                stdout=log,
                stderr=log,
                **self.options(),  # type: ignore[call-overload]
            )
        if done.returncode:
            sys.exit(f"same_bytes: not proved, as {self.folder}.log says")
        return {name: os.path.join(self.folder, "crates", name, "out", name) for name in names}

    def compile(self, names: list[str]) -> dict[str, str]:
        """Has each program compiled and run, without a proof, and returns the copies that were made meanwhile."""
        return {name: self.caught(name) for name in names}

    def caught(self, name: str) -> str:
        to = os.path.join(self.folder, f"{name}.caught")
        network = subprocess.run(
            [FORESTLAB, "network", *GIVEN], capture_output=True, check=True
        ).stdout
        with open(f"{to}.col", "wb") as file:
            file.write(network)
        with open(f"{to}.col", "rb") as given, open(f"{self.folder}.log", "wb") as log:
            with subprocess.Popen(
                self.arguments("rt", "try", "--", *WORDS[name]),
                cwd=os.path.join(self.folder, "crates", name),
                stdin=given,
                stdout=subprocess.DEVNULL,
                stderr=log,
                **self.options(),  # type: ignore[call-overload]
            ) as trial:
                while trial.poll() is None:
                    for process in below(trial.pid):
                        if copy_of(process, to):
                            # All that it began ends with it.
                            for each in [*below(trial.pid), trial.pid]:
                                subprocess.run(["kill", str(each)], stderr=subprocess.DEVNULL)
                            break
                    time.sleep(0.02)
        if not os.path.exists(to):
            sys.exit(f"same_bytes: no program was seen to run; {self.folder}.log has what was said")
        return to


def below(parent: int) -> list[int]:
    """The processes that a process has begun, and those that these have begun."""
    found: dict[int, list[int]] = {}
    for process in filter(str.isdigit, os.listdir("/proc")):
        try:
            with open(f"/proc/{process}/stat", encoding="utf-8", errors="replace") as stat:
                above = int(stat.read().rpartition(")")[2].split()[1])
        except OSError:
            continue
        found.setdefault(above, []).append(int(process))
    all_below: list[int] = []
    new = [parent]
    while new:
        new = [child for one in new for child in found.get(one, [])]
        all_below += new
    return all_below


def copy_of(process: int, to: str) -> bool:
    """Whether a process runs a program that was just compiled; if so, a copy is made. The toolchain's loader runs it,
    as the file `program` of a folder that only this process may see."""
    try:
        with open(f"/proc/{process}/cmdline", encoding="utf-8", errors="replace") as line:
            words = line.read().split("\0")
        paths = [word for word in words if word.startswith("/tmp/") and word.endswith("/program")]
        if not paths or "ld-linux" not in words[0]:
            return False
        shutil.copyfile(f"/proc/{process}/root{paths[0]}", f"{to}.new")
    except OSError:
        return False
    os.replace(f"{to}.new", to)
    return True


def contents(path: str) -> bytes:
    with open(path, "rb") as file:
        return file.read()


def differences(first: bytes, second: bytes) -> Iterator[str]:
    """The places in which two files differ, and what each has there."""
    if len(first) != len(second):
        yield f"  lengths: {len(first)} and {len(second)}"
    places = [at for at in range(min(len(first), len(second))) if first[at] != second[at]]
    for at in places[:MOST]:
        yield f"  at {at}: {first[at:at + 16]!r} and {second[at:at + 16]!r}"
    if places:
        yield f"  {len(places)} bytes differ, the last one at {places[-1]}"


def options() -> argparse.Namespace:
    parser = argparse.ArgumentParser(
        prog="same_bytes", description=__doc__, formatter_class=argparse.RawDescriptionHelpFormatter
    )
    parser.add_argument("folder", metavar="FOLDER")
    parser.add_argument("names", metavar="NAME", nargs="*", default=[])
    parser.add_argument("--unproved", action="store_true")
    parser.add_argument("--with", dest="other", metavar="DIR")
    parser.add_argument("--clock", metavar="TIME", default=CLOCK)
    return parser.parse_args()


def main() -> int:
    given = options()
    names = given.names or list(crate_lists.PROGRAMS)
    folder = os.path.abspath(given.folder)
    has_clock = bool(shutil.which("faketime"))
    if not has_clock:
        print("same_bytes: faketime isn't installed, so both are built by the clock that there is")
    first = Way(os.path.join(folder, "first"), None, None)
    second = Way(
        os.path.join(folder, "a second one, further below"),
        NOBODY,
        given.clock if has_clock else None,
    )
    os.makedirs(folder, exist_ok=True)
    os.chmod(folder, 0o755)
    built = [
        way.built(names, given.unproved) for way in ((second,) if given.other else (first, second))
    ]
    if given.other:
        built.insert(0, {name: os.path.join(given.other, name) for name in names})
    equal = [name for name in names if is_same(name, *(contents(files[name]) for files in built))]
    print(f"same_bytes: {len(equal)} of {len(names)} programs have the same bytes")
    return 0 if equal == names else 1


def is_same(name: str, one: bytes, two: bytes) -> bool:
    """Whether two builds of a program have the same bytes. Prints it, and where they differ."""
    how = "the same" if one == two else "OTHER"
    print(f"{name}: {how} {len(one)} bytes, {digest(one)}")
    for line in differences(one, two):
        print(line)
    return one == two


def digest(data: bytes) -> str:
    return f"sha256 {hashlib.sha256(data).hexdigest()}"


if __name__ == "__main__":
    sys.exit(main())
