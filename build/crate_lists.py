"""What crates.txt says: which crates each crate names, and so which are below it; and a repository of some of them."""
import os
import shutil
from collections.abc import Callable, Collection, Iterable, Mapping

TOP = os.path.dirname(os.path.dirname(os.path.abspath(__file__)))
# The crates that are programs.
PROGRAMS = ("forestplan", "forestplay")


def lines_of(top: str = TOP) -> dict[str, str]:
    """The lines of a repository's crates.txt by the names of their crates, in their order."""
    with open(os.path.join(top, "crates.txt"), encoding="utf-8") as text:
        lines = [line.strip() for line in text]
    return {
        line.partition(":")[0].split()[0]: line for line in lines if ":" in line.partition("#")[0]
    }


def listed(top: str = TOP) -> dict[str, list[str]]:
    """The crates of a repository's crates.txt in their order, each with those of the repository that its line names."""
    lines = lines_of(top)
    named = {
        crate: line.partition("#")[0].partition(":")[2].split() for crate, line in lines.items()
    }
    return {crate: [name for name in names if name in lines] for crate, names in named.items()}


def with_below(crates: Iterable[str], below: Mapping[str, Iterable[str]]) -> list[str]:
    """The given crates and all below them, lower ones first."""
    found: dict[str, bool] = {}

    def visit(crate: str) -> None:
        if crate not in found:
            for lower in below[crate]:
                visit(lower)
            found[crate] = True

    for crate in crates:
        visit(crate)
    return list(found)


def copy(crates: Collection[str], to: str, left_out: Collection[str]) -> None:
    """Makes a repository of these crates alone, in a folder that isn't there; of each crate's own folder something may
    be left out."""
    os.makedirs(to)
    shutil.copy(os.path.join(TOP, "HANDLES"), to)
    with open(os.path.join(to, "crates.txt"), "w", encoding="utf-8") as text:
        text.writelines(f"{lines_of()[crate]}\n" for crate in crates)
    for crate in crates:
        here = os.path.join(TOP, "crates", crate)
        shutil.copytree(
            here, os.path.join(to, "crates", crate), symlinks=True, ignore=only_in(here, left_out)
        )


def only_in(folder: str, names: Iterable[str]) -> Callable[[str, list[str]], Iterable[str]]:
    """Has `copytree` pass over these names in a folder itself, and not in those below it."""

    def ignored(at: str, _: list[str]) -> Iterable[str]:
        return names if at == folder else ()

    return ignored
