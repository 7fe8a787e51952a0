"""Writes the tables of crates in docs/work/LAYERS.md: the groups of crates.txt, and of each crate the first sentence of
its head, which says what the crate is."""
import argparse
import os
import re

from build.crate_lists import TOP

PAGE = os.path.join("docs", "work", "LAYERS.md")
BEGIN = "<!-- Written by `python3 build crate-tables` from crates.txt and the heads of the crates: -->\n"
END = "<!-- Up to here. -->\n"
HELP = """\
Writes the tables of crates in docs/work/LAYERS.md again, from crates.txt and the first
sentence of each crate's head (src/lib.rt or src/main.rt).

Example:
  python3 build crate-tables
"""


def read(*path: str) -> str:
    with open(os.path.join(TOP, *path), encoding="utf-8") as text:
        return text.read()


def groups() -> list[tuple[str, list[str]]]:
    """The headings of crates.txt in their order, each with the crates below it. The first line is the file's own."""
    found: list[tuple[str, list[str]]] = []
    for line in read("crates.txt").split("\n")[1:]:
        if line.startswith("#"):
            found.append((line.strip("# "), []))
        elif line.strip():
            found[-1][1].append(line.partition(":")[0].strip())
    return found


def purpose(crate: str) -> str:
    """The first sentence of a crate's head, without its full stop."""
    source = os.path.join("crates", crate, "src")
    name = "lib.rt" if os.path.exists(os.path.join(TOP, source, "lib.rt")) else "main.rt"
    head = re.findall(r"^//! ?(.*)$", read(source, name), re.M)
    sentence = re.match(r".*?\.(?= |$)", " ".join(head))
    return sentence[0].rstrip(".") if sentence else ""


def tables() -> str:
    """A heading and a table for each group of crates."""
    return "\n".join(
        f"### {heading}\n\n| Crate | What it is |\n|---|---|\n"
        + "".join(f"| `{crate}` | {purpose(crate)} |\n" for crate in crates)
        for heading, crates in groups()
    )


def written(page: str) -> str:
    """The page with its tables as they are now."""
    before, rest = page.split(BEGIN)
    return f"{before}{BEGIN}\n{tables()}\n{END}{rest.split(END)[1]}"


def main() -> int:
    parser = argparse.ArgumentParser(
        "python3 build crate-tables",
        description=HELP,
        formatter_class=argparse.RawTextHelpFormatter,
    )
    parser.parse_args()
    text = written(read(PAGE))
    with open(os.path.join(TOP, PAGE), "w", encoding="utf-8") as page:
        page.write(text)
    return 0
