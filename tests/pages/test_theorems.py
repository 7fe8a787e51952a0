"""Checks docs/claim/THEOREMS.md and CITATION.cff against the code. Nothing is compiled.

- Each function and clause that the page names is in the code, and so is each field that it names with its record.
- For each theorem, the page says with which files a reader begins, and how many files and lines of definitions its
  statement reaches, as the clauses that it names say it (statements.py); and how many lines of code, definitions and
  proofs there are. A number of lines may be 5 percent off, so that a small change needs no other.
- It says in which proof a run picks its network; each call that passes `Brand` has such a pick.
- It says how many planted bugs CI tries, how many crates a first call proves, and what crates of theorems it leaves.
- CITATION.cff has the version of this tree.
"""
import os
import re

from build.crate_lists import listed, with_below
from forestplan import __version__
from tests import TOP
from tests.cases import FilesCase, found_in, text_in
from tests.pages.statements import TESTS, named, reached, roots_of
from tests.pages.test_pages import crate_files, named_clauses, tables_of, unknown_clauses

PAGE = os.path.join("docs", "claim", "THEOREMS.md")
MOST_OFF = 0.05
# What every row of what there is to read has with it.
FIRST = "crates/alpha_laws/specs/Simulates.antt"


def crate_of(path):
    return os.path.relpath(path, TOP).split(os.sep)[1]


def said_in(page, name):
    """The functions and clauses that a row of the table is about: those of a theorem, or of some of its parts."""
    found = found_in(r"^Theorem (\d)(?: \((\w)\))?(?: to \((\w)\))?$", name)
    number, first, last = found[1], found[2] or "a", found[3] or found[2] or "z"
    section = found_in(rf"\n## Theorem {number}:(.*?)(?=\n## )", page, re.S)[1]
    _, *parts = re.split(r"^- \*\*\((\w)\)\*\*", section.partition("*How far")[0], flags=re.M)
    for letter, part in zip(parts[::2], parts[1::2]):
        if first <= letter <= last:
            yield from named_clauses(part)


def to_read(page, name):
    """The files that a statement reaches: of its definitions, and of the types and traits that these name."""
    if name == "`Simulates`":
        return reached([FIRST])
    said = said_in(page, name)
    return reached(set().union(*(roots_of(named(path), clauses) for path, clauses in said)))


def of_kind(paths, ending):
    return {path for path in paths if path.endswith(ending)}


def lines_to_read(paths):
    """How many lines files have without blank ones, comments and imports."""
    lines = [line.strip() for path in paths for line in text_in(path).split("\n")]
    return sum(1 for line in lines if line and not re.match(r"--|use ", line))


def lines_of_part(part):
    """How many lines a folder of all crates but those of tests has."""
    suffix = "*.rt" if part == "src" else "*.antt"
    files = crate_files(f"*/{part}/**/{suffix}")
    return sum(text_in(path).count("\n") for path in files if crate_of(path) not in TESTS)


class Theorems(FilesCase):
    def near(self, name, said, real):
        """A row: a number of the page is near the real one."""
        number = int(said.replace(",", ""))
        self.note(name, abs(number - real) <= MOST_OFF * real, f"{number}, and it is {real}")

    def test_clauses(self):
        cited = named_clauses(text_in(PAGE))
        crates: dict[str, dict[str, set[str]]] = {}
        for path, said in cited:
            missing = unknown_clauses(path, said, crates)
            self.note(f"{PAGE} {path}", not missing, f"not in the code: {missing}")
        self.note("clauses of the theorems", len(cited) > 30, f"{len(cited)} are found")

    def test_fields(self):
        """Fields that are named with their record, in the files of the table of words."""
        page, count = text_in(PAGE), 0
        files = dict(re.findall(r"\| \[`(\w+)`\][^|]*, `(crates/\S+)` \|", page))
        for names, record in re.findall(r"the fields? ([^.;()]*?) of\s+`(\w+)`", page):
            for name in re.findall(r"`(\w+)`", names):
                count += 1
                field = re.search(rf"^  pub {name} :", text_in(files[record]), re.M)
                self.note(f"field {name} of {record}", field, files[record])
        self.note("fields that are named", count > 5, count)
        simulates = text_in(files["Simulates"]).partition("pub record Simulates")[2]
        fields = re.findall(r"^  pub (\w+) :", simulates, re.M)
        self.same("fields of Simulates", (len(fields), "thirteen fields" in page), (13, True))

    def test_picks(self):
        """A call that passes `Brand` without a pick in its caller's proof would speak of an empty network."""
        picks: dict[str, str] = {}
        for path in crate_files("*/src/**/*.rt"):
            crate, module = crate_of(path), os.path.splitext(os.path.basename(path))[0]
            for name in re.findall(r"\b(\w+)::<Brand\b", text_in(path)):
                proofs = crate_files(f"{crate}/proofs/**/{module}/**/Invariants.antt")
                found = [proof for proof in proofs if f"\nghosts-{name} " in text_in(proof)]
                self.same(f"picks of {name} in {path}", len(found), 1)
                picks |= {os.path.relpath(proof, TOP): text_in(proof) for proof in found}
        said = re.findall(r"`(crates/\S+/Invariants\.antt)`", text_in(PAGE))
        self.note("the page names a pick", said, picks.keys())
        for path in said:
            self.note(f"{path} picks the network", "net = a.net.now;" in picks.get(path, ""), path)

    def judged(self, name, roots, files, lines, code):
        """The rows of what there is to read to judge a statement."""
        paths = to_read(text_in(PAGE), name)
        definitions = of_kind(paths, ".antt")
        begun = of_kind(reached(re.findall(r"`(crates/\S+)`", roots)), ".antt")
        self.same(f"what is read to judge {name}", begun, definitions)
        first = of_kind(reached([FIRST]), ".antt")
        self.note(f"{name} has the files of the first row", first <= definitions, first)
        self.same(f"files to judge {name}", int(files), len(definitions))
        self.near(f"lines to judge {name}", lines, lines_to_read(definitions))
        self.same(f"files of code to judge {name}", int(code), len(paths - definitions))

    def test_how_much(self):
        tables = {tuple(rows[0]): rows[2:] for _, _, rows in tables_of(text_in(PAGE).split("\n"))}
        judged = tables["To judge", "Begin with", "Files", "Lines", "Code"]
        self.note("rows of what there is to read", len(judged) == 7, judged)
        for row in judged:
            self.judged(*row)
        for name, lines in tables["What", "Lines"]:
            part = found_in(r"crates/\*/(\w+)", name)[1]
            self.near(f"lines of {part}", lines, lines_of_part(part))
        below = with_below(["forestplan"], listed())
        first = " ".join(text_in(PAGE).split()).partition("It proves the ")[2]
        self.same("crates of a first call", first.split()[0], str(len(below)))
        left = re.findall(
            r"`(\w+)`", first.partition(" theorems in the crates ")[2].partition(" are left")[0]
        )
        laws = {path.split("::")[0] for path, _ in named_clauses(text_in(PAGE))} - set(below)
        self.same("crates of theorems that it leaves", sorted(left), sorted(laws))
        bugs = len(crate_files("*/must-fail/*.edit"))
        said = re.findall(r"also\s+tries\s+(\d+)\s+planted\s+bugs", text_in(PAGE))
        self.same("planted bugs", said, [str(bugs)])

    def test_citation(self):
        version = found_in(r"^version: (\S+)$", text_in("CITATION.cff"), re.M)
        self.same("version of CITATION.cff", version[1], __version__)
        self.note(
            "it is in CHANGELOG", f"\n## {__version__}" in text_in("CHANGELOG.md"), __version__
        )
