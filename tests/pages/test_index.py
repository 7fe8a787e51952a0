"""Checks pages against what they are made from.

Nothing is built or run. What pages show and link is checked by test_pages.py beside this.
"""
import glob
import os
import pathlib
import re

from build import command_table, crate_tables
from build.crate_lists import PROGRAMS, listed, with_below
from forestplan.__main__ import COMMANDS as OF_FORESTLAB
from tests import TOP
from tests.cases import FilesCase, found_in, text_in
from tests.commands import COMMANDS
from tests.pages.test_pages import PAGES, lines_of, tables_of

README_COLUMNS = 120

# The constants of limits, and what is said of them elsewhere, with line ends as blanks.
LIMITS = (
    "graph_limits/src/limits.rt",
    "interference/src/limits.rt",
    "run_options/src/lib.rt",
    "command_line/src/programs.rt",
    "whole_streams/src/source.rt",
)
OF_NETWORKS = ("MAX_NODES", "MAX_EDGES", "MAX_CHANNEL", "MAX_BARS")


def assigned(*names):
    """The lines of Python that give constants their numbers."""
    return [f"{name} = {{{name}}} " for name in names]


SAID_OF_LIMITS = {
    "README.md": (
        "{MAX_NODES:,} nodes, {MAX_EDGES:,} edges, {MAX_DEGREE:,} neighbours and {MAX_BARS:,} barred",
        "channels of a node, {MAX_WORKERS} threads",
    ),
    "docs/claim/DEFINITIONS.md": (
        "`MAX_NODES`, {MAX_NODES:,}, `MAX_EDGES`, {MAX_EDGES:,}, `MAX_CHANNEL`, {MAX_CHANNEL:,} (",
        "`MAX_BARS`, {MAX_BARS:,} (",
        "`MAX_DEGREE`, {MAX_DEGREE:,} (",
        "`MAX_WORKERS`, {MAX_WORKERS}, `MAX_CAPACITY`, {MAX_CAPACITY}, and ",
        "F7: NODES above {MAX_NODES:,}",
        "name {ABOVE_EDGES:,} different edges",
        "0 or above {MAX_CHANNEL:,}; F14",
        "bar {ABOVE_BARS:,} different channels",
        "at most {MAX_BARS:,}, each below {MAX_CHANNEL:,}.",
        "more than {MAX_DEGREE:,} neighbours",
        "1 to {MAX_WORKERS} workers and a capacity of 1 to {MAX_CAPACITY}.",
    ),
    "docs/claim/FORMATS.md": (
        "hadn't ended after {READ_LIMIT:,} reads",
        "| F7 | NODES is above {MAX_NODES:,}, or",
        "would add a {ABOVE_EDGES:,}st distinct edge |",
        "would bar a {ABOVE_BARS:,}th distinct channel at its vertex |",
        "| F13 | a barred channel is 0 or above {MAX_CHANNEL:,} |",
        "a vertex has more than {MAX_DEGREE:,} neighbours",
        "| `--workers` | 1 | {MAX_WORKERS} |",
        "| `--capacity` | 1 | {MAX_CAPACITY} |",
        "| 0 | {MAX_TURNS} |",
        "| `--edition` | 1 | {MAX_EDITION} |",
        "a vertex, from 1 to {MAX_NODES:,}",
        "again, from 1 to {MAX_PASSES};",
        "from 1 to {MAX_CHANNEL:,}, up to {MAX_BARS:,} of them at one vertex",
    ),
    "docs/claim/PROMISES.md": (
        "{MAX_NODES:,} vertices and {MAX_EDGES:,} edges, {MAX_DEGREE:,} neighbours, {MAX_WORKERS} workers",
        " workers, {MAX_PASSES} passes, {READ_LIMIT:,} reads",
        "and B at most {MAX_BARS:,}.",
    ),
    "docs/learn/LESSON_6.md": ("every network of up to {MAX_NODES:,} nodes",),
    "docs/work/LOOKUP.md": ("{MAX_DEGREE:,} + {MAX_BARS:,}, below `COLOURS`, {MAX_CHANNEL:,}",),
    "src/forestplan/limits.py": assigned(*OF_NETWORKS, "MAX_DEGREE", "MAX_WORKERS", "MAX_PASSES"),
    "src/forestplan/networks/codes.py": ("it names one more than {MAX_EDGES:,} different edges",),
    "src/forestplan/interface/calls.py": (
        "`workers`, 1 to {MAX_WORKERS},",
        "more than {MAX_DEGREE:,} neighbours",
    ),
    "src/forestplan/studio/page/draw.js": (
        " > {MAX_CHANNEL})",
        "numbers from 1 to {MAX_CHANNEL:,},",
    ),
    "src/forestplan/studio/page/page.html": (
        'id="workers" type="number" min="1" max="{MAX_WORKERS}"',
        'id="capacity" type="number" min="1" max="{MAX_CAPACITY}"',
    ),
}


def table_after(heading, page):
    """The cells of the rows of the first table after a heading, without the row of titles."""
    rows = re.findall(r"^\| .*$", page.partition(f"\n{heading}\n")[2].partition("\n## ")[0], re.M)
    return [[cell.strip() for cell in row.strip("|").split("|")] for row in rows[1:]]


def one_line(text):
    return re.sub(r"\s+", " ", text)


class Index(FilesCase):
    def test_readme(self):
        text = text_in("README.md")
        wide = [
            number for number, line in enumerate(text.split("\n"), 1) if len(line) > README_COLUMNS
        ]
        self.assertEqual(wide, [], f"lines of README.md above {README_COLUMNS} columns")
        before, _, after = text.partition("## The claim")
        self.assertEqual(
            (before.count("!["), after.count("![")), (2, 0), "two pictures, before the claim"
        )

    def test_kits(self):
        """README, THEOREMS and CHANGING name all kits for which the sources are, and no others."""
        kits = [line.split()[0] for line in text_in("build", "kits.txt").splitlines()]
        for page in ("README.md", "docs/claim/THEOREMS.md", "docs/work/CHANGING.md"):
            named = sorted(set(re.findall(r"rattle-kit-\w+", text_in(page))))
            self.same(f"kits of {page}", named, kits)

    def test_lists(self):
        """No line of a paragraph begins with a sign or a number by which it would be shown as an item of a list."""
        mark = re.compile(r" *([-+*]|\d+[.)]) ")
        for page in PAGES:
            above = ""
            for number, line in enumerate(lines_of(page), 1):
                is_item = mark.match(line) and not line.startswith("    ")
                in_text = re.match(r"[^\s|#<]", above) and not mark.match(above)
                self.note(f"{page}:{number}", not (is_item and in_text), line)
                self.note(f"{page}:{number} plus", not re.match(r" *\+ ", line), line)
                # A paragraph begins a list if its first line does.
                above = above if above and line.strip() else line

    def test_crate_tables(self):
        """LAYERS has the tables that `python3 build crate-tables` writes. Each group of crates.txt has a heading and a
        crate, each crate stands below those that it names, and a head has a first sentence."""
        page = text_in("docs", "work", "LAYERS.md")
        self.same("LAYERS as crates.txt and the heads have it", page, crate_tables.written(page))
        self.same(
            "groups without a crate", [head for head, of in crate_tables.groups() if not of], []
        )
        order = [crate for _, of in crate_tables.groups() for crate in of]
        self.same("crates in groups", order, list(listed()))
        late = {
            crate: [name for name in names if order.index(name) > order.index(crate)]
            for crate, names in listed().items()
        }
        self.same("crates above one that they name", {c: of for c, of in late.items() if of}, {})
        self.same("heads without a sentence", [c for c in order if not crate_tables.purpose(c)], [])

    def test_crates_below(self):
        """LOOKUP says which crates a first call of each program leaves unproved: those that aren't below it."""
        below = {crate: with_below([crate], listed()) for crate in listed()}
        found = re.findall(
            r"`(\w+)` leaves ((?:`\w+`(?:, | and |))+)",
            one_line(text_in("docs", "work", "LOOKUP.md")),
        )
        self.same(
            "what first calls leave",
            {name: sorted(re.findall(r"`(\w+)`", left)) for name, left in found},
            {name: sorted(below.keys() - set(below[name])) for name in PROGRAMS},
        )

    def test_crates_brought(self):
        """OWN_PROGRAM says how many crates come along with one that is copied."""
        text = one_line(text_in("docs", "work", "OWN_PROGRAM.md"))
        said = re.findall(
            r"`(\w+)`(?: \([^)]*\)|, from which others are made,)(?: brings)? (\d+)", text
        )
        self.same(
            "crates that come along",
            said,
            [
                (crate, str(len(with_below([crate], listed()))))
                for crate in ("sync_rounds", "node_pool", "silent")
            ],
        )

    def test_glossary(self):
        """The glossary of DEFINITIONS has each word once, and the names of code that it gives are there. LOOKUP sends
        its readers to it, and says of none of its words what it means."""
        rows = table_after("## Glossary", text_in("docs", "claim", "DEFINITIONS.md"))
        words = [word for row in rows for word in row[0].split(", ")]
        self.same(
            "words that are there twice", sorted({w for w in words if words.count(w) > 1}), []
        )
        names = {name for row in rows for name in re.findall(r"`([A-Z][A-Za-z]+)`", row[1])}
        code = "".join(
            path.read_text()
            for end in ("rt", "antt")
            for path in pathlib.Path(TOP, "crates").rglob(f"*.{end}")
        )
        self.same("names of code", {n for n in names if not re.search(rf"\b{n}\b", code)}, set())
        page = text_in("docs", "work", "LOOKUP.md")
        self.note(
            "LOOKUP", "(../claim/DEFINITIONS.md#glossary)" in page, "doesn't name the glossary"
        )
        first = re.findall(r"^\| ([^|]+?) \|", page, re.M)
        self.same("words of LOOKUP's own tables", set(words) & set(first), set())

    def test_minutes_of_teaching(self):
        """TEACHING says how many parts of its table are taught in a shorter class: as many as its minutes hold."""
        page = one_line(text_in("docs", "learn", "TEACHING.md"))
        parts = [(int(begin), int(end)) for begin, end in re.findall(r"\| (\d+) to (\d+) \|", page)]
        self.same(
            "parts without a gap",
            [begin for begin, _ in parts],
            [0, *(end for _, end in parts[:-1])],
        )
        minutes, number = found_in(
            r"If you have (\d+) minutes, teach the first (\w+) parts", page
        ).groups()
        count = {"two": 2, "three": 3, "four": 4}[number]
        self.same(
            f"parts in {minutes} minutes", count, sum(end <= int(minutes) for _, end in parts)
        )

    def test_wrong_bodies_of_gallery(self):
        """GALLERY names each wrong body with its crate. The edit is there, and those of the programs that go on are
        tried by hand."""
        page = text_in("docs", "learn", "GALLERY.md")
        before, _, after = page.partition("## Rules of the programs that go on")
        self.note("by hand", "are tried by hand" in one_line(after), after[:500])
        for text, folders in ((before, ("must-fail", "wrong-bodies")), (after, ("wrong-bodies",))):
            named = re.findall(
                r"rong body (?:of|is) `(\w+)`(?:, which the prover refuses)?: `?(\w+)",
                one_line(text),
            )
            self.note("wrong bodies", len(named) > 5, named)
            for crate, name in named:
                there = [
                    folder
                    for folder in ("must-fail", "wrong-bodies")
                    if os.path.exists(os.path.join(TOP, "crates", crate, folder, f"{name}.edit"))
                ]
                self.note(f"{name} of {crate}", there and {*there} <= {*folders}, there)

    def test_command_table(self):
        """README has the table that `python3 build command-table` writes."""
        page = text_in("README.md")
        self.same("README as the help texts have it", page, command_table.written(page))

    def test_readme_has_each_command(self):
        """Each command of forestlab and of the programs is in the table."""
        rows = [
            re.findall(r"[a-z]+", row)
            for row in re.findall(r"^(`[^|]*`) \| ", text_in("README.md"), re.M)
        ]
        wanted = {(it.program, it.name) for it in COMMANDS} | {
            ("forestlab", name) for name in OF_FORESTLAB
        }
        self.same(
            "commands of README",
            {(program, name) for program, *names in rows for name in names},
            wanted,
        )

    def test_layers(self):
        """A package of src/forestplan/ imports only those before it; what is in src/forestplan/ itself belongs to
        none."""
        order = (
            "definitions networks transcripts schedules pictures interface workshop studio".split()
        )
        packages = glob.glob("*/__init__.py", root_dir=os.path.join(TOP, "src", "forestplan"))
        self.same("packages", sorted(order), sorted(os.path.dirname(path) for path in packages))
        for at, package in enumerate(order):
            for path in glob.glob(
                os.path.join(TOP, "src", "forestplan", package, "**", "*.py"), recursive=True
            ):
                names = re.findall(r"^\s*(?:from|import) forestplan\.(\w+)", text_in(path), re.M)
                later = set(names).intersection(order[at + 1 :])
                self.same(f"{os.path.relpath(path, TOP)}: later packages", later, set())

    def test_names_in_files(self):
        """Each name that a page gives with its file, as in "`crates/pool/src/run.rt`: `start`, `join_all`", in two
        cells of a row, or in "`start` and `join_all` of `pool/src/run.rt`", is there; a file without a folder is
        beside the one named before it in the line."""
        count = 0
        for page in PAGES:
            for number, line in enumerate(lines_of(page), 1):
                folder = ""
                named = re.findall(
                    r"`([\w/-]+\.(?:rt|antt))`(?::| \|) ((?:`\w+`(?:, | and |))*)", line
                )
                named += [
                    (path, names)
                    for names, path in re.findall(
                        r"((?:`\w+`(?:, | and |))+) of `((?:crates/)?\w+/(?:src|specs)/[\w/-]+\.(?:rt|antt))`",
                        line,
                    )
                ]
                for path, names in named:
                    folder = os.path.dirname(path) or folder
                    above = "" if folder.split("/")[0] == "crates" else "crates"
                    file = (above, folder, os.path.basename(path))
                    for name in re.findall(r"`(\w+)`", names):
                        count += 1
                        self.note(
                            f"{page}:{number} {name}",
                            re.search(rf"\b{name}\b", text_in(*file)),
                            "isn't there",
                        )
        self.assertGreater(count, 50, "names with their files")

    def test_synopsis(self):
        """FORMATS shows each option of a command that takes options, as its help lists them."""
        page = text_in("docs", "claim", "FORMATS.md")
        for command in ("plan", "transcript"):
            line = found_in(rf"(?m)^    forestplan {command} .*", page)[0]
            helped = text_in("src", "forestplan", "help", f"forestplan-{command}.txt")
            options = set(re.findall(r"^\s+(?:-\w, )?(--\w+)", helped, re.M)) - {"--help"}
            self.note(
                f"options of {command}",
                len(options) > 2 and set(re.findall(r"--\w+", line)) == options,
                options,
            )

    def test_limits(self):
        """Pages, and what of src/forestplan/ has a limit of its own, have the numbers of the constants."""
        text = "".join(text_in("crates", file) for file in LIMITS)
        limits = {
            name: int(number.replace("_", ""))
            for name, number in re.findall(r"^pub const (\w+): \w+ = ([\d_]+);", text, re.M)
        }
        above = {name.replace("MAX", "ABOVE"): number + 1 for name, number in limits.items()}
        limits = above | limits
        for path, rows in SAID_OF_LIMITS.items():
            for row in rows:
                self.note(
                    f"{path}: {row}",
                    row.format_map(limits) in one_line(text_in(path)),
                    row.format_map(limits),
                )

    def test_measurements(self):
        """MEASUREMENTS begins with a table of at most 20 rows, each of which links the section that has its figures."""
        lines = lines_of("docs/MEASUREMENTS.md")
        line, _, rows = next(tables_of(lines))
        heads = [number for number, text in enumerate(lines, 1) if text.startswith("## ")]
        self.note("before all sections", line < heads[0], line)
        wanted = ["Question", "Now", "Goal", "Met?", "Measure it again by"]
        self.same("columns", rows[0], wanted)
        self.note("rows", 10 < len(rows[2:]) <= 20, len(rows[2:]))
        for row in rows[2:]:
            self.note(row[0], re.fullmatch(r"\[.*\]\(#.*\)", row[0]) and len(row) == 5, row)

    def test_gallery(self):
        """GALLERY's table has each rule of the page, in the order of the page, with what it asks."""
        text = text_in("docs", "learn", "GALLERY.md")
        wanted = re.findall(r"^### `(\w+)`: (.*)$", text, re.M)
        rows = re.findall(r"^\| \[`(\w+)`\]\(#[^)]*\) \| (.*?) \|", text, re.M)
        self.same("rules of the table", rows, wanted)
        self.note("there are such rules", len(wanted) > 10, len(wanted))

    def test_changes(self):
        """Each version of CHANGELOG has some of these kinds of changes, in this order, at most three lines for each."""
        kinds = ["Breaking", "Added", "Changed", "Fixed", "Removed"]
        _, *versions = re.split(r"^## ", text_in("CHANGELOG.md"), flags=re.M)
        self.note("versions", len(versions) > 5, len(versions))
        for text in versions:
            version = text.split()[0]
            before, *parts = re.split(r"^### ", text, flags=re.M)
            found = [part.split("\n")[0] for part in parts]
            self.same(f"kinds of {version}", found, [kind for kind in kinds if kind in found])
            self.note(f"{version}: changes of no kind", "\n- " not in before, before)
            long = re.findall(r"^- .*\n(?:  [^|\n].*\n){3,}", text, re.M)
            self.same(f"{version}: changes of more than three lines", long, [])

    def test_stored_transcript(self):
        """FORMATS says how many bytes a line of the stored transcript takes."""
        transcript = text_in("docs", "pictures", "petersen.transcript")
        average = round(len(transcript) / transcript.count("\n"))
        self.assertIn(
            f"a line has {average} bytes on average",
            one_line(text_in("docs", "claim", "FORMATS.md")),
        )
