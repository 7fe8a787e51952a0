"""Checks what the pages README.md and docs/ show and name. Their commands are run by tests/programs/test_install.py.

- Each table of the lessons (docs/learn) is worked out from the definitions (src/forestplan/definitions/), not from the
  program.
- Each excerpt of code, a fence whose first line names its file, stands in that file to the letter. A comment `..` in it
  means that lines are left out.
- No line of a page is wider than 150 columns.
- Each file named in backquotes exists, also if it is named without its folder; each link leads to a page and a
  heading, and each function and clause that docs/claim/PROMISES.md names is in the code. It names each public law, with
  all its clauses.
"""
import glob
import os
import re

from forestplan.definitions.colours import colours
from forestplan.definitions.events import Event, Kind, Message
from forestplan.definitions.nodes import DROPPED, alpha_start, last_pulse, text_of_wire
from forestplan.definitions.rounds import ColouringRounds
from forestplan.networks.network_text import network_in_bytes
from forestplan.studio.lessons import lessons
from tests import TOP
from tests.cases import FilesCase, contents, found_in, text_in

PAGES = ["README.md"] + sorted(
    os.path.relpath(path, TOP)
    for path in glob.glob(os.path.join(TOP, "docs", "**", "*.md"), recursive=True)
)
# Whose links are looked at, and not the names in them.
OTHER_PAGES = ["CHANGELOG.md", "CONTRIBUTING.md", "bench/README.md"]
LESSONS = [f"docs/learn/LESSON_{number}.md" for number in range(1, 9)] + ["docs/learn/BY_HAND.md"]
WIDEST = 150


def lines_of(page):
    return text_in(page).split("\n")


def tables_of(lines):
    """(line number, line above, rows) of each table; a row is its cells."""
    start = None
    for number, line in enumerate(lines + [""]):
        if line.startswith("|") and start is None:
            start = number
        elif not line.startswith("|") and start is not None:
            rows = [
                [cell.strip() for cell in row.strip("|").split("|")] for row in lines[start:number]
            ]
            yield start + 1, next((above for above in reversed(lines[:start]) if above), ""), rows
            start = None


def played(net, rows):
    """The rows of a run, event by event: its events with their wires, and the nodes' pulses after each row."""
    state, wanted = alpha_start(net), [rows[0][1:4]]
    for row in rows[2:]:
        wires = []
        for kind, v, _, port in re.findall(r"(Pulse|Put|Take)\((\d+)(,(\d+))?\)", row[1]):
            wire = state.step(Event(Kind(kind.lower()), int(v), int(port) if port else None))
            wires += [f"`{text_of_wire(wire)}`"] if isinstance(wire, Message) else []
        pulses = ", ".join(str(node.pulse_number) for _, node in sorted(state.nodes.items()))
        wanted.append([row[1], " ".join(wires), pulses])
    return wanted


def greatest_colours(digits):
    """The greatest colour after each of four bit steps from numbers of that many digits: in place i and its own digit,
    1."""
    for _ in range(4):
        greatest = 2 * (digits - 1) + 1
        yield str(greatest)
        digits = greatest.bit_length()


def forest_table(net, f):
    """The colours in a forest, pulse by pulse; those that a drop has changed are bold."""
    joined = [v for v in net.node_numbers if net.neighbours[v]]
    lists = ColouringRounds(net).colours[f]
    rows = [[str(v) for v in joined], [str(net.parent(f, v) or "-") for v in joined]]
    for p, colours_then in lists.items():
        row = {v: str(colours_then[v]) for v in joined}
        if p in DROPPED:
            row |= {v: f"**{said}**" for v, said in row.items() if said != str(lists[p - 1][v])}
        rows.append([*row.values()])
    return rows


def sizes_of(net):
    used = max(colours(net).values(), default=-1) + 1
    numbers = (net.nodes, net.greatest_degree, net.forest_count, last_pulse(net), used)
    return [*map(str, numbers)]


def tutorial_table(title, rows):
    """What the rows of a table have to be, after the first cell of each; None for a table that isn't worked out."""
    found = re.match(r"Forest (\d+) of `(.*)`, pulse by pulse:", title)
    if found:
        return forest_table(network_in_bytes(contents(found.group(2))), int(found.group(1)))
    found = re.match(r"Events on `(.*)`:", title)
    if found:
        return played(network_in_bytes(contents(found.group(1))), rows)
    if rows[0][0] == "network":
        nets = [network_in_bytes(contents(row[0].strip("`"))) for row in rows[2:]]
        return [rows[0][1:]] + [sizes_of(net) for net in nets]
    if rows[0][0].startswith("identifiers"):
        return [rows[0][1:]] + [list(greatest_colours(int(row[0].split()[0]))) for row in rows[2:]]
    return None


def words_of_sources():
    """The words of all files of the tree but pages, and of their names; and the script and the sample of pages."""
    found = {"draw.sh", "flood.py"}
    for folder in ("crates", "src", "build", "tests", "bench", "examples"):
        for at, below, names in os.walk(os.path.join(TOP, folder)):
            below[:] = [name for name in below if name not in ("out", "target", "__pycache__")]
            for name in names:
                text = contents(at, name).decode("latin-1")
                found |= {name, *re.findall(r"\w+", name), *re.findall(r"\w+", text)}
    return found


def heading_anchor(line):
    text = re.sub(r"[`*,.:;()?/+·']", "", line.lstrip("#").strip().lower())
    return text.replace(" ", "-")


def crate_files(pattern):
    """The paths of the files in crates/ that a pattern means."""
    return sorted(glob.glob(f"{TOP}/crates/{pattern}", recursive=True))


def clauses_of_crate(crate):
    """The names of the clauses of each function and type of a crate, and under `ghost` those of its ghost members."""
    text = "\n".join(map(text_in, crate_files(f"{crate}/src/**/*.rt")))
    found: dict[str, set[str]] = {
        name: set() for name in re.findall(r"\bimpl(?:<[^{]*?>)? (?:[\w:<>, ]* for )?(\w+)", text)
    }
    _, *parts = re.split(
        r"^\s*(?:pub(?:\(\w+\))? )?(?:fn|trait|struct|enum|type|const) (\w+)", text, flags=re.M
    )
    for name, body in zip(parts[::2], parts[1::2]):
        found.setdefault(name, set()).update(
            re.findall(r"^\s*(?:ensures|requires) (\w+) ", body, re.M)
        )
    return found | {"ghost": set(re.findall(r"^\s*(?:pub )?ghost (\w+)\s*[:=]", text, re.M))}


def named_clauses(page: str) -> list[tuple[str, set[str]]]:
    """Each function that a page names as `crate::function`: `clause`, `clause`, with these clauses. It may go on in the
    next line."""
    text = " ".join(line.strip() for line in page.split("\n"))
    found = re.findall(r"`((?!crate::)[a-z_]+(?:::\w+)+)`(?:: ((?:`\w+`(?:, |))+))?", text)
    return [(path, set(re.findall(r"`(\w+)`", clauses))) for path, clauses in found]


def unknown_clauses(path: str, said: set[str], crates: dict[str, dict[str, set[str]]]) -> list[str]:
    """Those of the clauses that aren't in the code, or the function if it isn't there; `crates` keeps what was read."""
    crate, *_, name = path.split("::")
    clauses = crates.setdefault(crate, clauses_of_crate(crate))
    return sorted(said - clauses[name] - clauses["ghost"]) if name in clauses else [name]


def laws_of_crates():
    """Each public law, by its path: `crate::function`, or `crate::laws::function`. Its body is empty or calls laws."""
    found = set()
    for file in crate_files("*/src/l*.rt"):
        *_, crate, _, module = file.split(os.sep)
        is_inside = module == "laws.rt" and "pub mod laws;" in text_in(
            "crates", crate, "src", "lib.rt"
        )
        if module in ("lib.rt", "laws.rt"):
            found |= {
                f"{crate}::laws::{name}" if is_inside else f"{crate}::{name}"
                for name in re.findall(
                    r"^pub fn (\w+)[^\n]*\n(?:    .*\n)+\{(?:\n(?:    \w+\(\);\n)+)?\}$",
                    text_in(file),
                    re.M,
                )
            }
    return found


def paths_in(line):
    """The files that a line of a page names with their folder; of a crate without `crates/`."""
    folders = "crates|docs|tests|src/forestplan|build|bin|bench|examples"
    of_crates = re.findall(r"`(\w+/(?:src|specs|proofs)(?:/[\w./-]+)?)`", line)
    return re.findall(rf"`((?:{folders})/[\w./-]+)`", line) + [f"crates/{it}" for it in of_crates]


def names_in(line):
    """The names with an underscore in what a line of a page has in backquotes, but in paths from the root."""
    quoted = " ".join(re.findall(r"`([^/`][^`]*)`", line))
    return re.findall(r"\b[a-z]\w*_\w+", quoted)


class Pages(FilesCase):
    def test_names(self):
        """Files named in backquotes, with their folder or without; other names with an underscore."""
        there, count = words_of_sources(), 0
        for page in PAGES:
            for number, line in enumerate(lines_of(page), 1):
                for path in paths_in(line):
                    is_there = "NAME" in path or os.path.exists(os.path.join(TOP, path))
                    self.note(f"{page}:{number} {path}", is_there, "there is no such file")
                last = re.findall(r"`(?:[\w/]+/)?(\w*[a-z]\w*\.(?:py|rt|antt|js|sh))`", line)
                # DECISIONS speaks of what isn't there, too.
                if not page.endswith("DECISIONS.md"):
                    last += names_in(line)
                count += len(last)
                for name in last:
                    is_there = "NAME" in name or {name, f"test_{name}"} & there
                    self.note(f"{page}:{number} {name}", is_there, "there is no such name")
        self.note("names on pages", count > 1000, count)

    def test_links(self):
        for page in PAGES + OTHER_PAGES:
            for number, line in enumerate(lines_of(page), 1):
                for target in re.findall(r"\]\((?!https?:)([^)]*)\)", line):
                    self.note(
                        f"{page}:{number} {target}",
                        self.leads(page, target),
                        "the link leads nowhere",
                    )

    def leads(self, page, target):
        path, _, anchor = target.partition("#")
        path = os.path.normpath(os.path.join(os.path.dirname(page), path)) if path else page
        return os.path.exists(os.path.join(TOP, path)) and (
            not anchor
            or anchor in {heading_anchor(head) for head in lines_of(path) if head.startswith("#")}
        )

    def test_tutorial(self):
        count = 0
        for page in LESSONS:
            for number, title, rows in tables_of(lines_of(page)):
                wanted = tutorial_table(title, rows)
                if wanted is not None:
                    count += 1
                    got = [row[1 : 1 + len(wanted[0])] for row in rows[:1] + rows[2:]]
                    self.note(f"{page}:{number}", got == wanted, f"wanted {wanted}")
        self.note("tables of the tutorial", count == 4, count)

    def test_lessons(self):
        """The tutorial lists the lessons with their titles and minutes. Each says first what its readers can do
        afterwards, and what works without the kit; the studio has the text between its rules."""
        listed = text_in("docs/learn/TUTORIAL.md")
        for page in LESSONS[:-1]:
            head, text, foot = text_in(page).split("\n\n---\n\n")
            title, minutes, exercise = found_in(
                r"^# (\d\. .*)\n\n\*[^*]*\*\s*\((\d+) minutes, and (\d+) more for the exercise;",
                head,
            ).groups()
            row = f"| [{title}]({os.path.basename(page)}) | {minutes} | {exercise} |"
            self.note(f"{page}: its row", row in listed, row)
            self.note(f"{page}: afterwards", "\n\nAfterwards you can " in head, head)
            self.note(f"{page}: the kit", "\n\nWithout the kit: " in head, head)
            self.note(f"{page}: its exercise", f"**Exercise {title[0]}.**" in text, text[-200:])
            self.note(f"{page}: answers", "(ANSWERS.md#answers)" in foot, foot)
        self.same("lessons of the studio", [one.number for one in lessons()], [*range(1, 9)])

    def test_excerpts(self):
        """A part of an excerpt, up to a comment `..`, stands in the file as it is, and each part after the one before
        it. README has one whole function."""
        for page in PAGES:
            found = re.findall(
                r"(?m)^ *```(?:rust|antt)\n *(?://|--) (\S+)\n((?:.*\n)*?) *```$", text_in(page)
            )
            fences = len(re.findall(r"(?m)^ *```(?:rust|antt)$", text_in(page)))
            self.same(f"{page}: fences that name their file", len(found), fences)
            for path, block in found:
                source = "".join(f"{line.strip()}\n" for line in lines_of(path))
                excerpt = "".join(f"{line.strip()}\n" for line in block.splitlines())
                parts = re.split(r"^(?://|--) \.\.\n", excerpt, flags=re.M)
                wanted = r"(?s:.*)".join(map(re.escape, parts))
                self.note(
                    f"{page} excerpt of {path}",
                    re.search(f"^{wanted}", source, re.M),
                    "it has lines that aren't there, or not in this order",
                )
        self.same(
            "functions that README shows whole",
            re.findall(
                r"(?m)^pub fn (\w+)\(.*\n(?:    .*\n)+\{\n(?:    .*\n)+\}\n```$",
                text_in("README.md"),
            ),
            ["bit_step"],
        )

    def test_promises(self):
        """A promise is written as `named_clauses` reads it."""
        promises = named_clauses(text_in("docs/claim/PROMISES.md"))
        crates: dict[str, dict[str, set[str]]] = {}
        named: dict[str, set[str]] = {}
        for path, said in promises:
            named.setdefault(path, set()).update(said)
            missing = unknown_clauses(path, said, crates)
            self.note(f"docs/claim/PROMISES.md {path}", not missing, f"not in the code: {missing}")
        laws = laws_of_crates()
        for law in sorted(laws & named.keys()):
            where, *_, name = law.split("::")
            lacking = crates[where][name] - named[law]
            self.note(f"clauses of {law}", not lacking, f"not named: {sorted(lacking)}")
        missing = sorted(laws - {path for path, _ in promises})
        self.note(
            "laws in docs/claim/PROMISES.md",
            len(laws) > 50 and not missing,
            f"{len(laws)} are found, not named: {missing}",
        )
        self.note(
            "promises of docs/claim/PROMISES.md", len(promises) > 200, f"{len(promises)} are found"
        )

    def test_lengths(self):
        for page in PAGES + OTHER_PAGES:
            # A row of a table can't be broken.
            wide = [
                at
                for at, line in enumerate(lines_of(page), 1)
                if len(line) > WIDEST and not line.lstrip().startswith("|")
            ]
            self.same(f"{page}: lines wider than {WIDEST} columns", wide, [])
