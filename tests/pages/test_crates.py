"""Checks of the files of crates/ by their text alone; nothing is compiled.

- Each wrong body (crates/NAME/must-fail/ and wrong-bodies/) still applies: each `old:` text is exactly once in its file
  and is changed. A line `clause: NAME`, which says what refuses it, names a clause of a function in a file that it
  changes, or `result` if the clause has no name; `clause: NAME of WHAT` one of another function, type or record.
- Each public constant with a number of its own has a line `prove!`, or a clause, that says the number: in its crate, or
  in one that takes it from there.
- `main` of each program has the type that `serve_words` alone makes, of its own commands and the standard streams.
- The only loops without a bound are in the files of the functions that wait for other threads.
- No line is wider than 120 columns in src/ and specs/, and than 160 in proofs/.
- Files of specs/ have definitions alone: those that import proofs or state a lemma are called `..Laws.antt`, or
  `Props.antt`, and neither another file of specs/ nor a clause takes a word from one of these.
- Each lemma is named outside its own proof.
- Each crate of crates.txt lists each crate that its own files name, and no other. A crate that the head of a `lib.rt`
  names as a caller ("`answers` calls ..") lists the crate. No file passes a name of another crate on: no `pub use` of a
  lower crate in src/, specs/ or proofs/, and no import by way of one (`below`).
"""
import collections
import os
import re

from build.crate_lists import PROGRAMS, listed
from tests import TOP
from tests.cases import FilesCase, found_in, text_in
from tests.pages.test_pages import crate_files

GHOST, CODE = r"\bRattle\.(\w+)\.", r"(?<![\w:.])([a-z_]\w*)::"
SOURCES = crate_files("*/src/**/*.*t") + crate_files("*/specs/**/*.*t")
CALLERS = (
    r"((?:`\w+`(?:, and |, | and )?)+) "
    r"(?:calls?|cites?|uses?|reads?|writes?|prints?|plays?|checks?|keeps?|numbers|builds)\b"
)


NUMBER = r"^pub const ([A-Z_]+): [iu]\w+ = ([\d_]+);"
SAID = r"prove!\([^;]*\);|ensures \w+ \{ [A-Z_]+ ≡ \d+ \}"
TESTS = ("checks", "worker_checks")
WAITING = {
    "crates/link_queue/src/link.rt",
    "crates/pool/src/gathering.rt",
    "crates/wired_nodes/src/turn.rt",
}

# A file of specs/ that has laws with their proofs, as a path or as a module.
LAWS = r"specs[./](?:[A-Z]\w+Laws|Props)\b"
# A lemma, whose proof follows its statement; a word; and a clause, up to braces in its braces.
LEMMA = r"^( *)(?:pub )?([^\s:(){}]+) : (?!goal\.).*\n(?:\1 +.*\n)*(?:\1unfolding .*\n)?\1\2[ \n]"
WORD = r"[^\s(){}\[\],.;:]+"
CLAUSE = r"^ *(?:ensures|requires) \w* ?(\{(?:[^{}]|\{[^{}]*\})*\})"


def unfound(path):
    """What an edit changes and isn't exactly once in its file, as the pairs before it left that file."""
    crate, old = os.path.dirname(os.path.dirname(path)), ""
    texts: dict[str, str] = {}
    for word, _, rest in (line.partition(":") for line in text_in(path).splitlines()):
        rest = rest.removeprefix(" ")
        if word == "file":
            file = rest.strip()
            texts.setdefault(file, text_in(crate, file))
        elif word == "old":
            old = rest
            if texts[file].count(old) != 1:
                yield f"{file}: {old}"
        elif word == "new":
            texts[file] = texts[file].replace(old, rest)
    if all(text == text_in(crate, file) for file, text in texts.items()):
        yield "it changes nothing"


def files_of(crate):
    """Each file of a crate's sources, its path with its text, comments left out."""
    for part in ("src", "specs", "proofs"):
        for path in crate_files(f"{crate}/{part}/**/*.*t"):
            yield os.path.relpath(path, TOP), re.sub(
                r"^\s*(//|-- ).*$", "", text_in(path), flags=re.M
            )


def sources():
    return dict(file for crate in listed() for file in files_of(crate))


def has_clause(path):
    """Whether the clause that an edit names is there."""
    name, _, other = found_in(r"^clause: (.*)$", text_in(path), re.M)[1].partition(" of ")
    crate = os.path.dirname(os.path.dirname(path))
    if not other:
        files = re.findall(r"^file: (.*)$", text_in(path), re.M)
        clause = "ensures {" if name == "result" else f"ensures {name} {{"
        return any(clause in text_in(crate, file) for file in files)
    what = rf"\b(?:fn|struct|trait|record|Model for) {other.rpartition('::')[2]}\b"
    clause = rf"\b(?:requires|ensures|ghost|pub)? ?{name}(?: \{{|:| :| =)"
    return any(
        re.search(what, text) and re.search(clause, text)
        for text in (text_in(TOP, path) for path in SOURCES)
    )


def taken_in(texts):
    """Each name that a file takes from another one, with the module that has it."""
    taken = set()
    for path, text in texts.items():
        crate = path.split("/")[1]
        for module, name in re.findall(r"crate::proofs::(\w+)::(\w+)", text):
            taken.add((f"{crate}.proofs.{module}", name))
        for module, names in re.findall(r"use Rattle\.([\w.]+)\.\{(.*)\}", text):
            taken |= {(module, name) for name in re.findall(r"[^\s,]+", names)}
        for module, short in re.findall(r"use Rattle\.([\w.]+) as (\w+)", text):
            taken |= {(module, name) for name in re.findall(rf"\b{short}\.({WORD})", text)}
    return taken


def lemmas(text):
    """Each lemma of a file, with the words of the file besides its statement and proof."""
    for dent, name in re.findall(LEMMA, text, re.M):
        word = re.escape(name)
        proof = rf"(?:{dent} +.*\n|{dent}(?:unfolding|{word})(?: .*)?\n|\n)*"
        others = re.sub(rf"^{dent}(?:pub )?{word} : .*\n{proof}", "", text, flags=re.M)
        yield name, re.findall(WORD, others)


class Crates(FilesCase):
    def test_edits_apply(self):
        edits = crate_files("*/must-fail/*") + crate_files("*/wrong-bodies/*")
        self.note("there are edits", len(edits) > 100, len(edits))
        for path in edits:
            self.same(os.path.relpath(path, TOP), list(unfound(path)), [])
        said = [path for path in edits if re.search("^clause:", text_in(path), re.M)]
        self.note("edits say what refuses them", len(said) > 100, len(said))
        for path in said:
            self.note(f"clause of {os.path.relpath(path, TOP)}", has_clause(path), text_in(path))

    def test_widths(self):
        for part, widest in (("src", 120), ("specs", 120), ("proofs", 160)):
            wide = [
                f"{os.path.relpath(path, TOP)}:{number}"
                for path in crate_files(f"*/{part}/**/*.*t")
                for number, line in enumerate(text_in(path).split("\n"), 1)
                if len(line) > widest
            ]
            self.same(f"lines of {part}/ wider than {widest} columns", wide, [])

    def test_numbers(self):
        """Each public constant that is a number is proved to be this number."""
        texts = {
            crate: "".join(text for path, text in files_of(crate) if path.endswith(".rt"))
            for crate in listed()
            if crate not in TESTS
        }
        count = 0
        for crate, text in texts.items():
            for name, number in re.findall(NUMBER, text, re.M):
                count += 1
                taken = rf"^use {crate}::[^;]*\b{name}\b"
                takers = [other for other in texts.values() if re.search(taken, other, re.M)]
                said = " ".join(re.findall(SAID, "".join([text, *takers])))
                numbers = re.findall(rf"\b{name} (?:==|≡) ([\d_]+)", said)
                self.note(f"{crate} {name}", int(number) in map(int, numbers), numbers)
        self.note("there are such constants", count > 15, count)

    def test_main(self):
        """`main` ends with what `serve_words` makes of its own commands and the standard streams."""
        for program in PROGRAMS:
            commands = program.capitalize() + "Commands"
            text = text_in(TOP, "crates", program, "src", "main.rt")
            self.same(
                f"type of main of {program}",
                re.findall(r"fn main\((.*)\) -> (.*) \{", text),
                [("rt: HostRuntime", f"Served<{commands}, Stdin, Stdout, Stderr>")],
            )
        served = "".join(text for _, text in files_of("serving"))
        self.same("what makes one", re.findall(r"^ *Served \{", served, re.M), ["    Served {"])

    def test_endless(self):
        """No call that `serve_alone` makes has a runtime; what calls it has one, and has no loop without a bound."""
        endless = {path for path, text in sources().items() if re.search(r"\bforever\b", text)}
        self.same("files with a loop without a bound", endless, WAITING)

    def test_definitions(self):
        for path, text in sources().items():
            taken = taken_in({path: text})
            laws = {name for module, name in taken if re.search(LAWS, module)}
            if "/src/" in path:
                clauses = " ".join(re.findall(CLAUSE, text, re.M))
                cited = laws & set(re.findall(WORD, clauses))
                self.same(f"laws in clauses: {path}", cited, set())
            if "/specs/" in path and not re.search(LAWS, path):
                proofs = {name for module, name in taken if ".proofs." in module}
                stated = {name for _, name in re.findall(LEMMA, text, re.M)}
                self.same(f"definitions alone: {path}", laws | proofs | stated, set())

    def test_uncited(self):
        texts, uncited = sources(), collections.defaultdict(set)
        taken = taken_in(texts)
        for path, text in texts.items():
            _, crate, *place = path.removesuffix(".antt").split("/")
            if place[0] != "proofs" and not re.search(LAWS, path):
                continue
            for name, others in lemmas(text):
                if (".".join([crate, *place]), name) not in taken and name not in others:
                    uncited[crate].add(name)
        self.same("lemmas that nothing cites", dict(uncited), {})

    def test_lists(self):
        """What a crate lists, and names that are passed on."""
        lists, passed = listed(), []
        for crate, names in lists.items():
            others = lists.keys() - {crate}
            named = set()
            passing = (
                rf"^ *pub use (?:Rattle\.)?(?:{'|'.join(others)})\b.*|^.*\bRattle\.\w+\.below\..*"
            )
            for path, text in files_of(crate):
                named.update(re.findall(GHOST, text))
                if path.endswith(".rt"):
                    named.update(re.findall(CODE, text))
                passed += re.findall(passing, text, re.M)
            self.same(f"crates.txt {crate}", named & others, set(names))
        self.same("names passed on", passed, [])

    def test_callers(self):
        """Who a head says that calls its crate."""
        lists, count = listed(), 0
        for path in crate_files("*/src/lib.rt"):
            crate = path.split("/")[-3]
            head = " ".join(re.findall(r"^//! ?(.*)$", text_in(path), re.M))
            callers = re.findall(r"\w+", " ".join(re.findall(CALLERS, head)))
            callers = [name for name in callers if name in lists]
            count += len(callers)
            wrong = [name for name in callers if crate not in lists[name]]
            self.same(f"not listed by who calls {crate}", wrong, [])
        self.note("callers in heads", count > 30, count)
