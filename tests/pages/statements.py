"""What a function of crates/ says, read from its text: its head, its clauses, and the definitions that they reach.

Nothing is compiled. A file of specs/ imports others by lines `use Rattle.CRATE.specs.MODULE`, and a file of src/ by
lines `ghost use Rattle.CRATE.specs.MODULE.{WORD, ..};`. A type or trait of the code is imported from
`Rattle.CRATE.specs.declared.MODULE.NAME`.
"""
import dataclasses
import functools
import os
import re
from collections.abc import Iterable

from tests import TOP
from tests.cases import text_in
from tests.pages.test_pages import crate_files

TESTS = ("checks", "worker_checks")
# The head of a function, up to its first clause, its body or the end of its declaration.
HEAD = r"^( *)(pub |pub\(\w+\) )?fn (\w+)((?:[^{;](?!^ *(?:requires|ensures) ))*.)"
CLAUSE = r"^ *(requires|ensures) (\w*) ?\{((?:[^{}]|\{(?:[^{}]|\{[^{}]*\})*\})*)\}"
# What a block of methods is of: an implementation, or a trait.
OWNER = r"^(?:pub )?(?:trait|impl)\b[^{;]*"
IMPORT = r"^ *(?:ghost )?use Rattle\.(\w+)\.specs\.([\w.]+?)(?:\.\{(.*)\}| as (\w+))?;?$"


@dataclasses.dataclass(frozen=True)
class Function:
    """A function of src/: where it is, and what is written before its body."""

    file: str
    owner: str
    public: bool
    name: str
    head: str
    clauses: tuple[tuple[str, str, str], ...]

    @property
    def crate(self) -> str:
        return self.file.split(os.sep)[1]

    @property
    def path(self) -> str:
        """As the pages name it; `laws` and the like aren't in it."""
        of = re.sub(r"<(?:[^<>]|<[^<>]*>)*>", "", self.owner.partition(" for ")[2] or self.owner)
        names = re.findall(r"\w+", of.partition(":")[0])
        return "::".join([self.crate, *names[-1:], self.name])


def without_comments(text: str) -> str:
    return re.sub(r"^ *//.*$", "", text, flags=re.M)


@functools.cache
def functions_of(file: str) -> tuple[Function, ...]:
    """The functions of a file of src/."""
    text = without_comments(text_in(file))
    owners = [(found.start(), found[0].strip()) for found in re.finditer(OWNER, text, re.M)]
    starts = [*re.finditer(HEAD, text, re.M | re.S)]
    found = []
    for start in starts:
        before = [head for at, head in owners if at < start.start()]
        owner = before[-1] if start[1] and before else ""
        body = re.search(rf"^{start[1]}(?:\{{|\}})|;$", text[start.end() :], re.M)
        said = text[start.start() : start.end() + body.end()] if body else start[0]
        clauses = tuple(re.findall(CLAUSE, said, re.M))
        public = start[2] == "pub " or owner.startswith("pub trait")
        found.append(Function(file, owner, public, start[3], start[4], clauses))
    return tuple(found)


@functools.cache
def functions() -> tuple[Function, ...]:
    """All functions of src/ but those of tests."""
    files = [os.path.relpath(path, TOP) for path in crate_files("*/src/**/*.rt")]
    own = [file for file in files if file.split(os.sep)[1] not in TESTS]
    return tuple(one for file in own for one in functions_of(file))


def named(path: str) -> Function:
    """The function that a page names: `crate::function`, `crate::laws::function` or `crate::Type::function`."""
    crate, *_, name = path.split("::")
    found = [one for one in functions() if (one.crate, one.name) == (crate, name) and one.clauses]
    fitting = [one for one in found if one.path == path] or found
    assert fitting, path
    return fitting[0]


def file_of(crate: str, module: str) -> str:
    """The file of a module of specs/, or of the source that declares a type; none if the crate isn't of this tree."""
    parts = module.split(".")
    if parts[0] != "declared":
        file = os.path.join("crates", crate, "specs", *parts) + ".antt"
    else:
        below = [part for part in parts[1:] if part[0].islower()] or ["lib"]
        file = os.path.join("crates", crate, "src", *below) + ".rt"
    return file if os.path.exists(os.path.join(TOP, file)) else ""


@functools.cache
def imports_of(file: str) -> tuple[tuple[str, frozenset[str]], ...]:
    """The files that a file imports definitions from, each with the words that it takes."""
    found = []
    for crate, module, names, short in re.findall(IMPORT, text_in(file), re.M):
        taken = frozenset(re.findall(r"[^\s,{}]+", names) + [short] * bool(short))
        found += [(path, taken) for path in [file_of(crate, module)] if path]
    return tuple(found)


def words_in(text: str) -> set[str]:
    return set(re.findall(r"[\w◌'≡⊎⊥∷+-]+", text)) | set(re.findall(r"\w+", text))


def cited_in(file: str, text: str) -> set[str]:
    """The files whose words a piece of a file of src/ cites."""
    found = words_in(text)
    return {path for path, taken in imports_of(file) if taken & found}


@functools.cache
def traits() -> dict[str, tuple[str, str]]:
    """The traits of the crates: the file of each, and its ghost members and clauses."""
    found = {}
    for path in crate_files("*/src/**/*.rt"):
        text = without_comments(text_in(path))
        for name, body in re.findall(r"^pub trait (\w+)([^\n]*\{\n(?:(?: .*)?\n)*?\})", text, re.M):
            found[name] = (os.path.relpath(path, TOP), body)
    return found


def traits_of(text: str) -> set[str]:
    """The traits that a head names, and those that these name."""
    known, left = set[str](), [name for name in words_in(text) if name in traits()]
    while left:
        name = left.pop()
        if name not in known:
            known.add(name)
            left += [other for other in words_in(traits()[name][1]) if other in traits()]
    return known


def roots_of(function: Function, said: Iterable[str]) -> set[str]:
    """The files of the words of a statement: the function's conditions, the clauses that are named (all, if none is),
    and what its traits declare."""
    names = set(said)
    clauses = [
        text
        for kind, name, text in function.clauses
        if kind == "requires" or name in names or not names
    ]
    found = cited_in(function.file, "\n".join(clauses))
    for name in traits_of(function.owner + function.head):
        found |= {traits()[name][0], *cited_in(*traits()[name])}
    return found


def reached(paths: Iterable[str]) -> set[str]:
    """The files of specs/ that some files reach by imports, and the files of src/ that declare what these name."""
    found, left = set[str](), list(paths)
    while left:
        path = left.pop()
        if path not in found:
            found.add(path)
            left += [file for file, _ in imports_of(path)] if path.endswith(".antt") else []
    return found
