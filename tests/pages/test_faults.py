"""A fault is a code, a place and a subject, and src/forestplan/sentences.py alone has words for it: each code has one
sentence, which names what the subject has. No code of src/forestplan/ looks into a sentence, one of its own or of
another program."""
import ast
import pathlib
import re
import string
from collections.abc import Iterator

from forestplan.fault_codes import Code
from forestplan.sentences import SENTENCES
from tests import TOP
from tests.cases import Case

LAB = pathlib.Path(TOP, "src")
SOURCES = [*sorted(LAB.rglob("*.py")), *sorted(pathlib.Path(TOP, "build").glob("*.py"))]
# What makes a fault of a code, and of what its keywords are all of the subject.
MAKERS = ("Fault", "WrongEntry", "NoEntry")
# Methods of texts and of `re` that look into a text.
TEXTS = set(
    "startswith endswith removeprefix removesuffix partition rpartition replace split find index "
    "splitlines count translate".split()
)
PATTERNS = set("match search fullmatch findall finditer sub split".split())
# What a proved program says, as a name of what returns it.
SAYING = set("called status_and_outputs said_by ask asked machine_answer".split())
# Places that look into a sentence all the same, with the reason.
ALLOWED: dict[tuple[str, str], str] = {
    (
        "src/forestplan/process_exit.py",
        "run_command",
    ): "puts what Python says of a mistake of our own into one line",
    (
        "src/forestplan/workshop/workshop.py",
        "draw_wrong_run",
    ): "names a temporary folder as what it stands for",
}


def fields_of(sentence: str) -> set[str]:
    return {name for _, name, _, _ in string.Formatter().parse(sentence) if name}


def codes_of(call: ast.Call) -> list[Code]:
    """The codes that are written in a call."""
    return [
        Code[arg.attr]
        for arg in call.args
        if isinstance(arg, ast.Attribute)
        and isinstance(arg.value, ast.Name)
        and arg.value.id == "Code"
    ]


def is_sentence(node: ast.expr, names: set[str]) -> bool:
    """Whether something is a sentence: of an exception that was caught, or of another program."""
    match node:
        case ast.Call(func=ast.Name("str"), args=[inner]):
            return is_sentence(inner, names)
        case ast.Call(func=ast.Attribute(inner, "strip" | "rstrip" | "decode")):
            return is_sentence(inner, names)
        case ast.Subscript(inner, _):
            return is_sentence(inner, names)
        case ast.Name(name):
            return name in names
        case ast.Attribute(_, "stderr"):
            return True
        case ast.JoinedStr(parts):
            return any(
                isinstance(part, ast.FormattedValue) and is_sentence(part.value, names)
                for part in parts
            )
    return False


def sentences_in(function: ast.FunctionDef) -> set[str]:
    """The names that hold a sentence in a function."""
    names = {
        node.name
        for node in ast.walk(function)
        if isinstance(node, ast.ExceptHandler) and node.name
    }
    for node in ast.walk(function):
        if isinstance(node, ast.Assign) and gives_sentence(node.value, names):
            bound = [getattr(target, "elts", [target]) for target in node.targets]
            found = [one.id for ones in bound for one in ones if isinstance(one, ast.Name)]
            # Of a triple the first is a status.
            names |= set(found[1:] if len(found) > 2 else found)
    return names


def gives_sentence(value: ast.expr, names: set[str]) -> bool:
    """Whether a value is a sentence, or has one of a proved program."""
    called = value.func if isinstance(value, ast.Call) else None
    name = getattr(called, "id", getattr(called, "attr", None))
    return name in SAYING or is_sentence(value, names)


def looks_into(function: ast.FunctionDef) -> Iterator[str]:
    """Where a function looks into a sentence."""
    names = sentences_in(function)
    for node in ast.walk(function):
        match node:
            case ast.Call(func=ast.Attribute(text, method)) if (
                method in TEXTS and is_sentence(text, names)
            ):
                yield ast.unparse(node)
            case ast.Call(func=ast.Attribute(_, method), args=given) if (
                method in PATTERNS and any(is_sentence(arg, names) for arg in given)
            ):
                yield ast.unparse(node)
            case ast.Compare(left, [ast.In() | ast.NotIn() | ast.Eq() | ast.NotEq()], [right]) if (
                is_sentence(left, names) or is_sentence(right, names)
            ):
                yield ast.unparse(node)


class Faults(Case):
    def test_each_code_has_a_sentence_and_is_used(self) -> None:
        self.same("the codes with a sentence", set(SENTENCES), set(Code))
        text = "".join(
            path.read_text(encoding="utf-8")
            for path in SOURCES
            if path.name not in ("fault_codes.py", "sentences.py")
        )
        used = {name for name in re.findall(r"\bCode\.(\w+)", text)}
        self.same("codes that nothing has", {code.name for code in Code} - used, set())

    def test_a_sentence_names_what_the_subject_has(self) -> None:
        for path in SOURCES:
            for node in ast.walk(ast.parse(path.read_text(encoding="utf-8"))):
                if not isinstance(node, ast.Call) or not isinstance(node.func, ast.Name):
                    continue
                given = {keyword.arg for keyword in node.keywords}
                if node.func.id in MAKERS and None not in given:
                    for code in codes_of(node):
                        what = f"{path.relative_to(TOP)} line {node.lineno}: {code.name}"
                        self.same(what, given, fields_of(SENTENCES[code]))

    def test_no_code_looks_into_a_sentence(self) -> None:
        found: dict[tuple[str, str], list[str]] = {}
        functions = set()
        for path in sorted(LAB.rglob("*.py")):
            name = str(path.relative_to(TOP))
            for function in ast.walk(ast.parse(path.read_text(encoding="utf-8"))):
                if isinstance(function, ast.FunctionDef):
                    functions.add(function.name)
                    if where := list(looks_into(function)):
                        found[name, function.name] = where
        new = {place: where for place, where in found.items() if place not in ALLOWED}
        self.same("new places", new, {})
        self.same("places that are gone", set(ALLOWED) - set(found), set())
        self.same("functions that are gone", SAYING - functions, set())
