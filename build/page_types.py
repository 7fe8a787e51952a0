"""Writes the types of what the pages ask and get, for the checker of their JavaScript: of the classes of
src/forestplan/pictures/page_data.py into src/forestplan/pictures/page/data.d.ts, and of
src/forestplan/studio/messages.py, answers.py and recorded_answers.py, with the table of calls, into
src/forestplan/studio/page/calls.d.ts."""
import argparse
import os
from collections.abc import Collection, Iterator, Mapping, Sequence
from dataclasses import MISSING, fields, is_dataclass
from types import ModuleType, NoneType, UnionType
from typing import Annotated, Literal, Union, get_args, get_origin, get_type_hints

from build.crate_lists import TOP
from forestplan.pictures import geometry, page_data
from forestplan.pictures.translation import camel
from forestplan.studio import answers, messages, recorded_answers
from forestplan.studio.calls import CALLS
from forestplan.studio.fields import word, words_by_name

HELP = """\
Writes the types of the pages' JavaScript again, from the dataclasses of what the pages
ask and get: src/forestplan/pictures/page/data.d.ts and src/forestplan/studio/page/calls.d.ts.

Example:
  python3 build page-types
"""
WRITTEN_BY = "// Written by `python3 build page-types` from {}.\n"
SIMPLE: dict[object, str] = {
    str: "string",
    bytes: "string",
    int: "number",
    float: "number",
    bool: "boolean",
    NoneType: "null",
    object: "unknown",
    word: "number | string",
    words_by_name: "Record<string, number | string>",
}


def names_of(module: ModuleType) -> dict[object, str]:
    """The classes of a module by their names, and its choices: of texts, and of classes."""
    return {
        value: name
        for name, value in vars(module).items()
        if is_choice(value) or getattr(value, "__module__", "") == module.__name__ and is_own(value)
    }


def is_choice(value: object) -> bool:
    return get_origin(value) is Literal or all(map(is_dataclass, get_args(value) or [None]))


def is_own(value: object) -> bool:
    """Whether it becomes an object, or a list with a name for each of its items."""
    return is_dataclass(value) or hasattr(value, "_fields")


MODULES = (page_data, answers, messages, recorded_answers)
NAMES = {kind: name for module in MODULES for kind, name in names_of(module).items()}


def type_of(hint: object) -> str:
    """What TypeScript calls a type."""
    kind = get_origin(hint)
    within = get_args(hint)
    if kind is Annotated:
        return SIMPLE.get(within[1]) or type_of(within[0])
    if hint in NAMES or hint in SIMPLE:
        return NAMES.get(hint) or SIMPLE[hint]
    if kind in (Literal, Union, UnionType):
        return one_of(hint)
    if kind in (Mapping, dict):
        return f"Record<{type_of(within[0])}, {type_of(within[1])}>"
    if kind in (Sequence, Collection, list) or kind is tuple and within[-1] is Ellipsis:
        return list_of(within[0])
    if kind is tuple:
        return f"[{', '.join(map(type_of, within))}]"
    raise TypeError(f"no page gets a {hint}")


def list_of(hint: object) -> str:
    is_written_out = get_origin(hint) in (Literal, Union, UnionType) and hint not in NAMES
    return f"({type_of(hint)})[]" if is_written_out else f"{type_of(hint)}[]"


def one_of(hint: object) -> str:
    """A choice of texts, or of types."""
    if get_origin(hint) is Literal:
        return " | ".join(
            f'"{one}"' if isinstance(one, str) else str(one).lower() for one in get_args(hint)
        )
    return " | ".join(map(type_of, get_args(hint)))


def members_of(kind: type, is_asked: bool) -> Iterator[str]:
    """The fields that a class adds to those above it. One of an answer that is None by default is left out then, and
    one of a call may be left out if it has a default: `null` is as good."""
    hints = get_type_hints(kind, include_extras=True)
    for one in fields(kind):
        hint = hints[one.name]
        if one.name not in kind.__annotations__:
            continue
        if is_asked:
            may_lack = one.default is not MISSING
            said = type_of(hint).removesuffix(" | null")
            yield f"{one.name}?: {said} | null;" if may_lack else f"{one.name}: {said};"
        elif hint is NoneType:
            yield f"{one.name}?: undefined;"
        elif one.default is None:
            yield f"{one.name}?: {type_of(hint).removesuffix(' | null')};"
        else:
            yield f"{one.name}: {type_of(hint)};"


def declared(name: str, kind: object, is_asked: bool) -> str:
    """The declaration of a type."""
    if not isinstance(kind, type):
        return f"type {name} = {one_of(kind)};\n"
    if not is_dataclass(kind):
        parts = [f"  {part}: {type_of(hint)}," for part, hint in get_type_hints(kind).items()]
        return "\n".join([f"type {name} = [", *parts, "];", ""])
    members = [f"  {one}" for one in members_of(kind, is_asked)]
    above = ", ".join(NAMES[base] for base in kind.__bases__ if base in NAMES)
    if not above and not members:
        return f"type {name} = Record<string, never>;\n"
    head = f"interface {name} extends {above} {{" if above else f"interface {name} {{"
    return "\n".join([head, *members, "}"] if members else [f"{head}}}"]) + "\n"


def module_types(module: ModuleType, is_asked: bool = False) -> str:
    """What a module declares and no module before it."""
    before = {kind for other in MODULES[: MODULES.index(module)] for kind in names_of(other)}
    return "\n".join(
        declared(name, kind, is_asked)
        for kind, name in names_of(module).items()
        if kind not in before
    )


def call_types() -> str:
    """What each call asks and gets, by the name of the call."""
    asked = [f"  {name}: {NAMES[call.asked]};" for name, call in CALLS.items()]
    got = [
        f"  {name}: {type_of(get_type_hints(call.function)['return'])};"
        for name, call in CALLS.items()
    ]
    return "\n".join(["interface Asks {", *asked, "}", "interface Answers {", *got, "}", ""])


def function_types(module: ModuleType) -> str:
    """What a module exports that is translated: its constants and functions, and the types that it names."""
    lines: list[str] = []
    for name, value in vars(module).items():
        if getattr(value, "__module__", "") == module.__name__:
            hints = {camel(one): type_of(hint) for one, hint in get_type_hints(value).items()}
            result = hints.pop("return")
            given = ", ".join(f"{one}: {hint}" for one, hint in hints.items())
            lines.append(f"export function {camel(name)}({given}): {result};")
        elif name.isupper():
            kind = "number[]" if isinstance(value, tuple) else "number"
            lines.append(f"export const {name}: {kind};")
    return "\n".join([*lines, ""])


def page_types() -> dict[str, str]:
    """The files of types by their paths."""
    studio = [
        module_types(answers),
        module_types(messages, is_asked=True),
        call_types(),
        module_types(recorded_answers),
    ]
    return {
        os.path.join("src", "forestplan", "pictures", "page", "data.d.ts"): WRITTEN_BY.format(
            "src/forestplan/pictures/page_data.py"
        )
        + "\n"
        + module_types(page_data),
        os.path.join("src", "forestplan", "pictures", "page", "geometry.d.ts"): WRITTEN_BY.format(
            "src/forestplan/pictures/geometry.py"
        )
        + "\n"
        + function_types(geometry),
        os.path.join("src", "forestplan", "studio", "page", "calls.d.ts"): WRITTEN_BY.format(
            "src/forestplan/studio/answers.py, messages.py, calls.py and recorded_answers.py"
        )
        + "\n"
        + "\n".join(studio),
    }


def main() -> int:
    parser = argparse.ArgumentParser(
        "python3 build page-types", description=HELP, formatter_class=argparse.RawTextHelpFormatter
    )
    parser.parse_args()
    for path, text in page_types().items():
        with open(os.path.join(TOP, path), "w", encoding="utf-8") as file:
            file.write(text)
    return 0
