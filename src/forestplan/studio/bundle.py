"""The modules of the studio's page as one script: a browser loads no module of a page that comes from a folder. Each
module becomes a function of its own, so that no name of one meets another's."""
import os
import re
from collections.abc import Iterator

from forestplan.pictures import pages

OWN = os.path.join(os.path.dirname(os.path.abspath(__file__)), "page")
FOLDERS = (OWN, pages.FOLDER)
IMPORT = re.compile(r'(?ms)^import (?:\{(.*?)\}|\* as (\w+)) from "\./(\w+)\.js";$')
EXPORT = re.compile(r"(?m)^export (?=(?:async )?(?:function\*? |const |let |class )(\w+))")
# A name that is exported, and that its module gives another value later.
CHANGING = re.compile(r"(?m)^export let (\w+)")


def module_text(name: str) -> str:
    if name in pages.MADE:
        return pages.MADE[name]()
    folder = next(one for one in FOLDERS if os.path.exists(os.path.join(one, f"{name}.js")))
    with open(os.path.join(folder, f"{name}.js"), encoding="utf-8") as file:
        return file.read()


def as_one_script(main: str, instead: dict[str, str]) -> str:
    """The module `main` with all that it imports, as one script; `instead` names modules that take the place of
    others."""
    done: dict[str, str] = {}
    for name in imports_first(main, instead, []):
        if name not in done:
            done[name] = as_function(name, instead)
    return '"use strict";\n' + "".join(done.values())


def imports_first(name: str, instead: dict[str, str], above: list[str]) -> Iterator[str]:
    """A module after those that it imports."""
    if name in above:
        raise ValueError(f"{name}.js imports itself, by way of {', '.join(above)}")
    for _, _, other in IMPORT.findall(module_text(name)):
        yield from imports_first(instead.get(other, other), instead, [*above, name])
    yield name


def as_function(name: str, instead: dict[str, str]) -> str:
    """A module as a function that returns what it exports; a name is looked up when it is used, if it may change."""
    text = module_text(name)
    exported = EXPORT.findall(text)
    for names, whole, other in IMPORT.findall(text):
        text = renamed(text, names, instead.get(other, other)) if names else text
    text = IMPORT.sub(lambda found: imported(found, instead), EXPORT.sub("", text))
    text = re.sub(r"(?m)^ *//.*\n|/\*\*.*?\*/ ?", "", text)
    gets = "".join(f"get {one}() {{ return {one}; }}, " for one in exported)
    lines = "\n".join(line.strip() for line in text.split("\n") if line.strip())
    return f"const $${name} = (() => {{\n{lines}\nreturn {{{gets}}};\n}})();\n"


def renamed(text: str, names: str, other: str) -> str:
    """A module in which each imported name that may change is looked up in the module that has it."""
    changing = set(CHANGING.findall(module_text(other)))
    for name in filter(changing.__contains__, re.findall(r"\w+", names)):
        head, mark, rest = text.partition("\n\n")
        text = head + mark + re.sub(rf"(?<![\w.]){name}\b", f"$${other}.{name}", rest)
    return text


def imported(found: re.Match[str], instead: dict[str, str]) -> str:
    names, whole, module = found.groups()
    other = f"$${instead.get(module, module)}"
    if whole:
        return f"const {whole} = {other};"
    changing = set(CHANGING.findall(module_text(instead.get(module, module))))
    kept = [one.strip() for one in names.split(",") if one.strip() not in changing]
    return f"const {{{', '.join(one.replace(' as ', ': ') for one in kept)}}} = {other};"
