"""Checks the JavaScript of the pages by its text, where the tools for it are installed: `tsc` finds no fault of a type,
by jsconfig.json and the types in comments, and `eslint` none of the rules of .eslintrc.json. Both are Debian's, 4.8 and
6.4: the latter reads no `?.` and no `??`.

- The types say which elements a page has, as its HTML does: a module can ask for no other.
- No file is left out: none turns a check off."""
import json
import os
import pathlib
import re
import subprocess

from tests import TOP
from tests.cases import FilesCase, text_in
from tests.tools import need

PAGES = {"src/forestplan/pictures/page": "alone.html", "src/forestplan/studio/page": "page.html"}
# The types of the elements that aren't just any.
KINDS = {
    "a": "HTMLAnchorElement",
    "button": "HTMLButtonElement",
    "details": "HTMLDetailsElement",
    "form": "HTMLFormElement",
    "input": "HTMLInputElement",
    "output": "HTMLOutputElement",
    "select": "HTMLSelectElement",
    "svg": "SVGSVGElement",
    "textarea": "HTMLTextAreaElement",
}
# Where Debian's packages have their modules: another node than Debian's doesn't look there. And the rules are in a file
# of the form that eslint had up to its version 8.
SETTINGS = {"NODE_PATH": "/usr/share/nodejs:/usr/lib/nodejs", "ESLINT_USE_FLAT_CONFIG": "false"}
# A module that asks the server, rightly and wrongly: a field of another name, of another type, one too few, one too
# many in a value that isn't written where it is asked, a call that there isn't, and a field that the answer hasn't.
PLANTED = """\
import {call} from "./api.js";
const network = "", more = {network, node: 1, wy: 1}, one = {network, node: 1};
call("why", {network, node: 1}).then(found => found && found.lines);
call("why", one);
call("why", {network, vertx: 1});  // wrong
call("why", {network, node: "1"});  // wrong
call("why", {network});  // wrong
call("why", more);  // wrong
call("wy", {network, node: 1});  // wrong
call("why", {network, node: 1}).then(found => found && found.line);  // wrong
"""


def elements_of(html: str) -> dict[str, str]:
    """The elements of a page that have a name, with their types."""
    found = {}
    for tag, attributes in re.findall(r"<(\w+)\b([^>]*)>", html):
        name = re.search(r'\bid="(\w+)"', attributes)
        if name:
            found[name[1]] = KINDS.get(tag, "HTMLElement")
    return found


def typed_elements(types: str) -> dict[str, str]:
    """The same by a file of types."""
    inside = types.partition("\ninterface Elements {\n")[2].partition("\n}")[0]
    return dict(re.findall(r"^  (\w+): (\w+);$", inside, re.M))


class Scripts(FilesCase):
    def run_clean(self, *arguments: str) -> None:
        need(self, arguments[0])
        env = os.environ | SETTINGS
        done = subprocess.run(arguments, cwd=TOP, env=env, capture_output=True, text=True)
        self.note(" ".join(arguments), done.returncode == 0, done.stdout + done.stderr)

    def test_types(self) -> None:
        self.run_clean("tsc", "-p", "jsconfig.json")

    def test_a_call_that_the_server_does_not_know(self) -> None:
        """A page that asks for something else than the calls of src/forestplan/studio/messages.py, or reads something
        else of an answer, is a fault of a type: each line that `PLANTED` marks, and none of the others.
        """
        need(self, "tsc")
        folders = [os.path.join(TOP, folder) for folder in PAGES]
        settings = {
            "extends": os.path.join(TOP, "jsconfig.json"),
            "compilerOptions": {"rootDirs": [self.folder, *folders]},
            "include": [self.file("planted.js", PLANTED)],
            "files": [os.path.join(folder, "types.d.ts") for folder in folders]
            + [os.path.join(folders[0], "data.d.ts"), os.path.join(folders[1], "calls.d.ts")],
        }
        path = self.file("jsconfig.json", json.dumps(settings))
        done = subprocess.run(["tsc", "-p", path], cwd=TOP, capture_output=True, text=True)
        found = {int(line) for line in re.findall(r"planted\.js\((\d+),", done.stdout)}
        lines = enumerate(PLANTED.split("\n"), 1)
        wanted = {number for number, line in lines if line.endswith("// wrong")}
        self.same("the faults", (found, len(wanted)), (wanted, 6))

    def test_rules(self) -> None:
        self.run_clean("eslint", "--format", "unix", *PAGES)

    def test_elements(self) -> None:
        for folder, page in PAGES.items():
            html, types = text_in(folder, page), text_in(folder, "types.d.ts")
            self.same(folder, typed_elements(types), elements_of(html))

    def test_nothing_is_left_out(self) -> None:
        for folder in PAGES:
            for path in sorted(pathlib.Path(TOP, folder).glob("*.[jt]s")):
                found = re.findall(r"@ts-nocheck|@ts-ignore|eslint-disable", path.read_text())
                self.same(f"{folder}/{path.name}", found, [])
