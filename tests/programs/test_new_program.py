"""What `python3 build new-program` makes: the model's files under another name, and its line in crates.txt."""
import glob
import os
import shutil

from build.crate_lists import lines_of
from build.kit import PARTS
from build.new_program import MODEL, SEQUEL, copy
from forestplan.faults import Fault
from tests import TOP
from tests.cases import Case, text_in


def files_in(folder):
    return glob.glob(f"{folder}/**/*.*", recursive=True)


class NewProgram(Case):
    def test_models(self):
        shutil.copy(os.path.join(TOP, "crates.txt"), self.folder)
        before = lines_of(self.folder)
        for model, name, needs in (
            (MODEL, "echoes", "program_texts"),
            (SEQUEL, "dominating", "followed"),
        ):
            copy(name, self.folder, model)
            parts = (os.path.join(TOP, "crates", model[0], part) for part in PARTS)
            made = files_in(os.path.join(self.folder, "crates", name))
            copied = sum(len(files_in(part)) for part in parts)
            self.same(f"{name}: files, and its test", len(made), copied + 1)
            texts = "".join(path + text_in(path) for path in made)
            test = f"use crate::{name.title()};"
            self.note(f"{name}: its test", "mod tests;" in texts and test in texts)
            self.same(f"{name}: names", [word for word in model if word in texts], [])
            lines = lines_of(self.folder)
            line = lines.pop(name)
            self.note(f"{name}: its line", needs in line and "sync_rounds" in line, line)
        del lines["echoes"]
        self.same("the other lines", lines, before)

    def test_names(self):
        for name in ("Echoes", "a-b", "colouring", "x" * 21, ""):
            # Where there is no name, none is said.
            begin = f"{name}: " if name else "a program's name is "
            with self.subTest(name), self.assertRaisesRegex(Fault, f"^{begin}"):
                copy(name, self.folder)
