"""What says in one line that Python is too old: the doors of src/forestplan/ and build/, and `import forestplan`."""
import ast
import os
import sys

from tests import TOP
from tests.cases import Case, called, text_in

PYTHON = "src"
# What an older Python reads before it is refused.
READ_FIRST = (
    os.path.join(PYTHON, "forestplan", "__main__.py"),
    os.path.join("build", "__main__.py"),
    os.path.join(PYTHON, "forestplan", "__init__.py"),
    os.path.join(PYTHON, "forestplan", "_python.py"),
)
# A Python that says it is 3.9, before it does what follows.
AS_OLD = "import runpy, sys; sys.version_info, sys.version = (3, 9, 18), '3.9.18 (main)'; "


class OldPython(Case):
    def test_syntax(self):
        for path in READ_FIRST:
            with self.subTest(path):
                ast.parse(text_in(path), path, feature_version=(3, 8))

    def as_old(self, arguments: str) -> tuple[int, bytes, bytes]:
        environment = os.environ | {"PYTHONPATH": os.path.join(TOP, PYTHON)}
        return called(sys.executable, "-S", "-c", AS_OLD + arguments, cwd=TOP, env=environment)

    def test_commands(self):
        for folder, name in (("src/forestplan", "forestlab"), ("build", "build")):
            line = f"{name}: Python 3.10 or later is needed, and python3 is 3.9.18\n"
            done = self.as_old(f"runpy.run_path({folder!r}, run_name='__main__')")
            self.same(folder, done, (2, b"", line.encode()))

    def test_import(self):
        done = self.as_old("import forestplan")
        last = b"ImportError: forestplan needs Python 3.10 or later, and this is 3.9.18\n"
        self.same("status and output", done[:2], (1, b""))
        self.assertTrue(done[2].endswith(last), done[2])
