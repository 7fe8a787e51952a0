"""The oldest Python that README names runs the tests, too: those modules that take seconds and need no built program.

It is looked for on the PATH, and among the versions of pyenv. .github/workflows/tests.yml runs all tests with it."""
import glob
import os
import shutil
import subprocess
import sys

from forestplan._python import LEAST_PYTHON
from tests import TOP
from tests.cases import Case, text_in

OLDEST = "{}.{}".format(*LEAST_PYTHON)
MODULES = (
    "pages.test_pages",
    "programs.test_calls",
    "programs.test_codes",
    "programs.test_simulate",
    "workshop.test_pages",
)


def oldest_python() -> str | None:
    """A Python of that version which starts."""
    of_pyenv = os.path.expanduser(f"~/.pyenv/versions/{OLDEST}*/bin/python3")
    for python in (shutil.which(f"python{OLDEST}"), *sorted(glob.glob(of_pyenv))):
        if python and not subprocess.run([python, "-c", ""], capture_output=True).returncode:
            return python
    return None


class OldestPython(Case):
    def test_readme(self):
        """README asks for the Python before which the commands refuse to begin."""
        self.assertIn(f"Python {OLDEST} or later", text_in("README.md"))

    def test_tests(self):
        python = oldest_python()
        if python is None or sys.version_info[:2] == LEAST_PYTHON:
            self.skipTest(f"another Python, {OLDEST}, isn't installed")
        done = subprocess.run(
            [python, "-m", "tests", *MODULES], cwd=TOP, capture_output=True, text=True
        )
        self.note("the tests", done.returncode == 0, done.stdout[-4000:] + done.stderr)
        count = int(done.stdout.splitlines()[-1].split()[0])
        self.note("how many", count > 80, count)
