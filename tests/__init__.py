"""The tests of the built programs, of the Python package and of the pages. `python3 -m tests` runs them."""
import os
import sys

TOP = os.path.dirname(os.path.dirname(os.path.abspath(__file__)))
# The command of all that is written in Python.
FORESTLAB = os.path.join(TOP, "bin", "forestlab")
# The folder of the package.
SOURCES = os.path.join(TOP, "src")
# The tests are of this tree, whatever else is installed.
sys.path.insert(1, SOURCES)
