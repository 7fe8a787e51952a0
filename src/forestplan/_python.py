"""Which Python is needed. The commands and `import forestplan` ask here before they read what an older one couldn't."""
import sys

LEAST_PYTHON = (3, 10)
# What is needed, and what is there.
NEEDED = "Python " + ".".join(map(str, LEAST_PYTHON)) + " or later"
FOUND = sys.version.split()[0]
IS_TOO_OLD = sys.version_info < LEAST_PYTHON
