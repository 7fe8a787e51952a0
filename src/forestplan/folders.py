"""Where this package is, and the folder of what belongs to it: the tree of the sources, or an installed folder."""
import os

PACKAGE = os.path.dirname(os.path.realpath(__file__))
# What pip has installed below the package.
INSTALLED = os.path.join(PACKAGE, "installed")
# What has bin/, examples/ and docs/, and the programs: that, or the folder above that has the package in src/.
TOP = INSTALLED if os.path.isdir(INSTALLED) else os.path.dirname(os.path.dirname(PACKAGE))


def built(name: str) -> str | None:
    """The file of a program, or None if it isn't built. An installed folder has it in lib/."""
    is_tree = os.path.isdir(os.path.join(TOP, "crates", name))
    parts = ("crates", name, "out", name) if is_tree else ("lib", name)
    path = os.path.join(TOP, *parts)
    return path if os.path.isfile(path) and os.access(path, os.X_OK) else None
