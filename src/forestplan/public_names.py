"""The public names of a package. Its modules define them, and a module is imported once somebody asks for one of its
names, so that a command starts with what it needs alone."""
import importlib
import sys
from collections.abc import Callable, Mapping


def finder(package: str, modules: Mapping[str, str]) -> Callable[[str], object]:
    """What a package has as its `__getattr__`; `modules` are its modules, each with the public names that it defines.

    >>> finder("forestplan.networks", {"forestplan.network": "Network"})("Network")
    <class 'forestplan.network.Network'>
    """
    module_of = {name: module for module, names in modules.items() for name in names.split()}

    def found(name: str) -> object:
        if name not in module_of:
            raise AttributeError(f"module {package!r} has no attribute {name!r}")
        what = getattr(importlib.import_module(module_of[name]), name)
        setattr(sys.modules[package], name, what)
        return what

    return found
