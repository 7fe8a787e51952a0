"""What the file of a program of one's own keeps outside `me`: its variables, and what its functions and classes keep.

A function keeps what its default values, its attributes and the variables of the function around it hold. Orders of
events play on copies of `me` alone, so nothing else may change. What is of another file, as an imported module, isn't
looked at."""
import contextlib
from collections.abc import Hashable, Iterator, Mapping
from types import (
    BuiltinFunctionType,
    FunctionType,
    GeneratorType,
    GetSetDescriptorType,
    MemberDescriptorType,
    ModuleType,
)

from forestplan.definitions.values import Named, frozen

# What Python itself puts into a class, besides what has a name with `__` at both ends.
OF_PYTHON = (GetSetDescriptorType, MemberDescriptorType)
Parts = Iterator[tuple[str, object]]
Keys = Iterator[tuple[str, Hashable]]


class FileVariables:
    """The variables of a loaded file; `seen` are the functions and classes that were looked at, by identity."""

    def __init__(self, values: Mapping[str, object]) -> None:
        self.values = values
        self.seen: set[int] = set()

    def keys(self) -> dict[str, Hashable]:
        """What the file keeps, by name, as keys that are equal for equal values; what can't be compared isn't among
        them."""
        found: dict[str, Hashable] = {}
        for name, value in list(self.values.items()):
            if is_of_python(name) or isinstance(value, ModuleType):
                continue
            if isinstance(value, (FunctionType, type)):
                found[name] = value
                self.seen.add(id(value))
                found |= self.keys_of(self.parts_of(name, value))
            else:
                found |= self.keys_of(iter([(name, value)]))
        return found

    def keys_of(self, parts: Parts) -> Keys:
        for name, value in parts:
            with contextlib.suppress(Exception):
                yield name, self.key(value)

    def key(self, value: object) -> Hashable:
        if isinstance(value, GeneratorType):
            frame = value.gi_frame
            return frame and (frame.f_lasti, self.key(dict(frame.f_locals)))
        return frozen(value, self.named)

    def named(self, thing: Named) -> Hashable:
        """The key of a function or a class within another value: itself, and what it keeps if it is of the file."""
        if id(thing) in self.seen:
            return thing
        self.seen.add(id(thing))
        return thing, tuple(self.keys_of(self.parts_of(thing.__name__, thing)))

    def parts_of(self, name: str, thing: Named) -> Parts:
        """What a function or a class of the file keeps, each part with its name."""
        if isinstance(thing, FunctionType):
            return parts_of_function(name, thing) if thing.__globals__ is self.values else iter(())
        if isinstance(thing, BuiltinFunctionType):
            return iter([(name, thing.__self__)])
        is_own = thing.__module__ == self.values["__name__"]
        return parts_of_class(name, thing) if is_own else iter(())


def is_of_python(name: str) -> bool:
    return name.startswith("__") and name.endswith("__")


def parts_of_function(name: str, function: FunctionType) -> Parts:
    code = function.__code__
    parameters = code.co_varnames[: code.co_argcount]
    defaults = function.__defaults__ or ()
    kept = dict(zip(parameters[len(parameters) - len(defaults) :], defaults))
    for parameter, value in (kept | (function.__kwdefaults__ or {})).items():
        yield f"{parameter} of {name}", value
    for variable, cell in zip(code.co_freevars, function.__closure__ or ()):
        # A variable that has no value yet has an empty cell.
        with contextlib.suppress(ValueError):
            yield f"{variable} of {name}", cell.cell_contents
    for attribute, value in vars(function).items():
        yield f"{name}.{attribute}", value


def parts_of_class(name: str, kind: type) -> Parts:
    for attribute, value in vars(kind).items():
        where = f"{name}.{attribute}"
        if isinstance(value, (staticmethod, classmethod)):
            yield where, value.__func__
        elif isinstance(value, property):
            yield where, (value.fget, value.fset, value.fdel)
        elif isinstance(value, FunctionType):
            yield where, value
        elif not (is_of_python(attribute) or isinstance(value, OF_PYTHON)):
            yield where, value
