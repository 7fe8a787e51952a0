"""Values of any kind as keys that are equal exactly for equal values."""
from collections.abc import Callable, Hashable, Iterator
import types

# What is equal to nothing but itself, and is never copied.
ITSELF = (type, types.FunctionType, types.BuiltinFunctionType)
PLAIN = (int, str, bytes, bool, type(None))
COLLECTIONS = (list, tuple, set, frozenset, dict)
# Types and functions, of which a key has the name.
Named = type | types.FunctionType | types.BuiltinFunctionType


def itself(thing: Named) -> Hashable:
    return thing


def frozen(value: object, named: Callable[[Named], Hashable] = itself) -> Hashable:
    """A key of a value. Two values have one key if they are built alike: the same types, and in them equal parts, the
    same part being in the same places. `named` says which types and functions are the same: by default those that are
    one thing, and with `by_name` those of one name. Raises TypeError for what can't be taken apart, as a generator or
    a file."""
    return Freezing(named).key(value)


def by_name(thing: Named) -> str:
    """The name of a type or function, which two loads of a file have in common."""
    return f"{thing.__module__}.{thing.__qualname__}"


class Freezing:
    """The taking apart of one value; `seen` are the parts that may change, by identity, each with its number."""

    def __init__(self, named: Callable[[Named], Hashable]) -> None:
        self.named = named
        self.seen: dict[int, tuple[int, object]] = {}

    def key(self, value: object) -> Hashable:
        if isinstance(value, PLAIN):
            return type(value), value
        if isinstance(value, (float, complex)):
            return type(value), repr(value)  # NaN is equal to itself here, and 0.0 isn't -0.0
        if isinstance(value, ITSELF):
            return "itself", self.named(value)
        if id(value) in self.seen:
            return "again", self.seen[id(value)][0]
        if type(value).__hash__ in (None, object.__hash__):
            # It may change, so it matters where it is once more. It is kept here, so that no other gets its place in
            # memory.
            self.seen[id(value)] = len(self.seen), value
        kind = self.named(type(value))
        if type(value) in COLLECTIONS:
            return kind, self.of_collection(value)
        return kind, tuple(map(self.part, value.__reduce_ex__(4)[1:]))

    def of_collection(self, value: object) -> Hashable:
        match value:
            case list() | tuple():
                return tuple(map(self.key, value))
            case set() | frozenset():
                return frozenset(frozen(one, self.named) for one in value)
            case dict():
                return self.of_dict(value)
        raise TypeError(f"{type(value).__name__} is no collection")

    def of_dict(self, value: dict[object, object]) -> Hashable:
        """A dictionary's key doesn't depend on the order of its entries."""
        keys = sorted(((self.key(key), key) for key in value), key=lambda pair: repr(pair[0]))
        return tuple((key, self.key(value[name])) for key, name in keys)

    def part(self, part: object) -> Hashable:
        """Of what an object is made from: its iterators are used up, as a copy does."""
        if isinstance(part, Iterator):
            return tuple(map(self.key, part))
        return self.key(part)
