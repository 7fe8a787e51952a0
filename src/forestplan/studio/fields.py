"""The fields of a call: what each has to be, and the refusal that names one that isn't. So what answers a call gets
values of the types that it expects, and nothing else.

A call is a frozen dataclass of messages.py. `parsed_call` makes one of what a page has sent, by the types of its
fields."""
import base64
import binascii
import json
import re
from collections.abc import Callable, Collection, Mapping
from dataclasses import MISSING, dataclass, fields
from functools import cache
from types import NoneType, UnionType
from typing import Annotated, Literal, TypeVar, Union, get_args, get_origin, get_type_hints

from forestplan.fault_codes import Code
from forestplan.faults import Fault
from forestplan.networks.fields import shown_field

Asked = TypeVar("Asked")
# The value of a field, or what it has to be, as `Fault` says it.
Parse = Callable[[object], object]
# A number of a call is no larger: no node, pulse or seed is.
MOST_NUMBER = 10**9


@dataclass(frozen=True)
class Field:
    """A field of a call. One that may be left out has a value then; `null` is as good as none."""

    takes: Parse
    may_lack: bool
    default: object


def text_value(value: object) -> str:
    if not isinstance(value, str):
        raise Fault(Code.NO_TEXT)
    if not value.isascii() and re.search("[\ud800-\udfff]", value):
        raise Fault(Code.HALF_A_LETTER)
    return value


def number_value(value: object) -> int:
    if isinstance(value, bool) or not isinstance(value, int):
        raise Fault(Code.NO_NUMBER_IN_FIELD)
    if abs(value) > MOST_NUMBER:
        raise Fault(Code.NUMBER_OF_FIELD_TOO_GREAT, most=MOST_NUMBER)
    return value


def truth(value: object) -> bool:
    if not isinstance(value, bool):
        raise Fault(Code.NO_TRUTH)
    return value


def word(value: object) -> str:
    """A text or a number, as the field of a form has it."""
    return text_value(value) if isinstance(value, str) else str(number_value(value))


def data(value: object) -> bytes:
    """Bytes, in base 64."""
    try:
        return base64.b64decode(text_value(value), validate=True)
    except (binascii.Error, ValueError):
        raise Fault(Code.NO_BASE_64) from None


def list_of(parse: Parse, length: int | None = None) -> Parse:
    def parse_list(value: object) -> tuple[object, ...]:
        if not isinstance(value, list) or length not in (None, len(value)):
            what = "a list" if length is None else f"a list of {length}"
            raise Fault(Code.ASKED_FOR, what=what)
        return tuple(map(parse, value))

    return parse_list


def words_by_name(value: object) -> dict[str, str]:
    """An object of texts or numbers."""
    if not isinstance(value, dict):
        raise Fault(Code.NO_OBJECT)
    return {name: word(one) for name, one in value.items()}


def value_among(names: Collection[str]) -> Parse:
    def parse_name(value: object) -> str:
        name = text_value(value)
        if name not in names:
            raise Fault(Code.NOT_THERE, name=shown_field(name), names=", ".join(names))
        return name

    return parse_name


SIMPLE: dict[object, Parse] = {str: text_value, int: number_value, bool: truth, bytes: data}


def parse_for(hint: object) -> Parse:
    """What parses the values of a type: the parser that an `Annotated` has, or the usual one."""
    if hint in SIMPLE:
        return SIMPLE[hint]
    kind = get_origin(hint)
    within = get_args(hint)
    if kind is Annotated:
        return parser_in(within[1])
    if kind is Literal:
        return value_among(within)
    if kind in (Union, UnionType):
        (only,) = (one for one in within if one is not NoneType)
        return parse_for(only)
    if kind is tuple:
        length = None if within[-1] is Ellipsis else len(within)
        return list_of(parse_for(within[0]), length)
    raise TypeError(f"no field of a call is of the type {hint}")


def parser_in(metadata: object) -> Parse:
    if not callable(metadata):
        raise TypeError(f"{metadata} parses nothing")
    return metadata


@cache
def call_fields(kind: type) -> dict[str, Field]:
    """The fields of a kind of call, by their names."""
    hints = get_type_hints(kind, include_extras=True)
    return {
        one.name: Field(parse_for(hints[one.name]), one.default is not MISSING, one.default)
        for one in fields(kind)
    }


def parsed_call(kind: type[Asked], body: Mapping[str, object]) -> Asked:
    """The call of this kind that a page has sent, or a refusal that names the first field that isn't as it has to
    be."""
    of: type = kind
    known = call_fields(of)
    for name in body:
        if name not in known:
            raise Fault(Code.NO_FIELD, name=shown_field(name), known=", ".join(known) or "none")
    make: Callable[..., Asked] = kind
    return make(**{name: value_of(name, body.get(name), field) for name, field in known.items()})


def value_of(name: str, value: object, field: Field) -> object:
    if value is None:
        if field.may_lack:
            return field.default
        raise Fault(Code.FIELD_MISSING, name=name)
    try:
        return field.takes(value)
    except Fault as why:
        raise Fault(Code.FIELD_REFUSED, name=name, why=why) from None


def object_of(body: bytes) -> dict[str, object]:
    """The object in JSON that a call is."""
    try:
        found = json.loads(body, object_pairs_hook=once_each)
    except (ValueError, RecursionError):
        found = None
    if not isinstance(found, dict):
        raise Fault(Code.NO_CALL)
    return found


def once_each(pairs: list[tuple[str, object]]) -> dict[str, object]:
    """An object each of whose names is there once."""
    found: dict[str, object] = {}
    for name, value in pairs:
        if name in found:
            raise Fault(Code.FIELD_TWICE, name=shown_field(name))
        found[name] = value
    return found
