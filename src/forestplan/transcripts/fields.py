"""The fields of a transcript: the words of payloads, and numbers within their bounds. What is none raises `NoEntry`."""
import functools

from forestplan.definitions.events import CLOSE, Message, ack, safe
from forestplan.fault_codes import Code
from forestplan.faults import Fault

# The words of the payloads of each proved program, and the bound of each one's number; those that go on after the
# colouring have its words, too. Another program's payloads have any word of small letters.
OF_COLOURING = {b"hello": 2**128, b"label": 2**16, b"colour": 2**128, b"chosen": 2**16}
PAYLOADS = {
    "colouring": OF_COLOURING,
    "leader": {b"leader": 2**128},
    "layers": {b"hops": 2**32},
    "matching": OF_COLOURING | {b"free": 2**16, b"take": 2**16},
    "independent-set": OF_COLOURING | {b"joined": 2**16},
    "recolouring": OF_COLOURING | {b"anew": 2**16},
}
COLOURING = "colouring"


# No number has more; a longer one takes quadratic time to read.
MOST_DIGITS = len(str(2**128))


class NoEntry(Fault):
    """Why a line isn't an entry."""


def fields_in_bytes(line: bytes) -> list[bytes]:
    """The fields of a line: blanks and tabs part them, and a carriage return at the end is dropped.

    >>> fields_in_bytes(b"1  pulse\\t3\\r")
    [b'1', b'pulse', b'3']
    """
    return [field for field in line.removesuffix(b"\r").replace(b"\t", b" ").split(b" ") if field]


def name_in_texts(program: str) -> str:
    """The name of a program as the first line of a transcript has it: one field that is no number, whatever its file is
    called.

    >>> name_in_texts("my rules.py"), name_in_texts("17")
    ('my_rules_py', '_17')
    """
    name = "".join(
        letter if letter.isascii() and (letter.isalnum() or letter in "-_") else "_"
        for letter in program
    )
    return f"_{name}" if name.isdecimal() else name


def first_line(nodes: int, program: str = COLOURING) -> str:
    """The first line of a transcript with stamps: of edition 2, or of edition 3 if it isn't the colouring's.

    >>> first_line(5), first_line(5, "leader")
    ('transcript 2 5', 'transcript 3 leader 5')
    """
    return (
        f"transcript 2 {nodes}"
        if program == COLOURING
        else f"transcript 3 {name_in_texts(program)} {nodes}"
    )


def first_line_of_reactions(nodes: int, program: str) -> str:
    """The first line of a transcript of nodes that react to messages, edition 4."""
    return f"transcript 4 {name_in_texts(program)} {nodes}"


def bound_of(program: str, word: bytes) -> int:
    """The bound of a payload's number."""
    bounds = PAYLOADS.get(program, {})
    if word in bounds or is_small_word(word) and not bounds:
        return bounds.get(word, 2**128)
    others = " or ".join(name for name, has in PAYLOADS.items() if word in has)
    raise NoEntry(
        Code.NO_PAYLOAD_OF,
        word=field_words(word),
        program=program,
        has=b", ".join(bounds).decode(),
        others=others,
    )


@functools.lru_cache(maxsize=2**16)
def number_in_field(field: bytes, what: str, bound: int = 2**32) -> int:
    """The number of a field, from 0 and below the bound; `what` it is of is said in a refusal.

    >>> number_in_field(b"0017", "pulse")
    17

    Raises `NoEntry` of a field that is none.
    """
    digits = field.lstrip(b"0") or field[-1:]
    if not digits.isdigit() or len(digits) > MOST_DIGITS or int(digits) >= bound:
        bits = bound.bit_length() - 1
        raise NoEntry(Code.NO_NUMBER_OF, word=field_words(field), what=what, bits=bits)
    return int(digits)


@functools.lru_cache(maxsize=2**16)
def wire_of(program: str, *fields: bytes) -> Message:
    """A wire, with a payload of the program.

    >>> str(wire_of("leader", b"payload", b"0", b"leader", b"5"))
    'payload 0 leader 5'

    Raises `NoEntry` of fields that are no wire of the program.
    """
    match fields:
        case [b"payload", pulse, word, of_word]:
            name = word.decode("latin-1")
            of_payload = number_in_field(of_word, name, bound_of(program, word))
            return Message("payload", (number_in_field(pulse, "pulse"), name, of_payload))
        case [b"ack", pulse]:
            return ack(number_in_field(pulse, "pulse"))
        case [b"safe", pulse]:
            return safe(number_in_field(pulse, "pulse"))
        case [b"close"]:
            return CLOSE
    raise NoEntry(Code.NO_WIRE, words=field_words(b" ".join(fields)))


@functools.lru_cache(maxsize=2**16)
def message_of(*fields: bytes) -> Message:
    """A message of nodes that react: a word, and then numbers or words."""
    if not is_small_word(fields[0]):
        raise NoEntry(Code.NO_WORD_TO_BEGIN, word=field_words(fields[0]))
    return Message(
        fields[0].decode(),
        tuple(
            field.decode() if is_small_word(field) else number_in_field(field, "message", 2**128)
            for field in fields[1:]
        ),
    )


def is_small_word(field: bytes) -> bool:
    """Whether a field is a word of small letters."""
    return field.isalpha() and field.islower() and field.isascii()


def field_words(field: bytes) -> str:
    text = field[:40].decode("utf-8", "replace")
    letters = "".join(letter if letter.isprintable() else "?" for letter in text)
    more = ".." if len(field) > 40 else ""
    return f"`{letters}{more}`"
