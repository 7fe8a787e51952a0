"""A program of one's own, from a Python file. The file has

    greet(me)                  what to send at pulse 0
    step(me, pulse, inbox)     what to send at a pulse, on what came in the pulse before: a list with a payload for each
                               port, or None where nothing came; it may be called `next`, too, which hides Python's own
    result(me)                 what the node has found after the last pulse, as words
    last_pulse(nodes, degree)  the last pulse, of the number of nodes and the greatest degree, and if it takes four, of
                               the number of forests and the greatest number of bars, too; the number of nodes if the
                               file has no such function
    right(results, neighbours) whether that is what has to be found, of the words and the neighbours of each node, both
                               by identifier: True, or in words what isn't right; if the file has such a function
    always(results, neighbours)    the same, of what nodes have found so far, at any time; if it takes three, of the
                               messages under way, too: (sender, receiver, payload) by identifier, ascending, of all
                               that are sent and that no `step` has read yet
    drawn(me)                  a pair for pictures: a colour from 0 or None, and a port or None, if the file has it

`me` is the node: `me.id`, `me.degree` (how many ports it has, from 0), `me.barred` (the channels, from 1, that are
barred at it, ascending), `me.nodes`, `me.greatest_degree`, `me.forests` (U), `me.greatest_bars` (B), `me.random`
(Python's `random.Random`, by a seed and the identifier), and whatever the file keeps there. The file is loaded anew
for each node, so that its variables share nothing. A payload is a pair: a word of small letters, and a number from
0. What to send is one payload for all ports, a list with a payload or None for each, or None. At the last pulse
nothing may be sent.

The file is run as it is, with the rights of who calls the command; what it prints goes to standard error. Nothing is
proved of it."""
from collections.abc import Callable, Hashable, Iterable, Iterator, Sequence
import contextlib
import os
import random
import re
import signal
import sys
import traceback
import unicodedata
from functools import partial
from types import CodeType, FunctionType, ModuleType, SimpleNamespace
from typing import TypeGuard, TypeVar

from forestplan.definitions.program import (
    Payload,
    Program,
    ProgramFile,
    Slot,
    pulses_of,
    synchronous_run,
)
from forestplan.definitions.values import by_name, frozen
from forestplan.fault_codes import Code
from forestplan.faults import Fault, InText
from forestplan.files import bytes_at
from forestplan.network import Network
from forestplan.wording import one_line

# A function that is needed, by the names that it may have.
NEEDED = (("greet",), ("step", "next"), ("result",))
MAY_BE = ("last_pulse", "right", "always", "drawn")
COLOURS = 8
# After so many seconds a call of one function is ended; and so many later the process, if the file catches that.
LONGEST = 20
LONGER = 5
# Letters of a value that is shown, and of what an exception of the file says.
LONGEST_VALUE = 200
LONGEST_WORDS = 2_000
# Of a file. Nobody writes a longer one, and Python takes hundreds of times as much memory to read it.
MOST_BYTES = 1 << 20
# What ends a line somewhere, and halves of a letter, which can't be written.
BREAKS = re.compile("[\n\r\v\f\x1c-\x1e\x85\u2028\u2029\ud800-\udfff]")
# Python composes the letters of a name in quadratic time. No language has more (Unicode Standard Annex 15, 13).
MOST_MARKS = 30


def file_at(path: str, lots: str = "1") -> ProgramFile:
    """The file of a program of one's own; `lots` is the seed of `me.random`."""
    code = compiled_file(path)
    values = defined_in_file(path, code)
    functions = {name: value for name, value in values.items() if callable(value)}
    return ProgramFile(path, functions, code, lots, frozenset(values) - frozenset(functions))


def own_program(file: ProgramFile) -> Program:
    """The program by rounds of a file."""
    check_functions(file, NEEDED, MAY_BE)
    return Program(
        program_name(file),
        partial(OwnNode, file=file),
        partial(OwnNode.last_pulse, file=file),
        file=file,
    )


def check_functions(
    file: ProgramFile, needed: Iterable[tuple[str, ...]], may_be: Iterable[str]
) -> None:
    """Refuses a file that lacks a function, or whose value of that name is none."""
    functions = file.functions
    missing = [
        " or ".join(names) for names in needed if not any(name in functions for name in names)
    ]
    missing += [name for name in may_be if name in file.others]
    if missing:
        raise Fault(Code.NO_FUNCTION, file=file.path, missing=" and no function ".join(missing))


def program_name(file: ProgramFile) -> str:
    """What the program of a file is called."""
    return os.path.splitext(os.path.basename(file.path))[0]


def compiled_file(path: str) -> CodeType:
    """What a file says, not run yet."""
    try:
        text = bytes_at(path, MOST_BYTES).decode("utf-8-sig")
        if marks_in_a_row(text) > MOST_MARKS:
            raise Fault(Code.TOO_MANY_MARKS, InText(path), most_marks=MOST_MARKS)
        code: CodeType = compile(text, path, "exec")
        return code
    except SyntaxError as why:
        raise Fault(Code.NOT_PYTHON, InText(path, why.lineno or 1), why=why.msg) from None
    except (RecursionError, MemoryError):
        # Python's parser says that memory is out, too.
        raise Fault(Code.NESTED_TOO_DEEP, InText(path)) from None
    except ValueError as why:
        raise Fault(Code.NOT_COMPILED, InText(path), why=why) from None


def marks_in_a_row(text: str) -> int:
    """The most marks that a text has over one letter."""
    run = most = 0
    for letter in "" if text.isascii() else text:
        run = run + 1 if unicodedata.combining(letter) else 0
        most = max(most, run)
    return most


def defined_in_file(path: str, code: CodeType) -> dict[str, object]:
    """What a file defines, each time with variables of its own."""
    found: dict[str, object] = {"__name__": "program", "__file__": path}
    call(path, "", exec, code, found)  # pylint: disable=exec-used
    return found


class TooLong(BaseException):
    """A call that doesn't end. Of the file's own handlers of exceptions only one that names none catches it."""


class Misuse(BaseException):
    """What a file may not do with `me`. Of its own handlers of exceptions only one that names none catches it."""


def end_call(*_: object) -> None:
    # The next signal ends the process.
    signal.signal(signal.SIGALRM, signal.SIG_DFL)
    signal.setitimer(signal.ITIMER_REAL, LONGER)
    raise TooLong(f"it hasn't ended after {LONGEST} seconds")


@contextlib.contextmanager
def time_limited() -> Iterator[None]:
    """Ends what takes too long, where a signal can do that."""
    # Only who has a file pays for what the import takes.
    import threading

    if threading.current_thread() is not threading.main_thread():
        yield
        return
    before = signal.signal(signal.SIGALRM, end_call)
    signal.setitimer(signal.ITIMER_REAL, LONGEST)
    try:
        yield
    finally:
        signal.setitimer(signal.ITIMER_REAL, 0)
        signal.signal(signal.SIGALRM, before)


Returned = TypeVar("Returned")


def call(path: str, where: str, function: Callable[..., Returned], *values: object) -> Returned:
    """What a function returns that is of the file, or calls the file's. Whatever the file raises is said with its line
    and where that was; what it prints goes to standard error."""
    try:
        with contextlib.redirect_stdout(sys.stderr), time_limited():
            try:
                return function(*values)
            except BaseException as why:
                if is_ours(why, path):
                    raise
                raise raised_by(why, path, where) from None
    except TooLong as why:
        # It came while what the file has raised was put in words.
        raise raised_by(why, path, where) from None


def is_ours(why: BaseException, path: str) -> bool:
    """Whether something was raised by this module, or by Ctrl-C, and not by the file."""
    frames = traceback.extract_tb(why.__traceback__)
    if isinstance(why, KeyboardInterrupt):
        return signal.getsignal(signal.SIGINT) is not signal.SIG_IGN
    return isinstance(why, Fault) and frames[-1].filename != path


def raised_by(why: BaseException, path: str, where: str) -> Fault:
    """The fault of a file that has raised something."""
    lines = [
        frame.lineno for frame in traceback.extract_tb(why.__traceback__) if frame.filename == path
    ]
    kind = "" if isinstance(why, (TooLong, Misuse)) else type(why).__name__
    said = ": ".join(filter(None, [kind, words_raised(why)]))
    place = InText(path, (lines[-1] or 1) if lines else None)
    return Fault(Code.RAISED, place, why=said, function=where)


def words_raised(why: BaseException) -> str:
    """What something that was raised says of itself, on one line, if it can be said."""
    try:
        return one_line(cut(str(why), LONGEST_WORDS))
    except TooLong:
        raise
    except BaseException:
        return ""


def variables_of(values: dict[str, object]) -> dict[str, Hashable]:
    """The variables of a loaded file, by name, as keys that are equal for equal values; what can't be compared isn't
    among them."""
    found = {}
    for name, value in values.items():
        if isinstance(value, (ModuleType, FunctionType, type)) or name.startswith("__"):
            continue
        with contextlib.suppress(Exception):
            found[name] = frozen(value)
    return found


class Me(SimpleNamespace):
    """A node as the file has it. Most have no need of chance, so `random` is made when it is first asked for."""

    _lots: str

    def __getattr__(self, name: str) -> random.Random:
        if name != "random":
            raise AttributeError(f"`me` has no `{name}`")
        self.random = random.Random(self._lots)
        return self.random


class LoadedFile:
    """The file of a program as one node has it. `variables` are those of the file before the first call, which may not
    change. It is never copied and never compared."""

    def __init__(self, file: ProgramFile) -> None:
        self.path = file.path
        self.values = defined_in_file(file.path, file.code)
        self.variables = self.kept_outside()
        self.finding = self.needed("result")
        self.drawing = self.function("drawn")

    def function(self, *names: str) -> Callable[..., object] | None:
        """The function of the first of these names that the file has."""
        found = (self.values.get(name) for name in names)
        return next((value for value in found if callable(value)), None)

    def needed(self, *names: str) -> Callable[..., object]:
        function = self.function(*names)
        if function is None:
            raise Fault(Code.FUNCTION_GONE, file=self.path, names=" or ".join(names))
        return function

    def kept_outside(self) -> dict[str, Hashable]:
        """What the file keeps outside `me`, by name, as keys that are equal for equal values."""
        return variables_of(self.values)

    def changed_variable(self) -> str | None:
        """A variable of the file that isn't what it was before the first call, if there is one."""
        now = self.kept_outside()
        return next((name for name in now if now[name] != self.variables.get(name)), None)

    def __deepcopy__(self, memo: object) -> "LoadedFile":
        return self

    def __reduce_ex__(self, protocol: object) -> tuple[type, tuple[()]]:
        return LoadedFile, ()


class RoundsFile(LoadedFile):
    """The file of a program by rounds."""

    def __init__(self, file: ProgramFile) -> None:
        super().__init__(file)
        self.greeting = self.needed("greet")
        self.stepping = self.needed("step", "next")
        self.stepping_name = "step" if self.function("step") else "next"


def known(net: Network, v: int, seed: str) -> dict[str, object]:
    """What a node of a file knows of itself and of the network."""
    return {
        "id": net.identifiers[v],
        "degree": len(net.neighbours[v]),
        "nodes": net.nodes,
        "greatest_degree": net.greatest_degree,
        "forests": net.forest_count,
        "greatest_bars": net.greatest_bars,
        "barred": tuple(colour + 1 for colour in sorted(net.barred[v])),
        "_lots": f"{seed} {net.identifiers[v]}",
    }


class OwnNode:
    """A node of such a program: `me` is what the file's functions keep and change."""

    def __init__(self, net: Network, v: int, file: ProgramFile) -> None:
        self.of_file = RoundsFile(file)
        self.last = self.last_pulse(net, file)
        self.me = Me(**known(net, v, file.seed))
        self.id: int = net.identifiers[v]
        self.degree = len(net.neighbours[v])

    @staticmethod
    def last_pulse(net: Network, file: ProgramFile) -> int:
        """The last pulse of a file: what it says, or the number of nodes."""
        if "last_pulse" not in file.functions:
            return net.nodes
        function = file.functions["last_pulse"]
        sizes = (net.nodes, net.greatest_degree, net.forest_count, net.greatest_bars)

        def pulse() -> int:
            last = plain(function(*sizes[: 4 if takes(function, 4) else 2]))
            if not is_number(last) or last >= 2**32:
                raise Fault(Code.NO_PULSE_RETURNED, InText(file.path), last=as_python(last))
            return last

        return call(file.path, "`last_pulse`", pulse)

    def where(self, function: str, pulse: int) -> str:
        return f"`{function}` at pulse {pulse} of the node of identifier {self.id}"

    def greet(self) -> list[Slot]:
        where = self.where("greet", 0)
        return call(
            self.of_file.path, where, lambda: self.sent(where, 0, self.of_file.greeting(self.me))
        )

    def next(self, pulse: int, inbox: list[Slot]) -> list[Slot]:
        file = self.of_file
        came = [slot and (slot.word, slot.number) for slot in inbox]
        where = self.where(file.stepping_name, pulse)
        with_inbox = f"{where}, whose inbox is {as_python(came)}"
        return call(
            file.path,
            with_inbox,
            lambda: self.sent(where, pulse, file.stepping(self.me, pulse, came)),
        )

    def sent(self, where: str, pulse: int, what: object) -> list[Slot]:
        """By port, what a function returned, with the words of payloads as the definitions write them."""
        place = InText(self.of_file.path)
        if isinstance(what, (dict, set)):
            kind = type(what).__name__
            raise Fault(Code.NOTHING_TO_SEND, place, where=where, kind=kind)
        found: list[object] = list(what) if isinstance(what, list) else [what] * self.degree
        if len(found) != self.degree:
            raise Fault(
                Code.LIST_OF_OTHER_LENGTH,
                place,
                where=where,
                payloads=len(found),
                ports=self.degree,
            )
        slots: list[Slot] = []
        for slot in found:
            try:
                slots.append(None if slot is None else payload_of(slot))
            except NoPayload as why:
                names = {"where": where, "slot": as_python(slot), "why": why}
                raise Fault(Code.SENDS_NO_PAYLOAD, place, **names) from None
        if pulse == self.last and any(slot is not None for slot in slots):
            raise Fault(Code.SENDS_IN_LAST_PULSE, place, where=where, pulse=pulse)
        return slots

    def result(self) -> str:
        return found_by(self.of_file, self.me, self.id)

    def drawn(self) -> tuple[int | None, int | None]:
        """Colour and port for pictures, if the file says them."""
        path = self.of_file.path
        drawing = self.of_file.drawing
        if drawing is None:
            return None, None
        where = f"`drawn` of the node of identifier {self.id}"
        return call(path, where, self.pair_of, drawing)

    def pair_of(self, drawing: Callable[..., object]) -> tuple[int | None, int | None]:
        """What `drawn` returns."""
        pair = drawing(self.me)
        if isinstance(pair, tuple) and len(pair) == 2:
            colour, port = map(plain, pair)
            if is_number_below(colour, COLOURS) and is_number_below(port, self.degree):
                return colour, port
        raise Fault(
            Code.NOTHING_TO_DRAW_RETURNED,
            InText(self.of_file.path),
            pair=as_python(pair),
            identifier=self.id,
            colours=COLOURS,
        )


def found_by(file: LoadedFile, me: Me, identifier: int) -> str:
    """What a node of a file has found so far, in words."""

    def finding() -> str:
        found = plain(file.finding(me))
        if not is_line(found):
            raise Fault(Code.NO_WORDS_RETURNED, InText(file.path), returned=as_python(found))
        return found

    return call(file.path, f"`result` of the node of identifier {identifier}", finding)


def takes(function: object, count: int) -> bool:
    """Whether a function of a file takes so many values."""
    code = getattr(function, "__code__", None)
    return isinstance(code, CodeType) and code.co_argcount == count


def cut(text: str, most: int = LONGEST_VALUE) -> str:
    return text if len(text) <= most else f"{text[:most]}.."


def as_python(value: object) -> str:
    """A value of a file as Python writes it, of which the beginning is enough."""
    return cut(repr(value))


def plain(value: object) -> object:
    """A value of a file without a type of the file: of a member of an `Enum` that is a word or a number, this. What
    only says that it is a text or a number is nothing."""
    try:
        if isinstance(value, str):
            return str.__str__(value)
        if isinstance(value, int) and not isinstance(value, bool):
            return int.__int__(value)
    except TypeError:
        return None
    return value


def is_line(value: object) -> TypeGuard[str]:
    """Whether something is words on one line, which can be written."""
    return isinstance(value, str) and not BREAKS.search(value)


class NoPayload(ValueError):
    """Why something is no payload."""


def payload_of(slot: object) -> Payload:
    """A payload of a file as the definitions write it."""
    if isinstance(slot, tuple) and len(slot) == 2:
        word, number = map(plain, slot)
        if is_word(word) and is_number(number):
            if number >= 2**128:
                raise NoPayload("its number has to be below 2^128")
            return Payload(word, number)
    raise NoPayload(WHAT_A_PAYLOAD_IS)


WHAT_A_PAYLOAD_IS = "a payload is a pair, a word of small letters and a number from 0"


def is_word(word: object) -> TypeGuard[str]:
    return isinstance(word, str) and word.isascii() and word.isalpha() and word.islower()


def is_number(number: object) -> TypeGuard[int]:
    """Whether something is a number from 0."""
    return isinstance(number, int) and not isinstance(number, bool) and number >= 0


def is_number_below(number: object, bound: int) -> TypeGuard[int | None]:
    """Whether something is a number from 0 and below the bound, or None."""
    return number is None or is_number(number) and number < bound


# What a file has to keep to, and what has to hold.


def check_repeats(net: Network, program: Program) -> None:
    """Refuses a program of a file that does something else the second time, or keeps something outside `me`: then the
    rounds, and what nodes find in them, mean nothing. The second time the nodes come in the opposite order.
    """
    file = program.file
    if file is None:
        return
    nodes = net.node_numbers
    for (node, where, one), (_, _, two) in zip(
        rounds_in_order(net, file, nodes), rounds_in_order(net, file, nodes[::-1])
    ):
        if one != two:
            raise Fault(Code.NOT_REPEATED, InText(file.path), where=where)
        if name := node.of_file.changed_variable():
            raise Fault(Code.VARIABLE_CHANGED, InText(file.path), where=where, name=name)


def rounds_in_order(
    net: Network, file: ProgramFile, order: Sequence[int]
) -> Iterator[tuple[OwnNode, str, tuple[object, Hashable]]]:
    """(node, where, what it sends or finds and what it keeps) of all rounds, by node, the nodes being called in an
    order."""
    nodes = {v: OwnNode(net, v, file) for v in order}
    for pulse, _, _, sent in pulses_of(net, nodes, OwnNode.last_pulse(net, file)):
        for v in sorted(order):
            node = nodes[v]
            function = node.of_file.stepping_name if pulse else "greet"
            yield node, node.where(function, pulse), (sent[v], kept_by(node))
    found = {v: nodes[v].result() for v in order}
    for v in sorted(order):
        yield nodes[v], nodes[v].where("result", nodes[v].last), (found[v], kept_by(nodes[v]))


def kept_by(node: OwnNode) -> Hashable:
    """What a node keeps, as a key; nothing of what can't be compared, which `explore` refuses."""
    try:
        return call(node.of_file.path, f"what node {node.id} keeps", frozen, node.me, by_name)
    except Fault:
        return None


# A message under way: sender and receiver by identifier, and what the file knows of it.
UnderWay = tuple[int, int, tuple[int | str, ...]]


def placed_among(message: UnderWay) -> tuple[int, int, list[tuple[bool, int | str]]]:
    """What messages are sorted by. Numbers and words can't be compared, so numbers come first."""
    v, w, fields = message
    return v, w, [(isinstance(field, str), field) for field in fields]


def what_is_wrong(
    net: Network,
    file: ProgramFile | None,
    found: dict[int, str],
    function: str = "right",
    messages: Iterable[UnderWay] = (),
) -> str:
    """What the `right` or `always` of a program's file says of what nodes have found, in words; nothing if that is
    right, or if there is no such function."""
    if file is None or function not in file.functions:
        return ""
    more: list[object] = (
        [list(messages)] if function == "always" and asks_for_messages(file) else []
    )
    values = [*by_identifier(net, found), *more]
    return call(file.path, f"`{function}`", judged_by, file, function, values)


def judged_by(file: ProgramFile, function: str, values: list[object]) -> str:
    """What isn't right by a function of a file, in words."""
    said = plain(file.functions[function](*values))
    if said is True:
        return ""
    if said is False:
        return f"`{function}` says that it isn't right"
    if is_line(said) and said.strip():
        return cut(said, LONGEST_WORDS)
    raise Fault(
        Code.NO_TRUTH_RETURNED, InText(file.path), function=function, returned=as_python(said)
    )


def by_identifier(
    net: Network, found: dict[int, str]
) -> tuple[dict[int, str], dict[int, list[int]]]:
    """What nodes have found, and their neighbours, as a file knows them."""
    name = net.identifiers
    results = {name[v]: result for v, result in found.items()}
    return results, {name[v]: sorted(name[w] for w in ws) for v, ws in net.neighbours.items()}


def results_of(net: Network, program: Program) -> dict[int, str]:
    """What each node has found after the last pulse of the rounds."""
    return {v: node.result() for v, node in synchronous_run(net, program).items()}


def has_verdict(program: Program) -> bool:
    """Whether a program says which ends are right."""
    return program.file is not None and "right" in program.file.functions


def wrong_end(net: Network, program: Program) -> str:
    """What isn't right at the end of the rounds, and so of every whole run, in words; nothing if it is right, or if
    the program doesn't say."""
    if not has_verdict(program):
        return ""
    return what_is_wrong(net, program.file, results_of(net, program))


def asks_for_messages(file: ProgramFile | None) -> bool:
    """Whether the `always` of a program's file takes the messages under way."""
    return file is not None and takes(file.functions.get("always"), 3)
