"""A program of one's own without rounds, from a Python file: its nodes react to each message. The file has

    start(me)                  what the node does first; all nodes begin at once
    on_WORD(me, port, ..)      what it does when a message `WORD ..` comes by a port: a function for each word
    may_act(me), act(me)       whether a step of its own is possible now, and what it does then; if the file has them
    result(me)                 what the node has found so far, as words
    right(results, neighbours) whether that is what has to be found, as in a program by rounds (own_program.py), asked
                               where nothing is possible any more
    always(results, neighbours)    the same at any time; if it takes three, of the messages under way, too: (sender,
                               receiver, message) by identifier, ascending, a message being ("word", a, b)

`me.send(port, word, ..)` sends a message by a port, and `me.send_all(word, .., but=port)` by all ports, or by all but
one. A message is a word of small letters, and then numbers from 0 or such words. Links keep their order. All else of
`me` is as in a program by rounds. A file is of this form if it has a function `on_WORD`. Nothing is proved of it."""
import copy
from collections.abc import Callable, Hashable, Sequence
from dataclasses import dataclass
from functools import partial
from inspect import signature
from types import MappingProxyType

from forestplan.definitions.events import ACT, Kind, Message
from forestplan.definitions.file_variables import FileVariables
from forestplan.definitions.machine import NetState, Node, Outgoing
from forestplan.definitions.nodes import alpha_start
from forestplan.definitions.own_program import (
    LoadedFile,
    Me,
    Misuse,
    UnderWay,
    call,
    check_functions,
    found_by,
    is_number,
    is_word,
    known,
    program_name,
    placed_among,
    plain,
    as_python,
)
from forestplan.definitions.program import Program, ProgramFile
from forestplan.definitions.values import by_name, frozen
from forestplan.fault_codes import Code
from forestplan.faults import Fault, InText
from forestplan.network import Network
from forestplan.wording import counted

ON = "on_"
# In one call. Nobody's node has as many ports.
MOST_SENT = 10_000
# So many events are made twice, as long as no node has more messages to send.
MOST_REPEATED = 1_000
OWN_STEPS = ("may_act", "act")
WHO_SENDS = "`start`, `act` and the functions `on_WORD` may send"


class ReactingFile(LoadedFile):
    """The file of such a program, as one node has it: `reactions` are its functions by word, of a node
    with so many `ports`."""

    def __init__(self, file: ProgramFile, ports: int) -> None:
        super().__init__(file)
        self.ports = ports
        self.starting = self.needed("start")
        self.asking = self.function("may_act")
        self.acting = self.function("act")
        self.reactions = MappingProxyType(
            {word: self.needed(ON + word) for word in words_taken(file)}
        )
        self.takes: dict[tuple[str, int], bool] = {}
        # Whether a function has changed a variable, which was said then.
        self.is_changed = False

    def kept_outside(self) -> dict[str, Hashable]:
        """The variables of the file, and what its functions and classes keep."""
        return FileVariables(self.values).keys()

    def no_message(self, message: Sequence[object]) -> str:
        """Why something is no message of the file; nothing if it is one."""
        if not message:
            return "a message begins with a word, and here is none"
        word, *fields = message
        if not is_word(word):
            return f"a message begins with a word of small letters, and {as_python(word)} is none"
        if word not in self.reactions:
            return f"`{word}` is sent, and the file has no function `{ON}{word}`"
        for field in fields:
            if not (is_word(field) or is_number(field) and field < 2**128):
                return (
                    f"`{word}` is sent with {as_python(field)}: after the word come numbers from 0, below 2^128, "
                    "and words of small letters"
                )
        if not self.takes_fields(word, len(fields)):
            function = f"{ON}{word}{signature(self.reactions[word])}"
            return f"`{word}` is sent with {counted(len(fields), 'field')}, and its function is `{function}`"
        return ""

    def takes_fields(self, word: str, count: int) -> bool:
        """Whether the function of a word takes so many fields."""
        key = word, count
        if key not in self.takes:
            try:
                signature(self.reactions[word]).bind(None, None, *range(count))
                self.takes[key] = True
            except TypeError:
                self.takes[key] = False
        return self.takes[key]


class ReactingMe(Me):
    """A node as such a file has it; `_sent` are the messages of this call with their ports, where one may send."""

    _file: ReactingFile
    _sent: list[tuple[int, Message]] | None

    def send(self, port: int, *message: int | str) -> None:
        """Sends a message by a port."""
        if self._sent is None:
            raise Misuse(f"`me.send` is called here, and only {WHO_SENDS}")
        at = plain(port)
        if not is_number(at) or at >= self._file.ports:
            has = f"0 to {self._file.ports - 1}" if self._file.ports else "none"
            raise Misuse(f"`me.send` has {as_python(port)} as its port: the node's ports are {has}")
        parts = [plain(part) for part in message]
        if why := self._file.no_message(parts):
            raise Misuse(why)
        if len(self._sent) == MOST_SENT:
            raise Misuse(f"more than {MOST_SENT:,} messages are sent in one call")
        word, *fields = parts
        own = tuple(field for field in fields if is_word(field) or is_number(field))
        self._sent.append((at, Message(str(word), own)))

    def send_all(self, *message: int | str, but: int | None = None) -> None:
        """Sends a message by all ports, or by all but one."""
        for port in range(self._file.ports):
            if port != but:
                self.send(port, *message)


class ReactingNode(Node):
    """A node of such a program, as the machine has it. `acts` counts its own steps, and `is_able` says whether one is
    possible. `kept` is what it keeps, as a key, or None if that can't be compared."""

    own: Kind = ACT
    ports: Sequence[Outgoing]

    def __init__(self, net: Network, v: int, file: ProgramFile) -> None:
        degree = len(net.neighbours[v])
        self.id: int = net.identifiers[v]
        self.of_file = ReactingFile(file, degree)
        self.me = ReactingMe(**known(net, v, file.seed), _file=self.of_file, _sent=None)
        self.ports = [Outgoing() for _ in range(degree)]
        self.acts = 0
        self.is_able = False
        self.kept: Hashable = None
        self.play("start", self.of_file.starting)

    def where(self, name: str) -> str:
        return f"`{name}` of the node of identifier {self.id}"

    def play(self, name: str, function: Callable[..., object], *values: object) -> None:
        """It does what a function of the file says."""
        file = self.of_file
        where = self.where(name)
        call(file.path, where, self.react, name, partial(function, self.me, *values))
        if file.asking is not None:
            self.is_able = call(file.path, self.where("may_act"), self.says_able, file.asking)

    def react(self, name: str, function: Callable[[], object]) -> None:
        """It calls a function of the file, and sends what that says."""
        sent: list[tuple[int, Message]] = []
        self.me._sent = sent
        returned = function()
        self.me._sent = None
        if returned is not None:
            names = {"where": self.where(name), "returned": as_python(returned)}
            raise Fault(Code.RETURNS_SOMETHING, InText(self.of_file.path), **names)
        for port, message in sent:
            if not isinstance(message, Message):
                raise Misuse("something is sent, and not by `me.send`")
            self.ports[port].out.append(message)
        self.check_variables(name)
        self.kept = self.key_of_kept()

    def says_able(self, asking: Callable[..., object]) -> bool:
        """Whether the file says that a step of its own is possible."""
        may = asking(self.me)
        if not isinstance(may, bool):
            raise Fault(Code.MAY_ACT_NO_TRUTH, InText(self.of_file.path), returned=as_python(may))
        self.check_unchanged("may_act")
        return may

    def check_unchanged(self, name: str) -> None:
        """Refuses a question of the file that changes the node, or something outside it."""
        if self.key_of_kept() != self.kept:
            raise Fault(Code.CHANGES_ME, InText(self.of_file.path), function=self.where(name))
        if not self.of_file.is_changed:
            self.check_variables(name)

    def check_variables(self, name: str) -> None:
        """Refuses a function that has changed a variable of the file, of which all copies of the node have one."""
        file = self.of_file
        where = self.where(name)
        if changed := file.changed_variable():
            file.is_changed = True
            raise Fault(Code.VARIABLE_CHANGED, InText(file.path), where=where, name=changed)

    def on_wire(self, at: int, wire: Message) -> None:
        self.play(ON + wire.word, self.of_file.reactions[wire.word], at, *wire.fields)

    def may_act(self) -> bool:
        return self.is_able

    def act(self) -> None:
        if self.of_file.acting is not None:
            self.acts += 1
            self.play("act", self.of_file.acting)

    def next_act(self) -> int:
        return self.acts + 1

    def lacks(self, neighbours: list[int]) -> str:
        return "`may_act` says that it may not"

    def undone(self) -> str:
        return "may still act" if self.is_able else ""

    def result(self) -> str:
        found = found_by(self.of_file, self.me, self.id)
        call(self.of_file.path, self.where("result"), self.check_unchanged, "result")
        return found

    # For all orders of events.

    def key_of_kept(self) -> Hashable:
        """What it keeps, as a key; None if that can't be compared, which only `explore` refuses."""
        try:
            return frozen(self.what_it_keeps())
        except Exception:
            return None

    def what_it_keeps(self) -> dict[str, object]:
        return {name: value for name, value in vars(self.me).items() if name not in HIDDEN}

    def copied(self) -> "ReactingNode":
        node = copy.copy(self)
        node.me = call(self.of_file.path, self.where("copying"), self.copy_of_me)
        node.ports = [Outgoing(list(port.out)) for port in self.ports]
        return node

    def copy_of_me(self) -> ReactingMe:
        try:
            return copy.deepcopy(self.me)
        except Exception as why:
            raise self.not_plain(why) from None

    def key(self) -> Hashable:
        """Equal for equal states of one node; how often it has acted doesn't count."""
        if self.kept is None:
            try:
                frozen(self.what_it_keeps())
            except Exception as why:
                raise self.not_plain(why) from None
        return self.kept

    def not_plain(self, why: Exception) -> Fault:
        return Fault(Code.CANT_BE_COPIED, InText(self.of_file.path), why=why)


# What the file doesn't know that `me` has.
HIDDEN = frozenset({"_file", "_sent", "_lots"})


@dataclass(frozen=True, eq=False)
class Reacting:
    """A program of nodes that react to messages, from a file."""

    name: str
    file: ProgramFile

    def node(self, net: Network, v: int) -> ReactingNode:
        """A node once it has started."""
        return ReactingNode(net, v, self.file)

    def start(self, net: Network) -> NetState[ReactingNode]:
        """The machine at its start."""
        return NetState(net, self.node)


AnyProgram = Program | Reacting


def start_of(net: Network, program: AnyProgram) -> NetState[Node]:
    """The machine at its start, whose nodes run a program: without rounds, or under the synchroniser."""
    return program.start(net) if isinstance(program, Reacting) else alpha_start(net, program)


def words_taken(file: ProgramFile) -> list[str]:
    """The words of messages that a file has functions for."""
    return [name.removeprefix(ON) for name in file.functions if name.startswith(ON)]


def reacts(file: ProgramFile) -> bool:
    """Whether the nodes of a file react to messages."""
    return bool(words_taken(file))


def reacting_program(file: ProgramFile) -> Reacting:
    """The program of a file with a function `on_WORD`."""
    for word in words_taken(file):
        if not is_word(word):
            raise Fault(Code.NO_WORD_OF_MESSAGE, InText(file.path), begin=ON, word=word)
    has = [name for name in OWN_STEPS if name in file.functions]
    if len(has) == 1:
        lacks = next(name for name in OWN_STEPS if name not in has)
        raise Fault(Code.HALF_OF_OWN_STEP, InText(file.path), has=has[0], lacks=lacks)
    try:
        check_functions(file, [("start",), ("result",)], ("right", "always"))
    except Fault as why:
        raise Fault(
            Code.LACKS_FUNCTIONS_OF_REACTING, why=why, begin=ON, word=words_taken(file)[0]
        ) from None
    return Reacting(program_name(file), file)


def results_in(state: NetState[Node]) -> dict[int, str]:
    """What each node has found in a state."""
    return {v: node.result() for v, node in state.nodes.items()}


def messages_in(state: NetState[Node], identifiers: dict[int, int]) -> list[UnderWay]:
    """(sender, receiver, message) by identifier, ascending, of all that is sent and not yet taken."""
    found: list[UnderWay] = []
    for (v, w), port in state.port_to.items():
        for message in state.link[v, port] + state.nodes[v].ports[port].out:
            found.append((identifiers[v], identifiers[w], (message.word, *message.fields)))
    return sorted(found, key=placed_among)


def check_reactions(net: Network, program: Reacting) -> None:
    """Refuses a file whose nodes do something else the second time: then what they find means nothing. The second time
    they are made in the opposite order."""
    one = program.start(net)
    made = {v: program.node(net, v) for v in net.node_numbers[::-1]}
    two = NetState(net, lambda _, v: made[v])
    for v in net.node_numbers:
        check_same(program, one.nodes[v].id, seen_of(one.nodes[v]), seen_of(two.nodes[v]))
    for _ in range(MOST_REPEATED):
        event = next(one.possible(), None)
        if event is None:
            return
        nodes = one.nodes[event.node], two.nodes[event.node]
        try:
            one.step(event)
            two.step(event)
            seen = [seen_of(node) for node in nodes]
        except Fault:
            return  # who plays this order says so, with the events before it
        check_same(program, nodes[0].id, *seen)
        if sum(len(port.out) for port in nodes[0].ports) > MOST_REPEATED:
            return


def check_same(program: Reacting, identifier: int, one: Hashable, two: Hashable) -> None:
    """Refuses what is seen of a node, if it differs although the same events were made."""
    if one != two:
        raise Fault(Code.NODE_NOT_REPEATED, InText(program.file.path), identifier=identifier)


def seen_of(node: ReactingNode) -> Hashable:
    """What a node keeps, sends and has found, by values that two loads of a file have in common."""
    shown = tuple(tuple(port.out) for port in node.ports), node.result()
    try:
        return frozen(node.what_it_keeps(), by_name), shown
    except Exception:
        return None, shown
