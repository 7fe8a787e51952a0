"""Attacks by the file of a program of one's own: whatever it does, a command ends with one line of it, and never with a
fault of its own or a wrong verdict."""
import sys
import unittest.mock

from forestplan.definitions.programs import any_program_at
from forestplan.definitions.reacting_program import Reacting
from forestplan.fault_codes import Code
from forestplan.faults import Fault
from forestplan.networks.sources import network_at
from forestplan.schedules import reacting_runs, simulate
from forestplan.transcripts.judge import whole_run
from tests import SOURCES
from tests.cases import Case, called, said_by
from tests.sentences import NO_LINE, NO_PORT, NO_RETURN, NO_WORD

# The middle one of a path of three nodes says who was first to send it something: by hand, both ends can be.
FIRST = """\
{head}
def start(me):
    me.first = 0
    if me.degree == 1:
        me.send_all("ping", me.id)
def on_ping(me, port, number):
    {does}
def result(me):
    return f"first {{me.first}}"
"""
# Places outside `me`: what the file begins with, what it does then, and the variable that keeps who was first.
OUTSIDE = (
    ("class C:\n    first = 0", "C.first = C.first or number; me.first = C.first", "C.first"),
    (
        "class C:\n    class D:\n        first = 0",
        "C.D.first = C.D.first or number; me.first = C.D.first",
        "C.D",
    ),
    (
        "def make():\n    kept = []\n    def keep(n):\n        kept.append(n)\n        return kept[0]\n"
        "    return keep\nkeep = make()",
        "me.first = keep(number)",
        "kept of keep",
    ),
    (
        "def keep(n, kept=[]):\n    kept.append(n)\n    return kept[0]",
        "me.first = keep(number)",
        "kept of keep",
    ),
    (
        "def keep(n, *, kept=[]):\n    kept.append(n)\n    return kept[0]",
        "me.first = keep(number)",
        "kept of keep",
    ),
    (
        "",
        "on_ping.kept = getattr(on_ping, 'kept', 0) or number; me.first = on_ping.kept",
        "on_ping.kept",
    ),
    (
        "kept = [lambda n, kept=[]: (kept.append(n), kept[0])[1]]",
        "me.first = kept[0](number)",
        "kept",
    ),
    (
        "def sent():\n    first = 0\n    while True:\n        n = yield first\n        first = first or n\n"
        "kept = sent()\nnext(kept)",
        "me.first = kept.send(number)",
        "kept",
    ),
    (
        "kept = []\nkeep = kept.append\ndel kept",
        "keep(number); me.first = keep.__self__[0]",
        "keep",
    ),
    ("__kept = []", "__kept.append(number); me.first = __kept[0]", "__kept"),
    (
        "class C:\n    kept = []\n    @classmethod\n    def keep(cls, n):\n        cls.kept.append(n)\n"
        "        return cls.kept[0]\nkeep = C.keep\ndel C",
        "me.first = keep(number)",
        "keep",
    ),
)
# What a file may have outside `me`, and doesn't change.
INSIDE = (
    "",
    "class C:\n    def keep(self, n):\n        self.first = n\n        return n\nc = C()",
    "import collections, dataclasses, enum, functools\n"
    "class Kind(enum.Enum):\n    A = 1\n"
    "@dataclasses.dataclass\nclass Row:\n    name: str = 'a'\n"
    "    kept: list = dataclasses.field(default_factory=list)\n"
    "@functools.lru_cache\ndef half(n):\n    return n // 2\n"
    "def outer(n):\n    def inner(m):\n        return inner(m - 1) if m else n\n    return inner\n"
    "inner = outer(3)\nrows = [Row(), Row('b')]\nPair = collections.namedtuple('Pair', 'a b')\npair = Pair(1, Kind.A)",
)
PING = """\
{head}
def start(me):
    me.got = 0
    if me.id == 1:
        me.send_all("ping", 7)
def on_ping(me, port, number):
    me.got += 1
    {does}
def result(me):
    return f"got {{me.got}}"
"""
RAISES = "class E({}):\n    def __str__(self):\n        {}"
SHOWN = "class R:\n    def __repr__(self):\n        raise {}"
# What the file begins with, what it does when a message comes, and parts of what is said.
ENDED = (
    ("", "raise KeyboardInterrupt", " line 8: KeyboardInterrupt, in `on_ping` of the node of"),
    ("", "raise GeneratorExit", " line 8: GeneratorExit, in `on_ping`"),
    ("class B(BaseException):\n    pass", "raise B('x')", ": B: x, in `on_ping`"),
    (RAISES.format("Exception", "raise ValueError"), "raise E()", ": E, in `on_ping`"),
    (RAISES.format("BaseException", "raise KeyboardInterrupt"), "raise E()", ": E, in `on_ping`"),
    (RAISES.format("Exception", "return 'a\\nb'"), "raise E()", ": E: a\\nb, in `on_ping`"),
    (RAISES.format("Exception", "return 'a' * (1 << 20)"), "raise E()", "aaa.., in `on_ping`"),
    (
        "from forestplan.faults import Fault\nfrom forestplan.fault_codes import Code",
        "raise Fault(Code.NO_WORDS_RETURNED)",
        ": Fault, in `on_ping`",
    ),
    (SHOWN.format("ValueError('r')"), "return R()", ": ValueError: r, in `on_ping`"),
    (SHOWN.format("KeyboardInterrupt"), "me.send(R(), 'ping', 7)", ": KeyboardInterrupt, in"),
    ("", "return 'a' * (1 << 20)", f"aaa..: {NO_RETURN}"),
    (
        "",
        "me._sent.append((99, 'junk'))",
        ": something is sent, and not by `me.send`, in `on_ping`",
    ),
    ("", "me._sent.append(1)", ": TypeError: cannot unpack non-iterable int object, in `on_ping`"),
    (
        "",
        "me._file.ports = 99; me.send(50, 'ping', 7)",
        ": IndexError: list index out of range, in",
    ),
    ("", "me._file.reactions.clear()", "AttributeError: 'mappingproxy' object has no attribute"),
    (
        "class I(int):\n    def __ge__(self, other):\n        return other == 0",
        "me.send(I(99), 'ping', 7)",
        NO_PORT.format(99),
    ),
    ("class S:\n    __class__ = str", "me.send(0, S(), 7)", NO_WORD.format(None)),
    (
        "class L:\n    def __reduce_ex__(self, protocol):\n        raise KeyboardInterrupt",
        "me.kept = L()",
        ": KeyboardInterrupt, in `on_ping`",
    ),
)
# Of a class of one's own: a member that is a text and one that is a number.
MEMBERS = "from enum import Enum\nclass Kind(str, Enum):\n    PING = 'ping'\nclass N(int, Enum):\n    SEVEN = 7\n"
ROUNDS = """\
def greet(me):
    me.got = 0
    return {sent}
def step(me, pulse, inbox):
    me.got += sum(slot[1] for slot in inbox if slot)
    return None
def result(me):
    return {result}
"""


class FileAttacks(Case):
    def test_kept_outside(self) -> None:
        """Orders of events play on copies of `me`, so what is kept elsewhere would make one end of two."""
        for head, does, name in OUTSIDE:
            path = self.file("first.py", FIRST.format(head=head, does=does))
            done = said_by("explore", "path3", "--program", path)
            said = f"`on_ping` of the node of identifier 2 changes the variable `{name}` outside"
            self.note(f"{head!r}, {does}", done[0] == 1 and said in done[1], done)

    def test_not_changed(self) -> None:
        for head in INSIDE:
            path = self.file(
                "first.py", FIRST.format(head=head, does="me.first = me.first or number")
            )
            done = said_by("explore", "path3", "--program", path)
            said = "2 ends:\n  1 first 0, 2 first 1, 3 first 0\n  1 first 0, 2 first 3, 3 first 0\n"
            self.note(repr(head), done[0] == 0 and done[1].endswith(said), done)

    def test_how_it_ends(self) -> None:
        for head, does, said in ENDED:
            path = self.file("ping.py", PING.format(head=head, does=does))
            done = said_by("simulate", "path3", "--program", path)
            is_line = (done[0], done[1], done[2].count("\n")) == (1, "", 1)
            is_short = len(done[2]) < 3_000 and path in done[2]
            self.note(f"{head!r}, {does}", is_line and is_short and said in done[2], done)

    def test_members(self) -> None:
        """A member of an `Enum` that is a word or a number is sent as this, and the judge reads it."""
        reacting = MEMBERS + PING.format(head="", does="").replace(
            '"ping", 7', "Kind.PING, N.SEVEN"
        )
        rounds = MEMBERS + ROUNDS.format(sent="(Kind.PING, N.SEVEN)", result="f'got {me.got}'")
        for name, text, message in (
            ("reacting", reacting, "1 1 put 2 ping 7"),
            ("rounds", rounds, "1 1 put 2 payload 0 ping 7"),
        ):
            path = self.file(f"{name}.py", text)
            status, out, fault = said_by("simulate", "path2", "--program", path)
            self.same(name, (status, out.split("\n")[1], fault), (0, message, ""))
            judged = whole_run(network_at("path2"), out.encode(), any_program_at(path))[1]
            self.note(f"{name} is judged", judged.startswith("whole run of 2 nodes"), judged)

    def test_words(self) -> None:
        """What a node finds is printed, so it is a line that can be written."""
        for text in ("'a\\rb'", "'\\u2028'", "'\\ud800'", "'a\\n'"):
            path = self.file("words.py", ROUNDS.format(sent="None", result=text))
            done = said_by("explore", "path2", "--program", path)
            self.refusal(text, done, 1, NO_LINE.format(text))

    def test_caught(self) -> None:
        """A call that doesn't end, and catches what ends it, ends the command."""
        does = (
            "while True:\n        try:\n            while True:\n                me.got += 0\n"
            "        except:\n            pass"
        )
        path = self.file("caught.py", PING.format(head="", does=does))
        code = (
            f"import sys; sys.path.insert(0, {SOURCES!r})\n"
            "from forestplan import process_exit\nfrom forestplan.definitions import own_program\n"
            "from forestplan.schedules import simulate\n"
            "own_program.LONGEST, own_program.LONGER = 1, 1\n"
            f"words = ['path2', '--program', {path!r}]\n"
            "sys.exit(process_exit.run_apart('simulate', lambda: lambda: simulate.main(words)))\n"
        )
        status, out, fault = called(sys.executable, "-c", code, limit=60)
        said = "a call of a function of the program's file doesn't end, and the file catches what ends it"
        self.refusal("caught", (status, out.decode(), fault.decode()), 1, said)

    def test_flood(self) -> None:
        """Of messages that can't all be taken in a run's entries, no more are kept."""
        path = self.file(
            "flood.py", PING.format(head="", does="[me.send_all('ping', 7) for _ in range(99)]")
        )
        program = any_program_at(path)
        assert isinstance(program, Reacting)
        with unittest.mock.patch.object(simulate, "MOST_ENTRIES", 5_000):
            with self.assertRaises(Fault) as found:
                simulate.played(network_at("path3"), program=program)
        self.same("a run", found.exception.code, Code.TOO_MANY_UNDER_WAY)
        with unittest.mock.patch.object(reacting_runs, "MOST_ENTRIES", 5_000):
            with self.assertRaises(Fault) as found:
                reacting_runs.Runs(network_at("path3"), program, 1, "1").play()
        self.same("many runs", found.exception.code, Code.TOO_MANY_UNDER_WAY)
