"""Plants another sentence for each code of a fault: nothing but printed text and pages changes. The status and the data
of a command or of a call are the same, and so are the code, the place and the subject of a fault."""
import contextlib
import importlib
import io
import json
import os
import shlex
from collections.abc import Iterator
from functools import partial
from unittest import mock

from forestplan.__main__ import COMMANDS
from forestplan.fault_codes import Code
from forestplan.faults import Fault
from forestplan.pictures.page_data import as_object
from forestplan.sentences import SENTENCES
from forestplan.studio import limits
from forestplan.studio.calls import CALLS
from forestplan.studio.session import Session
from tests.cases import FilesCase

PLANTED = {code: f"planted {code.name}" for code in Code}
BAD = "planted "
# A program of one's own that sends in its last pulse.
LAST = """\
def greet(me): return ('a', 1)
def step(me, pulse, inbox): return ('a', 1)
def result(me): return 'x'
def last_pulse(nodes, degree): return 1
"""
FILES = {
    "good.col": "p edge 3 2\ne 1 2\ne 2 3\n",
    "second.col": "p edge 2 1\np edge 2 1\n",
    "early.col": "e 1 2\n",
    "above.col": "p edge 2 1\ne 1 3\n",
    "same.col": "p edge 2 1\ne 1 2\ni 1 2\n",
    "none.col": "p edge 0 0\n",
    "what.txt": "a b\n",
    "short.csv": "source,target\na,b\na\n",
    "titles.csv": "x,y\na,b\n",
    "excel.csv": "sep=;\n",
    "error.csv": "source,target\n#N/A,b\n",
    "good.csv": "source,target\na,b\n",
    "good.edgelist": "a b\nc\n",
    "open.graphml": "<graphml>",
    "end.gml": "graph [",
    "twice.json": '{"nodes": [], "nodes": []}',
    "letters.g6": "B\n",
    "sites.csv": "node,latitude,longitude\na,1,1\n",
    "bars.csv": "site,channel\nzz,1\n",
    "bad.plan": "plan\n1 1\n1 2\n",
    "head.transcript": "hello\n",
    "early.transcript": "transcript 1 3\n1 pulse 1\n",
    "empty.transcript": "transcript 1 3\n1 take 2 ack 0\n",
    "word.transcript": "transcript 1 3\n1 put 2 payload 0 nope 3\n",
    "nodes.transcript": "transcript 1 2\n",
    "stamp.transcript": "transcript 2 3\n5 1 put 2 payload 0 hello 1\n",
    "other.transcript": "transcript 3 leader 3\n",
    "start.transcript": "transcript 1 3\n",
    "bad.events": "jump 1\n",
    "early.events": "pulse 1\n",
    "none.py": "x = 1\n",
    "syntax.py": "def greet(\n",
    "raises.py": "1 / 0\n",
    "last.py": LAST,
    "links.txt": "http://x/\nhttp://x/#example=chain6&dare=foo\n",
}
# Commands that end in a fault. All faults of a kind of file are made in one place, so a few of each are enough.
FAILING = """\
network tell second.col
network tell early.col
network tell above.col
network tell same.col
network tell nothing.col
network tell petersen99999
network read what.txt
network read short.csv
network read titles.csv
network read excel.csv
network read error.csv
network read good.edgelist
network read open.graphml
network read end.gml
network read twice.json
network read letters.g6
network read --columns source=Von good.csv
network read --no-heading good.col
network read --encoding foo good.csv
network read --sites sites.csv --reach 5
network read good.csv --bars bars.csv
network read good.csv --channels 1-1-1
network path 0
network random 3 9
network random 9 9 --connected --neighbours 1
network disk 5 --radius 3
network names -
channels 1-x
channels 9-1
picture plan none.col
picture map path5000
picture why good.col --vertex 9
picture rounds good.col --forest 8..9
picture bits good.col --forest 0 --vertex 9
picture results good.col --program nope
picture rounds good.col --program leader --forest 0..0
picture run good.col --transcript head.transcript
picture run good.col --transcript early.transcript
picture run good.col --transcript start.transcript --pulses 5..3
picture watch good.col head.transcript
picture rounds good.col --program last.py
transcript check good.col head.transcript
transcript check good.col early.transcript
transcript check good.col early.transcript --json
transcript check good.col empty.transcript --json
transcript check good.col word.transcript --json
transcript check good.col nodes.transcript --json
transcript check good.col stamp.transcript --json
transcript check good.col other.transcript --json
transcript check good.col start.transcript --json
transcript convert json start.transcript
transcript check - -
simulate good.col --events bad.events
simulate good.col --events early.events
simulate good.col --slow 1-3
simulate good.col --lazy 9
simulate good.col --program none.py
simulate good.col --program syntax.py
simulate good.col --program raises.py
simulate good.col --program layers --root 9
simulate good.col --passes 3
explore queen5x5
explore good.col --limit 5
explore good.col --program last.py
workshop grade nothing
studio --links nothing
studio --own what.txt --links links.txt""".splitlines()
EDGE = "p edge 2 1\ne 1 2\n"
ALIKE = "p edge 2 1\ne 1 2\ni 1 2\n"
PATH = "p edge 60 59\n" + "".join(f"e {v} {v + 1}\n" for v in range(1, 60))
# Calls of the studio: what is refused, and what has a fault in its answer.
ASKED: list[tuple[str, dict[str, object]]] = [
    ("plan", {"network": ALIKE}),
    ("plan", {"network": "p edge 0 0\n"}),
    ("plan", {"network": "x"}),
    ("plan", {"network": 3}),
    ("plan", {}),
    ("example", {"name": "nope"}),
    ("address", {"place": "tab=nope&node=9&seed=%zz&plan=1_x&foo=1&tab=run", "nodes": 2}),
    ("address", {"place": "net=1.1~9"}),
    ("read", {"name": "what.txt", "data": "YSBiCg=="}),
    ("read", {"name": "t.csv", "data": "eCx5CmEsYgo="}),
    ("read", {"name": "t.csv", "data": "", "stated": ["--as", "nope"]}),
    ("make", {"kind": "ring", "sizes": {"nodes": "2"}}),
    ("check", {"network": EDGE, "plan": [1, 1]}),
    ("check", {"network": EDGE, "plan": [9, 1]}),
    ("check", {"network": EDGE, "plan": [1, 2]}),
    ("check", {"network": EDGE, "plan": [0, -1]}),
    ("run", {"network": PATH}),
    ("run", {"network": EDGE, "transcript": "transcript 1 2\n1 pulse 1\n"}),
    ("judge", {"network": EDGE, "transcript": "transcript 1 2\n1 pulse 1\n"}),
    ("judge", {"network": EDGE, "transcript": "hello\n"}),
    ("replay", {"network": EDGE, "transcript": "transcript 2 2\n1 1 pulse 1\n"}),
    ("steps", {"network": EDGE, "steps": "1_2-2"}),
    ("steps", {"network": EDGE, "steps": "1-2_2-1", "without": "fifo", "dare": "wrong"}),
    ("broken", {"network": EDGE, "without": "nope"}),
    ("picture", {"network": EDGE, "kind": "run"}),
]


def told(value: object) -> object:
    """A value of a subject, as data: of a fault in it what that is about, without words."""
    if isinstance(value, Fault):
        subject = {name: told(of) for name, of in value.subject.items()}
        return value.code.name, value.place, subject
    return str(value)


def is_text_of(plain: object, planted: object) -> bool:
    """Whether two are equal, but for texts in which a sentence was planted."""
    if isinstance(plain, dict) and isinstance(planted, dict):
        return plain.keys() == planted.keys() and all(
            is_text_of(plain[key], planted[key]) for key in plain
        )
    if isinstance(plain, list) and isinstance(planted, list):
        return len(plain) == len(planted) and all(map(is_text_of, plain, planted))
    is_text = isinstance(plain, str) and isinstance(planted, str) and BAD in planted
    return is_text or plain == planted


def refuse(code: Code) -> None:
    raise Fault(code)


class Planted(FilesCase):
    def setUp(self) -> None:
        super().setUp()
        for name, text in FILES.items():
            self.file(name, text)
        here = os.getcwd()
        self.addCleanup(os.chdir, here)
        os.chdir(self.folder)

    @contextlib.contextmanager
    def planted(self) -> Iterator[None]:
        with mock.patch.dict(SENTENCES, PLANTED):
            yield

    def ends(self, arguments: list[str]) -> tuple[object, str, str]:
        """How a command ends, what it prints, and what it says."""
        main = importlib.import_module(COMMANDS[arguments[0]]).main
        printed = io.BytesIO()
        output = io.TextIOWrapper(printed, "utf-8", write_through=True)
        errors = io.StringIO()
        with contextlib.redirect_stdout(output), contextlib.redirect_stderr(errors):
            try:
                found: object = main(arguments[1:])
            except Fault as fault:
                found = told(fault)
                errors.write(str(fault))
            except SystemExit as ended:
                found = "exit", ended.code
        return found, printed.getvalue().decode(), errors.getvalue()

    def test_commands(self) -> None:
        for command in FAILING:
            arguments = shlex.split(command)
            found, printed, said = self.ends(arguments)
            with self.planted():
                found_then, printed_then, said_then = self.ends(arguments)
            self.note(f"{command}: ends well", found != 0, printed)
            self.same(f"{command}: how it ends", found_then, found)
            rows = [
                [json.loads(line) if line.startswith("{") else line for line in text.splitlines()]
                for text in (printed, printed_then)
            ]
            self.note(f"{command}: what it prints", is_text_of(*rows), rows)
            is_planted = BAD in said_then + printed_then and BAD not in said + printed
            self.note(f"{command}: the sentence", is_planted, said_then + printed_then)

    def test_calls(self) -> None:
        for name, body in ASKED:
            row = f"{name} {body}"[:200]
            plain = self.answered(name, body)
            with self.planted():
                planted = self.answered(name, body)
            self.note(row, is_text_of(plain, planted), (plain, planted))

    def answered(self, name: str, body: dict[str, object]) -> object:
        """The answer to a call, as data, or the fault for which it is refused."""
        try:
            answer = CALLS[name].answer(body, Session(), lambda done=0, of=0, part=None: None)
        except Fault as fault:
            return told(fault)
        return json.loads(json.dumps(answer, default=as_object))

    def test_each_refusal_has_its_own_sentence(self) -> None:
        """At the edge a sentence is what was planted, of any code."""
        with self.planted():
            for code in Code:
                said = limits.outcome(partial(refuse, code)).wrong
                self.same(code.name, said, PLANTED[code])
