"""Tests of the studio's calls: each field of each call is left out, is of another type, is there twice, and each call
has a field that it doesn't know. Every malformed call gets a refusal that names the field, and none is a fault."""

import base64
import json
import os
from unittest import mock

from forestplan.definitions.nodes import COLOURING
from forestplan.definitions.programs import PROGRAMS
from forestplan.studio import limits, runs
from forestplan.studio.calls import CALLS
from forestplan.studio.fields import call_fields, object_of
from forestplan.studio.messages import RunCall
from forestplan.studio.session import Session
from tests import TOP
from tests.cases import FilesCase

EDGE = "p edge 2 1\ne 1 2\n"
RUN = {"network": EDGE, "name": "two", "program": "layers root 2"}
STEPS = {"steps": "1-2_2-1", "without": "fifo"}
ECHO = os.path.join(TOP, "examples", "algorithms", "echo.py")
SESSION = Session(own={"echo": ECHO}, forms={"echo": "reactions"})
# A call of each name that has all its fields, each good. What is one of two or more (a list or steps, a transcript or a
# seed) has rows of its own.
GOOD: list[tuple[str, dict]] = [
    ("hello", {}),
    ("address", {"place": "tab=run&node=2", "nodes": 2, "edges": [[1, 2]]}),
    ("example", {"name": "two"}),
    ("read", {"name": "x.csv", "data": base64.b64encode(b"1,2\n").decode(), "stated": []}),
    ("read", {"name": "x", "data": "", "stated": ["--as", "dimacs"]}),
    ("make", {"kind": "disk", "sizes": {"nodes": "5"}, "seed": "1"}),
    ("make", {"kind": "random", "sizes": {"nodes": 5, "edges": "4"}, "seed": 1}),
    ("tidy", {"network": EDGE, "name": "two"}),
    ("plan", {"network": EDGE, "name": "two"}),
    ("drawing", {"network": EDGE, "name": "two"}),
    ("check", {"network": EDGE, "name": "two", "plan": [1, 2]}),
    ("rounds", RUN),
    ("rounds", RUN | {"program": "colouring"}),
    ("rounds_page", RUN),
    ("why", {"network": EDGE, "name": "two", "node": 2}),
    ("broken", RUN | {"program": "matching", "without": "partner"}),
    ("picture", RUN | {"kind": "results", "node": 1, "forest": 0, "pulses": []}),
    ("picture", RUN | {"kind": "run", "program": "echo", "steps": "2-1"}),
    *(
        ("picture", RUN | {"program": "colouring", "kind": kind, "node": 1, "forest": 0})
        for kind in ("plan", "rounds", "bits", "why")
    ),
    (
        "picture",
        RUN
        | {"program": "colouring", "kind": "run", "pulses": [0, 2]}
        | {"transcript": "transcript 1 2\n1 put 0 payload 0 hello 1\n"},
    ),
    (
        "run",
        RUN
        | {"slow": [[1, 2]], "lazy": [1], "steps": "1-2", "seed": "1", "policy": "newest"}
        | {"how": "seed", "workers": 4, "capacity": 4},
    ),
    ("run", RUN | {"how": "threads", "workers": 4, "capacity": 4}),
    ("run", RUN | {"transcript": "transcript 2 2\n"}),
    *(
        (name, RUN | {"transcript": "transcript 1 2\n1 put 0 hello 1\n"})
        for name in ("run_page", "replay", "judge")
    ),
    (
        "steps",
        RUN
        | STEPS
        | {"slow": [[1, 2]], "lazy": [1], "dare": "apart", "by": 2, "in_step": True, "seed": "1"},
    ),
    ("steps", RUN | {"list": "take 1 0\n"}),
    ("steps", RUN | {"program": "echo", "steps": "2-1", "without": "fifo", "dare": "other"}),
    ("file_text", {"own": "echo", "seen": "0"}),
    ("predict", RUN | {"node": 1, "pulse": 1, "forest": 0, "guess": "layer 0"}),
    ("predict", RUN | {"program": "colouring"} | {"node": 1, "pulse": 3, "forest": 0, "guess": 1}),
    ("waits", RUN | STEPS | {"node": 1, "guess": "ack 2"}),
    (
        "sends",
        RUN | {"program": "echo", "steps": "2-1", "without": "fifo", "step": "1-2", "guess": "x"},
    ),
    # An answer that is said, a typed plan, and steps that are taken.
    ("exercise", {"network": "", "lesson": 1, "step": 1, "guess": "4"}),
    ("exercise", {"network": EDGE, "lesson": 1, "step": 2, "plan": [1, 2]}),
    ("exercise", RUN | STEPS | {"lesson": 6, "step": 1}),
    ("build", {}),
    ("built", {}),
]
NETWORKS = (
    "p edge 1 0\n",
    "p edge 3 3\ne 1 2\ne 2 3\ne 1 3\nb 3 1\n",
    "p edge 4 3\ne 1 2\ne 2 3\ne 3 4\ni 1 9\n",
    "p edge 4 0\n",
)
# Values of every type, and of each the ones that are at an end of it.
VALUES: tuple[object, ...] = (
    *(None, True, False, 0, 1, -1, 3, 10**9, 10**30, 1.5, float("inf"), float("nan")),
    *("", "x", "1", "-1", "\0", "\ud800", "1_2", "x" * 100_000, "٣", "constructor", "../x"),
    *([], [0], [[]], [1], [-1, 10**9], ["x"], [None], [[1]], [[1, 1]], [[1, 9]], [[1, 2, 3]]),
    *([["x", 1]], [[1, 2]] * 2, {}, {"nodes": []}, {"nodes": "9" * 5000}, {"": ""}),
)
# What a field may be that isn't of the type of its good value.
ALSO = {"seed": (str, int), "guess": (str, int)}
# What a field means that isn't there, in every call that has it and may lack it.
DEFAULTS = {
    **{"nodes": 0, "edges": [], "stated": [], "program": "colouring", "slow": [], "lazy": []},
    **{"steps": "", "without": "", "forest": 0, "how": "seed", "workers": 4, "capacity": 4},
    **{"pulses": [], "by": 0, "in_step": False, "dare": None, "policy": None, "list": None},
}
# The same of a field that a call of this name may lack and another one may not.
OWN_DEFAULTS: dict[str, dict[str, object]] = {"exercise": {"plan": [], "guess": ""}}
# The sentence of each refusal of a malformed call. The server's other tests ask only for its beginning.
AT_NODE = {"network": EDGE, "node": 1}
REFUSALS: tuple[tuple[str, dict, str], ...] = (
    ("why", {"network": EDGE}, "the call lacks its field node"),
    ("why", AT_NODE | {"vertx": 1}, "the call has no field vertx: it has network, name, node"),
    ("hello", {"x": 1}, "the call has no field x: it has none"),
    ("why", AT_NODE | {"network": 7}, "the field network of the call: a text is asked for"),
    (
        "why",
        AT_NODE | {"network": "\ud800"},
        "the field network of the call: a text of whole letters is asked for, and this has half of one",
    ),
    ("why", AT_NODE | {"node": "x"}, "the field node of the call: a whole number is asked for"),
    (
        "why",
        AT_NODE | {"node": 10**9 + 1},
        "the field node of the call: a whole number of at most 1,000,000,000 is asked for",
    ),
    ("steps", RUN | {"in_step": 1}, "the field in_step of the call: true or false is asked for"),
    (
        "read",
        {"name": "x", "data": "?"},
        "the field data of the call: bytes in base 64 are asked for",
    ),
    ("check", {"network": EDGE, "plan": 1}, "the field plan of the call: a list is asked for"),
    ("run", RUN | {"slow": [[1]]}, "the field slow of the call: a list of 2 is asked for"),
    ("make", {"kind": "disk", "sizes": 1}, "the field sizes of the call: an object is asked for"),
    (
        "picture",
        RUN | {"kind": "x"},
        "the field kind of the call: there is no x: there are plan, results, rounds, bits, why, run",
    ),
    (
        "predict",
        AT_NODE | {"pulse": 1, "guess": []},
        "the field guess of the call: a whole number is asked for",
    ),
)


def text_of(asked):
    return json.dumps(asked).encode()


class Calls(FilesCase):
    """A test over many bodies is one row, unless one is wrong."""

    def setUp(self):
        # No button is pressed, and nothing is built.
        self.enterContext(mock.patch("shutil.which", lambda name: None))

    def outcome(self, name, body):
        """What is answered to a call with this body, in words if it is refused."""
        return limits.outcome(
            lambda: CALLS[name].answer(
                object_of(body), SESSION, lambda done=0, of=0, part=None: None
            )
        )

    def is_no_fault(self, row, found):
        self.note(row[:300], found.kind != "fault", found.wrong)

    def names_it(self, row, field, found):
        text = found.wrong or "an answer"
        self.note(row[:300], found.kind == "refusal" and f"field {field}" in text, text[:2000])

    def test_all_are_here(self):
        """Each field of each call is in a call of the list, and each call of the list is good."""
        fields: dict[str, set[str]] = {name: set() for name in CALLS}
        for name, asked in GOOD:
            fields[name] |= set(asked)
            self.is_no_fault(f"{name} {asked}", self.outcome(name, text_of(asked)))
        wanted = {name: set(call_fields(call.asked)) for name, call in CALLS.items()}
        self.same("all fields", fields, wanted)

    def test_other_programs(self):
        """A call with any program, or on any network, is answered or refused."""
        for name, asked in GOOD:
            others = [{"program": program} for program in (*PROGRAMS, "echo") if "program" in asked]
            others += [{"network": network} for network in NETWORKS if "network" in asked]
            for other in others:
                row = f"{name} {asked | other}"
                self.is_no_fault(row, self.outcome(name, text_of(asked | other)))

    def test_refusals(self):
        """What is said of each kind of a malformed call."""
        for name, asked, wanted in REFUSALS:
            found = self.outcome(name, text_of(asked))
            self.same(wanted, (found.kind, found.wrong), ("refusal", wanted))
        for body in (b"", b"[]", b"{", b"\xff", b"[" * 100_000):
            self.same(body[:9], self.outcome("hello", body).wrong, "a call is an object in JSON")
        twice = self.outcome("hello", b'{"a": 1, "a": 1}').wrong
        self.same("a field twice", twice, "the call has its field a twice")

    def test_a_plan_with_a_channel_below_0(self):
        """0 stands for a node without a channel; a plan with a number below it is refused."""
        for plan, kind in (([0, 1], "answer"), ([-1, 1], "refusal")):
            asked = {"network": EDGE, "name": "two", "plan": plan}
            self.same(f"{plan}", self.outcome("check", text_of(asked)).kind, kind)

    def test_left_out(self):
        """A field that a call needs is named; without another one it is answered, or refused with a reason."""
        for name, asked in GOOD:
            for field in asked:
                less = {other: value for other, value in asked.items() if other != field}
                found = self.outcome(name, text_of(less))
                row = f"{name} without {field}"
                if call_fields(CALLS[name].asked)[field].may_lack:
                    self.is_no_fault(row, found)
                else:
                    self.names_it(row, field, found)

    def test_defaults(self):
        """A field that isn't there means the same as its default, where both are answered or refused."""
        for name, asked in GOOD:
            defaults = DEFAULTS | OWN_DEFAULTS.get(name, {})
            for field in defaults.keys() & asked:
                less = {other: value for other, value in asked.items() if other != field}
                found, wanted = (
                    self.outcome(name, text_of(fields))
                    for fields in (less, less | {field: defaults[field]})
                )
                self.same(f"{name} without {field}", found, wanted)

    def test_of_another_type(self):
        """A value of another type is refused by the name of its field, and no value is a fault."""
        for name, asked in GOOD:
            for field, good in asked.items():
                types = ALSO.get(field, (type(good),))
                for value in VALUES:
                    row = f"{name} {field}={value!a}"
                    found = self.outcome(name, text_of(asked | {field: value}))
                    may_lack = value is None and call_fields(CALLS[name].asked)[field].may_lack
                    if type(value) in types or may_lack:
                        self.is_no_fault(row, found)
                    else:
                        self.names_it(row, field, found)

    def test_a_fault_of_the_studio_says_its_place(self):
        """The file and the line of the fault itself, and not of what has called it."""

        def fault():
            raise KeyError("nodes")

        line, code = fault.__code__.co_firstlineno + 1, os.path.basename(fault.__code__.co_filename)
        found = limits.outcome(lambda: fault())
        self.assertEqual(found.kind, "fault")
        self.assertIn("KeyError", found.wrong)
        self.assertIn(f"({code} line {line})", found.wrong)

    def test_twice(self):
        """A field that is there twice is named, and one whose value is doubled is no fault."""
        for name, asked in GOOD:
            for field, value in asked.items():
                text = text_of(asked)[:-1] + b", " + text_of({field: value})[1:]
                found = self.outcome(name, text)
                self.names_it(f"{name} with two {field}", field, found)
                if isinstance(value, (str, list)):
                    found = self.outcome(name, text_of(asked | {field: value * 2}))
                    self.is_no_fault(f"{name} {field} doubled", found)

    def test_processors(self):
        """A run by threads asks for as many workers as the page does, but no more than there are processors."""
        call = RunCall(network=EDGE, workers=4, capacity=2)
        for usable, wanted in ((1, 1), (3, 3), (16, 4)):
            with (
                mock.patch("os.sched_getaffinity", return_value=range(usable)),
                mock.patch.object(runs, "text_from") as called,
            ):
                runs.by_threads(call, COLOURING, Session(is_proved=True))
            arguments = called.call_args.args[1]
            self.same(
                f"{usable} processors",
                arguments,
                ["transcript", f"--workers={wanted}", "--capacity=2"],
            )

    def test_unknown(self):
        """A field that a call doesn't know is named, so that none is forgotten by a slip of the pen."""
        for name, asked in GOOD:
            for field in ("sede", "__proto__", ""):
                found = self.outcome(name, text_of(asked | {field: 1}))
                self.names_it(f"{name} with {field}", field, found)
