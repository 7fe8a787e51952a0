"""Tests of `forestlab transcript convert`, by hand."""
import json

from tests.cases import Case, said_by, text

# Node 1 greets 2, which greets 3; 1 makes a pulse, and 3 takes: it comes after all of these but the pulse.
RUN = (
    "transcript 3 layers 3|1 1 put 2 payload 0 hops 7|2 1 pulse 1|2 2 take 1 payload 0 hops 7|"
    "3 2 put 3 ack 0|4 3 take 2 ack 0|"
)
JSON = (
    {"edition": 3, "nodes": 3, "program": "layers"},
    {"line": 2, "stamp": 1, "node": 1, "kind": "put", "neighbour": 2, "wire": "payload", "pulse": 0}
    | {"word": "hops", "number": 7},
    {"line": 3, "stamp": 2, "node": 1, "kind": "pulse", "pulse": 1},
    {"line": 4, "stamp": 2, "node": 2, "kind": "take", "neighbour": 1, "wire": "payload"}
    | {"pulse": 0, "word": "hops", "number": 7, "put": 2},
    {"line": 5, "stamp": 3, "node": 2, "kind": "put", "neighbour": 3, "wire": "ack", "pulse": 0},
    {"line": 6, "stamp": 4, "node": 3, "kind": "take", "neighbour": 2, "wire": "ack", "pulse": 0}
    | {"put": 5},
)
# An entry's vector clock, and what it did.
SHIVIZ = """\
node1 {"node1": 1}
put payload 0 hops 7 to 2
node1 {"node1": 2}
pulse 1
node2 {"node1": 1, "node2": 1}
take payload 0 hops 7 from 1
node2 {"node1": 1, "node2": 2}
put ack 0 to 3
node3 {"node1": 1, "node2": 2, "node3": 1}
take ack 0 from 2
"""


def call(*arguments, data=""):
    return said_by("transcript", "convert", *arguments, data=text(data))


class Forms(Case):
    def test_worked(self):
        status, said, fault = call("json", data=RUN)
        rows = [*map(json.loads, said.splitlines())]
        self.same("json", (status, rows, fault), (0, [*JSON], ""))
        self.same("shiviz", call("shiviz", data=RUN), (0, SHIVIZ, ""))

    def test_refusals(self):
        for arguments, data, wanted, end in (
            (["json", "nowhere"], "", 1, "transcript: nowhere: No such file or directory\n"),
            (["json"], "transcript 1 2|", 1, "edition 1 has no order of all entries"),
            (["shiviz"], RUN.replace("put", "take"), 1, "LinkEmpty"),
            (["json"], "plan|1 1|", 1, "X1"),
            (["xml"], RUN, 2, "invalid choice"),
        ):
            self.refusal(f"{arguments}", call(*arguments, data=data), wanted, end)

    def test_long_row(self):
        """A message that goes along a row of n nodes has clocks of 1, 2, 2, 3, 3, .. n entries: n*n in all."""
        nodes = 2_300
        lines = [f"transcript 2 {nodes}"]
        for v in range(1, nodes):
            lines += [f"{2 * v - 1} {v} put {v + 1} ack 0", f"{2 * v} {v + 1} take {v} ack 0"]
        run = "\n".join(lines) + "\n"
        done = said_by("transcript", "convert", "shiviz", data=run.encode())
        said = "the vector clocks of this run have more than 5,000,000 entries"
        self.refusal("a row", done, 1, said)
