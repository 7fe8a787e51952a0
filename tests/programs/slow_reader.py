"""What `forests` and `check` answer to any bytes, by the readers of src/forestplan/, which are compared with the
programs so, and by the definitions. An answer is (status, standard output, standard error)."""
import re

from forestplan.definitions.colours import forests_text
from forestplan.faults import Fault
from forestplan.networks.network_text import read_network
from forestplan.networks.plan_text import clashes, read_plan
from tests.cases import found_in

# Only a line feed ends a line, only spaces and tabs separate fields, and one carriage return at the end of a line is no
# part of it.
PLAN_LINE = re.compile(rb"^[ \t]*plan(?=[ \t]|\r?$)", re.M)


class Refusal(Exception):
    """A fault of the input, in the words that the program prints after its name."""


def answer_to(command, data):
    try:
        return 0, ANSWERS[command](data), b""
    except Refusal as fault:
        return 1, b"", f"forestplan: {fault}\n".encode()


def read_by(reader, data, *more):
    """What a reader makes of a text; its fault as the programs print it, without the words."""
    try:
        return reader(data.decode("utf-8", "replace"), "it", *more)
    except Fault as why:
        said = found_in(r"^it(?: line (\d+))?: (.*) \((\w+)\)", str(why))
        line, text, code = said.groups()
    nodes = re.match(r"(nodes?) (\d+)(?: and (\d+))?", text)
    if nodes and code[0] in "CN":
        word = "vertex" if nodes[1] == "node" else "vertices"
        raise Refusal(" ".join(filter(None, (code, word, *nodes.groups()[1:]))))
    raise Refusal(f"{code} line {line}" if line else code)


def forests(data):
    return forests_text(read_by(read_network, data))


def check(data):
    plan_line = PLAN_LINE.search(data)
    begin = plan_line.start() if plan_line else len(data)
    network = read_by(read_network, data[:begin])
    plan = read_by(read_plan, data[begin:], network)
    for edge in clashes(network, plan):
        raise Refusal("C4 vertices %d %d" % edge)
    return f"proper {max(plan.values(), default=0)}\n".encode()


ANSWERS = {"forests": forests, "check": check}
