"""`forestlab network tell CODE`: what a code of a fault means, and what to do. docs/claim/FORMATS.md lists the codes,
and docs/claim/DEFINITIONS.md defines them. `import forestplan` needs it, too."""
import re
from collections.abc import Iterable
from typing import NamedTuple

from forestplan.wording import in_words

FIRST = "put the `p` line first"
LEAVE = "leave one of them"
SAME = "is the plan of this network?"
LINES = "Lines count from the first line of the input, the network's included."
CHECK = f"`forestlab transcript check NETWORK TRANSCRIPT` says which rule the entry breaks. {LINES}"
# By what is at fault: the names that the programs write, some with their numbers in the definitions, the fault in
# words, and what to do. What is in braces is the line, the node or the two nodes that the programs name.
CODES = {
    "a network": {
        "F1": (
            "there is no line `p edge NODES EDGES`",
            "begin the network with this line; if the input is empty, name "
            "the file after a `<`: `forestplan plan < FILE`",
        ),
        "F2": ("{a line} is a second `p` line", f"{LEAVE}; perhaps two networks were joined"),
        "F3": ("{a line} is an `e` line before the `p` line", FIRST),
        "F4": (
            "in {a line} a field is missing or isn't a number, or the word after `p` is another than edge, edges "
            "and col",
            "write `p edge NODES EDGES`, `e V W`, `i V NUMBER` or `b V CHANNEL`",
        ),
        "F5": (
            "in {a line} a node is 0 or above NODES",
            "nodes count from 1 to the NODES of the `p` line; "
            "`forestlab network read FILE` takes a text that counts from 0",
        ),
        "F6": (
            "{a line} joins a node to itself",
            "take the line out; `forestlab network read FILE` does",
        ),
        "F7": (
            "in {a line} NODES is above 20,000, or it names one more than 400,000 different edges",
            "take a smaller network: these are the programs' limits",
        ),
        "F8": (
            "{a line} begins with a word that begins no line of a network",
            "a comment begins with c, an event with pulse, put or take, and a network comes before them; "
            "`forestlab network read FILE` reads other forms",
        ),
        "F10": ("{a line} is an `i` or a `b` line before the `p` line", FIRST),
        "F11": ("in {a line} the identifier is 2^128 or more", "take a smaller identifier"),
        "F12": ("{a line} is a second `i` line of its node", LEAVE),
        "F13": ("in {a line} the barred channel is 0 or above 2,048", "bar another channel"),
        "F14": ("{a line} bars one more than 1,024 different channels at its node", "bar fewer"),
        "N1": (
            "{a node} has more than 1,023 neighbours",
            "take edges out; no lower node has too many",
        ),
        "N2": (
            "{two nodes} have the same identifier",
            "give one of them another by a line `i V NUMBER`; without "
            "such a line a node has its own number",
        ),
        "NoRoot": (
            "{a node}, which `--root` names, isn't in the network",
            "name a node from 1 to NODES",
        ),
    },
    "a plan": {
        "C1": ("{a node} has no line in the plan", f"add the line `V CHANNEL`; {SAME}"),
        "C2": (
            "the plan has a line of {a node}, which isn't in the network",
            f"take the line out; {SAME}",
        ),
        "C3": ("{a node} has a second line in the plan", LEAVE),
        "C4": (
            "{two nodes} are neighbours, and have the same channel",
            "give one of them another channel",
        ),
        "C5": (
            "{a node} has a channel above D + B + 1, with D as the most neighbours and B as the most barred "
            "channels of a node",
            "give it a lower channel; `forestlab channels --back` puts real channel numbers back",
        ),
        "C6": (
            "{a line} of the plan is neither `plan` nor `V CHANNEL`, or there is no plan (line 1)",
            "after the network, which ends with a line feed, put a line `plan`, from which lines count here, and "
            "then a line `V CHANNEL` for each node, channels from 1",
        ),
        "C8": (
            "{a node} has a channel that is barred at it",
            "give it another channel, or take the line `b V CHANNEL` out of the network",
        ),
    },
    "an event or an entry of a transcript": {
        "NoEvent": (
            "{a line} is no event",
            f"write `pulse V`, `put V PORT` or `take V PORT` and no more. {LINES}",
        ),
        "NotReady E1": (
            "in {a line} a node can't make its next pulse yet",
            "let come first what the words after the line name: the payloads of a pulse are acknowledged, "
            "and all neighbours say safe, before the next one",
        ),
        "NothingToPut E2": (
            "in {a line} a node has nothing to put for this neighbour",
            "let the node take or pulse first: that is what gives it wires to put. An event has a "
            "port, from 0, and an entry a neighbour",
        ),
        "LinkEmpty E3": (
            "in {a line} the link has no wire to take",
            "let the neighbour put one first; of edition 1 "
            "`forestlab transcript replay` looks for an order",
        ),
        "NoSuch E4": (
            "in {a line} there is no such node or port, or the two aren't neighbours",
            "nodes count from 1, and the ports of a node from 0, by ascending neighbour",
        ),
    },
    "a transcript": {
        "X1": (
            "{a line} isn't a line of a transcript, or there is no transcript (line 1)",
            "begin with `transcript 2 NODES`; each line after it is an entry, as `3 1 put 2 ack 0`; a payload of "
            f"another program needs its `--program`. {CHECK}",
        ),
        "WrongProgram": (
            "{a line}, the first one of the transcript, names another program",
            "give the name that is said after the line: `--program NAME`",
        ),
        "WrongWire": (
            "the event of {a line} is possible, but with another wire or pulse",
            f"write the one that the words after the line name. {CHECK}",
        ),
        "WrongStamp E7": (
            "in {a line} the stamp isn't what its node's counter gives, or the entry comes too late",
            "a put or a pulse adds one to the node's counter; a take sets it to the greater of the "
            "counter and the stamp of the put, plus one. Entries come by stamp, and then by node. "
            f"{LINES}",
        ),
        "NotWhole E8": (
            "all entries are possible, but after {the last line} a node isn't done, or a wire wasn't taken",
            f"let the run go on to its end; is the text cut? {CHECK}",
        ),
    },
    "a run": {
        "stopped": (
            "the workers had made all their looks before all nodes were done",
            "give them more with `--turns`",
        ),
        "threads": ("the system refused a thread", "take fewer `--workers`, or try again"),
    },
    "any command": {
        "memory F9 N3 C7 X2 Memory E5": (
            "memory ran out",
            "free memory, or take a smaller network",
        ),
        "stream": (
            "the input couldn't be read to its end, or the output not written",
            "nothing is wrong if the reader "
            "left early, as `| head` does; else look at the file or the disk",
        ),
    },
}
# A fault as the programs write it, maybe without its beginning.
WRITTEN = re.compile(
    r"(?:forest(?:plan|play): *)?(\w+)(?: (lines?|vertex|vertices) ([\d ]+))?(?:: *(.+))?"
)


# What the programs call a vertex is a node everywhere else.
NODES = {"vertex": "node", "vertices": "nodes"}


class Told(NamedTuple):
    """A fault: its name, its number in brackets, what it is of, what it is, what to do, and what the programs say."""

    name: str
    number: str
    of: str
    what: str
    do: str
    more: str


def told_of_text(text: str) -> Told | None:
    """What is told of a fault, as `C8`, `C8 vertex 1` or `forestplay: NotReady line 9: safe 0 of 2`; None if the words
    are no fault.

    >>> told_of_text("C3 vertex 5").what
    'node 5 has a second line in the plan'
    >>> told_of_text("C99") is None
    True
    """
    found = WRITTEN.fullmatch(text)
    if found is None:
        return None
    return told_of(found[1], fault_place(found[2] or "", (found[3] or "").split()), found[4] or "")


def fault_place(of: str, numbers: Iterable[object]) -> str:
    """Where a fault is, of what a proved program's line calls `line`, `vertex` or `vertices`: a vertex is a node here.

    >>> fault_place("vertices", (1, 2))
    'nodes 1 and 2'
    """
    return f"{NODES.get(of, of)} {in_words(numbers)}" if of else ""


def told_of(code: str, at: str = "", more: str = "") -> Told | None:
    """What is told of a code, of the fault at a line, a node or two; None if there is no such code.

    >>> told_of("C3", "node 5").what
    'node 5 has a second line in the plan'
    """
    for of, codes in CODES.items():
        for names, (what, do) in codes.items():
            if code in names.split():
                name, *numbers = names.split()
                number = f" ({', '.join(numbers)})" if numbers else ""
                meaning = re.sub("{(.*?)}", lambda to: at or to[1], what)
                return Told(name, number, of, meaning, do, more)
    return None


def tell_code(told: Told) -> list[str]:
    """What a fault means, and what to do, a line each.

    >>> print(*tell_code(told_of_text("C3")), sep="\\n")
    C3, a fault of a plan: a node has a second line in the plan
    what to do: leave one of them
    """
    here = [f"here: {told.more}"] if told.more else []
    return [
        f"{told.name}{told.number}, a fault of {told.of}: {told.what}",
        *here,
        f"what to do: {told.do}",
    ]
