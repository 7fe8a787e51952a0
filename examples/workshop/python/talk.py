"""How a node talks with the workshop: messages and answers are lines, each up to a line `end` (edition 1)."""
import sys


def messages():
    """(slot, lines) of each message. The slot is None; with --one-process it says which node is meant."""
    lines = []
    for line in sys.stdin:
        if line.strip() != "end":
            lines.append(line.split())
            continue
        slot = lines.pop(0)[1] if lines[0][0] == "to" else None
        yield slot, lines
        lines = []


def answer(lines):
    sys.stdout.write("".join(line + "\n" for line in [*lines, "end"]))
    sys.stdout.flush()  # without it the answer waits in a buffer, and the workshop waits for the answer


def own_data(lines):
    """What a node knows of itself, by word; `barred` is the set of the channels that are barred to it."""
    assert lines[0][:2] == ["workshop", "1"], "another edition of the protocol"
    own = {words[0]: int(words[1]) for words in lines[1:]}
    own["barred"] = {
        int(channel) for words in lines if words[0] == "barred" for channel in words[2:]
    }
    return own


def serve(make):
    """Makes a node at the first message, and has it react to each later one. The words of the command go to it."""
    nodes = {}
    for slot, lines in messages():
        if lines[0][0] == "workshop":
            nodes[slot] = make(own_data(lines), *sys.argv[1:])
            answer(nodes[slot].start())
        else:
            answer(nodes[slot].react(lines))
