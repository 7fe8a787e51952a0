"""A wave and its echo (E. J. H. Chang 1982): node 1 learns how many nodes there are, and each other node gets a parent.

Node 1 sends a wave to all its neighbours. A node that hears the wave for the first time takes the sender as its parent,
and passes the wave on to all others. Each node waits until it has heard from all its neighbours. Then it sends its
parent how many nodes it counts, itself and those below it. Each edge carries two messages, in whatever order they come.
"""


def start(me):
    me.parent, me.waits, me.count = None, me.degree, 1
    if me.id == 1:
        me.send_all("wave")


def on_wave(me, port):
    if me.parent is None and me.id != 1:
        me.parent = port
        me.send_all("wave", but=port)
    heard(me, 0)


def on_echo(me, port, count):
    heard(me, count)


def heard(me, count):
    """It has heard from one neighbour more, which counts so many nodes."""
    me.waits -= 1
    me.count += count
    if me.waits == 0 and me.id != 1:
        me.send(me.parent, "echo", me.count)


def result(me):
    return f"counts {me.count}" + ("" if me.waits == 0 else " so far")


def right(results, neighbours):
    return results[1] == f"counts {len(results)}" or f"node 1 {results[1]}"


def always(results, neighbours):
    if results[1].endswith("so far"):
        return True
    return right(results, neighbours)
