"""The number of nodes of a tree, by a wave from the leaves (convergecast) and one back.

A node that has heard of all its neighbours but one sends that one the number of nodes on its own side. A node that has
heard of all knows the whole number, and sends it to the neighbours whose numbers came; so does each node that hears it.
In a network with a circle nobody on it learns a number."""


def last_pulse(nodes, greatest_degree):
    return 2 * nodes


def greet(me):
    me.heard, me.total, me.asked = {}, None, None
    return sends(me)


def step(me, pulse, inbox):
    for port, payload in enumerate(inbox):
        if payload and payload[0] == "count":
            me.heard[port] = payload[1]
        elif payload and me.total is None:
            me.total = payload[1]
            return [("total", me.total) if p in me.heard else None for p in range(me.degree)]
    return sends(me) if me.total is None else None


def sends(me):
    """What a node sends that has heard some of the counts."""
    missing = [port for port in range(me.degree) if port not in me.heard]
    count = 1 + sum(me.heard.values())
    if not missing:
        me.total = count
        return [("total", count) if port != me.asked else None for port in range(me.degree)]
    if len(missing) == 1 and me.asked is None:
        me.asked = missing[0]
        return [("count", count) if port == me.asked else None for port in range(me.degree)]
    return None


def result(me):
    return "nodes unknown" if me.total is None else f"nodes {me.total}"
