"""The distance of each node from node 1, and node 1 knows when all of them are final (E. W. Dijkstra and C. S.
Scholten 1980, termination detection for diffusing computations).

A node that hears of a shorter way tells all its neighbours. Each message `hops` is answered by an `ok`: at once, but
for the message that woke the node up. That one is answered when all messages that the node has sent are answered. So if
node 1 has all its answers, no message is under way any more."""


def start(me):
    me.layer, me.owes, me.unanswered, me.ended = None, None, 0, False
    if me.id == 1:
        me.layer = 0
        tell(me)
        settle(me)


def tell(me):
    me.unanswered += me.degree
    me.send_all("hops", me.layer + 1)


def on_hops(me, port, layer):
    is_awake = me.unanswered > 0 or me.id == 1
    if me.layer is None or layer < me.layer:
        me.layer = layer
        tell(me)
    if is_awake:
        me.send(port, "ok")
    else:
        me.owes = port
        settle(me)


def on_ok(me, port):
    me.unanswered -= 1
    settle(me)


def settle(me):
    """With all its messages answered, it answers the one that woke it up."""
    if me.unanswered > 0:
        return
    if me.id == 1:
        me.ended = True
    elif me.owes is not None:
        me.send(me.owes, "ok")
        me.owes = None


def result(me):
    return f"layer {me.layer}" + (" (ended)" if me.ended else "")


def distances(neighbours):
    layers, work = {1: 0}, [1]
    for v in work:
        for w in neighbours[v]:
            if w not in layers:
                layers[w] = layers[v] + 1
                work.append(w)
    return layers


def always(results, neighbours, messages):
    if not results[1].endswith("(ended)"):
        return True
    if messages:
        return "node 1 says that it has ended, and messages are under way"
    return right(results, neighbours)


def right(results, neighbours):
    if not results[1].endswith("(ended)"):
        return "node 1 doesn't know that it has ended"
    for v, layer in distances(neighbours).items():
        if results[v].removesuffix(" (ended)") != f"layer {layer}":
            return f"{v} has {results[v]}, and is in layer {layer}"
    return True
