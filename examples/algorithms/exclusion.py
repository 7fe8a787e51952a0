"""Mutual exclusion of nodes that are all neighbours (G. Ricart and A. K. Agrawala 1981): one node at a time is inside a
critical section, and each node that wants to enter does so in the end.

Each node enters once, when it likes. It asks all others, with its Lamport time. A node that isn't asking, or that asked
later, answers at once; the others answer once they have left. Of two equal times that of the lesser identifier is
earlier. A node enters when all have answered."""


def start(me):
    me.state, me.time, me.asked, me.answers, me.later = "idle", 0, None, 0, []
    me.visits = 0


def may_act(me):
    return me.state in ("idle", "inside")


def act(me):
    if me.state == "idle":
        me.state, me.time = "asks", me.time + 1
        me.asked = (me.time, me.id)
        me.send_all("ask", me.time, me.id)
        enter(me)
    else:
        me.state = "done"
        for port in me.later:
            me.send(port, "yes")
        me.later = []


def on_ask(me, port, time, id):
    me.time = max(me.time, time)
    if me.state == "inside" or me.state == "asks" and me.asked < (time, id):
        me.later.append(port)
    else:
        me.send(port, "yes")


def on_yes(me, port):
    me.answers += 1
    enter(me)


def enter(me):
    if me.answers == me.degree:
        me.state = "inside"
        me.visits += 1


def result(me):
    return f"done (visits {me.visits})" if me.state == "done" else me.state


def always(results, neighbours):
    inside = [v for v, words in results.items() if words == "inside"]
    return len(inside) < 2 or f"the nodes {inside} are inside"


def right(results, neighbours):
    return set(results.values()) == {"done (visits 1)"} or "not all have been inside"
