"""The leader of a ring with few messages (D. S. Hirschberg and J. B. Sinclair 1980): the node with the greatest
identifier.

In phase 0, 1, 2, .. a node that may still be the leader sends its identifier both ways, as far as 1, 2, 4, .. nodes. A
node on the way drops a smaller identifier than its own. The last node on the way sends an answer back. With both
answers the next phase begins. A node whose own identifier has gone all round is the leader, and sends that round the
ring."""


def start(me):
    me.leader, me.phase, me.answers = None, 0, 0
    probe(me)


def probe(me):
    me.answers = 0
    me.send_all("probe", me.id, 2**me.phase)


def on_probe(me, port, id, steps):
    if id == me.id:
        announce(me, port, id)
    elif id > me.id and steps > 1:
        me.send(1 - port, "probe", id, steps - 1)
    elif id > me.id:
        me.send(port, "answer", id)


def on_answer(me, port, id):
    if id != me.id:
        me.send(1 - port, "answer", id)
        return
    me.answers += 1
    if me.answers == 2:
        me.phase += 1
        probe(me)


def on_leader(me, port, id):
    announce(me, port, id)


def announce(me, port, id):
    if me.leader is None:
        me.leader = id
        me.send(1 - port, "leader", id)


def result(me):
    return f"leader {me.leader}"


def right(results, neighbours):
    return set(results.values()) == {f"leader {max(results)}"} or "not all know the leader"


def always(results, neighbours):
    named = set(results.values()) - {"leader None"}
    return named <= {f"leader {max(results)}"} or f"there are the leaders {sorted(named)}"
