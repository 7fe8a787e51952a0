"""The leader of a ring is the node with the greatest identifier (E. Chang and R. Roberts 1979).

Each node sends its identifier one way round the ring. A node that gets a greater one than its own passes it on, and a
smaller one it drops. A node whose own identifier comes back is the leader, and sends that round the ring. A ring has no
left and right here: what comes by one port leaves by the other, so two messages of one node may meet."""


def start(me):
    me.leader = None
    me.send(0, "elect", me.id)


def on_elect(me, port, id):
    if id > me.id:
        me.send(1 - port, "elect", id)
    elif id == me.id:
        me.leader = id
        me.send(1 - port, "leader", id)


def on_leader(me, port, id):
    if me.leader is None:
        me.leader = id
        me.send(1 - port, "leader", id)


def result(me):
    return f"leader {me.leader}"


def right(results, neighbours):
    return set(results.values()) == {f"leader {max(results)}"} or "not all know the leader"


def always(results, neighbours):
    named = set(results.values()) - {"leader None"}
    return named <= {f"leader {max(results)}"} or f"there are the leaders {sorted(named)}"
