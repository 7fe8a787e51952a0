"""The synchroniser alpha (B. Awerbuch 1985). Under it the nodes elect the node of the greatest identifier by rounds:
the functions `greet` and `step` are those of a program by rounds.

In each round a node waits for the acknowledgements of what it has sent, says `safe` to all, and begins the next round
when all its neighbours have said so. A neighbour may be one round ahead, so what comes is kept by its round. The node's
own step is the beginning of its next round."""


def greet(me):
    me.best = me.id
    return ("leader", me.best)


def step(me, inbox):
    heard = max((number for word, number in filter(None, inbox)), default=0)
    if heard <= me.best:
        return None
    me.best = heard
    return ("leader", heard)


def start(me):
    me.round, me.last, me.said, me.closed = 0, me.nodes, False, 0
    me.inbox = {0: [None] * me.degree, 1: [None] * me.degree}
    me.safes = {0: 0, 1: 0}
    begin(me, greet(me))


def begin(me, payload):
    """It begins a round, and sends what there is to send in it; the last round only closes the links."""
    me.said, me.waits = False, 0
    if me.round == me.last:
        me.send_all("close")
        return
    if payload:
        me.waits = me.degree
        me.send_all("payload", me.round, *payload)
    settle(me)


def settle(me):
    """It says safe once nothing that it sent is without an acknowledgement."""
    if me.waits == 0:
        me.said = True
        me.send_all("safe", me.round)


def may_act(me):
    return me.round < me.last and me.said and me.safes[me.round] == me.degree


def act(me):
    inbox = me.inbox.pop(me.round)
    del me.safes[me.round]
    me.round += 1
    me.inbox[me.round + 1], me.safes[me.round + 1] = [None] * me.degree, 0
    begin(me, step(me, inbox))


def on_payload(me, port, round, word, number):
    me.inbox[round][port] = (word, number)
    me.send(port, "ack", round)


def on_ack(me, port, round):
    me.waits -= 1
    settle(me)


def on_safe(me, port, round):
    me.safes[round] += 1


def on_close(me, port):
    me.closed += 1


def result(me):
    closed = " (closed)" if me.closed == me.degree else ""
    return f"leader {me.best} in round {me.round}{closed}"


def always(results, neighbours):
    """Neighbours are at most one round apart."""
    rounds = {v: int(words.split()[4]) for v, words in results.items()}
    for v, others in neighbours.items():
        for w in others:
            if rounds[v] > rounds[w] + 1:
                return f"node {v} is in round {rounds[v]}, and {w} in round {rounds[w]}"
    return True


def right(results, neighbours):
    end = f"leader {max(results)} in round {len(results)} (closed)"
    return set(results.values()) == {end} or "not all are through, and know the leader"
