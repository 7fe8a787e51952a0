"""A snapshot of a bank (K. M. Chandy and L. Lamport 1985). Each node has 10 coins and pays 3 of them to a neighbour,
when it likes. A snapshot notes the coins of each node and those under way on each link: together these are all coins.

Node 1 begins the snapshot, when it likes. A node notes its coins and sends a marker by each port, before anything else
that it sends there. From then on it notes the coins that come by a port, until the marker comes there."""

COINS, PAID = 10, 3


def start(me):
    me.coins, me.has_paid = COINS, False
    me.noted, me.open = None, set()


def may_act(me):
    return not me.has_paid or me.id == 1 and me.noted is None


def act(me):
    if me.has_paid:
        note(me)
    else:
        me.has_paid = True
        me.coins -= PAID
        me.send(0, "coins", PAID)


def note(me):
    me.noted, me.open = me.coins, set(range(me.degree))
    me.send_all("marker")


def on_coins(me, port, number):
    me.coins += number
    if port in me.open:
        me.noted += number


def on_marker(me, port):
    if me.noted is None:
        note(me)
    me.open.discard(port)


def result(me):
    return f"noted {me.noted}" + (" so far" if me.open else "")


def always(results, neighbours):
    if any(words == "noted None" or words.endswith("so far") for words in results.values()):
        return True
    return right(results, neighbours)


def right(results, neighbours):
    noted = [words.split()[1] for words in results.values()]
    if "None" in noted:
        return "a node has no snapshot"
    total = sum(map(int, noted))
    return total == COINS * len(results) or f"{total} coins are noted of {COINS * len(results)}"
