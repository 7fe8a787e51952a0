"""How many schedules a space has, and how long they are; and whether some never end. The states may form circles, and
schedules of one space may have different lengths."""
from array import array
from collections.abc import Sequence
from dataclasses import dataclass

from forestplan.definitions.events import TAKE
from forestplan.schedules.space import AnySearched, Space

Span = tuple[int, int]
NOT_YET = 2**32 - 1


@dataclass(frozen=True)
class Extent:
    """How many `schedules` there are, and how many `messages` each of them has and how many steps of their own its
    nodes make in it (`acts`), at least and at most.

    >>> Extent(schedules=2, messages=(3, 3), acts=(0, 1)).messages
    (3, 3)
    """

    schedules: int
    messages: Span
    acts: Span


class Bounds:
    """How much there is of something in a list of events, by the state to which the list leads: at least, and at
    most."""

    def __init__(self, count: int) -> None:
        self.least = array("I", [NOT_YET]) * count
        self.most = array("I", bytes(4 * count))
        self.least[0] = 0

    def reach(self, t: int, s: int, more: int) -> None:
        """A step leads from one state to another, with so much more."""
        self.least[t] = min(self.least[t], self.least[s] + more)
        self.most[t] = max(self.most[t], self.most[s] + more)

    def over(self, ends: Sequence[int]) -> Span:
        """The least and the most at these states."""
        return min(self.least[s] for s in ends), max(self.most[s] for s in ends)


def extent_of(space: Space[AnySearched]) -> Extent | None:
    """The extent of a `space` without a fault, whose search is over; None if some schedules never end.

    >>> from forestplan.definitions.leader import LEADER
    >>> from forestplan.network import Network
    >>> from forestplan.schedules.alpha_space import AlphaSpace
    >>> extent_of(AlphaSpace(Network(2, [(1, 2)]), program=LEADER).search()).acts
    (4, 4)
    """
    ways = [0] * space.count
    done = 0
    ways[0] = 1
    left = array("I", bytes(4 * space.count))
    for t in space.target:
        left[t] += 1
    takes = Bounds(space.count)
    acts = Bounds(space.count)
    work = [] if left[0] else [0]
    while work:
        s = work.pop()
        done += 1
        for k in range(space.first[s], space.first[s + 1]):
            t = space.target[k]
            is_take = space.events[space.event_of[k]].kind is TAKE
            ways[t] += ways[s]
            takes.reach(t, s, is_take)
            acts.reach(t, s, not is_take)
            left[t] -= 1
            if not left[t]:
                work.append(t)
    if done < space.count:
        return None
    found = sum(ways[s] for s in space.ends)
    return Extent(found, takes.over(space.ends), acts.over(space.ends))


def endless(space: Space[AnySearched]) -> list[int]:
    """The states of a space without a fault from which no end can be reached."""
    before = array("I", bytes(4 * (space.count + 1)))
    for t in space.target:
        before[t + 1] += 1
    for t in range(space.count):
        before[t + 1] += before[t]
    # The states from which a step leads to t are sources[before[t]] to sources[before[t + 1] - 1].
    sources = array("I", bytes(4 * len(space.target)))
    place = before[:]
    for s in range(space.count):
        for t in space.target[space.first[s] : space.first[s + 1]]:
            sources[place[t]] = s
            place[t] += 1
    reached = bytearray(space.count)
    work = list(space.ends)
    for s in work:
        reached[s] = 1
    while work:
        t = work.pop()
        for s in sources[before[t] : before[t + 1]]:
            if not reached[s]:
                reached[s] = 1
                work.append(s)
    return [s for s in range(space.count) if not reached[s]]
