"""The rules of the four wires in words: why an entry isn't possible where it is. The workshop and `transcript check`
say the same; they differ in how they name a link, by the port or by the neighbour."""
from dataclasses import dataclass

from forestplan.wording import in_words

# So many nodes are named that a run which is stuck waits for.
MOST_OWING = 3


@dataclass
class Standing:
    """Where a node is before an entry: its pulse, and its last one; `can_pulse`, whether it can make its next
    pulse, and otherwise the neighbours for whose acknowledgements and whose safes it waits; `puts`, the wire that it
    has to put now, by link; `link`, how a link is named, as `by port {}`."""

    pulse: int
    last: int
    can_pulse: bool
    acks: list[int]
    safes: list[int]
    puts: dict[int, str]
    link: str

    @property
    def lacks(self) -> str:
        """What it waits for, as `ack 0 of 2; safe 0 of 2 and 3`."""
        return "; ".join(filter(None, [self.lacked("ack", self.acks), self.lacked_safes()]))

    def lacked_safes(self) -> str:
        return self.lacked("safe", self.safes)

    def lacked(self, wire: str, links: list[int]) -> str:
        return f"{wire} {self.pulse} {self.whose(links)}" if links else ""

    def whose(self, links: list[int], word: str = "of") -> str:
        """Those from whom wires are to come."""
        return f"{word} {in_words(links)}"

    def dues(self) -> list[str]:
        """What it can do."""
        puts = [f"put {link} {wire}" for link, wire in self.puts.items()]
        return puts + ([f"pulse {self.pulse + 1}"] if self.can_pulse else [])

    def undone(self) -> str:
        """The same, of a node that doesn't do it."""
        return " or ".join(due if due.startswith("put") else f"make {due}" for due in self.dues())

    def why_not_safe(self) -> str:
        """Why it can't have said safe yet; nothing if no acknowledgement is missing."""
        if not self.acks:
            return ""
        lacked = "acknowledgements" if len(self.acks) > 1 else "acknowledgement"
        whose = self.whose(self.acks, "from")
        return f"it can't have said safe yet: it lacks the {lacked} of pulse {self.pulse} {whose}"

    def named(self, wire: str, link: int) -> str:
        return f"{wire} {self.link.format(link)}"

    def why_payload(self, link: int) -> str:
        """Why a payload is due there, or none."""
        right = self.puts.get(link, "")
        due = right if right.startswith("payload") else "no payload"
        return f"the rounds have {due} there"

    def owes(self, payloads: str) -> str:
        return f"in pulse {self.pulse} it has to send {payloads} first"


PULSE = "a node makes its next pulse once it has said safe and has the safes of all its neighbours"
SAFE = (
    "safe P is said once in each pulse P but the last, to each neighbour, once each payload that it sent in P is "
    "acknowledged"
)
# Of a wire that is due: when it is put.
DUE = {
    "ack": "a payload is acknowledged with its own pulse as soon as it is taken",
    "safe": "safe P is said as soon as all payloads of P are acknowledged, and at once if none was sent",
    "close": "close is put on each link as the node makes its last pulse",
}


def rules_of_dues(at: Standing) -> str:
    """Why it has to do what it can do."""
    rules = [DUE.get(wire.split(" ")[0]) or at.why_payload(link) for link, wire in at.puts.items()]
    if at.can_pulse:
        rules.append(f"{PULSE}, and this node has")
    return "; ".join(dict.fromkeys(rules))


def rule_of(at: Standing, entry: str, says_lacks: bool = True) -> str:
    """The rule that an entry breaks: `pulse P`, or `put LINK WIRE`; and what a pulse lacks, if that wasn't said yet."""
    what, first, *wire = entry.split()
    if what != "pulse":
        return rule_of_put(at, int(first), wire)
    if at.can_pulse:
        return f"pulses are made one by one, and its next is {at.pulse + 1}"
    if at.pulse == at.last:
        return f"pulse {at.last} is the last"
    if not at.lacks:
        return f"{PULSE}; it has too many wires that it hasn't put yet"
    said = [PULSE]
    if at.acks:
        said.append(at.why_not_safe())
    if says_lacks and at.safes:
        said.append(f"it lacks {at.lacked_safes()}")
    return "; ".join(said)


def rule_of_put(at: Standing, link: int, wire: list[str]) -> str:
    """Of a wire that isn't the one that is due on its link."""
    kind = wire[0]
    right = at.puts.get(link, "")
    due = right.split(" ")[0]
    if due == "ack":
        return f"{DUE['ack']}, before anything else is put on that link"
    if kind == "payload" and int(wire[1]) == at.pulse:
        return at.why_payload(link)
    if kind == "payload":
        return f"the node is at pulse {at.pulse}, and a payload of pulse P is put after pulse P is made"
    if due == "payload":
        return at.owes(at.named(right, link))
    if kind == "ack" and due == "safe":
        return f"this link has to get {right} before: {DUE['safe']}"
    if kind == "ack":
        return "each payload is acknowledged once, with the payload's own pulse"
    if kind == "close":
        return (
            "close is put once on each link"
            if at.pulse == at.last
            else f"close is the last wire of a link, put as the node makes its last pulse, {at.last}; it is at pulse "
            f"{at.pulse}"
        )
    return rule_of_safe(at, link, wire)


def rule_of_safe(at: Standing, link: int, wire: list[str]) -> str:
    if int(wire[1]) != at.pulse:
        return f"the node is at pulse {at.pulse}, and safe P is said in pulse P"
    if at.acks:
        return f"{SAFE}; {at.why_not_safe()}"
    if at.pulse == at.last:
        return f"{SAFE}; its pulse, {at.pulse}, is the last"
    return f"{SAFE}; it has put {at.named(' '.join(wire), link)} already"


def stuck_words(owing: list[tuple[int, Standing]]) -> str:
    """Of a run in which no wire is on its way: who could do something, and doesn't."""
    sentences = [
        f"node {v} at pulse {at.pulse} doesn't {at.undone()}" for v, at in owing if at.dues()
    ]
    more = "; .." if len(sentences) > MOST_OWING else ""
    return "nothing is on its way, and not all is done: " + "; ".join(sentences[:MOST_OWING]) + more
