"""Which inboxes the colouring refuses, as `explore --without` and the studio need it: by the tables of
docs/claim/DEFINITIONS.md ("The 96 cells" and "Refusals of the colouring"), which stand here as they stand there."""
import copy

from forestplan.definitions.nodes import COLOURING, Colouring
from forestplan.definitions.program import Payload, Slot, synchronous_pulses
from forestplan.networks.network_text import network_in_bytes
from forestplan.schedules.ruled_node import inbox_refused
from tests.cases import Case, text

# Node 2 has node 1 as a child, node 3 as its parent, and nothing else: U is 1, and Δ + B is 2.
ROW = network_in_bytes(text("p edge 3 2|e 1 2|e 2 3|"))
CHILD, PARENT = 0, 1
LAST = 12 + 3 * 1 * 3
# A number for each word that nobody refuses for itself.
WORDS = {"hello": 9, "label": 0, "colour": 0, "chosen": 0}
# The word that is due in a phase, from ports of which roles, and from which of them it may not be missing.
DUE: dict[str, tuple[str, set[str], set[str]]] = {
    "Orient": ("hello", {"Unknown"}, {"Unknown"}),
    "Seed": ("label", {"Unknown"}, {"Unknown"}),
    "Step": ("colour", {"Up"}, {"Up"}),
    "Merge": ("chosen", {"Up", "Down"}, set()),
}
# The greatest colour of the parent: of the bit steps by pulse, and of a shift and a drop the class that is dropped.
GREATEST = {4: 255, 5: 15, 6: 7, 7: 5, 8: 5, 9: 4, 10: 4, 11: 3, 12: 3}
FIRST_MERGE = 13


def phase_of(pulse: int) -> str:
    return {1: "Orient", 2: "Seed"}.get(pulse, "Step" if pulse <= 12 else "Merge")


def role_of(pulse: int, port: int) -> str:
    """The role of a port before a pulse's work."""
    if pulse == 1 or pulse == 2 and port == CHILD:
        return "Unknown"
    return "Up" if port == PARENT else "Down"


def before_each() -> dict[int, tuple[Colouring, list[Slot]]]:
    """Node 2 before each pulse of the synchronous run, with what it reads in it."""
    node, found = Colouring(ROW, 2), {}
    for pulse, _, inboxes, _ in synchronous_pulses(ROW, COLOURING):
        if pulse > 0:
            found[pulse] = copy.deepcopy(node), inboxes[2]
            node.next(pulse, inboxes[2])
    return found


class RefusedInboxes(Case):
    def setUp(self) -> None:
        super().setUp()
        self.before = before_each()

    def refuses(self, pulse: int, port: int, slot: Slot) -> bool:
        """Whether node 2 refuses that it reads this by a port, and the rest as it is."""
        node, inbox = self.before[pulse]
        return inbox_refused(node, pulse, [*inbox[:port], slot, *inbox[port + 1 :]])

    def test_rounds(self):
        self.assertEqual([*self.before], [*range(1, LAST + 1)])
        found = [
            pulse
            for pulse, (node, slots) in self.before.items()
            if inbox_refused(node, pulse, slots)
        ]
        self.assertEqual(found, [])

    def test_cells(self):
        for pulse, (_, inbox) in self.before.items():
            due, roles, _ = DUE[phase_of(pulse)]
            # In the first pulse of a merge nothing may come.
            is_open = pulse != FIRST_MERGE
            for port, slot in enumerate(inbox):
                wanted = [due] if role_of(pulse, port) in roles and is_open else []
                values = WORDS | ({slot.word: slot.number} if slot else {})
                found = [
                    word
                    for word in WORDS
                    if not self.refuses(pulse, port, Payload(word, values[word]))
                ]
                self.same(f"pulse {pulse}: what may come by port {port}", found, wanted)

    def test_missing(self):
        for pulse in self.before:
            _, _, roles = DUE[phase_of(pulse)]
            for port in (CHILD, PARENT):
                is_missing = role_of(pulse, port) in roles
                found = self.refuses(pulse, port, None)
                self.same(f"pulse {pulse}: nothing comes by port {port}", found, is_missing)

    def test_identifiers(self):
        for number, is_refused in ((1, True), (2, True), (4, False), (0, False)):
            found = self.refuses(1, PARENT, Payload("hello", number))
            self.same(f"{number} comes to node 2 beside 1", found, is_refused)
        node, _ = self.before[1]
        higher = inbox_refused(node, 1, [Payload("hello", 3), Payload("hello", 4)])
        self.assertTrue(higher, "two identifiers are higher than its own, and there is one forest")

    def test_labels(self):
        found = [
            forest for forest in range(3) if not self.refuses(2, CHILD, Payload("label", forest))
        ]
        self.assertEqual(found, [0])

    def test_colours(self):
        for pulse, greatest in GREATEST.items():
            own = self.before[pulse][0].colours[0]
            wanted = [colour for colour in range(greatest + 1) if colour != own]
            colours = [*range(greatest + 3), 2**64, 2**128 - 1]
            found = [
                colour
                for colour in colours
                if not self.refuses(pulse, PARENT, Payload("colour", colour))
            ]
            self.same(f"pulse {pulse}: colours of the parent", found, wanted)
        found = [
            colour
            for colour in (1, 2, 3, 2**127)
            if self.refuses(3, PARENT, Payload("colour", colour))
        ]
        self.same("pulse 3: its own identifier", found, [2])

    def test_own_colours(self):
        """Of a shift and a drop a node refuses its own colour, too, if no such colour can be left."""
        for pulse in range(3, 13):
            node, inbox = copy.deepcopy(self.before[pulse])
            # Its parent's colour is another one, and there can be such a one.
            slots = [None, Payload("colour", 0)]
            node.colours = [GREATEST.get(pulse, 255) + 1]
            found = inbox_refused(node, pulse, slots)
            self.same(f"pulse {pulse}: a colour of its own that is too great", found, pulse >= 7)

    def test_choices(self):
        """Of Δ + B = 2 the choices are 0 to 2; and whose turn it is needs one that is free."""
        for pulse in range(FIRST_MERGE + 1, LAST + 1):
            found = [c for c in range(5) if not self.refuses(pulse, CHILD, Payload("chosen", c))]
            self.same(f"pulse {pulse}: choices", found, [0, 1, 2])
        for step in range(1, LAST + 1 - FIRST_MERGE):
            pulse = FIRST_MERGE + step
            node, _ = copy.deepcopy(self.before[pulse])
            has_turn = (node.colours[0], node.old) == divmod(step, 3)
            node.chosen = {0}
            slots: list[Slot] = [Payload("chosen", 1), Payload("chosen", 2)]
            self.same(f"pulse {pulse}: none is free", inbox_refused(node, pulse, slots), has_turn)
            node.chosen = set()
            self.same(f"pulse {pulse}: 0 is free", inbox_refused(node, pulse, slots), False)
            node.barred = frozenset({0})
            self.same(f"pulse {pulse}: 0 is barred", inbox_refused(node, pulse, slots), has_turn)
