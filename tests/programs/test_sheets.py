"""Tests of `forestlab sheet`.

Each sheet's network is read from its answers, and each answer worked out once more here. A sheet has its colours from
nodes that hear and send (src/forestplan/definitions/nodes.py), and its shifts and drops from lists of colours
(colours.py beside it); so what is expected of the first is made by lists, and of the second by the rules as they stand
here."""
import re

from forestplan.definitions.colours import bit, drop, first_colours, merge, shift
from forestplan.networks.network_text import network_in_bytes
from tests.cases import Case, found_in, said_by
from tests.programs.test_plain_networks import payloads_of, reached


def sheet(*arguments):
    return said_by("sheet", *arguments)


def rows_of(section):
    """The cells of the rows of all tables, but for those of the nodes' numbers."""
    rows = re.findall(r"<tr><th>(.*?)</th>(.*?)</tr>", section)
    return [
        [re.sub(r"<.*?>", "", cell) for cell in re.findall(r"<td>(.*?)</td>", cells)]
        for name, cells in rows
        if name != "node"
    ]


# The nodes of questions: a child and its parent, and a node that chooses.
ASKED = r"the colours of node (\d+) .*?its parent (\d+) .*?does node (\d+) choose in the merge of forest 1"


def ends_of(section):
    """The ends of the edge that is still."""
    return map(int, found_in(r"over the edge (\d)–(\d)", section).groups())


def colours_of(net, f: int) -> list[dict]:
    """The colours in a forest after each of the pulses 2 to 12: the identifiers, four bit steps, and three times a
    shift and a drop."""
    found = [net.identifiers]
    for _ in range(4):
        found.append(bit(net, f, found[-1]))
    for x in (5, 4, 3):
        before = found[-1]
        found.append(shift(net, f, before))
        found.append(drop(x, net, f, found[-1], before))
    return found


def merged_of(net) -> list[dict]:
    """The channels less one before the first merge, and after each."""
    found = [first_colours(net)]
    for f in range(net.forest_count):
        found.append(merge(net, f, found[-1]))
    return found


def least_but(*taken: int | None) -> int:
    return next(colour for colour in (0, 1, 2) if colour not in taken)


def shifted_and_dropped(x: int, parents: dict, before: dict) -> tuple[dict, dict]:
    """What a shift and then a drop of x make of colours in a forest."""
    shifted = {v: before[w] if w else least_but(before[v]) for v, w in parents.items()}
    dropped = {
        v: least_but(before[v], shifted.get(parents[v])) if colour == x else colour
        for v, colour in shifted.items()
    }
    return shifted, dropped


class Sheets(Case):
    def check(self, name, section):
        net = network_in_bytes(found_in(r"<pre>(.*?)</pre>", section, re.S)[1].encode())
        sizes = (len(reached(net, 1)), len(net.edges), net.greatest_degree, net.forest_count)
        self.same(f"{name}: its network", sizes, (8, 9, 3, 2))
        tables = rows_of(section)
        self.line_rows(name, net, section, tables[0])
        # A parent is a higher neighbour, in forest 0 the lowest.
        higher = {v: sorted(w for w in net.neighbours[v] if w > v) for v in net.node_numbers}
        for f, row in enumerate(tables[1:3]):
            parents = [str((higher[v] + ["-", "-"])[f]) for v in net.node_numbers]
            self.same(f"{name}: parents in forest {f}", row, parents)
        self.forest_rows(name, net, tables[3:10])
        self.merge_rows(name, net, tables[10:14])
        # A node gets as far as it is from the nearer end of the still edge, less one: its neighbours there stay at 0.
        far = [reached(net, end) for end in ends_of(section)]
        pulses = [str(max(0, min(of[v] for of in far) - 1)) for v in net.node_numbers]
        self.same(f"{name}: a still edge", tables[14:], [pulses])

    def merge_rows(self, name, net, rows):
        """The colours before the merge of each forest, and the channels after it."""
        merged = merged_of(net)
        for f, (three, after) in enumerate((rows[:2], rows[2:])):
            last = colours_of(net, f)[-1]
            row = [str(last[v]) for v in net.node_numbers]
            self.same(f"{name}: colours before the merge of forest {f}", three, row)
            row = [str(merged[f + 1][v]) for v in net.node_numbers]
            self.same(f"{name}: after the merge of forest {f}", after, row)

    def line_rows(self, name, net, section, plan):
        """The answers that are written on lines."""
        payloads, after_bits = payloads_of(net), colours_of(net, 0)[1:5]
        child, parent, chooser = map(int, found_in(ASKED, section, re.S).groups())
        self.note(f"{name}: its payloads", f"has {payloads} payloads" in section, payloads)
        clashes = [f"{v} and {w}" for v, w in net.edges if plan[v - 1] == plan[w - 1]]
        self.note(f"{name}: two neighbours of one channel", clashes, plan)
        steps = [[v, *(colours[v] for colours in after_bits)] for v in (child, parent)]
        turn = 25 + 4 * colours_of(net, 1)[-1][chooser] + merged_of(net)[1][chooser]
        # Two wires for each payload, and 36 safes and a close on each of the 18 links.
        wires = 2 * payloads + 18 * 37
        bits = [", ".join(map(str, row)) for row in steps]
        wanted = ["4", "; ".join(clashes), *bits, str(turn), "36", str(wires)]
        self.same(f"{name}: on lines", re.findall(r'<b class="answer">(.*?)</b>', section), wanted)

    def forest_rows(self, name, net, rows):
        """The colours of forest 0 before a shift and a drop of each of 5, 4 and 3, which change something, and after
        each of them."""
        lists = [dict(zip(net.node_numbers, map(int, row))) for row in rows]
        parents = {v: min([w for w in net.neighbours[v] if w > v], default=None) for v in lists[0]}
        for x, at in ((5, 0), (4, 2), (3, 4)):
            first, shifted, dropped = lists[at : at + 3]
            wanted = shifted_and_dropped(x, parents, first)
            self.same(f"{name}: shift and drop {x}", (shifted, dropped), wanted)
            self.note(f"{name}: drop {x} changes something", shifted != dropped)
        alike = [v for v in net.node_numbers if lists[0].get(parents[v]) == lists[0][v]]
        self.same(f"{name}: children with their parent's colour", alike, [])

    def test_answers(self):
        status, page, fault = sheet("--seed", "7", "--sheets", "12", "--answers")
        sections = re.findall(r"<section>(.*?)</section>", page, re.S)
        self.same("twelve sheets", (status, fault, len(sections)), (0, "", 12))
        for number, section in enumerate(sections, 1):
            self.note(f"the title of sheet {number}", f"Sheet 7-{number}, answers" in section)
            self.check(f"sheet {number}", section)
        self.same("networks", len(set(re.findall(r"<pre>.*?</pre>", page, re.S))), 12)

    def test_a_sheet_is_its_answers_without_them(self):
        sheets, answers = sheet("--seed", "x")[1], sheet("--seed", "x", "--answers")[1]
        self.assertNotRegex(sheets, 'class="?answer|p edge')
        self.same("blanks", sheets.count('<span class="blank'), answers.count('class="answer"'))
        self.same(
            "the maps", *(re.findall(r"<svg.*?</svg>", page, re.S) for page in (sheets, answers))
        )

    def test_lessons(self):
        whole, one = (
            sheet("--seed", "x", "--answers")[1],
            sheet("--seed", "x", "--answers", "--lesson", "5")[1],
        )
        self.assertEqual(re.findall(r"<h2>(.*?)</h2>", one), ["Lesson 5"])
        self.assertTrue(one.endswith(whole[whole.index("<h2>Lesson 5</h2>") :]))

    def test_refusals(self):
        for arguments in (["--lesson", "6"], ["--sheets", "0"]):
            self.refusal(f"{arguments}", sheet(*arguments), 2, "sheet: error: ")
