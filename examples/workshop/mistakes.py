"""Typical mistakes, each as a change of the right nodes in python/: what the mistake is, the right text and the
wrong one. For a class: hand out a wrong node, or only what it says, and ask which line is missing.

python3 examples/workshop/mistakes.py DIR [NAME ..]      writes a folder DIR/NAME with a wrong node for each
(default: all)"""
import os
import shutil
import sys

RIGHT = os.path.join(os.path.dirname(os.path.abspath(__file__)), "python")

# By name what the mistake is, the right text, and the wrong one. Of the colouring: for a node of either kind.
COLOURING = {
    "shift_root": (
        "a root keeps its colour in a shift",
        "least_but(own) if above is None else above\n            elif",
        "own if above is None else above\n            elif",
    ),
    "no_shift": (
        "only roots shift",
        "least_but(own) if above is None else above\n            elif",
        "least_but(own) if above is None else own\n            elif",
    ),
    "drop_parent": (
        "a drop avoids the parent alone",
        "least_but(self.before[forest], above)",
        "least_but(above)",
    ),
    "drop_all": (
        "5, 4 and 3 are dropped at once",
        "elif own == {8: 5, 10: 4, 12: 3}[p]:",
        "elif own >= 3:",
    ),
    "drop_three": (
        "3 is never dropped",
        "elif own == {8: 5, 10: 4, 12: 3}[p]:",
        "elif own == {8: 5, 10: 4}.get(p):",
    ),
    "drop_four": (
        "4 is never dropped",
        "elif own == {8: 5, 10: 4, 12: 3}[p]:",
        "elif own == {8: 5, 12: 3}.get(p):",
    ),
    "drop_five": (
        "5 is never dropped",
        "elif own == {8: 5, 10: 4, 12: 3}[p]:",
        "elif own == {10: 4, 12: 3}.get(p):",
    ),
    "bit_highest": (
        "the bit step takes the highest digit that differs",
        "    digit = 0\n    while above is not None and (own >> digit & 1) == (above >> digit & 1):\n"
        "        digit += 1",
        "    digit = (own ^ above).bit_length() - 1 if above is not None else 0",
    ),
    "bit_root": (
        "a root keeps its colour in a bit step",
        "    digit = 0\n    while",
        "    if above is None:\n        return own\n    digit = 0\n    while",
    ),
    "label_ports": (
        "parents are numbered by port, and not by identifier",
        "sorted((name, port) for port, name in names.items() if name > self.name)",
        "[(name, port) for port, name in names.items() if name > self.name]",
    ),
    "label_falling": (
        "parents are numbered by falling identifier",
        "if name > self.name)",
        "if name > self.name)[::-1]",
    ),
    "names_text": (
        "parents are sorted as texts, and not as numbers",
        "sorted((name, port) for port, name in names.items() if name > self.name)",
        "sorted(((name, port) for port, name in names.items() if name > self.name), key=lambda up: str(up[0]))",
    ),
    "names_64": (
        "identifiers are kept in 64 binary digits",
        'own["identifier"]\n',
        'own["identifier"] % (1 << 64)\n',
    ),
    "names_float": (
        "binary digits by floating point",
        "(own >> digit & 1) == (above >> digit & 1)",
        "int(own / 2 ** digit) % 2 == int(above / 2 ** digit) % 2",
    ),
    "merge_this": (
        "a choice is told in this forest alone, and not in those before",
        " if f <= forest\n",
        " if f == forest\n",
    ),
    "merge_all": ("a choice is told by all ports", " if f <= forest\n", "\n"),
    "merge_last": (
        "a choice is told in the last pulse of a merge too",
        "        if step == 3 * self.width - 1:\n            return {}\n",
        "",
    ),
    "merge_old": (
        "whose turn it is goes by the present colour, and not by the one before the merge",
        "(self.colours[forest], self.old) !=",
        "(self.colours[forest], self.merged) !=",
    ),
    "merge_keep": (
        "what was taken in the merge before still counts",
        "self.old, self.taken = self.merged, set()\n        else",
        "self.old = self.merged\n        else",
    ),
    "bars_forgotten": (
        "barred channels are forgotten",
        'self.barred = {channel - 1 for channel in own["barred"]}',
        "self.barred = set()",
    ),
    "bars_channels": (
        "a barred channel is taken for a colour",
        '{channel - 1 for channel in own["barred"]}',
        'set(own["barred"])',
    ),
    "bars_width": (
        "the pairs of a merge are counted without the bars",
        'own["delta"] + own["bars"] + 1',
        'own["delta"] + 1',
    ),
}

# Of the synchroniser.
ALPHA = {
    "acks_after": (
        "an acknowledgement is put after whatever the payload leads to",
        '            self.put(at, f"ack {rest[0]}")\n',
        '            self.go_on()\n            self.put(at, f"ack {rest[0]}")\n',
    ),
    "acks_own_pulse": (
        "an acknowledgement has the node's pulse, and not the payload's",
        'f"ack {rest[0]}"',
        'f"ack {self.pulse}"',
    ),
    "acks_first": (
        "safe is said with the first acknowledgement",
        "not any(port.waits for port in self.ports)",
        "(not self.ports or sum(port.waits for port in self.ports) < len(self.ports))",
    ),
    "acks_any": (
        "any wire counts as the acknowledgement",
        "        port = self.ports[int(at)]\n",
        "        port = self.ports[int(at)]\n        port.waits = False\n",
    ),
    "early_present": (
        "an early payload is put among the present ones",
        "        if pulse == self.pulse:\n            port.present = payload\n        else:\n"
        "            port.early = payload",
        "        port.present = payload",
    ),
    "early_lost": (
        "an early payload is lost with the next pulse",
        "port.present, port.early = port.early, None",
        "port.present, port.early = None, None",
    ),
    "early_twice": (
        "an early payload isn't cleared, and counts twice",
        "port.present, port.early = port.early, None",
        "port.present, port.early = port.early, port.early",
    ),
    "early_safe_lost": (
        "an early safe is lost with the next pulse",
        "port.safe, port.early_safe = port.early_safe, False",
        "port.safe, port.early_safe = False, False",
    ),
    "safes_any": (
        "a pulse is made with the first safe",
        "all(port.safe for port in self.ports)",
        "(not self.ports or any(port.safe for port in self.ports))",
    ),
    "safes_none": (
        "a pulse is made without the neighbours' safes",
        "self.said and all(port.safe for port in self.ports)",
        "self.said",
    ),
    "safe_unsaid": (
        "a pulse is made before the node itself is safe",
        "self.pulse < self.last and self.said and all",
        "self.pulse < self.last and all",
    ),
    "safe_twice": (
        "safe is said with every wire that comes once all is acknowledged",
        "        self.go_on()  # a `close` asks for nothing\n",
        "        self.say_safe_if_it_is()\n        self.go_on()\n",
    ),
    "safe_with_ack": (
        "a node that sends nothing in a pulse doesn't say safe",
        "            self.ports[at].waits = True\n        self.say_safe_if_it_is()",
        "            self.ports[at].waits = True",
    ),
    "close_early": (
        "close is put after the last safe, before the last pulse",
        '                self.put(at, f"safe {self.pulse}")\n',
        '                self.put(at, f"safe {self.pulse}")\n                if self.pulse == self.last - 1:\n'
        '                    self.put(at, "close")\n',
    ),
    "close_safe": (
        "a safe of the last pulse too",
        '                self.put(at, "close")\n',
        '                self.put(at, f"safe {self.pulse}")\n                self.put(at, "close")\n',
    ),
    "close_never": (
        "no close",
        '                self.put(at, "close")\n',
        "                pass\n",
    ),
    "one_pulse": (
        "one pulse for each wire at most",
        "        while self.pulse < self.last and",
        "        if self.pulse < self.last and",
    ),
    "leaves": (
        "the program ends with the first close that comes",
        "        self.go_on()  # a `close` asks for nothing\n",
        '        if kind == "close":\n            raise SystemExit\n        self.go_on()\n',
    ),
    "no_channel": (
        "the channel isn't said",
        "            self.answer.append(self.program.result())\n",
        "",
    ),
}

# Of the other programs: for a node of either kind.
OTHERS = {
    "layers_again": (
        "it sends its layer in every pulse, and not once",
        "        if self.layer is not None or not inbox:\n",
        "        if self.layer is not None:\n            return self.to_all() if p < self.last else {}\n"
        "        if not inbox:\n",
    ),
    "layers_last": (
        "it goes by the last message that comes, and not by the first",
        "if self.layer is not None or not inbox:",
        "if self.layer == 0 or not inbox:",
    ),
    "layers_port": (
        "it forgets by which port the message came",
        "        self.by = min(inbox)\n        self.layer = inbox[self.by][1] + 1",
        "        self.layer = inbox[min(inbox)][1] + 1",
    ),
    "matching_again": (
        "a node that has a partner takes a child, too",
        "if self.partner is not None or self.colours",
        "if self.colours",
    ),
    "matching_all": (
        "it says to all parents that it is free, and not to that in this forest alone",
        "self.up.items() if up == forest}",
        "self.up.items()}",
    ),
    "matching_turn": (
        "it takes a child in the turn of any colour",
        "if self.partner is not None or self.colours[forest] != colour or not inbox:",
        "if self.partner is not None or not inbox:",
    ),
    "matching_greatest": (
        "it takes the child of the greatest port",
        '        self.partner = min(inbox)\n        return {self.partner: ("take", forest)}',
        '        self.partner = max(inbox)\n        return {self.partner: ("take", forest)}',
    ),
    "matching_untold": (
        "it doesn't tell the child that it takes it",
        'return {self.partner: ("take", forest)}',
        "return {}",
    ),
    "set_beside": (
        "a node joins though a neighbour has",
        "if turn != self.merged or self.is_beside:",
        "if turn != self.merged:",
    ),
    "set_forgets": (
        "it forgets that a neighbour has joined",
        "self.is_beside or bool(inbox)",
        "bool(inbox)",
    ),
    "anew_least": (
        "the least channel chooses first",
        "mine = self.present if sweep else self.width - 1 - self.present",
        "mine = self.present",
    ),
    "anew_bars": (
        "barred channels are forgotten in the second choice",
        "else self.least_free(self.heard)",
        "else min(set(range(self.width)) - self.heard)",
    ),
    "anew_last": ("only what came last counts", "self.heard |= {colour", "self.heard = {colour"),
}

FILES = {"colouring.py": COLOURING, "alpha_node.py": ALPHA, "programs.py": OTHERS}
MISTAKES = COLOURING | ALPHA | OTHERS


def write(folder, names=MISTAKES):
    """A folder for each of these mistakes, with all files of the right nodes, one of which has the mistake."""
    for name in names:
        file = next(file for file, mistakes in FILES.items() if name in mistakes)
        to, (_, right, wrong) = os.path.join(folder, name), MISTAKES[name]
        shutil.copytree(RIGHT, to, dirs_exist_ok=True, ignore=shutil.ignore_patterns("__pycache__"))
        with open(os.path.join(to, file), encoding="utf-8") as text:
            node = text.read()
        assert node.count(right) == 1, (name, node.count(right))
        with open(os.path.join(to, file), "w", encoding="utf-8") as text:
            text.write(node.replace(right, wrong))


if __name__ == "__main__":
    if len(sys.argv) < 2 or not set(sys.argv[2:]) <= MISTAKES.keys():
        sys.exit(f"usage: mistakes.py DIR [NAME ..], of {', '.join(MISTAKES)}")
    write(sys.argv[1], sys.argv[2:] or MISTAKES)
