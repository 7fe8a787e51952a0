"""What the studio says of a node in the tab Adversary, in all states of small networks, under every rule that can be
left out and for every program: it has to be what can happen next. What can happen is asked of the player; that a node
has taken a wire is read off the steps."""

import itertools
import re
from collections import defaultdict
from collections.abc import Iterator

from forestplan.definitions.events import Kind, Message
from forestplan.definitions.programs import PROGRAMS, program_at
from forestplan.definitions.rounds import ColouringRounds
from forestplan.networks.network_text import network_in_bytes
from forestplan.pictures.watch_page import look_of
from forestplan.schedules.rules import OF_SCHEDULES
from forestplan.schedules.stepwise import Stepwise
from forestplan.studio.answers import Predicted
from forestplan.studio.messages import PredictCall, WaitsCall
from forestplan.studio.predictions import answer_predict, waited, answer_waits
from forestplan.studio.session import Session
from tests.cases import Case, examples

ALONE, EDGE, ROW = "p edge 1 0\n", "p edge 2 1\ne 1 2\n", "p edge 3 2\ne 1 2\ne 2 3\n"
# Of each network, program and set of rules so many states, the nearest to the start; and of two nodes with all rules
# all that there are, which explore counts, too.
NEAREST, ALL_OF_TWO = 16, 281
EVERY_RULES = [rules for size in range(5) for rules in itertools.combinations(OF_SCHEDULES, size)]


def key_of(player: Stepwise) -> str:
    """Equal for players in the same state."""
    nodes = [
        (
            node.pulse_number,
            node.safe_sent,
            [vars(port) for port in node.ports],
            vars(node.simulated),
        )
        for node in player.state.nodes.values()
    ]
    return repr((nodes, player.state.link, player.is_over))


class Walk:
    """The states of a network, each as the player that has come there."""

    def __init__(self, text: str, program: str, rules: tuple[str, ...]) -> None:
        self.network, self.program, self.rules = network_in_bytes(text.encode()), program, rules

    def player(self, steps: list[str]) -> Stepwise:
        found = Stepwise(self.network, program_at(self.program), self.rules)
        found.follow(steps)
        return found

    def states(self, most: int) -> Iterator[tuple[Stepwise, list[tuple[str, Stepwise]]]]:
        """Each state, and what its steps lead to."""
        start = self.player([])
        known, waiting = {key_of(start)}, [start]
        for player in waiting:
            steps = [] if player.is_over else player.possible()
            after = [(step, self.player([*player.chosen, step])) for step in steps]
            for _, other in after:
                key = key_of(other)
                if key not in known and len(known) < most:
                    known.add(key)
                    waiting.append(other)
            yield player, after


def said_of(player: Stepwise, v: int) -> tuple[set[str], str]:
    """What a node waits for as its picture says it, and in one word whether it goes on."""
    look = look_of(player.state, v)
    waits = {f"{what} {w}" for what, w in look.waits}
    is_last = look.pulse == player.state.nodes[v].last
    if look.done:
        return waits, "done"
    return waits, "waits" if waits or is_last else "may"


def taken_by(player: Stepwise) -> dict[tuple[int, str, int], set[int]]:
    """By node, word and pulse: from whom it has taken such a wire, by the events of the run."""
    found: dict[tuple[int, str, int], set[int]] = defaultdict(set)
    for entry in player.made:
        if entry.kind is not Kind.TAKE or entry.neighbour is None:
            continue
        match entry.what:
            case Message("ack" | "safe" as word, (int(pulse),)):
                found[entry.node, word, pulse].add(entry.neighbour)
    return found


class States(Case):
    is_one_row = True

    def look_at(self, name: str, player: Stepwise, after: list[tuple[str, Stepwise]]) -> None:
        steps = [step for step, _ in after]
        for v in player.state.nodes:
            waits, goes_on = said_of(player, v)
            at = f"{name}: node {v} after {'_'.join(player.chosen) or 'nothing'}"
            if not player.is_over:
                self.same(f"{at}: it may make its pulse", goes_on == "may", str(v) in steps)
            found, why = waited(player.state, v, player.without, player.is_over)
            self.same(f"{at}: the answer", set(found), set() if player.is_over else waits)
            self.why_is_so(f"{at}: {why}", player, v, why, str(v) in steps)
            for step, other in after:
                self.one_step(f"{at}, then {step}", (player, other), v, step)

    def why_is_so(self, at: str, player: Stepwise, v: int, why: str, can_pulse: bool) -> None:
        """Whether the reason names what the pulse needs, and nothing that it doesn't need."""
        node, near = player.state.nodes[v], set(player.state.neighbours[v])
        self.same(
            f"{at}: has a next pulse",
            "next pulse" in why,
            not player.is_over and node.pulse_number < node.last,
        )
        if can_pulse:
            taken = taken_by(player)
            p = node.pulse_number
            if "neighbours are safe" in why:
                self.same(f"{at}: safes", taken[v, "safe", p], near)
            sent = {
                entry.neighbour
                for entry in player.made
                if (entry.node, entry.kind) == (v, Kind.PUT)
                and str(entry.what).startswith(f"payload {p} ")
            }
            if "are acknowledged" in why:
                self.note(f"{at}: acknowledgements", sent <= taken[v, "ack", p], taken)

    def one_step(self, at: str, both: tuple[Stepwise, Stepwise], v: int, step: str) -> None:
        """A node waits for a wire until it takes it, unless it goes on to its next pulse."""
        before, other = both
        if other.is_over or step == str(v):
            return
        waits, after = said_of(before, v)[0], said_of(other, v)[0]
        entry = next(one for one in other.made[len(before.made) :] if one.kind is not Kind.PUT)
        came = set()
        if entry.node == v and isinstance(entry.what, Message):
            came = {f"{entry.what.word} {entry.neighbour}"}
        self.note(at, after <= waits and waits - after <= came, (waits, after, came))

    def test_every_rule_and_program(self) -> None:
        for text, rules in itertools.product((ALONE, EDGE, ROW), EVERY_RULES):
            # The synchroniser is the same under each program, so the others have two nodes.
            for program in PROGRAMS if text == EDGE else ["colouring"]:
                walk = Walk(text, program, rules)
                for player, after in walk.states(NEAREST):
                    self.look_at(f"{text!r} {program} without {rules}", player, after)

    def test_all_states_of_two(self) -> None:
        states = list(Walk(EDGE, "colouring", ()).states(10**6))
        self.same("as many as explore finds", len(states), ALL_OF_TWO)
        for player, after in states:
            self.look_at("two", player, after)


def untold(done: int = 0, of: int = 0, part: object = None) -> None:
    """Nobody is told how far a call is."""


class Calls(Case):
    def test_roots(self) -> None:
        """Of a node without a parent in a forest nothing is said of its parent; of the others who it is."""
        for name in ("triangle", "petersen"):
            text = examples()[name].decode()
            rounds = ColouringRounds(network_in_bytes(text.encode()))
            for v, forest, pulse in itertools.product(
                rounds.network.node_numbers, range(rounds.forests), (3, 6)
            ):
                parent = rounds.parents.get((v, forest))
                call = PredictCall(network=text, node=v, forest=forest, pulse=pulse, guess="0")
                why = answer_predict(call, Session(), untold).why
                at = f"{name}: node {v} in forest {forest}, pulse {pulse}: {why}"
                self.same(f"{at}: its parent", "its parent" in why, parent is not None)
                named = {int(n) for n in re.findall(r"node (\d+) had", why)}
                self.same(f"{at}: who", named, {v, parent} - {None})

    def waits(self, steps: str, said: str, rules: str) -> Predicted:
        call = WaitsCall(network=EDGE, without=rules, steps=steps, node=1, guess=said)
        return answer_waits(call, Session(), untold)

    def test_answers(self) -> None:
        """Without safes a node waits for none, so `nothing` is right as soon as its pulse is possible."""
        for rules, steps, said in (
            ("safes", "1-2_2-1_1-2_2-1", "nothing"),
            ("safes", "1-2", "ack 2"),
            ("acks", "", "safe 2"),
            ("acks,safes", "", "nothing"),
            ("", "1-2_2-1", "ack 2, safe 2"),
        ):
            got = self.waits(steps, said, rules)
            self.same(f"{said} without {rules}", (got.right, got.found), (True, said))
            wrong = self.waits(steps, "safe 2, ack 1", rules)
            self.same(f"another answer without {rules}", wrong.right, False)
