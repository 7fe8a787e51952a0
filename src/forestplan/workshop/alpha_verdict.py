"""The verdict on a run without a clock, in words: the first wrong entry, a program that gave no answer, a run that is
stuck, or a wrong result; and what a node knew there and could do, by the ports that it counts with. What it could do
is asked of the machine."""
from dataclasses import dataclass

from forestplan.networks.texts import plain_text
from forestplan.networks.verdicts import Verdict
from forestplan.transcripts.proved_judge import verdict_on_run
from forestplan.transcripts.rules import Standing, rule_of, rules_of_dues
from forestplan.wording import as_text
from forestplan.workshop.alpha_run import OWN_DATA, AlphaRun, StampedText
from forestplan.workshop.findings import (
    Finding,
    NoAnswer,
    first_of,
    kind_of,
    last_of,
    numbers_in_words,
)
from forestplan.workshop.right_rounds import RightRounds, program_option
from forestplan.workshop.reasons import Why

# No run has such a pulse, so an entry that names it is refused, and the judge says what would be possible.
IMPOSSIBLE = (1 << 32) - 1
START = "its start is pulse 0, so the first pulse that a node says is `pulse 1`"
# What the judge's word for a run that isn't right means.
MEANINGS = {
    "NotReady": "the node can't make a pulse there",
    "NothingToPut": "the node has nothing to put for this neighbour there",
    "WrongWire": "the node can do this there, but with another wire or pulse",
    "NotWhole": "all entries are possible, and at the end something is missing",
}


def verdict_sentence(verdict: Verdict) -> str:
    """The judge's own line, and what it means."""
    meaning = MEANINGS.get(verdict.code)
    return f"{verdict.line} ({meaning})" if meaning else verdict.line


@dataclass
class At(Standing):
    """Node `v`, which has done what is in `own`; links are named by their ports."""

    rounds: RightRounds
    own: list[str]
    v: int

    def whose(self, links: list[int], word: str = "of") -> str:
        return f"by {numbers_in_words('port', links)}"

    def why_payload(self, link: int) -> str:
        return Why(self.rounds, self.v).of(self.pulse, link)

    def right(self) -> str:
        """What a right node could do there."""
        dues = self.dues()
        if dues:
            return f"one of: {'; '.join(dues)}" if len(dues) > 1 else dues[0]
        if self.pulse == self.last:
            return "nothing more: it has made its last pulse and put all that it has to"
        return f"nothing yet: before its next pulse it waits for {self.lacks}"

    def hints(self) -> list[tuple[str, str]]:
        """What the node had got: what came for its pulse; what came a pulse early, a payload for this pulse or the
        next, or a safe that isn't used up; and what it did last."""
        early = []
        pulse = 0
        for text in self.own:
            match text.split():
                case ["pulse", _]:
                    pulse += 1
                case ["take", _, "safe" | "payload" as wire, of, *_] if (
                    pulse + 1 == int(of) >= self.pulse - (wire == "payload")
                ):
                    early.append(
                        f"`{text}` came at pulse {pulse}, and is to be kept until pulse {of} is made"
                    )
        return [
            *[("came", self.rounds.came(self.pulse, self.v))] * bool(self.pulse),
            *(("early", text) for text in last_of(early)),
            ("so far", "; ".join(last_of(self.own)) or "nothing"),
        ]


def at_node(rounds: RightRounds, before: list[StampedText], v: int) -> At:
    """Asks the machine what v can do after these entries, all of which are right: by entries that can't be right, since
    it refuses each, and says what would be possible there, or that v lacks `ack 0 of 2; safe 0 of 2 and 3`.
    """
    network = plain_text(rounds.network)
    ports = rounds.ports[v]
    made = [f"{u} {text}" for _, u, text in before]
    text = as_text([f"transcript 1 {rounds.network.nodes}", *made])

    def refusal_of(sentence: str) -> Verdict:
        entry = f"{v} {sentence} {IMPOSSIBLE}\n"
        return verdict_on_run(network, text + entry, program_option(rounds.program))

    def ports_lacked(wire: str) -> list[int]:
        """The ports by which such wires are still to come."""
        return [ports[w] for w in of_pulse.lacked.get(wire, ())]

    of_pulse = refusal_of("pulse")
    of_puts = {port: refusal_of(f"put {w} ack") for w, port in ports.items()}
    can_pulse = of_pulse.code == "WrongWire"
    own = [with_port(rounds, v, text) for _, u, text in before if u == v]
    acks, safes = ([], []) if can_pulse else (ports_lacked("ack"), ports_lacked("safe"))
    puts = {port: put.expected for port, put in of_puts.items() if put.code == "WrongWire"}
    pulse = sum(text.startswith("pulse") for text in own)
    return At(pulse, rounds.last, can_pulse, acks, safes, puts, "by port {}", rounds, own, v)


def with_port(rounds: RightRounds, v: int, text: str) -> str:
    """An entry as its node says it, with a port in place of the neighbour."""
    what, first, *wire = text.split()
    return text if what == "pulse" else f"{what} {rounds.ports[v][int(first)]} {' '.join(wire)}"


def finding_of(run: AlphaRun) -> Finding | None:
    """What isn't right in a run that was played, or None. What comes first in the run counts: a program that ends
    because of a wrong step before gets the verdict on that step."""
    entries = run.in_order()
    verdict = run.verdict()
    if verdict.is_about_an_entry:
        return wrong_entry(run, entries, verdict)
    if run.stop:
        return no_answer(run, entries, *run.stop)
    return stuck(run, entries, verdict) if verdict.code == "NotWhole" else wrong_result(run)


def wrong_entry(run: AlphaRun, entries: list[StampedText], verdict: Verdict) -> Finding:
    stamp, v, text = entries[verdict.entry]
    at = at_node(run.rounds, entries[: verdict.entry], v)
    own = with_port(run.rounds, v, text)
    neighbour = f" (to node {text.split()[1]})" if text.startswith("put") else ""
    lines = [
        (
            "where",
            f"node {v} at pulse {at.pulse}, entry {verdict.entry + 1} of the run, stamp {stamp}",
        ),
        ("wrong", own + neighbour),
        ("right", at.right()),
        ("why", START if text == "pulse 0" else rule_of(at, own)),
        *at.hints(),
        ("judge", verdict_sentence(verdict)),
    ]
    return Finding(verdict.code, v, at.pulse, lines, verdict.entry, way=kind_of(text))


def no_answer(
    run: AlphaRun, entries: list[StampedText], v: int, fault: NoAnswer, asked: str
) -> Finding:
    at = at_node(run.rounds, entries, v)
    inbox = f", for which {run.rounds.came(at.pulse + 1, v)} came" if at.can_pulse else ""
    lines = [
        ("where", f"node {v} at pulse {at.pulse}, after it got {asked}"),
        ("wrong", fault.message),
        ("right", at.right() + inbox),
        *at.hints(),
        ("judge", "all that was done before is right"),
    ]
    return Finding(
        fault.kind, v, at.pulse, lines, is_first=asked == OWN_DATA, is_by_signal=fault.is_by_signal
    )


def stuck(run: AlphaRun, entries: list[StampedText], verdict: Verdict) -> Finding:
    """Nothing is on its way, and not all is done: who could do something, and who waits for what."""
    all_at = [at_node(run.rounds, entries, v) for v in run.network.node_numbers]
    owing = [at for at in all_at if at.dues()]
    waiting = [
        f"node {at.v} for {at.lacks}" for at in all_at if not at.dues() and at.pulse < at.last
    ]
    wrong, *others = [
        ("wrong", f"node {at.v} at pulse {at.pulse} doesn't {at.undone()}") for at in owing
    ]
    where = f"nothing is on its way after {len(entries)} of {run.rounds.events} entries, and not all is done"
    first = owing[0]
    waits = [("waits", " | ".join(first_of(waiting)))] * bool(waiting)
    lines = [
        ("where", where),
        wrong,
        ("why", rules_of_dues(first)),
        *first.hints(),
        *others[:3],
        *waits,
        ("judge", verdict_sentence(verdict)),
    ]
    return Finding("stuck", first.v, first.pulse, lines, way=kind_of(first.dues()[0]))


def wrong_result(run: AlphaRun) -> Finding | None:
    """Of a run that is right and whole: the first node that said another channel, or another result."""
    for v, result in run.rounds.results.items():
        if run.results.get(v) != result:
            said = run.results.get(v, f"no line `{result}`")
            lines = [
                ("where", f"node {v}, at its end"),
                ("wrong", said),
                ("right", result),
                ("why", Why(run.rounds, v).of()),
            ]
            return Finding("result", v, run.rounds.last, lines)
    return None
