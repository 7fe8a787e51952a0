"""The runs with a clock: in each pulse all nodes are asked, and each gets what came from its neighbours in the pulse
before. What they do is compared with the proved rounds, pulse by pulse; or it is free, and only the plan at the end is
judged."""
from abc import ABC, abstractmethod
from collections.abc import Iterator

from forestplan.fault_codes import Code
from forestplan.faults import Fault
from forestplan.network import Network
from forestplan.networks.texts import plain_text
from forestplan.networks.verdicts import parsed_verdict
from forestplan.wording import in_words
from forestplan.workshop.findings import Finding, NoAnswer, first_of, kind_of, numbers_in_words
from forestplan.workshop.nodes import PATIENCE, Answer, Nodes
from forestplan.workshop.protocol import (
    COLOURING,
    answer_fields,
    forms_of,
    own_data,
    start_of_output,
)
from forestplan.workshop.right_rounds import RightRounds, PutsOfRounds, ask
from forestplan.workshop.reasons import Why


class ClockRun(PutsOfRounds, ABC):
    """`puts` is what the nodes sent so far, and `own_lines` what a node's first message has besides. `kept` is the file
    in which the workshop keeps its text."""

    assignment: str
    kept: str
    program = COLOURING
    own_lines: dict[str, int | None] = {}
    league: dict[str, int] | None = None

    @abstractmethod
    def hear(self, v: int, line: str, fields: tuple[str, ...]) -> None:
        """Takes a line of an answer, any but `put`."""

    @abstractmethod
    def is_over(self, p: int) -> bool:
        """Whether a pulse was the last one."""

    @abstractmethod
    def text(self) -> str:
        """What was found, as a proved program takes or writes it."""

    def difference(self, p: int, v: int) -> Finding | None:
        """What is wrong in a node's answer, which has been read."""

    def judged(self, p: int) -> Finding | None:
        """What is wrong at the end."""

    def play(self, nodes: Nodes) -> Finding | None:
        """Plays all pulses; returns what is wrong in the first pulse in which something is."""
        questions = {v: self.first_message(v) for v in self.network.node_numbers}
        p = 0
        while True:
            self.puts.append({})
            answers = nodes.ask_all(questions)
            found = [
                finding
                for v in self.network.node_numbers
                if (finding := self.answered(p, v, answers[v]))
            ]
            if len(found) > 1:
                others = numbers_in_words("node", first_of([finding.node for finding in found[1:]]))
                found[0].lines.append(("also", f"in the same pulse {others}"))
            if found:
                return found[0]
            if self.is_over(p):
                nodes.stop(PATIENCE)
                return self.judged(p)
            p += 1
            questions = {
                v: [
                    f"pulse {p}",
                    *(f"take {port} {payload}" for port, payload in self.inbox(p, v).items()),
                ]
                for v in self.network.node_numbers
            }

    def first_message(self, v: int) -> list[str]:
        return own_data(self.network, v, self.assignment, self.own_lines)

    def answered(self, p: int, v: int, answer: Answer) -> Finding | None:
        try:
            if isinstance(answer, NoAnswer):
                raise answer
            self.read(v, answer)
        except NoAnswer as fault:
            found = self.finding(fault.kind, p, v, [("wrong", fault.message)], is_first=p == 0)
            found.is_by_signal = fault.is_by_signal
            return found
        return self.difference(p, v)

    def finding(
        self,
        kind: str,
        p: int,
        v: int,
        lines: list[tuple[str, str]],
        way: str = "",
        is_first: bool = False,
    ) -> Finding:
        """What is wrong at a node in a pulse, with what it knew."""
        knew = ("came", self.came(p, v)) if p else ("knows", "; ".join(self.first_message(v)[1:]))
        where = ("where", f"node {v}, {self.pulse_words(p)}")
        return Finding(kind, v, p, [where, knew, *lines], way=way, is_first=is_first)

    def pulse_words(self, p: int) -> str:
        return f"pulse {p}"

    def read(self, v: int, answer: list[str]) -> None:
        puts = self.puts[-1][v] = {}
        forms = forms_of(self.assignment, self.program)
        for line in answer:
            match answer_fields(line, forms, len(self.ports[v])):
                case "put", port, *payload:
                    if int(port) in puts:
                        raise NoAnswer(
                            "garbage",
                            f"{start_of_output(line)} is a second payload by this port in one pulse",
                        )
                    puts[int(port)] = " ".join(payload)
                case fields:
                    self.hear(v, line, fields)


class RoundsRun(ClockRun):
    """`told[v]`, what a node said of itself in this pulse, by what it is about: `colour 0`, `chose`, `result`."""

    assignment = "rounds"
    kept = "said.puts"

    def __init__(self, rounds: RightRounds) -> None:
        super().__init__(rounds.network)
        self.rounds = rounds
        self.program = rounds.program
        self.own_lines = rounds.own_lines
        self.told: dict[int, dict[str, str]] = {}

    def pulse_words(self, p: int) -> str:
        """`pulse 3 (step)`; a program without phases has `pulse 3`."""
        phase = " ".join(self.rounds.phase[p])
        return super().pulse_words(p) + (f" ({phase})" if phase else "")

    def read(self, v: int, answer: list[str]) -> None:
        self.told[v] = {}
        super().read(v, answer)

    def hear(self, v: int, line: str, fields: tuple[str, ...]) -> None:
        about = {"colour": " ".join(fields[:2]), "chose": "chose"}.get(fields[0], "result")
        if about in self.told[v]:
            sentence = f"it has said `{self.told[v][about]}` in this answer already"
            raise NoAnswer("garbage", f"{start_of_output(line)}: {sentence}")
        self.told[v][about] = " ".join(fields)

    def difference(self, p: int, v: int) -> Finding | None:
        if p < self.rounds.last and "result" in self.told[v]:
            lines = [
                ("wrong", self.told[v]["result"]),
                ("right", "nothing yet of what it has found"),
                ("why", f"a node says that once, in its last pulse, {self.rounds.last}"),
            ]
            return self.finding("differs", p, v, lines, way="early result")
        for wrong, right, is_none, of in self.compared(p, v):
            if wrong != right:
                lines = [("wrong", wrong), ("right", right), ("why", Why(self.rounds, v).of(**of))]
                kind = kind_of(wrong if is_none else right)
                way = f"{''.join(self.rounds.phase[p][:1])} {kind}"
                return self.finding("differs", p, v, lines, way=way)
        return None

    def compared(self, p: int, v: int) -> Iterator[tuple[str, str, bool, dict[str, int]]]:
        """What it said, what is right, whether that is nothing, and of what `Why` says why. What it says of its colours
        needn't be said."""
        rounds = self.rounds
        said = self.told[v]
        puts = self.puts[p][v]
        for forest, colour in enumerate(rounds.colours[p].get(v, [])):
            right = f"colour {forest} {colour}"
            yield said.get(f"colour {forest}", right), right, False, {"p": p, "forest": forest}
        chooses = v in rounds.chose[p]
        right = f"chose {rounds.chose[p][v]}" if chooses else "no choice"
        yield said.get("chose", right), right, not chooses, {"p": p}
        right_puts = rounds.puts[p].get(v, {})
        for port in sorted(right_puts.keys() | puts.keys()):
            wrong, right = (
                f"put {port} {found[port]}" if port in found else f"nothing by port {port}"
                for found in (puts, right_puts)
            )
            yield wrong, right, port not in right_puts, {"p": p, "port": port}
        if p == rounds.last:
            wrong = said.get("result", f"no line `{rounds.results[v]}`")
            yield wrong, rounds.results[v], False, {}

    def is_over(self, p: int) -> bool:
        return p == self.rounds.last

    def text(self) -> str:
        """What the nodes sent, as `forestplay rounds` writes it."""
        lines = []
        for p, by in enumerate(self.puts):
            for v, puts in by.items():
                to = self.network.neighbours[v]
                lines += [
                    f"{v} put {to[port]} payload {p} {payload}\n"
                    for port, payload in sorted(puts.items())
                ]
        return "".join(lines)


class OpenRun(ClockRun):
    """An algorithm of the students' own: `channels[v]` as nodes said them; `league` once the plan is right: the pulses
    after pulse 0, the payloads and the greatest channel. A run has at most `most_pulses`, 20 for each node and each
    pulse of the lessons' algorithm."""

    assignment = "open"
    kept = "plan"

    def __init__(self, network: Network) -> None:
        super().__init__(network)
        self.most_pulses = 20 * (
            network.nodes + 12 + 3 * network.greatest_degree * network.channels
        )
        self.channels: dict[int, int] = {}
        self.payloads = 0

    def hear(self, v: int, line: str, fields: tuple[str, ...]) -> None:
        channel = int(fields[1])
        if channel == 0:
            raise NoAnswer(
                "garbage",
                f"{start_of_output(line)}: channels count from 1; a channel is a colour plus 1",
            )
        if v in self.channels:
            sentence = f"it has said channel {self.channels[v]} before, and a result is final"
            raise NoAnswer("garbage", f"{start_of_output(line)}: {sentence}")
        self.channels[v] = channel

    def is_done(self) -> bool:
        """Whether every node has said its channel, and nothing is on its way."""
        return len(self.channels) == self.network.nodes and not any(self.puts[-1].values())

    def is_over(self, p: int) -> bool:
        self.payloads += sum(map(len, self.puts[p].values()))
        if p:
            self.puts[p - 1] = {}  # it has come
        return self.is_done() or p == self.most_pulses

    def text(self) -> str:
        return "plan\n" + "".join(
            f"{v} {channel}\n" for v, channel in sorted(self.channels.items())
        )

    def judged(self, p: int) -> Finding | None:
        """The verdict of the proved check. A channel that is too great for it to be read has C6."""
        if not self.is_done():
            silent = [v for v in self.network.node_numbers if v not in self.channels]
            sentence = f"after {p} pulses " + (
                f"{numbers_in_words('node', first_of(silent))} said no channel"
                if silent
                else "all nodes have their channels, and payloads are still sent"
            )
            return self.finding("endless", p, (silent or [1])[0], [("wrong", sentence)])
        status, _, line = ask("forestplan", "check", plain_text(self.network) + self.text())
        if status == 0:
            self.league = {
                "pulses": p,
                "payloads": self.payloads,
                "channels": max(self.channels.values(), default=0),
            }
            return None
        verdict = parsed_verdict(line)
        if status != 1 or verdict is None or verdict.code not in ("C4", "C5", "C6", "C8"):
            raise Fault(Code.CHECK_ENDS, status=status, line=line)
        code = verdict.code
        v, *others = verdict.numbers
        if code == "C6":  # its lines are `plan`, and then one for each node in turn
            code = "C5"
            v -= 1
        channel = self.channels[v]
        sentence = {
            "C4": f"nodes {v} and {in_words(others)} are neighbours, and both have channel {channel}",
            "C5": f"channel {channel} of node {v} isn't one of 1 to {self.network.channels}, which are enough",
            "C8": f"channel {channel} of node {v} is barred there",
        }[code]
        return self.finding(code, p, v, [("wrong", sentence), ("judge", line)])
