"""Plays cases: one after the other, and then smaller ones in which the same is wrong."""
import shlex
import sys
import time
from argparse import Namespace

from forestplan.fault_codes import Code
from forestplan.faults import Fault
from forestplan.networks.reductions import smaller
from forestplan.schedules.policies import Policy
from forestplan.workshop.alpha_run import AlphaRun
from forestplan.workshop.alpha_verdict import finding_of
from forestplan.workshop.cases import Case
from forestplan.workshop.clock_run import ClockRun, OpenRun, RoundsRun
from forestplan.workshop.findings import Finding, NoAnswer, numbers_in_words
from forestplan.workshop.guard import Guard, Limits
from forestplan.workshop.nodes import Nodes
from forestplan.workshop.protocol import start_of_output
from forestplan.workshop.right_rounds import RightRounds

MOST_SHRINKS = 60
PROGRESS_SECONDS = 10
APART = "with --one-process each message begins with a line `to K`; does the program keep its nodes apart by it?"
UNPLAYED = "no other run is played, since nothing answered its first message in two; all others count as silent, too"


class CasePlayer:
    """Plays what the `options` of a command line ask for, as `parsed` returns them, until the time is `over`, by
    `time.monotonic()`; a `guard` says as whom the programs run, and what they may use. If it is shown (`is_shown`), it
    says on standard error how far it is.

    >>> from forestplan.workshop.cases import cases_of
    >>> from forestplan.workshop.options import parsed
    >>> options = parsed(["open", "path2", "--", "true"])
    >>> cases, wrong, seconds = CasePlayer(options).played(cases_of(options))
    >>> len(cases), wrong.finding.kind, wrong.finding.node
    (1, 'ended', 1)
    """

    def __init__(
        self,
        options: Namespace,
        guard: Guard | None = None,
        over: float = float("inf"),
        is_shown: bool = False,
    ) -> None:
        self.options = options
        self.commands = options.commands
        self.over = over
        self.is_shown = is_shown
        self.guard = guard or Guard()
        self.last_line_at = time.monotonic()

    def say(self, text: str) -> None:
        """Says now and then how far it is."""
        if self.is_shown and time.monotonic() - self.last_line_at > PROGRESS_SECONDS:
            self.last_line_at = time.monotonic()
            print(f"workshop: {text}", file=sys.stderr, flush=True)

    def nodes(self, case: Case) -> Nodes:
        """The programs at the nodes of a case, which run within `with`."""
        programs = len(self.commands) if self.options.one_process else case.network.nodes
        limits = Limits(self.options.timeout, self.options.memory, programs, self.over)
        return Nodes(case.owners, self.commands, limits, self.guard, self.options.one_process)

    def play(self, case: Case) -> bool:
        """Whether it is right; what was played and found is then in the case."""
        case.owners = case.owners or [
            (v - 1) % len(self.commands) for v in case.network.node_numbers
        ]
        run = case.run = self.run_of(case)
        try:
            with self.nodes(case) as nodes:
                found = run.play(nodes)
        except NoAnswer as fault:  # a command can't be started
            raise Fault(Code.NOT_STARTED, why=fault.message) from None
        if isinstance(run, AlphaRun):
            found = finding_of(run)
        else:
            case.league = run.league
        case.finding = found
        if found and len(self.commands) > 1:
            self.name_owner(case, found)
        if found and self.options.one_process and found.pulse <= 1:
            found.lines.append(("note", APART))
        return found is None

    def run_of(self, case: Case) -> ClockRun | AlphaRun:
        """A run of a case that hasn't begun; the right rounds come from the proved programs."""
        if self.options.assignment == "open":
            return OpenRun(case.network)
        rounds = RightRounds(case.network, self.options.program).work_out()
        if self.options.assignment == "rounds":
            return RoundsRun(rounds)
        return AlphaRun(
            rounds, Policy(case.policy, case.network.node_numbers, case.network.edges, case.seed)
        )

    def name_owner(self, case: Case, found: Finding) -> None:
        """Says whose node is wrong, and whose the others are."""
        found.owner = case.owners[found.node - 1]
        texts = []
        for owner, command in enumerate(self.commands):
            nodes = [
                v
                for v in case.network.node_numbers
                if case.owners[v - 1] == owner and v != found.node
            ]
            if nodes:
                texts.append(
                    f"{numbers_in_words('node', nodes)}: {start_of_output(shlex.join(command))}"
                )
        whose = f"node {found.node}: {start_of_output(shlex.join(self.commands[found.owner]))}"
        found.lines[1:1] = [("whose", whose), *[("others", "; ".join(texts))] * bool(texts)]

    def played(self, cases: list[Case]) -> tuple[list[Case], Case | None, float]:
        """The cases that were played, the smallest that is wrong, and the seconds it took."""
        start = time.monotonic()
        cases = self.play_all(cases)
        shown = min((case for case in cases if case.finding), key=Case.size, default=None)
        if shown and len(cases) > 1:
            shown = self.shrunk(shown)
        return cases, shown, time.monotonic() - start

    def play_all(self, cases: list[Case]) -> list[Case]:
        """The cases that were played: all, or those up to the first that isn't right. Once the time is over no more is
        played, and none if nothing answers its first message in two runs, on two networks if there are two.
        """
        if not self.options.first and self.are_mute(cases):
            return cases
        for count, case in enumerate(cases, 1):
            if time.monotonic() > self.over:
                return cases[: count - 1] + left_out(cases[count - 1 :], LATE)
            self.say(f"run {count} of {len(cases)}")
            if case.run is None:
                self.play(case)
            if case.finding and self.options.first:
                return cases[:count]
            if case.finding is None and count < len(cases):
                case.run = None  # nobody asks for it any more
        return cases

    def are_mute(self, cases: list[Case]) -> bool:
        """Whether nothing answers its first message in two runs; then all others count as silent, too."""
        first, *others = cases
        other = next(
            (case for case in others if case.network.name != first.network.name), cases[-1]
        )
        if other is first or not self.is_mute(first) or not self.is_mute(other):
            return False
        for case in (first, other):
            case.wrong.lines.append(("note", UNPLAYED))
        left_out(cases, other.wrong)
        return True

    def is_mute(self, case: Case) -> bool:
        """Whether a program is silent from its first message on."""
        return not self.play(case) and case.wrong.kind == "silent" and case.wrong.is_first

    def shrunk(self, case: Case) -> Case:
        """A smaller case that is wrong in the same way, as long as one is found, and as few runs allow. What took all
        the time that it may take isn't tried again."""
        left = 0 if case.wrong.kind in ("silent", "late") else MOST_SHRINKS
        while left and time.monotonic() < self.over:
            found = None
            for network, kept in smaller(case.network):
                left -= 1
                self.say(f"looking for a smaller case that is wrong, {MOST_SHRINKS - left} tried")
                owners = [case.owners[v - 1] for v in kept]
                other = Case(case.number, network, case.policy, case.seed, owners, is_part=True)
                if not self.play(other) and other.wrong.is_like(case.wrong):
                    found = other
                if found or not left:
                    break
            if not found:
                break
            case = found
        return case


LATE = Finding("late", 1, 0, [("wrong", "the time for all runs is over")])


def left_out(cases: list[Case], finding: Finding) -> list[Case]:
    """All cases; those that weren't played have this finding."""
    for case in cases:
        if case.run is None:
            case.finding = finding
    return cases
