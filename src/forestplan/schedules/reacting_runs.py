"""Runs by a seed of nodes that react to messages, on networks that are too large for every schedule: whether what has
to hold at any time and at the end does, and a shortest of the runs in which it doesn't."""
from collections import Counter
from dataclasses import replace

from forestplan.definitions.events import PUT, Event, Message
from forestplan.definitions.machine import NetState, Node
from forestplan.definitions.own_program import asks_for_messages, what_is_wrong
from forestplan.definitions.reacting_program import Reacting, messages_in, results_in
from forestplan.fault_codes import Code
from forestplan.faults import Fault
from forestplan.network import Network
from forestplan.schedules.policies import POLICIES, Policy
from forestplan.schedules.simulate import Player

# A run with more entries is said to have no end.
MOST_ENTRIES = 100_000


class Runs:
    """So many runs, under each policy in turn, once `play` has played them: `ends` are what nodes have found at the
    ends, `messages` how many each run has, and `wrong` what isn't right in a shortest wrong run, after its `events`.
    """

    def __init__(self, net: Network, program: Reacting, count: int, seed: str) -> None:
        self.net = net
        self.program = program
        self.count = count
        self.seed = seed
        self.ends: Counter[tuple[str, ...]] = Counter()
        self.messages: list[int] = []
        self.events: list[Event] = []
        self.wrong = ""
        self.wrong_count = 0

    def play(self) -> "Runs":
        for number in range(self.count):
            policy = list(POLICIES)[number % len(POLICIES)]
            self.play_one(
                Policy(policy, self.net.node_numbers, self.net.edges, f"{self.seed} {number}")
            )
        return self

    def play_one(self, policy: Policy) -> None:
        player = Player(self.program.start(self.net))
        events: list[Event] = []
        wrong = self.wrong_now(player.state)
        while not wrong and (steps := player.next_steps()):
            if len(events) == MOST_ENTRIES:
                raise Fault(Code.RUN_WITHOUT_END, policy=policy.name, most=MOST_ENTRIES)
            player.check_size(MOST_ENTRIES)
            event = player.event_of(policy.choose(steps))
            events.append(with_message(player.state, event))
            try:
                player.make(event)
                wrong = self.wrong_now(player.state)
            except Fault as why:
                wrong = str(why)
        if not wrong:
            found = results_in(player.state)
            wrong = what_is_wrong(self.net, self.program.file, found)
            self.ends[tuple(found.values())] += 1
            self.messages.append(sum(event.kind is PUT for event in events))
        if wrong:
            self.wrong_count += 1
            if not self.wrong or len(events) < len(self.events):
                self.wrong = wrong
                self.events = events

    def wrong_now(self, state: NetState[Node]) -> str:
        """What `always` says of a state."""
        file = self.program.file
        if "always" not in file.functions:
            return ""
        messages = messages_in(state, self.net.identifiers) if asks_for_messages(file) else ()
        return what_is_wrong(self.net, file, results_in(state), "always", messages)


def with_message(state: NetState[Node], event: Event) -> Event:
    """An event that is possible, with its message."""
    carried = state.carried(event)
    return replace(event, message=carried) if isinstance(carried, Message) else event
