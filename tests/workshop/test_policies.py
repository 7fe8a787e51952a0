"""Each policy on steps of which it is plain by its rule which one it chooses."""
from forestplan.definitions.events import Kind
from forestplan.schedules.policies import POLICIES, Policy, Step
from forestplan.workshop.cases import NETWORKS, cases_of
from tests.cases import Case
from tests.workshop.base import options_of

VERTICES, EDGES = [1, 2, 3], [(1, 2), (2, 3)]
# Links 2-1, 1-2 and 2-3 hold wires, and node 3 can make a pulse: put first is the safe, last the second wire of 2-1.
STEPS = [
    Step(Kind.TAKE, 1, 2, "ack", 3, 9),
    Step(Kind.TAKE, 2, 1, "safe", 1, 1),
    Step(Kind.TAKE, 3, 2, "payload", 4, 4),
    Step(Kind.PULSE, 3, 0, "", 2, 2),
]
# By policy, which of the steps it chooses: of all, or by the edge or the node that the seed chose.
RIGHT = {
    "random": {0, 1, 2, 3},
    "newest": {0},
    "oldest": {1},
    "late-acks": {1, 2, 3},
    "late-safes": {0, 2, 3},
    "in-turn": {0, 1, 2, 3},
    "slow-link": {(1, 2): {2, 3}, (2, 3): {0, 1, 3}},
    "slow-node": {1: {1, 2, 3}, 2: {0, 2, 3}, 3: {0, 1}},
    "fast-node": {1: {0}, 2: {1}, 3: {2, 3}},
}


def chosen(name, seed="1", count=60, steps=STEPS):
    policy = Policy(name, VERTICES, EDGES, seed)
    return policy, [steps.index(policy.choose(steps)) for _ in range(count)]


class Policies(Case):
    def test_by_their_rules(self):
        """And the same seed chooses the same."""
        for name, right in RIGHT.items():
            for seed in map(str, range(6)):
                policy, steps = chosen(name, seed)
                wanted = right[policy.chosen] if isinstance(right, dict) else right
                self.same(f"{name} {seed}", (set(steps), steps), (wanted, chosen(name, seed)[1]))
        self.assertNotEqual(chosen("random", "7")[1], chosen("random", "8")[1])

    def test_a_network_without_edges(self):
        """It has no slow link."""
        step = Policy("slow-link", [1], [], "1").choose([Step(Kind.PULSE, 1)])
        self.same("the node", step.node, 1)

    def test_bursts_stay_on_a_link_and_turns_go_round(self):
        policy = Policy("bursts", VERTICES, EDGES, "1")
        first = policy.choose(STEPS)
        self.assertTrue(all(policy.choose(STEPS) is first for _ in range(20)))
        self.assertIsNot(policy.choose([step for step in STEPS if step is not first]), first)
        # By link: 1-2, 2-1, 2-3, and node 3 by itself.
        self.assertEqual(chosen("in-turn", count=8)[1], [1, 0, 2, 3, 1, 0, 2, 3])

    def test_the_runs_play_all_of_them(self):
        """A hundred runs of the twelve networks have all ten policies; ten for each network have each on it once."""
        self.assertEqual({case.policy for case in cases_of(options_of("alpha"))}, set(POLICIES))
        for names, runs in ((NETWORKS.split(","), "120"), (["two"], "10")):
            pairs = [
                (case.network.name, case.policy)
                for case in cases_of(options_of("alpha", *names, "--runs", runs))
            ]
            self.assertEqual(
                sorted(pairs), sorted((name, policy) for name in names for policy in POLICIES)
            )
