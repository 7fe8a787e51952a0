"""Runs without a clock: by a policy, step by step, or every schedule of a tiny network; with rules left out if wanted.

Play a run by a policy, and write it as a transcript; make one step by step, in which node 2 takes a message from node
1, and then node 1 one from node 2; and search all schedules:

>>> from forestplan.definitions import PROGRAMS
>>> from forestplan.networks import path
>>> from forestplan.schedules import AlphaSpace, Stepwise, played, text_of_run
>>> print("\\n".join(text_of_run(path(2), played(path(2), policy="oldest")).splitlines()[:2]))
transcript 2 2
1 1 put 2 payload 0 hello 1
>>> run = Stepwise(path(2))
>>> run.possible()
['1-2', '2-1']
>>> run.follow(["2-1", "1-2"])
>>> run.words_under_way()
[(1, 2, ['ack 0']), (2, 1, ['ack 0'])]
>>> space = AlphaSpace(path(2), program=PROGRAMS["leader"]).search()
>>> [space.results(end) for end in space.ends], space.faults
([{1: 'leader 2', 2: 'leader 2'}], {})

`POLICIES` has the ten policies. The modules:

    policies            who decides what happens next: the ten habits of an adversary
    simulate            a run by a policy or a list of events; its transcript; the command `forestlab simulate`
    stepwise            a run that someone makes step by step
    reacting_stepwise   the same of nodes that react to messages
    space               every schedule: all states, the steps between them, a shortest list of events to a fault
    alpha_space         every schedule under synchroniser alpha
    reacting_space      every schedule of nodes that react to messages; how much they may keep
    extent              how many schedules there are, how long they are, and whether some never end
    reacting_runs       random runs of nodes that react to messages
    reacting_words      what is said of all their schedules, or of many runs
    own_rounds          the rounds of a program of one's own, on one network or on many random ones
    rules               the rules that can be left out
    ruled_node          a node under the synchroniser with rules left out
    ruled_rounds        the rounds with rules left out, and a smallest network on which they go wrong
    explore             the command `forestlab explore`
"""

from typing import TYPE_CHECKING

from forestplan.public_names import finder

# For checkers of types and editors alone.
if TYPE_CHECKING:
    from forestplan.schedules.alpha_space import AlphaSpace
    from forestplan.schedules.extent import Extent, extent_of
    from forestplan.schedules.policies import POLICIES, Policy, Step
    from forestplan.schedules.ruled_rounds import ruled
    from forestplan.schedules.simulate import events_of, played, text_of_run
    from forestplan.schedules.stepwise import Stepwise

__all__ = [
    "AlphaSpace",
    "Extent",
    "POLICIES",
    "Policy",
    "Step",
    "Stepwise",
    "events_of",
    "extent_of",
    "played",
    "ruled",
    "text_of_run",
]
# The module of each of these names.
MODULES = {
    "forestplan.schedules.alpha_space": "AlphaSpace",
    "forestplan.schedules.extent": "Extent extent_of",
    "forestplan.schedules.policies": "POLICIES Policy Step",
    "forestplan.schedules.ruled_rounds": "ruled",
    "forestplan.schedules.simulate": "events_of played text_of_run",
    "forestplan.schedules.stepwise": "Stepwise",
}

__dir__ = __all__.copy


if not TYPE_CHECKING:
    __getattr__ = finder(__name__, MODULES)
