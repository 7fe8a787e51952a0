"""The address of the studio's page in a browser: what the page wrote before there was one reader of addresses it still
writes in the same letters, and shows again; random states come back; and what can't be read is refused and said."""

import json
import random

from typing import get_args

from forestplan.studio.address import NAMES
from forestplan.studio.answers import TabName
from tests.pages.test_studio_page import Page
from tests.programs.test_addresses import TWO, random_state, rounded, stored

STATES, SEED = 24, 331
# What the page shows, and what is in its fields. A node's label and its side aren't in an address: they follow from it.
STATE = """(() => { const {net, seen, run, rounds, check, steps} = studio, by = id => document.getElementById(id);
  const {tab, program, passes, root, slow, lazy, node, lesson, lecture} = seen, isRun = tab === "run";
  const kind = document.querySelector("[data-kind][aria-pressed=true]");
  return {tab, program, passes, root, slow, lazy, node, lesson, lecture, step: lesson && seen.step,
    nodes: net.nodes.map(({label, side, ...node}) => node), edges: net.edges,
    broken: rounds.without, without: steps.without,
    predict: tab === "adversary" ? steps.predicts : rounds.predicts,
    dare: steps.dare, steps: isRun ? run.steps : steps.made, other: run.other, how: by("made").value,
    policy: by("policy").value, seed: by("seed").value, beside: by("beside").checked,
    plan: check.plan.slice(0, check.plan.findLastIndex(Boolean) + 1),
    kind: tab === "pictures" ? kind.dataset.kind : null}; })()"""
# Makes the page show a state, and gives the address that it writes; "" if Chromium ignores a change of it, as in go_to.
WRITE = """(s => { const {net, seen, time, run, rounds, check, steps} = studio, by = id => document.getElementById(id);
  history.replaceState("before", "", location.href);
  if (history.state !== "before") return "";
  time.stop();
  if (s.tab === "pictures") document.querySelector(`[data-kind=${s.kind}]`).click();
  Object.assign(net, {name: "", nodes: s.nodes || net.nodes, edges: s.edges || net.edges, example: s.example || ""});
  Object.assign(seen, {tab: s.tab, program: s.program, passes: s.passes, root: s.root, slow: s.slow, lazy: s.lazy,
    node: s.node, lesson: s.lesson, step: s.step, lecture: s.lecture});
  time.at = s.at;
  Object.assign(rounds, {forest: s.forest, without: s.broken, predicts: s.predict});
  Object.assign(steps, {made: s.steps, without: s.without, predicts: s.predict, dare: s.dare});
  Object.assign(run, {steps: s.steps, other: s.other});
  check.plan = s.plan;
  by("made").value = s.how;
  by("policy").value = s.policy;
  by("seed").value = s.seed;
  by("beside").checked = s.beside;
  by("copy").onclick();
  return history.state === null ? location.hash : ""; })"""
# What a tab says, besides what all say; the rest of a state isn't in its address.
ALL = ("tab", "program", "lesson", "step", "lecture", "nodes", "edges")
SAID = {
    "draw": (),
    "rounds": ("node", "broken", "predict"),
    "run": ("slow", "lazy", "policy", "seed", "how", "steps", "node", "other", "beside"),
    "adversary": ("slow", "lazy", "steps", "without", "predict", "dare", "node"),
    "check": ("plan",),
    "pictures": ("kind", "node"),
}
# What a state has that says nothing.
NOTHING: dict[str, object] = {
    **{"passes": 1, "root": None, "slow": [], "lazy": [], "node": None, "at": 0},
    **{"lesson": None, "step": None, "lecture": None},
    **{"forest": 0, "broken": "", "predict": False, "without": "", "dare": "", "steps": []},
    **{"other": None, "how": "seed", "policy": "random", "seed": "1", "beside": False},
    **{"plan": [], "kind": "plan"},
}


def whole_state(state):
    """A random state as the page can be in it."""
    network = rounded(state["net"])
    found = NOTHING | state | {"nodes": network["nodes"], "edges": network["edges"]}
    if found["how"] == "threads":
        found |= {"policy": "random", "seed": "1"}
    found["step"] = found["lesson"] and (found["step"] or 1)
    found["plan"] = [0] * len(network["nodes"]) if found["tab"] == "check" else []
    if found["tab"] == "check":
        given = state.get("plan", [])
        found["plan"] = [*given, *found["plan"]][: len(network["nodes"])]
    return found


def compared(state):
    """What has to come back of a state. Of the pulse and the forest the page shows only those that there are."""
    names = list(ALL) + list(SAID[state["tab"]])
    names += {"recolouring": ["passes"], "layers": ["root"]}.get(state["program"], [])
    # Nodes without a channel come last.
    found = state | {"plan": filled(state["plan"])}
    return {name: found[name] for name in names if name in found}


def filled(plan):
    """A plan up to the last node that has a channel."""
    return plan[: max((k for k, channel in enumerate(plan, 1) if channel), default=0)]


class StudioAddresses(Page):
    def begin(self):
        """The page shows two nodes, and has followed their address."""
        self.go_to(TWO + "&tab=check")

    def written(self, state):
        """The address that the page writes of a state."""
        self.page.until(f"window.place = {WRITE}({json.dumps(state)})", 60)
        return self.value("place")

    def follow(self, place, state):
        """The row of an address that is followed: the page comes to show the state."""
        wanted = compared(state)
        self.begin()
        self.go_to(place)
        same = f"Object.entries({json.dumps(wanted)}).every(([name, value]) => "
        same += f"JSON.stringify({STATE}[name]) === JSON.stringify(value))"
        self.page.until(same, 60)
        found = self.value(STATE)
        self.same(place[:200], {name: found[name] for name in wanted}, wanted)
        said = self.page.text("wrong")
        self.note(f"{place[:200]}: all of it is read", "in the address" not in said, said)

    def test_written_before(self):
        for place, state in stored()[1]:
            self.follow(place, NOTHING | {"step": 1 if state.get("lesson") else None} | state)

    def test_written_alike(self):
        """Of each state that is stored the page writes the address that it wrote."""
        self.begin()
        for place, state in stored()[1]:
            if "nodes" in state:
                given = NOTHING | state | {"kind": state["kind"] or "plan"}
                self.same(place[:200], self.written(given), place)

    def test_random_states(self):
        source, names, tabs = random.Random(SEED), set(), get_args(TabName)
        for k in range(STATES):
            state = whole_state(random_state(source) | {"tab": tabs[k % len(tabs)]})
            self.begin()
            place = self.written(state)
            names |= {part.partition("=")[0] for part in place[1:].split("&")}
            self.follow(place, state)
        self.same("all names", names, set(NAMES) - {"example", "play"})

    def test_refused(self):
        """What the command refuses the page refuses, too, and says what is wrong."""
        for address, said in (
            (f"{TWO}~i1-1x7~b1-zz&tab=draw", "the identifier of node 1 is 1x7"),
            (f"{TWO}~b1-zz&tab=draw", "the channel zz is barred at node 1"),
            (f"{TWO}&tab=adversary&dare=apart&dare=wrong", "dare (it is there twice)"),
            (f"{TWO}&tab=adversary&steps=٣", "٣ is no step"),
            (f"{TWO}&tab=rounds&program=layers&root=9", "root=9 (there is no node 9"),
            ("example=two&net=0.0&tab=draw", "one of them"),
        ):
            self.go_to("example=petersen&tab=draw")
            self.sees("a network", "studio.net.nodes.length === 10 && studio.drawn.plan")
            self.go_to(address)
            got = f"document.getElementById('wrong').textContent.includes({json.dumps(said)})"
            self.sees(f"the address {address}", got)
            if "net=" in address and "tab=draw" in address:
                self.reads("the network is as it was", "studio.net.nodes.length", 10)
