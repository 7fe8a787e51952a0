// The tab No clock: a run by a seed or by real threads, its verdicts, another order or the rounds beside it.
import {call} from "./api.js";
import {KEYS, all, announce, by, capital, count, fill, hello, hide, messageOf, programNamed, progress, refill, say, sayLast, seen, show,
  showOptions, stage, tabs, time, timeAt, toggleLazy, toggleSlow, tried, wrong} from "./base.js";
import {net, text} from "./model.js";
import {rounds} from "./rounds_tab.js";
import {RunFilm, lookWords, waitsTable} from "./run.js";
import {Stage} from "./stage.js";

// `steps` come first, as the tab Adversary has made them; `other` is the policy and the seed of a second run.
/** @type {Run} */
export const run = {film: null, found: null, of: null, key: null, steps: [], transcript: null, other: null, film2: null,
  found2: null, key2: null, judgedAt: null, at: 0};
const second = new Stage(by("second"), net), small = new Stage(by("small"), net);
/** @type {(keyof Elements)[]} */
const SAID = ["judge", "judgehere", "same", "costs", "now", "apart", "table"];
let judgeTimer = 0;

function how() {
  return {how: by("made").value, policy: by("policy").value, seed: by("seed").value, workers: +by("workers").value,
    capacity: +by("capacity").value};
}
function asked() {
  const {slow, lazy} = seen, program = programNamed();
  return run.transcript ? {network: text(), program, transcript: run.transcript}
    : {network: text(), program, slow, lazy, steps: run.steps.join("_"), ...how()};
}
// Takes a run, or a part of one that is under way.
/** @param {RunFound} found @param {WholeRun | null} whole @param {{program: string, network: string}} asked */
function take(found, whole, {program, network}) {
  const film = new RunFilm(found, net);
  Object.assign(run, {found: whole, film, of: program + network, judgedAt: null});
  refill("table");
  by("judgehere").textContent = "";
  if (whole) return verdicts(whole, film, "");
  by("same").textContent = by("costs").textContent = "";
  by("judge").className = "verdict soft";
  by("judge").textContent = "This is its beginning: the rest is on its way.";
}
export async function load() {
  const wanted = asked(), key = JSON.stringify(wanted);
  if (key !== run.key) {
    /** @param {RunFound} found */
    const part = found => { take(found, null, wanted); place(time.at); };
    const got = await call("run", wanted, {progress, part});
    if (!got) return false;
    Object.assign(run, {key: "how" in wanted && wanted.how === "threads" ? null : key});
    take(got, got, wanted);
  }
  return await loadOther();
}
async function loadOther() {
  if (!run.other) { run.film2 = null; return true; }
  const wanted = {network: text(), program: programNamed(), how: "seed", ...run.other}, key = JSON.stringify(wanted);
  if (key === run.key2 && run.film2) return true;
  const got = await call("run", wanted, {progress, key: "run2"});
  if (!got) return false;
  const film = new RunFilm(got, net);
  Object.assign(run, {key2: key, film2: film, found2: got});
  verdicts(got, film, "2");
  return true;
}
// The run, if it is of the program and the network that are chosen.
function ready() { return run.film && run.of === programNamed() + text() ? run.film : null; }
/** @param {More} [more] */
function ask(more = {}) {
  const isSeed = by("made").value === "seed";
  if (!run.other) run.film2 = null;
  all(".seeded").forEach(one => { one.hidden = !isSeed; });
  all(".threads").forEach(one => { one.hidden = isSeed; });
  by("policysaid").textContent = !isSeed || run.transcript ? "" : capital(hello().policies[by("policy").value])
    + (seen.slow.length ? "; what goes over a dotted link waits" : "") + ".";
  by("handed").hidden = !run.steps.length && !run.transcript;
  by("handedsaid").textContent = run.transcript ? "This is the transcript of the tab Check."
    : `The first ${run.steps.length} steps are those of the tab Adversary.`;
  all(".other").forEach(one => { one.hidden = !run.other; });
  time.stop();
  // What is said of another run isn't left on the page while this one is worked out.
  if (JSON.stringify(asked()) !== run.key) SAID.forEach(id => { by(id).replaceChildren(); refill(id); });
  return tried("run", "playing the run", async () => {
    if (!await load() || seen.tab !== "run") return;
    if (by("beside").checked) await tabs.rounds.load();
    const last = place(time.at);
    if (last) sayLast(more, last, run.film2 ? "pulse" : "stamp");
    if (more.play) time.toggle();
    if (run.found && run.found.of) by("policysaid").textContent += ` Here it is ${run.found.of}.`;
    judgeSoon();
  });
}
function lay() {
  const is = {two: Boolean(run.film2), beside: by("beside").checked, long: isLong()};
  Object.entries(is).forEach(([name, isSo]) => by("stage").classList.toggle(name, seen.tab === "run" && isSo));
}
// Whether the network is so long that pictures of it go one below the other.
function isLong() {
  /** @type {(list: number[]) => number} */
  const span = list => Math.max(...list) - Math.min(...list);
  const {offsetWidth, offsetHeight} = by("stage");
  return span(net.nodes.map(n => n.x)) > 2 * span(net.nodes.map(n => n.y))
    || offsetWidth < Math.min(500, 1.3 * offsetHeight);
}
// Puts the slider to a place of the run that is there: a stamp, or of two runs a pulse.
/** @param {number} at */
function place(at) {
  if (seen.tab !== "run" || !run.film) return;
  lay();
  hide("second", !run.film2);
  hide("small", !by("beside").checked);
  stage.fit();
  const [low, high] = run.film2 ? pulses(run.film, run.film2) : run.film.table.stamps;
  time.range(low, high);
  time.set(at);
  return high;
}
// The pulses that both runs show; one more is their ends.
/** @param {RunFilm} one @param {RunFilm} other */
function pulses(one, other) {
  const a = one.found.pulses, b = other.found.pulses;
  return [Math.max(a[0], b[0]), Math.min(a[1], b[1]) + 1];
}
function showAt() {
  const film = ready();
  if (!film) return false;
  lay();
  stage.refit();
  // Threads wait for nobody.
  const only = by("payloads").checked, isSeed = by("made").value === "seed" && !run.transcript;
  const options = {node: seen.node, only, slow: isSeed ? seen.slow : [], lazy: isSeed ? seen.lazy : []};
  let at = 0;
  if (run.film2) {
    const here = film.atPulse(time.at), there = run.film2.atPulse(time.at);
    at = here.at;
    second.largest = stage.largest;
    second.refit();
    film.draw(stage, here.stamp, {...options, at});
    run.film2.draw(second, there.stamp, {...options, slow: [], lazy: [], at: there.at});
    say("now", `first run, stamp ${Math.floor(here.stamp)}: ${here.said}; second, stamp `
      + `${Math.floor(there.stamp)}: ${there.said}`);
    say("when", `pulse ${Math.floor(time.at)}`);
    say("apart", "");
  } else {
    at = film.draw(stage, time.at, options);
    say("now", `${capital(film.said(at))}.`);
    say("apart", apart(film, at));
    say("when", "stamp " + Math.floor(time.at));
  }
  run.at = at;
  const ofNode = seen.node ? ` Node ${seen.node}: ${lookWords(film.look(seen.node, at), film.found.last)}.` : "";
  const far = by("apart").getClientRects().length ? ` ${by("apart").textContent}` : "";
  announce(by("now").textContent + far + ofNode);
  // What the judge has said of another place isn't left beside this one.
  if (run.judgedAt !== at) say("judgehere", "");
  const results = run.found ? run.found.results : [], last = film.last(at);
  /** @type {(v: number, is: Look) => boolean} */
  const isFound = (v, is) => is.found === results[v - 1] && (is.done || is.pulse === film.found.last);
  fill("table", `${at} ${seen.node}`, () => [waitsTable(film.looks(at), {last: film.found.last, only: seen.node, lit: last && last[1],
    head: "found in the rounds", more: (v, is) => resultSaid(results[v - 1]) + (isFound(v, is) ? " ✓" : "")})]);
  showRounds(film.looks(at));
}
/** @param {number | string | undefined} result */
function resultSaid(result) { return typeof result === "number" ? `channel ${result}` : result || ""; }
// How far apart the pulses of neighbours are, and of all nodes.
/** @param {RunFilm} film @param {number} at */
function apart(film, at) {
  const looks = film.looks(at), [near, all_] = film.farthest(at);
  /** @type {(pairs: Edge[]) => number} */
  const most = pairs => Math.max(0, ...pairs.map(([v, w]) => Math.abs(looks[v - 1].pulse - looks[w - 1].pulse)));
  const pulses_ = looks.map(is => is.pulse), low = pulses_.indexOf(Math.min(...pulses_)) + 1;
  const high = pulses_.indexOf(Math.max(...pulses_)) + 1, far = most([[low, high]]);
  const now = far ? `Neighbours are at most ${count(most(net.edges), "pulse")} apart, and the nodes ${low} and ${high} are ${far} apart.`
    : "All nodes are at the same pulse.";
  return all_ ? `${now} So far it was at most ${near} for neighbours, and ${all_} for any two nodes.` : now;
}
// The rounds, small, at the pulse of the slowest node or of the one that is followed.
/** @param {Look[]} looks */
function showRounds(looks) {
  if (!by("beside").checked || !rounds.film || rounds.of !== programNamed() + text()) return say("besidesaid", "");
  const p = seen.node ? looks[seen.node - 1].pulse : Math.min(...looks.map(is => is.pulse));
  small.refit();
  rounds.film.draw(small, Math.min(p, rounds.film.last), {forest: rounds.forest, node: seen.node, quiet: true});
  by("small").setAttribute("aria-label", `the rounds, pulse ${p}`);
  say("besidesaid", ` (pulse ${p})`);
}
/** @param {"" | "2"} which */
function of_(which) { return which ? "Second run: " : ""; }
// What is said of a whole run; `which` is "2" of the other order beside it.
/** @param {WholeRun} found @param {RunFilm} film @param {"" | "2"} which */
function verdicts(found, film, which) {
  const {judge} = found, whole_ = "The whole run: ", entries = judge.entries.toLocaleString("en"), [same, pulses_, payloads] = found.same;
  const kinds = Object.entries(found.costs).map(([kind, count]) => `${count.toLocaleString("en")} ${kind}s`);
  by(`costs${which}`).textContent = `${of_(which)}over the links went ${kinds.join(", ")}.`;
  const judged = by(`judge${which}`), compared = by(`same${which}`), of = of_(which);
  judged.className = "verdict " + (judge.ok ? "good" : "bad");
  judged.textContent = of + (judge.ok ? `✓ ${whole_}${judge.by} accepts its ${entries} entries.`
    : `✗ ${judge.by}: ${judge.said}`);
  const end = film.table.rows.length;
  const ends = found.results.every((result, k) => film.look(k + 1, end).found === result);
  const said = `${same === pulses_ ? "✓" : "✗"} Beside the rounds: the same payloads in ${same} of ${pulses_} pulses `
    + `(${payloads.toLocaleString("en")} of them)`;
  compared.className = "verdict " + (same === pulses_ ? "good" : "bad");
  compared.textContent = of + said + (found.cut ? ", as far as it is shown." : ends ? ", and the same results." : ".");
}
function judgeSoon() {
  clearTimeout(judgeTimer);
  if (time.timer || run.film2 || hello().published) return;
  /** @param {unknown} fault */
  const fails = fault => wrong(messageOf(fault), "replay");
  judgeTimer = setTimeout(() => judgeHere().then(() => wrong("", "replay"), fails), 150);
}
// The judge plays the entries up to here, and says where each node is: the page's own account has to agree.
async function judgeHere() {
  const {at, found} = run, film = ready();
  // Before anything has happened there is nothing to judge.
  if (seen.tab !== "run" || !film || !found || !at || run.judgedAt === at) return;
  const lines = found.text.split("\n", at + 1).join("\n");
  const is = await call("replay", {network: text(), transcript: lines, program: programNamed()});
  if (!is || run.at !== at || run.found !== found) return;
  sayJudged(is, film, at);
}
/** @param {Replayed} is @param {RunFilm} film @param {number} at */
function sayJudged(is, film, at) {
  run.judgedAt = at;
  const agrees = is.ok && is.pulses.every((p, k) => p === film.look(k + 1, at).pulse);
  by("judgehere").className = "verdict " + (agrees ? "good" : "bad");
  by("judgehere").textContent = !is.ok ? `✗ Up to here: ${is.said}` : `${agrees ? "✓" : "✗"} Up to here it accepts `
    + `${is.entries.toLocaleString("en")} entries; its nodes are ${agrees ? "at the pulses shown" : "elsewhere"}, and `
    + (is.wires === 1 ? "1 wire is on its way." : `${is.wires} wires are on their way.`);
}
// A stored or a new transcript of the network; null if a later call has ended this one.
async function transcript() {
  const isThere = ready() && run.found || await load();
  return isThere && run.found ? run.found.text : null;
}
function lazyBox() {
  by("lazybox").hidden = !seen.node;
  by("lazy").checked = seen.lazy.some(v => v === seen.node);
  say("lazysaid", ` node ${seen.node} waits`);
}
tabs.run = {
  transcript, ask, stopped: judgeSoon,
  // A pulse takes two seconds, however many entries it has.
  rate: () => run.film2 || !run.film ? 0.5 : run.film.stampsOfPulse(time.at) / 2,
  show() { lazyBox(); judgeSoon(); return showAt(); },
  hint: () => `Click an edge to make its link wait, a node to follow it. ${KEYS}`,
  click(v, edge) {
    if (v) { seen.node = v === seen.node ? null : v; return show(); }
    if (!edge) return;
    toggleSlow(edge);
    by("made").value = "seed";
    ask();
  },
  enter(more = {}) {
    if (more.transcript !== undefined) Object.assign(run, {transcript: more.transcript || null, steps: []});
    if (more.steps) Object.assign(run, {transcript: null, steps: more.steps});
    by("program").value = seen.program;
    showOptions();
    ask(more);
  },
  leave() {
    by("stage").classList.remove("two", "beside", "long");
    hide("second", true);
    hide("small", true);
  },
  step(way) {
    if (run.film2) return time.set(way > 0 ? Math.floor(time.at + 1) : Math.ceil(time.at - 1));
    if (!run.film) return;
    const only = by("payloads").checked, {texts} = run.film.table;
    time.set(run.film.stepped(run.at, way, entry => (!only || / payload /.test(texts[entry[3]]))
      && (!seen.node || entry[1] === seen.node)));
  },
  link() {
    const is = how(), isSeed = is.how === "seed";
    return {at: timeAt(), how: isSeed ? null : is.how, policy: isSeed && is.policy !== "random" ? is.policy : null,
      seed: isSeed ? is.seed : null, steps: run.steps, node: seen.node, other: run.other, beside: by("beside").checked};
  },
  follow({tab, seed = "1", policy = "random", how: made = "seed", steps = [], other = null, beside = false}) {
    by("seed").value = seed;
    by("policy").value = policy;
    by("made").value = made;
    by("beside").checked = beside;
    Object.assign(run, {transcript: null, steps: tab === "run" ? steps : [], other});
    by("two").checked = Boolean(other);
    by("policy2").value = other ? other.policy : "newest";
    by("seed2").value = other ? other.seed : "2";
  },
};
[by("made"), by("policy"), by("seed"), by("workers"), by("capacity")].forEach(field => { field.onchange = () => ask(); });
by("program").onchange = () => { seen.program = by("program").value; time.at = 0; tabs.run.enter(); };
by("how").onsubmit = event => { event.preventDefault(); ask(); };
by("again").onclick = () => {
  const {value} = by("seed");
  if (by("made").value === "seed") by("seed").value = /^\d+$/.test(value) ? String(+value + 1) : "1";
  ask();
};
by("forget").onclick = () => { Object.assign(run, {steps: [], transcript: null}); ask(); };
by("payloads").onchange = show;
by("beside").onchange = () => ask();
[by("two"), by("policy2"), by("seed2")].forEach(field => {
  field.onchange = () => {
    run.other = by("two").checked ? {policy: by("policy2").value, seed: by("seed2").value} : null;
    // The place is kept: of one run it is a stamp, of two the pulse that all nodes have made.
    if (field.id === "two" && run.film) {
      time.at = run.other ? Math.min(...run.film.looks(run.at).map(is => is.pulse)) : run.film.atPulse(Math.floor(time.at)).stamp;
    }
    ask();
  };
});
by("lazy").onchange = () => {
  if (seen.node) toggleLazy(seen.node);
  by("made").value = "seed";
  ask();
};
