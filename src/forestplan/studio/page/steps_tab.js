// The tab Adversary: whoever looks is the network, and chooses which message is taken next and which node pulses.
import {all, announce, asks, by, capital, count, go, hello, hooks, leftOutWords, option, programNamed, ruleBoxes, rulesOf, seen,
  show, showOptions, stage, tabs, toggleLazy, toggleSlow, wrong} from "./base.js";
import {keep, keptNumbers} from "./kept.js";
import {html, isColour, sentence} from "./marks.js";
import {MESSAGES, hueOf, reactedMarks, reactedWords} from "./messages.js";
import {neighbours, net, text} from "./model.js";
import {enterFile, markRan, reacts} from "./own.js";
import {Question} from "./predict.js";
import {fileSays, keptLine, sendsQuestion} from "./reactions.js";
import {alphaMarks, foundWords, heldEdge, lookWords, queueMarks, waitsWords} from "./run.js";
import {nameOf} from "./stage.js";

// `made` are the steps so far, as `3` (node 3 makes its next pulse) or `2-1` (node 2 takes the next wire from node 1).
/** @type {Steps} */
export const steps = {made: [], found: null, without: "", predicts: false, dare: ""};
/** @returns {Asked | null} */
function questionHere() {
  const {node} = seen, {without, made, found} = steps, program = programNamed();
  if (!steps.predicts) return null;
  if (found && found.nodes) return sendsQuestion(found, node, {network: text(), program, without, steps: made.join("_")});
  if (!node || !found) return {text: "Click a node that can’t make its pulse: what does it wait for?"};
  const look = found.looks[node - 1], kinds = look && look.pulse < found.last ? ["ack", "safe"] : ["close"];
  const choices = neighbours(node).flatMap(w => kinds.map(kind => `${kind} ${w}`));
  return {text: `What does node ${node} wait for? Tick it, or nothing.`, call: "waits", choices,
    asked: {network: text(), program, without, steps: made.join("_"), node}};
}
const question = new Question("question2", questionHere, () => {
  const is = questionHere();
  if (is && is.call === "sends") return make(is.asked.step);
  // One step more, and another node.
  seen.node = (seen.node || 0) % net.nodes.length + 1;
  goOn(() => ask({by: 1, seed: seed()}));
});
const KEYED = 9;

// How many calls are under way, and what was clicked in the meantime: that is done after them.
let asking = 0;
/** @type {(() => unknown)[]} */
let later = [];
const MOST_LATER = 20;
/** @param {Partial<StepsCall>} more */
async function ask(more = {}) {
  const {slow, lazy} = seen, {without, made, dare} = steps, program = programNamed();
  begun(1);
  const isFound = await asks("steps", {network: text(), program, slow, lazy, without, dare, steps: made.join("_"), ...more},
    "playing these steps", found => { Object.assign(steps, {found: found.nodes ? found : begunLast(found), made: found.made}); show(); });
  begun(-1);
  const next = asking ? undefined : later.shift();
  if (next) next();
  return isFound;
}
// The node whose program refuses a pulse has begun this pulse: so the picture has it, as the words do.
/** @param {StepsFound} is @returns {StepsFound} */
function begunLast(is) {
  const v = refusedAt(is);
  return v ? {...is, looks: is.looks.map((look, k) => k + 1 === v ? {...look, pulse: look.pulse + 1, safe: false, waits: []} : look)} : is;
}
// The node whose program has refused its pulse, by which the run has ended; or 0.
/** @param {StepsFound} is */
function refusedAt({over, made}) {
  const last = made[made.length - 1] || "";
  return over && !last.includes("-") ? +last : 0;
}
/** @param {number} more */
function begun(more) { asking += more; }
// A step is made after the one before, and so is what is clicked while that is being worked out.
/** @param {() => unknown} does */
function goOn(does) {
  if (!asking) does();
  else if (later.length < MOST_LATER) later.push(does);
}
/** @param {() => string[]} made */
function from(made) { goOn(() => ask({steps: made().join("_")})); }
// Whether a step is held: a pulse by its node, and a message by its link.
/** @param {string} step */
function isHeld(step) {
  const [v, w] = step.split("-").map(Number);
  if (!w) return seen.lazy.includes(v);
  return seen.slow.some(e => e.join("-") === [v, w].sort((a, b) => a - b).join("-"));
}
/** @param {string} step */
function isFree(step) { return steps.found !== null && steps.found.steps.includes(step) && !isHeld(step); }
/** @param {string} step */
function make(step) { goOn(() => { if (isFree(step)) ask({steps: steps.made.concat(step).join("_")}); }); }
/** @param {[number, number, string[]]} link */
function queue([v, w, wires]) {
  return queueMarks(stage, v, w, wires, place => {
    const step = `${w}-${v}` + (place ? "-" + place : ""), free = isFree(step);
    return {free, "data-step": free ? step : null};
  }, reacts() ? MESSAGES : undefined);
}
// What is drawn of the nodes, and said of them.
/** @param {AnySteps & (StepsFound | ReactionsFound)} is */
function nodesDrawn(is) {
  if (is.nodes) {
    const {nodes} = is;
    return {below: true, says: (/** @type {number} */ v) => reactedWords(nodes[v - 1]),
      node: (/** @type {number} */ v, /** @type {number} */ x, /** @type {number} */ y, /** @type {number} */ r) =>
        reactedMarks(stage, nodes[v - 1], v, x, y, r)};
  }
  // What is asked of a node isn't on the network before it is answered.
  const hidden = hiddenNode(), {looks} = is;
  /** @param {number} v */
  const look = v => v === hidden ? {...looks[v - 1], waits: [], safe: false} : looks[v - 1];
  return {below: typeof looks[0].found === "string", says: (/** @type {number} */ v) => saysOf(is, v),
    node: (/** @type {number} */ v, /** @type {number} */ x, /** @type {number} */ y, /** @type {number} */ r) =>
      alphaMarks(stage, look(v), v, x, y, r)};
}
function showAt() {
  const is = steps.found;
  if (!is || (is.nodes || is.looks).length !== net.nodes.length) return false;
  const slow = new Set(seen.slow.map(e => e.join("-")));
  question.show();
  const hidden = hiddenNode(), stopped = is.nodes ? 0 : refusedAt(is);
  stage.draw({...nodesDrawn(is), bars: false, apart: 4.6,
    rings: v => [v === stopped && "var(--wrong)", v !== hidden && isFree(String(v)) && "var(--good)", v === seen.node && "var(--edge)"].filter(isColour),
    label: v => nameOf(net, v) + (seen.lazy.includes(v) ? " (held)" : ""),
    edge: (v, w) => heldEdge(v, w, slow.has(v + "-" + w)), above: () => is.wires.flatMap(queue)});
  if (is.ran) markRan([is.ran.function], is.ran.node);
  sayWhere(is);
  showDare(is.dare);
  listSteps(is);
  by("list").value = is.list.join("\n") + "\n";
  by("list").scrollTop = by("list").scrollHeight;
  by("undostep").disabled = by("anew").disabled = !steps.made.length;
  [by("chance"), by("chance20"), by("instep")].forEach(one => { one.disabled = is.over || !is.steps.some(isFree); });
  if (is.nodes) { by("instep").disabled = true; offerDares(is.dares); }
}
// The node of which it is asked what it waits for, as long as that isn't answered.
function hiddenNode() { return steps.predicts && !reacts() && !question.isTold ? seen.node : null; }
// What is said of a node: what it waits for isn't, if that is asked; and in a run that has ended it waits for nothing.
/** @param {StepsFound} is @param {number} v */
function saysOf(is, v) {
  const look = is.looks[v - 1];
  if (steps.predicts) return `pulse ${look.pulse}`;
  return is.over ? [`pulse ${look.pulse}`, foundWords(look)].filter(Boolean).join(", ") : lookWords(look, is.last);
}
// The least steps in which each task was won in this browser, of the latest ones: a task is a dare, a network, a
// program and rules that are left out.
const BEST = "studio-best", MOST_KEPT = 40;
/** @param {DareJudged} dare */
function bestOf({won}) {
  const task = JSON.stringify([steps.dare, steps.without, programNamed(), text()]), best = keptNumbers(BEST);
  const before = best.get(task), now = steps.made.length;
  if (!won || before !== undefined && before <= now) return before;
  best.delete(task);
  keep(BEST, JSON.stringify(Object.fromEntries(Array.from(best.set(task, now)).slice(-MOST_KEPT))));
  return now;
}
// The card of a dare: its goal, the rules that are left out, and how far it is; of one that nobody can win, that this
// is proved. Who has won hands in the link, and who sets it as a task copies it without the steps.
/** @param {DareJudged | null | undefined} dare */
function showDare(dare) {
  const card = by("dared");
  card.hidden = !dare;
  if (!dare) return;
  const goal = `I dare you to ${daresHere()[steps.dare].goal}.`;
  const rules = steps.without ? `Left out: ${steps.without.split(",").join(", ")}.` : "All rules are kept.";
  const best = bestOf(dare), ever = best === undefined ? "not won yet" : `won in ${count(best, "step")}`;
  const copy = html("button", dare.won ? "copy the link to hand in" : "copy this as a task", {class: dare.won ? "primary" : "quiet"});
  copy.onclick = () => hooks.copy(copy, dare.won ? {} : {steps: []});
  const head = dare.won ? [html("b", `☑ Won in ${count(steps.made.length, "step")}`, {class: "banner"}), html("p", goal)] : [html("b", `☐ ${goal}`)];
  const far = dare.won ? `${capital(dare.said)}.` : `Not yet: ${dare.said}.`;
  const foot = html("p", `${rules} Best so far: ${ever}. `, {class: "soft"});
  foot.append(copy);
  card.className = dare.won ? "card won" : "card";
  card.replaceChildren(...head, sentence(far), dare.impossible ? sentence(`${dare.impossible}.`, {class: "tells"}) : "", foot);
  showDares();
}
// The menu of the dares, in which those that this browser has won with a rule left out or with all of them are ticked.
function showDares() {
  const won = new Set(Array.from(keptNumbers(BEST).keys(), task => task.slice(2, task.indexOf('"', 2))));
  Array.from(by("dare").options).filter(one => one.value).forEach(one => {
    const said = daresHere()[one.value];
    if (said) one.textContent = said.title + (won.has(one.value) ? " ✓" : "");
  });
}
// The dares of the program; those of a file make sense only if it has their function.
function daresHere() { return reacts() ? hello().own_dares : hello().dares; }
/** @param {string[]} names */
function offerDares(names) {
  const list = by("dare"), key = names.join();
  if (list.dataset.of !== key) {
    list.dataset.of = key;
    list.replaceChildren();
    option(list, "", "none");
    names.forEach(name => option(list, name, daresHere()[name].title, daresHere()[name].goal));
  }
  list.value = steps.dare;
  showDares();
}
// Why nothing goes on, or that all is done; what is under way then is taken by nodes that have halted.
/** @param {StepsFound} is @returns {[string, string] | null} */
function endWords(is) {
  if (is.over) {
    const isTake = (steps.made[steps.made.length - 1] || "").includes("-");
    return [`${isTake ? "The node can’t take that" : "Its program refuses that"}, so the run ends here: go back.`, "bad"];
  }
  if (is.looks.every(look => look.done)) {
    return [`All have halted: ${is.looks.map(look => look.found).join(", ")}.`
      + (is.steps.length ? " What is still under way changes no result." : ""), "good"];
  }
  if (!is.steps.length) return ["Nothing can happen, and not all are done.", "bad"];
  return is.steps.some(isFree) ? null : ["All that could happen is held.", "soft"];
}
/** @param {StepsFound | ReactionsFound} is */
function sayWhere(is) {
  const box = by("stepsaid"), n = steps.made.length, end = is.nodes ? null : endWords(is);
  const lines = [html("b", n ? `${n}: ${is.said}.` : "Choose what comes first.")], isWon = Boolean(is.dare && is.dare.won);
  // What a dare asks for may be what a program refuses.
  if (is.fault) lines.push(sentence(`${isWon ? "" : "✗ "}${capital(is.fault)}.`, {class: isWon ? "soft" : "bad"}));
  if (end) lines.push(html("p", end[0], {class: isWon ? "soft" : end[1]}));
  if (is.nodes) lines.push(...fileSays(is, !is.steps.some(isFree)));
  else if (is.judge) lines.push(judgement(is.judge, is));
  box.replaceChildren(...lines);
  const ran = is.ran ? `${is.ran.function} ran.` : "";
  announce(lines.map(line => line.textContent).concat(ran).join(" "));
}
/** @param {Replayed} judge @param {StepsFound} is */
function judgement(judge, is) {
  const agrees = judge.ok && judge.pulses.every((p, k) => p === is.looks[k].pulse);
  const where = agrees ? "at these pulses" : "elsewhere";
  const said = judge.ok ? `accepts these ${is.entries} entries, and its nodes are ${where}.` : judge.said;
  return sentence(`${agrees ? "✓" : "✗"} ${judge.by} ${said}`, {class: agrees ? "good" : "bad"});
}
// What can happen now, node by node, as buttons; of a large network the chosen node's, or the first ones.
/** @param {StepsFound | ReactionsFound} is */
function listSteps(is) {
  const place = by("possible"), on = document.activeElement;
  const focus = on instanceof HTMLElement && place.contains(on) ? on.dataset.key : null;
  const few = net.nodes.length <= 12;
  /** @type {Map<number, string[]>} */
  const byNode = new Map();
  is.steps.forEach(step => { const v = parseInt(step, 10); byNode.set(v, (byNode.get(v) || []).concat(step)); });
  let keyed = 0;
  const rows = net.nodes.map((_, k) => k + 1).filter(v => few || (seen.node ? v === seen.node : byNode.has(v)));
  place.replaceChildren(...rows.slice(0, 14).map(v => {
    const line = html("div", null, {class: "possible"}), own = is.nodes ? "act" : "pulse", hold = html("button",
      seen.lazy.includes(v) ? "let go" : `hold its ${own}`, {class: "quiet", "data-key": "hold " + v,
        "aria-label": `hold the ${own} of node ${v}`, "aria-pressed": seen.lazy.includes(v)});
    hold.onclick = () => { toggleLazy(v); show(); };
    // A file without acts has none to hold.
    hold.hidden = is.nodes !== undefined && !is.nodes.some(one => one.able || one.acts);
    line.append(html("b", `node ${v} `), html("span", `${rowWords(is, v)} `, {class: "soft"}), hold);
    if (is.nodes && (few || v === seen.node)) line.append(keptLine(is.nodes[v - 1]));
    (byNode.get(v) || []).forEach(step => {
      // That a node can make its pulse says that it waits for nothing.
      if (v === hiddenNode() && !step.includes("-")) return;
      const free = isFree(step), button = html("button", null, {"data-step": step, "data-key": step,
        class: kindOf(is, step)});
      if (free && keyed < KEYED) button.append(html("kbd", ++keyed), " ");
      button.append(saidOf(is, step));
      if (is.nodes && step.includes("-")) [button.style.background, button.style.color] = hueOf(wireOf(is, step));
      button.disabled = !free;
      button.onclick = () => make(step);
      line.append(button);
    });
    return line;
  }));
  if (rows.length > 14) place.append(html("p", `and ${rows.length - 14} more nodes: click one`, {class: "soft"}));
  if (focus) (all("#possible [data-key]").find(one => one.dataset.key === focus) || all("#possible [data-step]")[0]
    || place).focus();
}
// What is said of a node before what can happen at it.
/** @param {StepsFound | ReactionsFound} is @param {number} v */
function rowWords(is, v) {
  if (is.nodes) return reactedWords(is.nodes[v - 1], true);
  const look = is.looks[v - 1];
  const waits = look.done ? "done" : "waits for " + waitsWords(look, is.last);
  return `pulse ${look.pulse}${steps.predicts || is.over ? "" : ", " + waits}`;
}
/** @param {AnySteps} is @param {string} step */
function wireOf(is, step) {
  const [w, v, place] = step.split("-").map(Number), found = is.wires.find(one => one[0] === v && one[1] === w);
  return found ? found[2][place || 0] : "";
}
/** @param {StepsFound | ReactionsFound} is @param {string} step */
function kindOf(is, step) {
  if (!step.includes("-")) return "pulse";
  return is.nodes ? "message" : wireOf(is, step).split(" ")[0];
}
/** @param {StepsFound | ReactionsFound} is @param {string} step */
function saidOf(is, step) {
  const [v, w, place] = step.split("-").map(Number);
  if (!w) return is.nodes ? "act" : `make pulse ${is.looks[v - 1].pulse + 1}`;
  const said = wireOf(is, step);
  return `${is.nodes ? said : said.replace(/^payload \d+ /, "")} from ${w}` + (place ? `, before ${place} others` : "");
}
tabs.adversary = {
  show: showAt,
  hint: () => steps.found && !steps.found.steps.length ? "Nothing can happen any more: go back, or start again."
    : `Click a message to have it taken, ${reacts() ? "a ringed node to have it act" : "a node in a green ring to make its pulse"}, an edge to hold it.`,
  click(v, edge, event, step) {
    if (step) return make(step);
    if (v && steps.found && !steps.predicts && isFree(String(v))) return make(String(v));
    if (v) { seen.node = v === seen.node ? null : v; return show(); }
    if (edge) { toggleSlow(edge); show(); }
  },
  key(event, on) {
    if (on) return false;
    /** @type {Record<string, HTMLElement | undefined>} */
    const tools = {u: by("undostep"), Backspace: by("undostep"), r: by("chance"), s: by("instep")};
    const made = all("#possible [data-step]:not(:disabled)");
    const chosen = /^[1-9]$/.test(event.key) ? made[+event.key - 1] : tools[event.key];
    if (chosen) chosen.click();
    return Boolean(chosen);
  },
  enter(more = {}) {
    const {orders, links} = hello().rules, rules = reacts() ? links : orders;
    by("program3").value = seen.program;
    showOptions();
    enterFile();
    leaveWhatIsOfOthers(rules);
    ruleBoxes("without", rules, steps.without, leaveOut);
    by("rule").textContent = leftOutWords(rules, steps.without);
    offerDares(Object.keys(daresHere()));
    by("handover").disabled = Boolean(steps.without);
    by("handoversaid").textContent = steps.without ? "The tab No clock keeps all rules, so it can’t go on from here." : "";
    steps.found = null;
    later = [];
    [by("anew"), by("undostep"), by("chance"), by("chance20"), by("instep")].forEach(one => { one.disabled = true; });
    [by("stepsaid"), by("possible")].forEach(one => one.replaceChildren());
    by("question2").hidden = true;
    // The card of the dare has its place before it is known how far the dare is.
    showDare(steps.dare ? {won: false, said: "…", impossible: ""} : null);
    markRan([], 0);
    if (more.fresh) steps.made = [];
    ask();
  },
  link() {
    const {made, without, predicts, dare} = steps;
    return {steps: made, without, predict: predicts, dare, node: seen.node};
  },
  follow({tab, steps: made = [], without = "", predict = false, dare = ""}) {
    Object.assign(steps, {without, predicts: predict, dare, made: tab === "adversary" ? made : []});
    by("predicts2").checked = predict;
  },
};
// What nodes without rounds have no use for is hidden: pulses in step, and the tab No clock. What isn't a rule or
// a dare of the program is chosen no more.
/** @param {Rules} rules */
function leaveWhatIsOfOthers(rules) {
  const isWithoutRounds = reacts();
  [by("instep"), by("instepsaid"), by("handoverbox")].forEach(one => { one.hidden = isWithoutRounds; });
  by("drawnbox").hidden = !isWithoutRounds;
  by("listfor").textContent = isWithoutRounds ? `forestlab simulate --program ${seen.program}.py --events` : "forestplay events";
  all(".noown").forEach(one => { one.hidden = Object.keys(hello().own).some(name => !hello().samples.includes(name)); });
  steps.without = rulesOf(rules, steps.without);
  if (!Object.hasOwn(daresHere(), steps.dare)) steps.dare = "";
}
// After the file has been changed the same steps are made again, if they are possible.
export async function makeAgain() {
  steps.found = null;
  if (await ask() || !steps.made.length || seen.tab !== "adversary") return;
  steps.made = [];
  if (await ask()) wrong("The file has changed, and the steps so far aren’t possible any more: the run begins again.");
}
/** @param {string} left */
function leaveOut(left) {
  steps.without = left;
  tabs.adversary.enter({fresh: true});
  hooks.link();
}
function seed() { return String(Math.floor(Math.random() * 1e9)); }
by("undostep").onclick = () => from(() => steps.made.slice(0, -1));
by("chance").onclick = () => goOn(() => ask({by: 1, seed: seed()}));
by("chance20").onclick = () => goOn(() => ask({by: 20, seed: seed()}));
by("instep").onclick = () => goOn(() => ask({in_step: true}));
by("anew").onclick = () => from(() => []);
by("handover").onclick = () => { by("made").value = "seed"; go("run", {steps: steps.made, at: 0}); };
by("drawnrun").onclick = () => go("pictures", {kind: "run"});
by("playlist").onclick = () => ask({list: by("list").value});
by("program3").onchange = () => { seen.program = by("program3").value; tabs.adversary.enter({fresh: true}); };
by("predicts2").onchange = () => { steps.predicts = by("predicts2").checked; show(); hooks.link(); };
by("dare").onchange = () => { steps.dare = by("dare").value; ask(); hooks.link(); };
