// The tab Check: a plan that is typed or clicked, with the verdict on it, and transcripts.
import {announce, asks, by, capital, hello, hooks, programNamed, show, stage, tabs} from "./base.js";
import {blank, channelCircle, html, isTouched, note, noteWidth, sentence} from "./marks.js";
import {net, neighbours, text} from "./model.js";

/** @type {{plan: number[], verdict: GoodPlan | BadPlan | null, typed: number | null}} */
export const check = {plan: [], verdict: null, typed: null};
const CLASH = {stroke: "var(--wrong)", "stroke-width": 3, "stroke-dasharray": "5 4", "data-mark": "clash"};
/** @type {Record<string, string>} */
const SAID = {C4: "one channel", C8: "barred here", C5: "too great"};

/** @param {number} v @param {number} channel */
function set(v, channel) { check.plan[v - 1] = Math.max(0, Math.min(9999, channel)); }
function ask() {
  show();
  return asks("check", {network: text(), plan: check.plan}, "checking", verdict => {
    check.verdict = verdict;
    show();
  });
}
// Where a note covers no circle: on an edge or beside it, above a node or below it. Without such a place there is none:
// the verdict says the same.
/** @param {number[]} at @param {number} wide @returns {Point | undefined} */
function placeOfNote([v, w], wide) {
  const [x, y] = w ? stage.middle(v, w) : stage.place(v), off = stage.radius + 18, aside = (wide - stage.radius) / 2;
  const left = Math.max(wide / 2 + 1, x - aside), right = Math.min(stage.wide - wide / 2 - 1, x + aside);
  /** @type {Point[]} */
  const places = [[x, y - off], [x, y + off], [right, y - off], [left, y - off]];
  if (w) places.unshift([x, y]);
  /** @param {Point} place */
  const isFree = ([across, up]) => up > 12 && up < stage.high - 12 && Math.abs(across - stage.wide / 2) <= (stage.wide - wide) / 2
    && !net.nodes.some((_, k) => Math.abs(stage.X(k + 1) - across) < stage.radius + wide / 2 && Math.abs(stage.Y(k + 1) - up) < stage.radius + 10);
  return places.find(isFree);
}
// Where the plan is wrong. A node without a channel is seen to have none.
/** @param {GoodPlan | BadPlan | null} is */
function wrongAt(is) { return is && !is.ok && is.code !== "C1" ? is.at.filter(v => v >= 1 && v <= net.nodes.length) : []; }
function showPlan() {
  const is = check.verdict, at = wrongAt(is), {plan} = check;
  /** @type {(v: number, w: number) => boolean} */
  const isWrong = (v, w) => at.length === 2 && at.includes(v) && at.includes(w);
  const above = () => {
    if (!at.length || !is || is.ok) return [];
    const said = SAID[is.code] || is.code, place = placeOfNote(at, noteWidth(said));
    return place ? note(...place, said) : [];
  };
  stage.draw({above, rings: v => at.includes(v) ? ["var(--wrong)"] : [],
    says: v => plan[v - 1] ? `channel ${plan[v - 1]}` : "no channel",
    node: (v, x, y, r) => plan[v - 1] ? channelCircle(x, y, r, plan[v - 1]) : blank(x, y, r),
    edge: (v, w) => isWrong(v, w) ? {stroke: "var(--wrong)", "stroke-width": 5}
      : plan[v - 1] && plan[v - 1] === plan[w - 1] ? CLASH : {}});
  const place = by("verdict");
  if (!is) return place.replaceChildren();
  const left = plan.filter(channel => !channel).length, who = hello().proved ? "The proved program" : "Python";
  place.className = "verdict " + (is.ok ? "good" : is.code === "C1" ? "" : "bad");
  const [head, more] = is.ok ? ["The plan is proper", `${who} finds: neighbours differ, no channel is barred at its `
    + `node, and the greatest is ${is.greatest}.`]
    : is.code === "C1" && left ? [`${left} of ${net.nodes.length} nodes have no channel yet (C1)`,
      `The check names the first, node ${is.at[0]}. Dashed edges are clashes that this page sees.`]
    : [`${capital(is.sentence)}${is.code === "C4" ? `, ${plan[at[0] - 1]}` : ""} (${is.code})`, `What to do: ${is.do}.`];
  place.replaceChildren(html("b", head), html("p", more, {class: is.ok ? "" : "soft"}));
  announce(`${head}. ${more}`);
}
/** @param {number | null} v @param {Edge | null} _edge @param {MouseEvent | KeyboardEvent} event */
function click(v, _edge, event) {
  if (!v) return;
  const degree = Math.max(0, ...net.nodes.map((_, k) => neighbours(k + 1).length));
  const most = degree + 1 + Math.max(0, ...net.nodes.map(n => n.bars.length));
  const now = check.plan[v - 1] + (event.shiftKey ? -1 : 1);
  check.typed = v;
  set(v, now > most ? 1 : now < 0 ? most : now);
  ask();
}
// Digits typed soon after each other are one number.
let typedAt = 0;
/** @param {KeyboardEvent} event @param {number | null} on */
function key(event, on) {
  const v = on || check.typed;
  if (!/^[0-9]$/.test(event.key) || !v) return false;
  const more = v === check.typed && event.timeStamp - typedAt < 1200;
  set(v, more ? 10 * check.plan[v - 1] + +event.key : +event.key);
  check.typed = v;
  typedAt = event.timeStamp;
  ask();
  return true;
}
tabs.check = {
  click, key, show: showPlan, hint: () => `Click a node for its next channel${isTouched ? "." : ", or type it; Shift goes back."}`,
  enter() {
    check.plan = net.nodes.map((_, k) => check.plan[k] || 0);
    by("judgement").replaceChildren();
    ask();
  },
  link: () => ({plan: check.plan}),
  follow({plan = []}) { check.plan = plan; },
};
by("blank").onclick = () => { check.plan = net.nodes.map(() => 0); ask(); };
by("ones").onclick = () => { check.plan = net.nodes.map(() => 1); ask(); };
by("take").onclick = () => asks("plan", {network: text()}, "looking for the plan", ({plan}) => {
  check.plan = plan;
  ask();
}, "take");
by("judged").onclick = () => asks("judge", {network: text(), transcript: by("transcript").value,
  program: programNamed()}, "judging", is => {
  const place = by("judgement"), {proved} = is;
  place.className = "verdict " + (is.ok ? "good" : "bad");
  place.replaceChildren(sentence((is.ok ? "✓ " : "✗ ") + is.said));
  // Without a first line all of it is read as more of the network.
  if (proved && is.line !== 1) {
    place.append(sentence(proved.ok ? `✓ ${proved.by} accepts it, too.` : `✗ ${proved.by}: ${proved.said}`));
  }
  if (is.line) choose(by("transcript"), is.line);
});
// Chooses a line of a text.
/** @param {HTMLTextAreaElement} box @param {number} line */
function choose(box, line) {
  const lines = box.value.split("\n"), from = lines.slice(0, line - 1).join("\n").length + (line > 1 ? 1 : 0);
  box.focus();
  box.setSelectionRange(from, from + (lines[line - 1] || "").length);
}
by("watchit").onclick = () => hooks.go("run", {transcript: by("transcript").value});
