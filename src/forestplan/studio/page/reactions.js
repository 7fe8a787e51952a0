// What the tab Adversary shows of nodes that react to messages, without rounds: what each has found and keeps, and what
// the file says of where the run is.
import {count} from "./base.js";
import {html, sentence} from "./marks.js";
import {neighbours} from "./model.js";
import {wordsOfFile} from "./own.js";

// What a node keeps in `me`.
/** @param {Reacted} is */
export function keptLine(is) {
  const said = is.keeps.map(([name, value]) => `me.${name} = ${value}`).join("; ");
  return html("div", said || "It keeps nothing in me.", {class: "kept"});
}
// Of a node at which something can happen, and else of the first one: what does it send then?
/** @param {ReactionsFound} is @param {number | null} node @param {Omit<SendsCall, "guess" | "step">} asked @returns {Asked} */
export function sendsQuestion(is, node, asked) {
  const step = is.steps.find(one => parseInt(one, 10) === node) || is.steps[0], kinds = wordsOfFile();
  if (!step || !kinds.length) return {text: step ? "The file is being read." : "Nothing can happen any more."};
  const [v, w] = step.split("-").map(Number), link = is.wires.find(one => one[0] === w && one[1] === v);
  const does = link ? `takes ${link[2][0]} from ${w}` : "acts";
  const choices = neighbours(v).flatMap(to => kinds.map(kind => `${kind} ${to}`));
  return {text: `Node ${v} ${does}. What does it send then? Tick it, or nothing.`, call: "sends", choices, asked: {...asked, step}};
}
// What the file says of where the run is, and why nothing goes on.
/** @param {ReactionsFound} is @param {boolean} isHeld */
export function fileSays(is, isHeld) {
  /** @type {[string, string][]} */
  const found = [];
  if (is.over) found.push(["A function of the file has failed, so the run ends here: go back.", "bad"]);
  if (is.always && is.always.ok) found.push(["`always` is true here.", "good"]);
  if (is.always && !is.always.ok) found.push([`\`always\` refuses this state: ${is.always.said}.`, "bad"]);
  if (is.ended) found.push(endSaid(is), [resultsSaid(is), "soft"]);
  else if (!is.over && isHeld) found.push(["All that could happen is held.", "soft"]);
  return found.map(([said, kind]) => sentence(said, {class: kind}));
}
/** @param {ReactionsFound} is @returns {[string, string]} */
function endSaid({right}) {
  if (!right) return ["This is an end: nothing can happen any more. The file has no `right`, so it doesn’t say whether the end is right.", ""];
  return right.ok ? ["This is an end: nothing can happen any more, and `right` is true of it.", "good"]
    : [`This is an end: nothing can happen any more, and \`right\` refuses it: ${right.said}.`, "bad"];
}
// The result of each node, when the run has ended.
/** @param {ReactionsFound} is */
function resultsSaid({nodes, made}) {
  const results = nodes.map((one, k) => `${k + 1} ${one.found}`).join(", ");
  return `Results: ${results}. These ${count(made.length, "step")} are one order of one network: another order may end otherwise.`;
}
