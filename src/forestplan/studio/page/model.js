// The network that is drawn: nodes {x, y, id, name, bars, label} from 0, edges [v, w] from 1, the lower node
// first. An id is the digits of an identifier, or "" for the node's own number.
/** @type {Drawn} */
export const net = {name: "", nodes: [], edges: [], example: ""};
// The network as it was before a change, and the node that this change takes away or brings back.
/** @typedef {{text: string, removed: number | null}} Before */
/** @type {Before[]} */
const past = [];
/** @type {Before[]} */
const future = [];
/** @type {((what: Change, numbers: Renumbering) => void)[]} */
const heard = [];
// Whether what is there has taken the place of a drawing; and whether it is one: by hand or from a file, not the network
// of an example or of a lesson's step.
export let replaced = false;
let isDrawing = false;

/** @param {(what: Change, numbers: Renumbering) => void} listener */
export function onChange(listener) { heard.push(listener); }
/** @param {Change} what @param {Renumbering} numbers */
function tell(what, numbers = {}) { heard.forEach(listener => listener(what, numbers)); }
function kept() { return JSON.stringify(net); }
/** @param {string} text */
function put(text) { Object.assign(net, JSON.parse(text)); }

// A change that can be undone; one with the same key as the last one is part of it, as the moves of a drag. `removed`
// is the node that it takes away: those after it get other numbers, and their own again when it is undone.
/** @type {string | null} */
let lastKey = null;
/** @param {(net: Drawn) => void} does @param {string | null} key @param {Change} what @param {number | null} removed */
export function change(does, key = null, what = "edit", removed = null) {
  if (key === null || key !== lastKey) { past.push({text: kept(), removed}); future.length = 0; }
  if (past.length > 200) past.shift();
  lastKey = key;
  isDrawing = true;
  does(net);
  net.example = "";
  net.edges.sort((a, b) => a[0] - b[0] || a[1] - b[1]);
  tell(what, {removed});
}
/** @param {Before[]} from @param {Before[]} to */
function swap(from, to) {
  const {text: before, removed} = from.pop() || {text: kept(), removed: null};
  to.push({text: kept(), removed});
  put(before);
  isDrawing = true;
  lastKey = null;
  return removed;
}
export function undo() { if (past.length) tell("undo", {restored: swap(past, future)}); }
export function redo() { if (future.length) tell("undo", {removed: swap(future, past)}); }
export function depth() { return [past.length, future.length]; }
/** @param {Net} found @param {string} example */
export function load(found, example = "", isGiven = false) {
  tell("leave");
  replaced = net.nodes.length > 0 && !net.example && isDrawing;
  isDrawing = !isGiven;
  if (net.nodes.length) { past.push({text: kept(), removed: null}); future.length = 0; }
  lastKey = null;
  Object.assign(net, {name: found.name || "", nodes: found.nodes, edges: found.edges, example});
  tell("load");
}

/** @param {number} v @param {number} w */
export function hasEdge(v, w) { return net.edges.some(e => e[0] === Math.min(v, w) && e[1] === Math.max(v, w)); }
/** @param {number} v @param {number} w */
export function toggleEdge(v, w) {
  const [low, high] = [Math.min(v, w), Math.max(v, w)];
  const rest = net.edges.filter(e => e[0] !== low || e[1] !== high);
  change(n => { n.edges = rest.length < n.edges.length ? rest : n.edges.concat([[low, high]]); });
}
/** @param {number} v */
export function removeNode(v) {
  change(n => {
    n.nodes.splice(v - 1, 1);
    /** @param {number} one */
    const now = one => one > v ? one - 1 : one;
    n.edges = n.edges.filter(e => e[0] !== v && e[1] !== v).map(e => [now(e[0]), now(e[1])]);
  }, null, "edit", v);
}
/** @param {number} v */
export function neighbours(v) {
  return net.edges.filter(e => e.includes(v)).map(e => e[0] === v ? e[1] : e[0]).sort((a, b) => a - b);
}

// In the DIMACS format.
export function text() {
  const lines = [];
  net.nodes.forEach((node, k) => lines.push(`c at ${k + 1} ${round(node.x)} ${round(node.y)}`));
  net.nodes.forEach((node, k) => { if (node.name) lines.push(`c name ${k + 1} ${node.name.replace(/\s+/g, " ")}`); });
  lines.push(`p edge ${net.nodes.length} ${net.edges.length}`);
  net.nodes.forEach((node, k) => { if (node.id !== "") lines.push(`i ${k + 1} ${node.id}`); });
  net.nodes.forEach((node, k) => node.bars.forEach(bar => lines.push(`b ${k + 1} ${bar}`)));
  net.edges.forEach(e => lines.push(`e ${e[0]} ${e[1]}`));
  return lines.join("\n") + "\n";
}
/** @param {number} number */
function round(number) { return Math.round(number * 10) / 10; }
