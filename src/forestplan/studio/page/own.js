// The file of a program of one's own, beside the movement: its text, with the function that ran last. It is loaded
// again when it has been saved.
import {call} from "./api.js";
import {by, hello, messageOf, seen} from "./base.js";
import {coded, html} from "./marks.js";

// How often it is looked at, in milliseconds.
const EVERY = 1500;
// `text` is what was loaded last without a fault, or null; `version` is that of the file as it was looked at last.
/** @type {OwnFile} */
export const file = {name: "", version: "", text: null, lines: {}, fault: ""};
// Which function ran last, by the names that it may have, and of which node; 0 is each node.
/** @type {{functions: string[], node: number}} */
let last = {functions: [], node: 0};
// The program whose file is asked for now; why it can't be; and what is drawn.
let asking = "", lost = "", drawn = "";
// What is said for a while after the file has been loaded again.
const AGAIN = "It has been saved, and is loaded again.", LONG = 6000;
let said = "", saying = 0;
/** @type {() => unknown} */
let changed = () => 0;

// Whether the nodes run a file; and whether they react to messages, without rounds.
export function isOwn() { return seen.hello !== null && Object.hasOwn(seen.hello.own, seen.program); }
export function reacts() { return isOwn() && hello().own[seen.program] === "reactions"; }
// The words of messages for which the file has functions.
export function wordsOfFile() {
  return Object.keys(file.lines).filter(name => name.startsWith("on_")).map(name => name.slice(3));
}
// `does` is called when the file is another one than before.
/** @param {() => unknown} does */
export function watchFile(does) {
  changed = does;
  setInterval(() => { if (!document.hidden) look(); }, EVERY);
  // Another size of the box may hide the function that ran last.
  new ResizeObserver(() => { if (!by("ran").hidden) intoSight(by("codebox"), by("ran")); }).observe(by("codebox"));
}
function look() {
  const {program} = seen;
  if (asking === program || !isOwn()) return;
  asking = program;
  call("file_text", {own: program, seen: file.name === program ? file.version : ""}).then(got => {
    // A later question has taken the place of one that has no answer.
    if (!got || seen.program !== program) return;
    lost = "";
    take(program, got);
  }).catch(fault => { lost = messageOf(fault); }).finally(() => {
    if (asking === program) asking = "";
    show();
  });
}
// Of a file with a fault the fault is said, and what was there stays.
/** @param {string} name @param {FileText} found */
function take(name, {version, text, lines, fault}) {
  if (file.name !== name) Object.assign(file, {name, version: "", text: null, lines: {}, fault: ""});
  if (version === file.version) return;
  const had = file.text !== null && text !== file.text;
  file.version = version;
  if (text === undefined) { file.fault = fault || ""; return; }
  Object.assign(file, {text, lines: lines || {}, fault: ""});
  if (!had) return;
  said = AGAIN;
  clearTimeout(saying);
  saying = setTimeout(() => { said = ""; show(); }, LONG);
  changed();
}
// What is seen of the file when a tab is entered.
export function enterFile() {
  if (isOwn() && file.name !== seen.program) look();
  show();
}
// Marks the function that ran last, which has one of these names.
/** @param {string[]} functions @param {number} node */
export function markRan(functions, node) {
  last = {functions, node};
  show();
}
function show() {
  const isMoving = seen.tab === "adversary" || seen.tab === "rounds" && !reacts();
  // Its box is there before the file is, so that the network keeps its width.
  const isSeen = isMoving && isOwn();
  by("code").hidden = !isSeen;
  document.body.classList.toggle("coded", isSeen);
  if (isSeen) showFile(file.name === seen.program);
}
/** @param {boolean} isRead */
function showFile(isRead) {
  const name = isRead && last.functions.find(one => Object.hasOwn(file.lines, one)) || "";
  const key = JSON.stringify([seen.program, file.name, file.text, file.fault, lost, said, name, last.node]);
  if (key === drawn) return;
  drawn = key;
  by("codesaid").replaceChildren(html("b", `${seen.program}.py`), " Nothing is proved of this file. ",
    ...name ? coded(ranWords(name)) : []);
  sayFault(lost || isRead && file.fault || "");
  showText(isRead ? file.text || "" : "", name ? file.lines[name] : [0, 0]);
}
/** @param {string} wrong */
function sayFault(wrong) {
  by("codefault").className = wrong ? "bad" : "soft";
  by("codefault").replaceChildren(...coded(wrong || said));
}
/** @param {string} name */
function ranWords(name) {
  const [from, to] = file.lines[name], where = from === to ? `line ${from}` : `lines ${from} to ${to}`;
  return `\`${name}\` of ${last.node ? `node ${last.node}` : "each node"} ran last: ${where}.`;
}
// The text with its lines' numbers. The lines of the function that ran last are marked; of 0 there are none.
/** @param {string} whole @param {[number, number]} marked */
function showText(whole, [from, to]) {
  const lines = whole.split(/\r\n|\r|\n/);
  if (lines[lines.length - 1] === "") lines.pop();
  /** @type {(low: number, high: number) => string} */
  const part = (low, high) => lines.slice(low, high).map(line => line + "\n").join("");
  by("numbers").textContent = lines.map((_, k) => k + 1).join("\n");
  by("before").textContent = part(0, from ? from - 1 : lines.length);
  by("ran").textContent = from ? part(from - 1, to) : "";
  by("after").textContent = from ? part(to, lines.length) : "";
  by("ran").hidden = !from;
  if (from) intoSight(by("codebox"), by("ran"));
}
// Scrolls a box, and nothing around it, until a part of it is seen whole, or from its beginning.
/** @param {HTMLElement} box @param {HTMLElement} part */
function intoSight(box, part) {
  const outer = box.getBoundingClientRect(), inner = part.getBoundingClientRect();
  const room = outer.height - inner.height, isSeen = inner.top >= outer.top && inner.bottom <= outer.bottom;
  if (!isSeen) box.scrollTop += inner.top - outer.top - Math.max(0, Math.min(outer.height / 4, room / 2));
  box.scrollLeft = 0;
}
