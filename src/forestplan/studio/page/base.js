// What the tabs of the studio share: the stage, what is said of calls, and the tab that is seen.
import {Wrong, call, cancel} from "./api.js";
import {net} from "./model.js";
import {coded, element, html, isTouched} from "./marks.js";
import {Stage} from "./stage.js";
import {Time} from "./time.js";

export const by = element;
/** @type {(selector: string) => HTMLElement[]} */
export const all = selector => Array.from(document.querySelectorAll(selector));
/** @type {(selector: string) => HTMLInputElement[]} */
export const inputs = selector => Array.from(document.querySelectorAll(selector));
// What is seen. `hello` is what there is to choose from, `program` what the nodes run; `slow` and `lazy` are the links
// and the nodes that wait, `without` the rule of the synchroniser that is left out.
/** @type {Seen} */
export const seen = {tab: "draw", node: null, edge: null, lesson: null, step: null, lecture: null, hello: null, program: "colouring", passes: 1,
  root: null, slow: [], lazy: []};
// What there is to choose from, which is asked for before anything else.
export function hello() {
  if (!seen.hello) throw new Wrong("the server hasn’t answered yet");
  return seen.hello;
}
// The program with its option, as a call names it: `recolouring passes 2`, `layers root 3`.
export function programNamed() {
  const {program, passes, root} = seen;
  if (program === "recolouring" && passes > 1) return `recolouring passes ${passes}`;
  return program === "layers" && root ? `layers root ${root}` : program;
}
// A number of passes, if recolouring makes as many; else nothing.
/** @param {string} said */
export function manyPasses(said) {
  const passes = whole(said);
  return passes <= hello().passes ? passes : null;
}
// The fields of these options, beside each choice of a program; `changed` is called after one of them.
export function showOptions() {
  inputs(".passes").forEach(one => { one.value = String(seen.passes); });
  inputs(".root").forEach(one => { one.value = String(seen.root || ""); });
  all(".option").forEach(one => {
    one.hidden = seen.program !== (one.querySelector(".passes") ? "recolouring" : "layers");
  });
}
/** @param {() => void} changed */
export function watchOptions(changed) {
  inputs(".passes").forEach(one => {
    one.onchange = () => {
      seen.passes = manyPasses(one.value) || 1;
      changed();
    };
  });
  inputs(".root").forEach(one => {
    one.onchange = () => {
      const v = whole(one.value);
      seen.root = v && v <= net.nodes.length ? v : null;
      changed();
    };
  });
}
export const stage = new Stage(by("net"), net);
// Each tab is {hints, enter, show, click, link, follow, key}; studio.js sets the hooks.
/** @type {Tabs} */
export const tabs = Object.create(null);
/** @type {Hooks} */
export const hooks = Object.create(null);
// Elements of a picture have no property `hidden`.
/** @param {keyof Elements} id @param {boolean} isHidden */
export function hide(id, isHidden) { by(id).toggleAttribute("hidden", isHidden); }
export function show() { hooks.show(); }
/** @param {TabName} tab @param {More} [more] */
export function go(tab, more) { hooks.go(tab, more); }
export const KEYS = isTouched ? "" : "Space plays, arrows step.";
// The place of the slider, as an address has it.
export function timeAt() { return Math.round(time.at * 100) / 100; }
// What an address asks for after the end is the end, and is said.
/** @param {More} more @param {number} last @param {string} what */
export function sayLast({asked = 0}, last, what) {
  const end = `at=${asked} is after the end: the last ${what} is ${last.toLocaleString("en")}.`;
  if (asked > last) wrong([by("wrong").textContent, end].filter(Boolean).join(" "));
}
// What a screen reader says: at most once a second, and nothing while it plays.
let announcing = 0, announced = 0;
/** @param {string} text */
export function announce(text) {
  clearTimeout(announcing);
  if (time.timer) return;
  announcing = setTimeout(() => { announced = Date.now(); say("live", text); },
    Math.max(150, announced + 1000 - Date.now()));
}
// Makes anew what a place says only if it is something else: what is left as it is needs no layout.
/** @param {keyof Elements} id @param {string} text */
export function say(id, text) { if (by(id).textContent !== text) by(id).textContent = text; }
/** @type {Map<string, string>} */
const filled = new Map();
/** @param {keyof Elements} id @param {string} key @param {() => (Node | string)[]} parts */
export function fill(id, key, parts) {
  if (filled.get(id) === key) return;
  filled.set(id, key);
  by(id).replaceChildren(...parts());
}
// What such a place says is made anew in any case.
/** @param {keyof Elements} id */
export function refill(id) { filled.delete(id); }
// The slider below the stage, which the tabs Rounds and No clock share.
/** @type {Time} */
export const time = new Time({slider: by("slider"), play: by("play"), back: by("back"), next: by("next"),
  speed: by("speed")}, {
  show,
  step(way) {
    const {step} = tabs[seen.tab];
    if (step) step(way);
  },
  rate() {
    const {rate} = tabs[seen.tab];
    return rate ? rate() : 1;
  },
  past(at) {
    const {past} = tabs[seen.tab];
    return past ? past(at) : at;
  },
  ended() {
    const {stopped} = tabs[seen.tab];
    hooks.link();
    if (stopped) stopped();
  },
});

/** @type {string | null} */
let wrongKey = null;
/** @type {string | null} */
let busyWith = null;
/** @param {string} said @param {string | null} key */
export function wrong(said, key = null) {
  // What went well takes back what it said before, and nothing else.
  if (!said && key && wrongKey !== key) return;
  by("wrong").replaceChildren(...coded(said || ""));
  wrongKey = key;
}
/** @param {string | null} said @param {string} key */
function busy(said, key) {
  const box = by("busy");
  if (!said && busyWith !== key) return;
  box.hidden = !said;
  busyWith = said && key;
  if (!said) return;
  inside(box, "span").textContent = said;
  inside(box, "progress").removeAttribute("value");
  inside(box, "button").onclick = () => {
    cancel(key);
    busy(null, key);
  };
}
// The first element of a kind inside of another one, which has it.
/** @type {<K extends keyof HTMLElementTagNameMap>(box: HTMLElement, kind: K) => HTMLElementTagNameMap[K]} */
function inside(box, kind) { return box.getElementsByTagName(kind)[0]; }
/** @param {number} done @param {number} of */
export function progress(done, of) { Object.assign(inside(by("busy"), "progress"), {max: of, value: done}); }
/** @param {unknown} fault */
export function messageOf(fault) { return fault instanceof Error ? fault.message : String(fault); }
// How much is under way. What lies below texts that are still on their way is out of sight until a tab has all of them:
// nobody aims at a button that moves.
let working = 0;
export function settle() { if (!working) document.body.classList.remove("waiting"); }
// Does it, and says what is wrong; what takes longer than a moment is said to be under way.
/** @param {string} key @param {string} said @param {() => unknown} does */
export async function tried(key, said, does) {
  const later = setTimeout(() => busy(said, key), 250);
  working++;
  try { await does(); wrong("", key); } catch (fault) {
    if (!(fault instanceof Wrong)) console.error(fault);
    wrong((fault instanceof Wrong ? "" : "a fault of this page: ") + messageOf(fault), key);
    return false;
  } finally {
    clearTimeout(later);
    busy(null, key);
    working--;
    settle();
  }
  return true;
}
// Asks for something, and does what its answer is for, unless a later call of the key has ended it.
/** @type {<K extends keyof Asks, A extends Asks[K]>(name: K, asked: A & Only<A, Asks[K]>, said: string, does: (got: Answers[K]) => unknown, key?: string) => Promise<boolean>} */
export function asks(name, asked, said, does, key = name) {
  return tried(key, said, async () => {
    const got = await call(name, asked, {key});
    if (got) await does(got);
  });
}
// A box for each rule that can be left out. `left` are those that are, as an address has them: names with commas.
/** @param {"without" | "without2"} id @param {Rules} rules @param {string} left @param {(left: string) => void} choose */
export function ruleBoxes(id, rules, left, choose) {
  const place = by(id), names = left.split(",").filter(Boolean);
  by(`${id}said`).textContent = "leave out: " + (names.join(", ") || "no rule");
  place.replaceChildren(...Object.entries(rules).map(([name, {says}]) => {
    const label = html("label"), box = html("input", null, {type: "checkbox", value: name}), text = html("span");
    box.checked = names.includes(name);
    box.onchange = () => choose(inputs(`#${id} :checked`).map(one => one.value).join());
    text.append(html("b", name), `: ${says}`);
    label.append(box, text);
    return label;
  }));
}
// What is left out, in a sentence for each rule.
/** @param {Rules} rules @param {string} left */
export function leftOutWords(rules, left) {
  const names = left.split(",").filter(Boolean);
  return names.map(name => `Left out: ${rules[name].says}; ${rules[name].without}.`).join(" ");
}
/** @param {HTMLSelectElement} select @param {string | number} value @param {string} [said] @param {string} title */
export function option(select, value, said, title = "") {
  select.append(html("option", said || value, {value, title}));
}
/** @param {string} svg @param {string} said */
export function picture(svg, said) {
  const shown = html("img", null, {alt: said, src: URL.createObjectURL(new Blob([svg], {type: "image/svg+xml"}))});
  shown.onload = () => URL.revokeObjectURL(shown.src);
  return shown;
}
// A picture on the stage, as large as there is room.
let scale = 1;
/** @param {string} svg @param {string} said */
export function hang(svg, said) {
  const shown = picture(svg, said);
  shown.addEventListener("load", () => zoomPicture(0));
  by("picture").replaceChildren(shown);
}
/** @param {number} by_ */
export function zoomPicture(by_) {
  const shown = by("picture").firstChild, {clientWidth, clientHeight} = by("picture");
  if (!(shown instanceof HTMLImageElement)) return;
  const wide = (clientWidth - 8) / shown.naturalWidth, high = (clientHeight - 24) / shown.naturalHeight;
  scale = by_ ? scale * by_ : Math.min(wide, Math.max(1, Math.min(3, high)));
  shown.style.width = `${Math.round(shown.naturalWidth * scale)}px`;
}
/** @param {string} said */
export function capital(said) { return said[0].toUpperCase() + said.slice(1); }
/** @param {number} n @param {string} what */
export function count(n, what) { return `${n.toLocaleString("en")} ${what}${n === 1 ? "" : "s"}`; }
// What a field says: a number from 0; of rules, with commas between, those that a program has.
/** @param {string} said */
export function whole(said) { return /^\d{1,6}$/.test(said) ? +said : 0; }
/** @param {Rules} of @param {string} said */
export function rulesOf(of, said) { return said.split(",").filter(name => Object.hasOwn(of, name)).join(); }
// The two ends of an edge that is written as 2-3.
/** @param {string} edge @returns {Edge} */
export function endsOf(edge) {
  const [v, w] = edge.split("-").map(Number);
  return [v, w];
}
// A click on an edge has its link wait, or no more; and so with a node.
/** @type {<One>(list: One[], one: One) => One[]} */
function toggled(list, one) {
  const rest = list.filter(other => String(other) !== String(one));
  return rest.length < list.length ? rest : [...rest, one];
}
/** @param {Edge} edge */
export function toggleSlow(edge) { seen.slow = toggled(seen.slow, edge); }
/** @param {number} v */
export function toggleLazy(v) { seen.lazy = toggled(seen.lazy, v); }
