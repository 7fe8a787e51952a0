// The studio: its tabs, the mouse on the stage, keys, and the address, which says all that is seen.
import {call, cancel, hello as greeted, token} from "./api.js";
import {codeOf, written} from "./address.js";
import {all, asks, by, endsOf, hello, hooks, inputs, option, say, seen, settle, show, stage, tabs, time, tried, watchOptions,
  wrong, zoomPicture} from "./base.js";
import {askPlan, drawn, inspect, makeForm, openFile, save} from "./draw.js";
import {check} from "./check.js";
import {doneWords, fillMenu, showCard, turns} from "./lessons.js";
import {enterFile, reacts, watchFile} from "./own.js";
import {rounds} from "./rounds_tab.js";
import {run} from "./run_tab.js";
import {makeAgain, steps} from "./steps_tab.js";
import {legend} from "./legend.js";
import {blank, coded, isTouched, pointed, targetOf} from "./marks.js";
import {ROUNDS_WORDS} from "./rounds.js";
import {RUN_WORDS} from "./run.js";
import * as model from "./model.js";
import {change, net, text} from "./model.js";
import {watchBuild} from "./proved.js";

/** @type {TabName[]} */
const TABS = ["draw", "rounds", "run", "adversary", "check", "pictures"];
const TIMED = ["rounds", "run"];
// What some marks mean in a tab.
/** @type {{[Name in TabName]?: Record<string, string>}} */
const LEGENDS = {rounds: ROUNDS_WORDS, run: RUN_WORDS, adversary: {channel: "the channel that it has chosen",
  ring_wrong: "its pulse has another inbox than in its round"}};
// Where each of them was left.
/** @type {{[Name in TabName]?: number}} */
const left = {};
// Whether the text is older than the places of the nodes; and whether the network has just taken a drawing's place.
let isMoved = false, isReplaced = false;
const CALLS = ["rounds", "why", "broken", "run", "run2", "run3", "replay", "check", "picture", "steps"];

hooks.show = () => {
  // The file of a program that comes or goes leaves the network another width, and a click has to be where it is seen.
  if (!time.timer && !drag) stage.refit();
  const tab = tabs[seen.tab], isThere = !net.nodes.length && seen.tab !== "draw" || tab.show() !== false;
  // Nothing is known of this network yet, and nothing of another one is left.
  if (!isThere) { stage.draw({node: (v, x, y, r) => blank(x, y, r)}); say("when", ""); }
  [by("back"), by("play"), by("next"), by("change"), by("slider")].forEach(one => { one.disabled = !isThere; });
  by("empty").hidden = net.nodes.length > 0;
  showCard();
  sayHint(isReplaced ? `Undo (${isTouched ? "" : "Ctrl-Z, or "}in Draw) brings your drawing back.` : isThere ? tab.hint() : "");
  say("name", [net.name, seen.program].filter(one => one && one !== "colouring").map(one => "· " + one).join(" "));
  document.title = titleSeen();
  by("slider").setAttribute("aria-valuetext", by("when").textContent || "");
  by("legend").hidden = seen.tab === "pictures";
  legend(by("legend"), [stage.svg, by("second")].filter(one => !one.hasAttribute("hidden")), meaningsHere());
  hooks.link();
};
// What some marks mean in the tab, of the program that is chosen.
/** @returns {Record<string, string>} */
function meaningsHere() {
  if (seen.tab === "adversary" && reacts()) return {ring_good: "it may act now: click it"};
  const here = LEGENDS[seen.tab] || {};
  return seen.tab === "rounds" && seen.program !== "colouring" ? {...here, blank: "a node, with its number"} : here;
}
// What is seen is written into the address first: a change to the place that it still says would be none.
hooks.open = place => {
  const left = hooks.here();
  location.hash = place;
  return left;
};
// The address of what is seen, which says so.
hooks.here = () => {
  time.stop();
  link();
  return location.hash.slice(1);
};
// What can be done on the network; or that the exercise of a lesson's step is done.
/** @param {string} said */
function sayHint(said) {
  const done = doneWords();
  say("hint", done || pointed(said));
  by("hint").classList.toggle("good", Boolean(done));
}
// The title of the page, by which the browser's list of places tells them apart.
function titleSeen() {
  if (!by("welcome").hidden) return "forestplan studio";
  const tab = all("header nav button").find(one => one.dataset.tab === seen.tab);
  const lesson = seen.lesson && `lesson ${seen.lesson}, step ${seen.step || 1}` || seen.lecture && `lecture, place ${seen.lecture}`;
  const program = seen.program === "colouring" ? "" : seen.program;
  return [tab && tab.textContent, net.name, program, lesson, "forestplan"].filter(Boolean).join(" · ");
}
hooks.go = (name, more = {}) => {
  time.stop();
  isReplaced = false;
  // An address that is still being followed isn't wanted any more.
  follows++;
  isFollowing = false;
  left[seen.tab] = time.at;
  // The browser's way back leads to the tab before, and to its place.
  link();
  if (name !== seen.tab) history.pushState(null, "", location.href);
  time.at = more.at === undefined ? left[name] || 0 : more.at;
  seen.tab = name;
  enter(more);
  link();
};
let isEntered = false;
/** @param {More} more */
function enter(more = {}) {
  const name = seen.tab, isWelcome = Boolean(more.welcome);
  isEntered = true;
  // The first screen may have begun to play while an address was being read.
  time.stop();
  if (isWelcome || !by("welcome").hidden) by("speed").value = isWelcome ? "3" : "1";
  // What follows the first screen is seen from its top.
  if (!isWelcome && !by("welcome").hidden) scrollTo(0, 0);
  by("welcome").hidden = !isWelcome;
  document.body.classList.toggle("first", isWelcome);
  // What another tab has asked for isn't wanted any more.
  CALLS.forEach(cancel);
  all("header nav button").forEach(one => {
    one.setAttribute("aria-selected", String(one.dataset.tab === name));
    one.tabIndex = one.dataset.tab === name ? 0 : -1;
  });
  all("[data-panel]").forEach(one => { one.hidden = one.dataset.panel !== name; });
  by("time").hidden = !TIMED.includes(name);
  by("change").hidden = name !== "rounds";
  by("net").style.display = name === "pictures" ? "none" : "";
  by("picture").hidden = name !== "pictures";
  by("picture").replaceChildren();
  wrong("");
  enterFile();
  showCard();
  if (name !== "draw" && !net.nodes.length) { tabs.draw.show(); wrong("Draw a network first."); return hooks.link(); }
  TABS.forEach(other => {
    const {leave} = tabs[other];
    if (other !== name && leave) leave();
  });
  stage.fit();
  document.body.classList.add("waiting");
  tabs[name].enter(more);
  hooks.show();
  settle();
}
// A node that goes or comes back gives those after it other numbers: what is held, and the typed plan, go along.
/** @param {Renumbering} numbers */
function renumber({removed, restored}) {
  const from = removed || restored;
  if (!from) return;
  /** @param {number} v */
  const now = v => removed ? (v === from ? 0 : v > from ? v - 1 : v) : v >= from ? v + 1 : v;
  seen.slow = seen.slow.map(([v, w]) => /** @type {Edge} */ ([now(v), now(w)])).filter(e => e.every(Boolean));
  seen.lazy = seen.lazy.map(now).filter(Boolean);
  seen.node = seen.node && now(seen.node) || null;
  if (removed) check.plan.splice(from - 1, 1);
  else check.plan.splice(from - 1, 0, 0);
}
// What isn't in the network any more isn't chosen, and doesn't wait.
function leaveWhatIsGone() {
  if (seen.node && seen.node > net.nodes.length) seen.node = null;
  seen.edge = null;
  seen.slow = seen.slow.filter(e => model.hasEdge(e[0], e[1]));
  seen.lazy = seen.lazy.filter(v => v <= net.nodes.length);
}
// What takes the place of a network leaves the way back to it.
function keepPlace() {
  if (isFollowing || !net.nodes.length) return;
  link();
  history.pushState(null, "", location.href);
}
model.onChange((what, numbers) => {
  if (what === "leave") return keepPlace();
  renumber(numbers);
  // Moving changes no plan, and the text only when the node is there.
  isMoved = what === "move";
  if (isMoved) return show();
  by("text").value = text();
  // Rounds and runs of another network begin at their beginning.
  Object.assign(left, {rounds: 0, run: 0});
  isReplaced = what === "load" && model.replaced;
  if (drawn.plan && (what !== "edit" || drawn.plan.plan.length > net.nodes.length)) drawn.plan = null;
  leaveWhatIsGone();
  check.verdict = null;
  by("judgement").replaceChildren();
  steps.made = run.steps = [];
  run.transcript = run.film2 = null;
  if (what === "undo" && stage.isOutside()) stage.fit();
  if (what === "load") {
    wrong("");
    say("notes", "");
    Object.assign(seen, {node: null, slow: [], lazy: []});
    check.plan = [];
    stage.fit();
  }
  inspect();
  if (seen.tab === "draw") show();
  askPlan();
  if (seen.tab !== "draw") enter();
});

// The mouse, a finger or a pen: a click, a drag of a node, a drag of the ground, two fingers.
/** @type {SVGSVGElement} */
const svg = stage.svg;
/** @type {Map<number, PointerEvent>} */
const fingers = new Map();
/** @type {Drag | null} */
let drag = null;
// How far two fingers are apart, and where their middle is.
/** @type {[number, number, number] | null} */
let apart = null;
/** @returns {[number, number, number]} */
function spread() {
  const [a, b] = Array.from(fingers.values()), wide = a.clientX - b.clientX, high = a.clientY - b.clientY;
  return [Math.hypot(wide, high), b.clientX + wide / 2, b.clientY + high / 2];
}
// The message under the pointer; a finger may miss it by a few pixels, so that each is 36 wide for it.
/** @param {PointerEvent} event */
function stepAt(event) {
  const on = targetOf(event).closest("[data-step]");
  if (on || event.pointerType !== "touch") return stepOf(on);
  /** @param {DOMRect} box */
  const off = ({left, right, top, bottom}) => Math.max(left - event.clientX, event.clientX - right, 0)
    + Math.max(top - event.clientY, event.clientY - bottom, 0);
  const steps = Array.from(svg.querySelectorAll("[data-step]"));
  const far = steps.map(one => off(one.getBoundingClientRect())), least = Math.min(...far);
  return least < 11 ? stepOf(steps[far.indexOf(least)]) : null;
}
/** @param {Element | null} message */
function stepOf(message) { return message && message.getAttribute("data-step"); }
svg.onmousedown = event => event.preventDefault();
svg.onpointerdown = event => {
  if (event.button) return;
  const on = document.activeElement;
  if (on instanceof HTMLElement || on instanceof SVGElement) on.blur();
  fingers.set(event.pointerId, event);
  svg.setPointerCapture(event.pointerId);
  if (fingers.size > 1) { drag = null; apart = spread(); return; }
  const v = stage.nodeAt(event, event.pointerType === "touch" ? 14 : 6);
  drag = {v, step: stepAt(event), x: event.clientX, y: event.clientY, moved: null, key: "drag " + Date.now(),
    radius: stage.radius};
};
svg.onpointermove = event => {
  if (fingers.has(event.pointerId)) fingers.set(event.pointerId, event);
  if (fingers.size > 1 && apart) pinch(apart);
  else if (drag && (drag.moved || Math.hypot(event.clientX - drag.x, event.clientY - drag.y) >= 5)) pull(drag, event);
};
// Two fingers: what is between them grows and goes along.
/** @param {[number, number, number]} before */
function pinch(before) {
  const now = spread(), box = svg.getBoundingClientRect();
  stage.zoom(now[0] / (before[0] || 1), now[1] - box.left, now[2] - box.top);
  stage.pan(now[1] - before[1], now[2] - before[2]);
  apart = now;
  show();
}
// A drag: of a node in the tab Draw, or of the ground.
/** @param {Drag} drag @param {PointerEvent} event */
function pull(drag, event) {
  const {v, key} = drag;
  if (v && seen.tab === "draw") {
    // What is drawn for any other reason in the meantime is drawn whole.
    stage.dragged = v;
    change(n => { Object.assign(n.nodes[v - 1], stage.placeOf(event)); }, key, "move");
    stage.dragged = 0;
  } else if (!v && net.nodes.length) {
    const from = drag.moved || drag;
    stage.pan(event.clientX - from.x, event.clientY - from.y);
    show();
  }
  drag.moved = {x: event.clientX, y: event.clientY};
}
// The end of a drag: a node that lies on another one goes beside it.
/** @param {Drag} drag */
function dropped({v, key, radius}) {
  const place = v && seen.tab === "draw" ? stage.roomBeside(v, radius) : null;
  if (v && place) change(n => { Object.assign(n.nodes[v - 1], place); }, key, "move");
  show();
}
svg.onpointerup = event => {
  const was = drag;
  drag = null;
  apart = null;
  if (was && was.moved) dropped(was);
  fingers.delete(event.pointerId);
  if (!was || was.moved) return was && hooks.link();
  if (seen.tab !== "draw" && !net.nodes.length) return;
  // Who clicks on the first screen wants to know more.
  if (!by("welcome").hidden) { time.stop(); enter(); }
  tabs[seen.tab].click(was.v, was.v ? null : stage.edgeAt(event), event, was.step);
};
svg.onpointercancel = event => { fingers.delete(event.pointerId); drag = apart = null; show(); };
svg.onwheel = event => {
  event.preventDefault();
  stage.zoom(Math.exp(-event.deltaY / 500), ...stage.point(event));
  show();
};
// What is on the stage: the network, or a picture.
/** @param {number} by_ */
function zoom(by_) {
  if (!by("picture").hidden) return zoomPicture(by_);
  if (by_) stage.zoom(by_); else stage.fit();
  show();
}
by("zoomin").onclick = () => zoom(1.25);
by("zoomout").onclick = () => zoom(0.8);
by("zoomfit").onclick = () => zoom(0);
new ResizeObserver(() => {
  if (drag || !seen.hello) return;
  if (by("picture").hidden) show(); else zoomPicture(0);
}).observe(by("stage"));

// The address. It is written a moment after the last change: browsers refuse many changes in a row.
let linked = "", isFollowing = false, follows = 0, linking = 0;
hooks.link = () => { clearTimeout(linking); linking = setTimeout(link, 150); };
function link() {
  clearTimeout(linking);
  // Another address is about to be followed: it isn't written over.
  if (!seen.hello || isFollowing || time.timer || drag && drag.moved || location.hash !== linked) return;
  // The first screen is seen again when the page is.
  if (!by("welcome").hidden) return;
  history.replaceState(null, "", "#" + written(stateSeen(), hello().address));
  linked = location.hash;
  if (isMoved) by("text").value = text();
  isMoved = false;
}
// What the address says of all that is seen.
/** @returns {State} */
function stateSeen() {
  const {example} = net, {tab, program, passes, root, slow, lazy, lesson, step, lecture} = seen;
  const waits = tab === "run" || tab === "adversary" ? {slow, lazy} : {};
  return {example, net: !example && net.nodes.length ? net : null, tab, program: program === "colouring" ? null : program,
    passes: program === "recolouring" && passes > 1 ? passes : null, root: program === "layers" ? root : null,
    ...waits, ...tabs[tab].link(), lesson, step: step && step > 1 ? step : null, lecture};
}
// What moves before the first click: the rounds of a small network, behind the first buttons.
function welcome() {
  const play = matchMedia("(prefers-reduced-motion: reduce)").matches ? "at=48" : "play=1";
  return follow(`#example=petersen&tab=rounds&${play}`, {welcome: true});
}
// An address that says nothing leads to the first screen, or to the network of the command line.
/** @param {string} place @param {More} more @returns {Promise<void>} */
async function follow(place = location.hash, more = {}) {
  if (location.hash === linked && linked) return;
  if (!place && !hello().opened) return welcome();
  const mine = ++follows;
  time.stop();
  linked = location.hash;
  isFollowing = true;
  /** @type {Values} */
  let given = {};
  let unread = "";
  const isRead = await tried("address", "opening", async () => {
    const got = await call("address", {place: place.slice(1), nodes: net.nodes.length, edges: net.edges});
    // Another address has been followed since.
    if (mine !== follows || !got) return;
    given = got.values;
    unread = got.unread;
    showPlaceOf(got, given);
  });
  if (mine !== follows) return;
  isFollowing = false;
  // Of an address that can't be read the fault is said, and the page stays as it was.
  const why = Array.from(by("wrong").childNodes);
  if (isRead || !isEntered) enter({...more, play: given.play, asked: given.at});
  if (!isRead) by("wrong").replaceChildren(...why);
  else if (unread) wrong(`This can’t be read in the address, and is left out: ${unread}.`);
}
// Shows what an address says: each value is of its kind, or isn't there.
/** @param {FoundAddress} found @param {Values} given */
function showPlaceOf({network}, given) {
  const {example = "", net: code, tab = "draw", program = "colouring", passes = 1, root = null, lesson = null, step = 1,
    lecture = null, slow = [], lazy = [], node = null, at = 0} = given;
  const isHere = example ? example === net.example : code === undefined ? net.nodes.length > 0 : code === codeOf(net);
  const found = isHere ? null : network || hello().opened;
  const isInLesson = seen.lesson !== null && lesson !== null;
  Object.assign(seen, {lesson, step: lesson && step, lecture});
  seen.tab = "draw";
  if (found) model.load(found, example, lesson !== null || lecture !== null);
  // A step is found again as it was left.
  isReplaced = isReplaced && !isInLesson;
  Object.assign(seen, {program, passes, root, slow, lazy, node});
  Object.values(tabs).forEach(one => one.follow(given));
  time.at = at;
  seen.tab = tab;
}
/** @type {CopyLink} */
hooks.copy = async (button, more = {}) => {
  link();
  const label = button.textContent || "", place = "#" + written({...stateSeen(), ...more}, hello().address);
  /** @param {string} said */
  const say_ = said => { button.textContent = said; };
  try { await navigator.clipboard.writeText(location.href.split(/[?#]/)[0] + place); say_("copied"); } catch {
    // The address has what isn't copied.
    location.assign(place);
    say_("see the address");
  }
  setTimeout(() => say_(label), 2000);
};
by("copy").onclick = () => hooks.copy(by("copy"));
// A menu has its title again once something is chosen. An arrow on a closed one opens it: it would choose at once.
/** @param {"examples" | "lessons" | "save" | "lecture"} id @param {(value: string) => unknown} choose */
function menu(id, choose) {
  const list = by(id);
  // It gives the keys back to the page.
  list.onchange = () => {
    const {value} = list;
    list.value = "";
    list.blur();
    if (value) choose(value);
  };
  list.onkeydown = event => {
    if (/^Arrow(Up|Down)$/.test(event.key) && list.showPicker) { event.preventDefault(); list.showPicker(); }
  };
}
menu("examples", name => asks("example", {name}, "opening", found => model.load(found, name)));
menu("lessons", number => hooks.open(`lesson=${number}&step=1`));
menu("save", what => net.nodes.length ? save(what) : wrong("Draw a network first."));
menu("lecture", number => hooks.open("lecture=" + number));
// The large mode, for a projector: the whole screen, if the browser gives it.
function turnLarge(isLarge = !document.documentElement.classList.contains("large")) {
  document.documentElement.classList.toggle("large", isLarge);
  by("large").setAttribute("aria-pressed", String(isLarge));
  stage.largest = isLarge ? 34 : 22;
  stage.fit();
  if (isLarge) document.documentElement.requestFullscreen().catch(() => 0);
  else if (document.fullscreenElement) document.exitFullscreen();
  show();
}
document.onfullscreenchange = () => { if (!document.fullscreenElement) turnLarge(false); };
by("large").onclick = by("normal").onclick = () => turnLarge();
by("replay").onclick = () => { time.stop(); time.set(0); time.toggle(); };
by("skip").onclick = () => all("#net [data-node]").slice(0, 1).forEach(one => one.focus());
all("header nav button").forEach(one => { one.onclick = () => hooks.go(tabNamed(one.dataset.tab)); });
// The tab of a name, which the page has.
/** @param {string | undefined} name @returns {TabName} */
function tabNamed(name) { return TABS.find(tab => tab === name) || "draw"; }

document.onkeydown = event => {
  const on = targetOf(event);
  // The text of a file is read with the keys that scroll it.
  if (on === by("codebox") && /^(Arrow|Page|Home|End)/.test(event.key)) return;
  if (["INPUT", "TEXTAREA", "SELECT"].includes(on.tagName) && on !== by("slider")) return;
  const isUsed = event.ctrlKey || event.metaKey ? undoes(event) : !event.altKey && uses(event, on);
  if (isUsed) event.preventDefault();
};
// Whether a key with Ctrl is one of those that undo a change or make it again.
/** @param {KeyboardEvent} event */
function undoes(event) {
  const key = event.key.toLowerCase();
  if (key === "y" || key === "z" && event.shiftKey) model.redo();
  else if (key === "z") model.undo();
  else return false;
  return true;
}
// Whether a key that is pressed on an element of the page is one of the page's.
/** @param {KeyboardEvent} event @param {HTMLElement} on */
function uses(event, on) {
  const {key} = event, {node: v} = on.dataset || {}, node = on.tagName === "g" && v ? +v : null;
  return clicks(event, on, node) || turns(key) || pressed(key) || usedByTab(event, node);
}
// Whether a key is a click on a node or an edge, or leads from tab to tab.
/** @param {KeyboardEvent} event @param {HTMLElement} on @param {number | null} node */
function clicks(event, on, node) {
  const {key} = event, {edge} = on.dataset || {};
  if ((node || edge) && (key === "Enter" || key === " ")) {
    tabs[seen.tab].click(node, edge ? endsOf(edge) : null, event);
  } else if (on.getAttribute("role") === "tab" && /^Arrow(Left|Right)$/.test(key)) nextTab(on, key);
  else return false;
  return true;
}
// Whether a key presses a button of the page.
/** @param {string} key */
function pressed(key) {
  /** @type {Record<string, HTMLElement | undefined>} */
  const buttons = {"+": by("zoomin"), "=": by("zoomin"), "-": by("zoomout")};
  // Who has chosen nothing leaves the large mode by Escape, as that of the browser.
  if (key === "Escape" && !seen.node && !seen.edge && document.documentElement.classList.contains("large")) turnLarge(false);
  const button = key === "c" && seen.tab === "rounds" ? by("change") : key === "f" ? by("large") : buttons[key];
  if (button) button.click();
  return Boolean(button);
}
// Whether the tab that is seen uses a key; the slider says of its own ones itself that they are used.
/** @param {KeyboardEvent} event @param {number | null} node */
function usedByTab(event, node) {
  const {key} = tabs[seen.tab];
  if (TIMED.includes(seen.tab) && time.key(event)) return false;
  return key !== undefined && key(event, node);
}
// The arrows lead from tab to tab, and from the last one to the first.
/** @param {HTMLElement} from @param {string} key */
function nextTab(from, key) {
  const list = all("header nav button"), next = list.indexOf(from) + (key === "ArrowRight" ? 1 : -1);
  const to = list[(next + list.length) % list.length];
  to.click();
  to.focus();
}
/** @param {DragEvent} event */
function drop(event) {
  event.preventDefault();
  document.body.classList.toggle("drop", event.type === "dragover");
  const [file] = event.type === "drop" && event.dataTransfer ? event.dataTransfer.files : [];
  if (file) openFile(file);
}
document.ondragover = document.ondragleave = document.ondrop = drop;
window.onhashchange = () => follow();

// What there is to choose from; asked again when the programs are built.
async function greet() {
  seen.hello = await greeted();
  const threads = Array.from(by("made").options).filter(one => one.value === "threads");
  threads.forEach(one => {
    one.disabled = !hello().proved;
    one.textContent = hello().proved ? "by real threads" : "by real threads (not built)";
  });
}
// What is seen in place of the studio as long as its command answers nothing: what it is, and how it begins.
/** @param {string} said */
function close(said) {
  by("closedsaid").replaceChildren(...coded(said));
  by("closedhow").hidden = false;
}
// What a published page is, and what isn't in it.
function sayRecorded() {
  const {published, proved} = hello();
  if (!published) return;
  document.body.classList.add("published");
  all("option[data-live]").forEach(one => one.remove());
  const by_ = proved ? "The proved program wrote its plans, and the proved machine accepted its runs"
    : "Python’s definitions wrote its plans and runs: they are tested, not proved. What a lesson calls proved is proved of the programs";
  all(".recorded").forEach(one => {
    one.hidden = false;
    one.replaceChildren(...coded(`This page was recorded from forestplan at commit ${published.commit}. ${by_}. It has the lessons and the lecture, and makes `
      + "the plan of what you draw. For its rounds and runs, other seeds and pictures start the studio: `forestlab studio`."));
  });
}
async function begin() {
  if (!token) return close("This page has no token, by which the studio knows you.");
  if (!await tried("hello", "beginning", greet)) return close(by("wrong").textContent || "");
  all("main").forEach(one => one.classList.remove("closed"));
  stage.fit();
  const {examples, dares, lecture, passes, programs, policies, opened} = hello();
  all("header nav, .tools").forEach(one => { one.hidden = false; });
  examples.forEach(name => option(by("examples"), name));
  fillMenu();
  Object.entries(dares).forEach(([name, {title, goal}]) => option(by("dare"), name, title, goal));
  lecture.forEach((one, k) => option(by("lecture"), k + 1, `${one.minutes}: ${one.title}`));
  inputs(".passes").forEach(one => { one.max = String(passes); });
  [by("program"), by("program2"), by("program3"), by("program4")].forEach(list => {
    programs.forEach(name => option(list, name));
  });
  [by("policy"), by("policy2")].forEach(list => {
    Object.entries(policies).forEach(([name, says]) => option(list, name, name, says));
  });
  sayRecorded();
  makeForm();
  watchOptions(() => { tabs[seen.tab].enter({fresh: true}); hooks.link(); });
  watchFile(() => {
    run.key = rounds.of = null;
    if (seen.tab === "adversary") makeAgain(); else tabs[seen.tab].enter();
  });
  watchBuild(async () => { await greet(); run.key = rounds.of = null; enter(); askPlan(); });
  await (location.hash || opened ? follow() : welcome());
}
window.studio = {net, seen, time, drawn, run, rounds, check, steps, stage,
  isFollowing: () => isFollowing || location.hash !== linked};
begin();
