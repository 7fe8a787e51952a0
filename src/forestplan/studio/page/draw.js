// The tab Draw: the network is drawn with the mouse, a finger or keys, and its plan is shown after each change.
import {call, cancel} from "./api.js";
import {all, announce, asks, by, count, endsOf, go, hang, hello, hooks, programNamed, seen, show, showOptions, stage,
  tabs, tried, whole, wrong} from "./base.js";
import {blank, channelCircle, coded, html, targetOf} from "./marks.js";
import * as model from "./model.js";
import {change, net, neighbours, text} from "./model.js";
import {reacts} from "./own.js";
import {steps} from "./steps_tab.js";

/** @type {{plan: PlanFound | null, fresh: boolean}} */
export const drawn = {plan: null, fresh: false};
let timer = 0;

function showPlan() {
  const plan = drawn.plan ? drawn.plan.plan : [];
  /** @type {(v: number) => string} */
  const says = v => [plan[v - 1] ? `channel ${plan[v - 1]}` : "", `neighbours ${neighbours(v).join(", ") || "none"}`]
    .filter(Boolean).join(", ");
  stage.draw({says, rings: v => v === seen.node ? ["var(--glow)"] : [],
    edge: (v, w) => {
      const isChosen = isEdge(v, w), look = isChosen ? {stroke: "var(--glow)", "stroke-width": 4} : {};
      return {...look, tabindex: 0, role: "button", "aria-label": `edge ${v}–${w}`, "aria-pressed": isChosen};
    },
    node: (v, x, y, r) => plan[v - 1] ? channelCircle(x, y, r, plan[v - 1]) : blank(x, y, r)});
  const [undos, redos] = model.depth();
  by("undo").disabled = !undos;
  by("redo").disabled = !redos;
  by("delete").disabled = !seen.node && !seen.edge || isOnlyLookedAt();
  const chosen = seen.node ? `Node ${seen.node} is chosen: ${says(seen.node)}. ` : seen.edge
    ? `Edge ${seen.edge.join("–")} is chosen. ` : "";
  announce(`${chosen}${count(net.nodes.length, "node")}, ${count(net.edges.length, "edge")}`);
}
/** @param {number} v @param {number} w */
function isEdge(v, w) { return seen.edge && seen.edge.join() === `${v},${w}`; }
function facts() {
  const is = drawn.plan, place = by("plan");
  if (!net.nodes.length) return place.replaceChildren(html("p", "Nothing is drawn yet."));
  if (!is) return;
  const bars = is.bars ? ` and ${count(is.bars, "barred channel")}` : "";
  const used = new Set(is.plan).size, greatest = Math.max(...is.plan);
  place.replaceChildren(html("b", count(used, "channel") + (greatest > used ? `, the greatest ${greatest},` : "")
    + ` of the ${is.allowed} allowed`), html("p", `${count(net.nodes.length, "node")}, `
    + `${count(net.edges.length, "edge")}, at most ${count(is.degree, "neighbour")}${bars}. Found in the rounds `
    + `(pulses) 0 to ${is.last}, by way of ${count(is.forests, "forest")}: lessons 2 to 4. `
    + (hello().proved ? "The proved program plain has written this plan." : "Python has worked this plan out: tested, not proved.")));
}
// Asks for the plan, a moment after the last change.
export function askPlan() {
  clearTimeout(timer);
  cancel("plan");
  drawn.fresh = false;
  by("plan").classList.add("old");
  if (!net.nodes.length) { drawn.plan = null; facts(); return show(); }
  timer = setTimeout(() => asks("plan", {network: text()}, "looking for the plan", plan => {
    Object.assign(drawn, {plan, fresh: true});
    by("plan").classList.remove("old");
    const isTyped = fieldsOf(by("chosen")).some(one => one === document.activeElement && one.value !== one.defaultValue);
    if (seen.tab === "draw") { facts(); if (!isTyped) inspect(); show(); }
  }), 40);
}

// Asks what is written beside the nodes, a moment after the last change but a move.
let drawing = 0;
model.onChange(what => {
  if (what === "move") return;
  clearTimeout(drawing);
  cancel("drawing");
  if (what !== "load" && net.nodes.some(node => node.name || node.id || node.label)) drawing = setTimeout(askDrawing, 40);
});
async function askDrawing() {
  // Of a network that is refused the plan says why.
  const got = await call("drawing", {network: text()}).catch(() => null);
  if (!got) return;
  net.nodes.forEach((node, k) => { node.label = got.labels[k]; });
  show();
}

/** @param {HTMLElement} box */
function fieldsOf(box) { return Array.from(box.getElementsByTagName("input")); }
// The chosen node or edge.
export function inspect() {
  const place = by("chosen"), v = seen.node;
  if (seen.tab !== "draw") return;
  if (seen.edge) {
    return place.replaceChildren(html("h2", `Edge ${seen.edge.join(" – ")}`),
      html("p", "Delete removes it.", {class: "soft"}));
  }
  if (!v) return place.replaceChildren(net.nodes.length ? html("p", "No node is chosen.", {class: "soft"}) : "");
  const node = net.nodes[v - 1], box = html("div", null, {class: "grid"});
  const on = fieldsOf(place).findIndex(one => one === document.activeElement);
  /** @type {<Given>(said: string, value: string, use: (given: Given) => void, more: Attributes, parse: (said: string) => Given | null, refusal?: string) => void} */
  const field = (said, value, use, more, parse, refusal = "") => {
    const label = html("label", said), input = html("input", null, {type: "text", value, ...more});
    // After the focus has gone on: what has it then gets it again.
    input.onchange = () => setTimeout(() => {
      const given = parse(input.value.trim());
      if (given === null) { wrong(refusal); input.value = value; return; }
      wrong("");
      change(() => use(given));
    });
    label.append(input);
    box.append(label);
  };
  field("name", node.name, value => { node.name = value; }, {maxlength: 40, placeholder: "40 letters at most"},
    said => said);
  field("identifier", node.id, value => { node.id = value; }, {inputmode: "numeric", placeholder: `${v}, its number`},
    said => /^\d{0,39}$/.test(said) ? said : null, "An identifier is a whole number, from 0 on: no other node has it.");
  field("barred channels", node.bars.join(", "), value => { node.bars = value; }, {placeholder: "for example 1, 4-6"},
    barsOf, "Barred channels are numbers from 1 to 2,048, as 1, 4-6.");
  const channel = drawn.plan && drawn.plan.plan[v - 1];
  const identifier = node.id ? `, identifier ${node.id}` : "";
  place.replaceChildren(html("h2", `Node ${v}${identifier}` + (channel ? `, channel ${channel}` : "")), isOnlyLookedAt() ? "" : box,
    html("p", `neighbours: ${neighbours(v).join(", ") || "none"}`));
  if (on >= 0) fieldsOf(box)[on].focus();
  // It leads to another tab, and out of a lesson's step.
  const why = html("button", "why this channel?");
  why.onclick = () => { seen.node = v; go("rounds", {at: 1e9}); };
  why.disabled = !channel;
  if (seen.lesson === null) place.append(why);
}
// The channels of a list, as `1, 4-6`; null if it is none.
/** @param {string} said */
function barsOf(said) {
  const found = new Set();
  for (const part of said.split(/[\s,;]+/).filter(Boolean)) {
    const [, low, high] = /^(\d{1,4})(?:-(\d{1,4}))?$/.exec(part) || [0, 0, 0];
    if (+low < 1 || +(high || low) > 2048) return null;
    for (let bar = +low; bar <= +(high || low); bar++) found.add(bar);
  }
  return Array.from(found).sort((a, b) => a - b);
}
/** @param {number | null} v @param {Edge | null} edge */
function choose(v, edge = null) { seen.node = v; seen.edge = edge; inspect(); show(); }
/** @param {number | null} v */
function chooseOrNot(v) { choose(v === seen.node ? null : v); }
function remove() {
  if (isOnlyLookedAt()) return;
  if (seen.edge) model.toggleEdge(...seen.edge);
  else if (seen.node) { const v = seen.node; seen.node = null; model.removeNode(v); }
}
// With the shift key `from` stays chosen, for another neighbour.
/** @param {number} from @param {number} v @param {boolean} isKept */
function joinOrPart(from, v, isKept) {
  if (!isKept) seen.node = null;
  model.toggleEdge(from, v);
}
/** @param {number | null} v @param {Edge | null} edge @param {MouseEvent | KeyboardEvent} event */
function click(v, edge, event) {
  if (isOnlyLookedAt()) return chooseOrNot(v);
  if (v && seen.node && v !== seen.node) return joinOrPart(seen.node, v, event.shiftKey);
  if (v) return chooseOrNot(v);
  if (edge) return choose(null, isEdge(...edge) ? null : edge);
  if (seen.node || seen.edge) return choose(null);
  if (event instanceof MouseEvent) change(n => n.nodes.push({...stage.placeOf(event), id: "", name: "", bars: [], label: ""}));
}
// Whether a lesson's step asks something of an example that stays as it is: a click chooses a node there, and changes
// nothing.
function isOnlyLookedAt() {
  const of = hello().lessons.find(one => one.number === seen.lesson), step = of && of.steps[(seen.step || 1) - 1];
  return step !== undefined && net.example !== "" && step.tab === "draw" && (!step.exercise || step.exercise.kind !== "seen");
}
// A node where there is room: to the right of the last one, or in the middle.
function addByKey() {
  const last = net.nodes[net.nodes.length - 1], up = net.nodes.length % 2 ? 30 : -30;
  const place = last ? {x: last.x + 70, y: last.y + up} : {x: stage.wide / 2, y: stage.high / 2};
  change(n => n.nodes.push({...place, id: "", name: "", bars: [], label: ""}));
  if (stage.isOutside()) { stage.fit(); show(); }
}
// `on` is the node that has the focus.
/** @param {KeyboardEvent} event @param {number | null} on */
function key(event, on) {
  const way = {ArrowLeft: [-20, 0], ArrowRight: [20, 0], ArrowUp: [0, -20], ArrowDown: [0, 20]}[event.key];
  if (on && way) change(n => { n.nodes[on - 1].x += way[0]; n.nodes[on - 1].y += way[1]; }, "key " + on, "move");
  else if (event.key === "Delete" || event.key === "Backspace") {
    const {edge} = targetOf(event).dataset || {};
    if (on || edge) Object.assign(seen, {node: on, edge: edge ? endsOf(edge) : null});
    remove();
  } else if (event.key === "Escape") choose(null);
  else if (event.key.toLowerCase() === "a" && !isOnlyLookedAt()) addByKey();
  else return false;
  return true;
}
tabs.draw = {
  click, key, show: showPlan, link: () => ({}), follow: () => 0,
  hint: () => isOnlyLookedAt() ? "In this step the drawing stays as it is. Click a node to choose it." : seen.node ? "Click another node to join the two, or to part them; an empty place lets go."
    : net.nodes.length > 1 ? "Click a node, then another, to join them or to part them. Drag to move."
      : "Click to add a node.",
  enter() { inspect(); facts(); show(); },
};

// Files.
// `stated` has the words of a command line that say what the file is; `name` is that of the network.
/** @param {File} file @param {string[]} stated @param {string | null} name */
export async function openFile(file, stated = [], name = null) {
  by("unsaid").hidden = true;
  by("notes").textContent = "";
  if (file.size > 4e6) return wrong("That file is larger than the studio reads.");
  const bytes = new Uint8Array(await file.arrayBuffer());
  let letters = "";
  for (let k = 0; k < bytes.length; k += 32768) letters += String.fromCharCode(...bytes.subarray(k, k + 32768));
  await asks("read", {name: file.name, data: btoa(letters), stated}, "reading the file", found => {
    if (found.unsaid !== undefined) return askWhat(file, stated, name, found);
    model.load({...found, name: name === null ? found.name : name});
    if (seen.tab !== "draw") go("draw");
    const {said} = found, all_ = [count(net.nodes.length, "node"), count(net.edges.length, "edge")];
    by("notes").textContent = `Read: ${(said.length ? said : all_).join("; ")}.`;
  });
}
// Nothing is guessed: what isn't said of a file is asked. Of a table without standard titles any columns may be meant.
/** @param {File} file @param {string[]} stated @param {string | null} name @param {FileUnsaid} found */
function askWhat(file, stated, name, {unsaid, choices, wanted, titles}) {
  /** @type {(means: string, choice: () => string[]) => HTMLButtonElement} */
  const say = (means, choice) => {
    const button = html("button", means);
    button.onclick = () => openFile(file, [...stated, ...choice()], name);
    return button;
  };
  const choosers = wanted.map((column, k) => {
    const choice = html("select", null, {name: column});
    titles.forEach(title => choice.append(html("option", title)));
    choice.selectedIndex = k;
    return choice;
  });
  const columns = choosers.map(choice => {
    const label = html("label", choice.name + " is ");
    label.append(choice);
    return label;
  });
  /** @param {HTMLSelectElement} choice */
  const quoted = ({name: column, value}) => `"${(column + "=" + value).replaceAll('"', '""')}"`;
  const chosen = () => ["--columns", choosers.map(quoted).join(",")];
  if (seen.tab !== "draw") go("draw");
  by("unsaid").hidden = false;
  by("unsaidwhat").replaceChildren(...coded(`${unsaid}. Say what it is:`));
  by("unsaidchoices").replaceChildren(...choices.map(({stated: more, means}) => say(means, () => more)));
  if (columns.length) by("unsaidchoices").append(...columns, say("read these", chosen));
}
// What is saved is a text or a page, for whoever has no studio.
/** @param {string} text @param {string} ending What comes after the network's name. */
function download(text, ending) {
  const type = ending === ".html" ? "text/html" : "text/plain", name = (net.name || "network") + ending;
  const link = html("a", null, {href: URL.createObjectURL(new Blob([text], {type})), download: name});
  link.click();
  setTimeout(() => URL.revokeObjectURL(link.href), 1000);
}
/** @param {string} what */
export function save(what) {
  const asked = {network: text(), name: net.name, program: programNamed()};
  if (what === "network") return download(text(), ".col");
  if (what === "rounds") return asks("rounds_page", asked, "making the page", page => download(page, "-rounds.html"));
  return tried("save", "playing the run", async () => {
    const transcript = await tabs.run.transcript();
    if (!transcript) return;
    if (what === "transcript") return download(transcript, ".transcript");
    const page = await call("run_page", {...asked, transcript});
    if (page) download(page, "-run.html");
  });
}
// Making networks. A published page has some sizes to choose from.
/** @param {number[]} sizes */
function sizesOf(sizes) {
  const list = html("select");
  sizes.forEach(size => list.append(html("option", String(size))));
  return list;
}
/** @type {"input"} */
const SIZED = /** @type {any} */ ("input, select");
export function makeForm() {
  const form = by("make"), kind = html("select", null, {"aria-label": "kind"}), sizes = html("span");
  const {kinds, published} = hello();
  /** @type {Record<string, number>} */
  const usual = {nodes: 8, rows: 3, columns: 4, edges: 12, seed: 1};
  Object.keys(kinds).forEach(one => kind.append(html("option", one)));
  const fields = () => {
    const is = kinds[kind.value];
    sizes.replaceChildren(...is.sizes.concat(is.chance ? ["seed"] : []).map(name => {
      const label = html("label", name), isNodes = ["nodes", "rows", "columns"].includes(name);
      const most = isNodes ? {max: hello().most} : {max: 999999999};
      const input = published ? sizesOf(published.sizes) : html("input", null, {type: "number", min: 0, required: "", ...most});
      input.name = name;
      input.value = String(usual[name]);
      label.append(input);
      return label;
    }));
  };
  kind.onchange = fields;
  if (!published) kind.value = "random";
  fields();
  form.append(kind, sizes, html("button", "make"));
  form.onsubmit = event => {
    event.preventDefault();
    const asked = Object.fromEntries(Array.from(sizes.querySelectorAll(SIZED), one => [one.name, one.value]));
    asks("make", {kind: kind.value, sizes: asked, seed: asked.seed}, "making it", found => model.load(found));
  };
}
by("undo").onclick = model.undo;
by("redo").onclick = model.redo;
by("delete").onclick = remove;
by("clear").onclick = () => change(n => { n.nodes = []; n.edges = []; n.name = ""; });
by("tidy").onclick = () => asks("tidy", {network: text()}, "laying it out", ({nodes}) => {
  change(n => { n.nodes = nodes; });
  stage.fit();
  show();
});
by("apply").onclick = () => openFile(new File([by("text").value], "the text"), ["--as", "dimacs"], net.name);
by("file").onchange = () => {
  const [file] = by("file").files || [];
  if (file) openFile(file);
  by("file").value = "";
};

// The tab Pictures: what the command `picture` draws.
/** @type {Record<PictureKind, string>} */
const KINDS = {
  plan: "The plan.", results: "What the nodes have found at the end.",
  rounds: "A row for each node; of the colouring, for each node of each forest.",
  bits: "One node above its parent, digit by digit.", why: "What decided the channel of the chosen node.",
  run: "Space and time of the run of the tab No clock; of nodes without rounds, of the steps of the tab Adversary."};
const OF_RUN = ["run"], OF_NODE = ["why", "bits"];
// Those that draw any program.
const OF_PROGRAM = ["results", "rounds", ...OF_RUN];
/** @type {PictureKind} */
let kind = "rounds";
// The node of a picture of one. Of `why` it is said if none is chosen.
/** @param {PictureKind} kind */
function askedNode(kind) {
  if (!OF_NODE.includes(kind)) return null;
  if (kind === "why" && !seen.node) by("kindsaid").textContent += " None is chosen, so it is node 1.";
  return seen.node || (kind === "why" ? 1 : null);
}
function askPicture() {
  all("#kinds button").forEach(one => one.setAttribute("aria-pressed", String(one.dataset.kind === kind)));
  by("kindsaid").textContent = KINDS[kind];
  announce(KINDS[kind]);
  by("ofnode").hidden = !OF_NODE.includes(kind);
  by("ofrun").hidden = !OF_RUN.includes(kind) || reacts();
  const program = OF_PROGRAM.includes(kind) ? programNamed() : "colouring";
  by("ofprogram").hidden = !OF_PROGRAM.includes(kind);
  showOptions();
  if (!OF_PROGRAM.includes(kind)) all("[data-panel=pictures] .option").forEach(one => { one.hidden = true; });
  by("program4").value = seen.program;
  const pulses = (/^(\d{1,6})\.\.(\d{1,6})$/.exec(by("pulses").value.trim()) || []).slice(1).map(Number);
  by("nodenumber").max = String(net.nodes.length);
  by("nodenumber").value = String(seen.node || "");
  const asked = kind;
  tried("picture", "drawing", async () => {
    const isOfSteps = reacts() && OF_RUN.includes(kind), isOfRun = OF_RUN.includes(kind) && !isOfSteps;
    const transcript = isOfRun ? await tabs.run.transcript() : null, made = isOfSteps ? steps.made.join("_") : null;
    // Another picture has been asked for since.
    if (kind !== asked || isOfRun && !transcript) return;
    const got = await call("picture", {kind, network: text(), name: net.name, program, node: askedNode(kind),
      transcript, forest: tabs.rounds.forest(), pulses: isOfRun ? pulses : null, steps: made});
    if (!got) return;
    hang(got, kind);
    by("keep").href = URL.createObjectURL(new Blob([got], {type: "image/svg+xml"}));
    by("keep").download = `${net.name || "network"}-${kind}.svg`;
  });
}
/** @type {PictureKind[]} */
const ALL_KINDS = ["plan", "results", "rounds", "bits", "why", "run"];
ALL_KINDS.forEach(one => {
  const button = html("button", one, {"data-kind": one});
  button.onclick = () => { kind = one; askPicture(); hooks.link(); };
  by("kinds").append(button);
});
tabs.pictures = {
  hint: () => "", click: () => 0, show: () => 0,
  follow({kind: said = kind}) { kind = said; },
  enter(more = {}) { kind = more.kind || kind; askPicture(); },
  link: () => ({kind, node: seen.node, forest: tabs.rounds.forest()}),
};
by("program4").onchange = () => { seen.program = by("program4").value; askPicture(); show(); };
by("pulses").onchange = askPicture;
by("nodenumber").onchange = () => {
  const v = whole(by("nodenumber").value);
  seen.node = v <= net.nodes.length && v || null;
  askPicture();
  hooks.link();
};
