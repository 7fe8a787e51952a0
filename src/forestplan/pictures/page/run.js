// A run without a clock: rows that src/forestplan/pictures/watch_page.py has worked out of a transcript.
import {pillHigh, pillWide} from "./geometry.js";
import {BLANK_RIM, BLANK_SIZE, WIRES} from "./hues.js";
import {FADED, channelCircle, html, isColour, mark, pill, resultWords, row, textMark} from "./marks.js";
import {nameOf} from "./stage.js";

/** @type {Record<string, string>} */
const AWAITS = {ack: WIRES.ack, safe: WIRES.safe, close: WIRES.safe};

// How many of a list are at its beginning of which this is true.
/** @type {<One>(list: One[], isTrue: (one: One) => boolean) => number} */
export function firstOf(list, isTrue) {
  let low = 0, high = list.length;
  while (low < high) { const half = (low + high) >> 1; if (isTrue(list[half])) low = half + 1; else high = half; }
  return low;
}
// A wire in words, or if there is no room for them by its number and the first letter of its kind.
/** @param {string} said @param {boolean} isLong */
function wireWords(said, isLong) {
  const [kind, pulse, word, number] = said.split(" ");
  if (kind === "payload") return (isLong ? word + " " : "") + (number.length < 5 ? number : number.slice(0, 3) + "…");
  return isLong ? kind + (pulse ? " " + pulse : "") : kind[0] + (pulse || "");
}
/** @param {Stage} stage */
function wireSize(stage) { return Math.max(9, Math.min(stage.largest - 10.5, stage.radius * 0.55)); }
// Whether wires are shown in words: there are few nodes, and words at the end of each link would cover no others.
const FEW_NODES = 12, WIDE_STAGE = 500, USUAL_LETTERS = 7;
/** @param {Stage} stage */
export function isWordy(stage) {
  const {net, wide} = stage;
  if (net.nodes.length > FEW_NODES || wide <= WIDE_STAGE) return false;
  const size = wireSize(stage), across = pillWide(USUAL_LETTERS, size), up = pillHigh(size);
  const ends = net.edges.flatMap(([v, w]) => [stage.beside(v, w, 1, across, up, 3), stage.beside(w, v, 1, across, up, 3)]);
  return ends.every(([x, y], k) => ends.every((other, n) => n >= k || Math.abs(other[0] - x) >= across || Math.abs(other[1] - y) >= up));
}
// A wire's mark at a place of its way, 0 at its start and 1 at its end.
/** @type {(stage: Stage, v: number, w: number, far: number, said: string, isLong: boolean, more?: Attributes, look?: Attributes & {ink?: string}, shown?: string) => Mark} */
export function wireMark(stage, v, w, far, said, isLong, more = {}, look = {}, shown = wireWords(said, isLong)) {
  const kind = said.split(" ")[0], size = wireSize(stage);
  const [x, y] = stage.beside(v, w, far, pillWide(shown.length, size), pillHigh(size), 3);
  return mark("g", {class: "wire", ...more},
    [mark("title", {}, `${said}, from ${v} to ${w}`), ...pill(x, y, shown, kind, size, look)]);
}
// The messages of the synchroniser, as they are shown.
/** @type {LooksOfMessages} */
const OF_ALPHA = {shown: wireWords, look: () => ({})};
// The wires that a link holds, the next one nearest to its taker; `look(place)` says which of them are free, and gives
// more attributes. Messages of another machine have looks `of` their own.
/** @param {Stage} stage @param {number} v @param {number} w @param {string[]} wires @param {(place: number) => Attributes} look @param {LooksOfMessages} of */
export function queueMarks(stage, v, w, wires, look, of = OF_ALPHA) {
  const isLong = isWordy(stage), length = Math.hypot(stage.X(v) - stage.X(w), stage.Y(v) - stage.Y(w));
  const longest = Math.max(0, ...wires.map(said => of.shown(said, isLong).length));
  const wide = Math.max(isLong ? 92 : 34, pillWide(longest, wireSize(stage)) + 8) / Math.max(1, length - 2 * stage.radius);
  const apart = Math.min(1 / Math.max(1, wires.length - 1), wide);
  return wires.map((said, place) => {
    const {free, ...more} = look(place);
    return wireMark(stage, v, w, 1 - place * apart, said, isLong, {...more, ...free ? {} : {opacity: 0.6, "data-mark": "later"}},
      {...of.look(said), "stroke-dasharray": free ? null : "3 2", "stroke-width": free ? 2 : 1.2}, of.shown(said, isLong));
  }).reverse();
}
// A node under the synchroniser: its pulse, what it awaits of whom and what it keeps, and what it has found.
/** @param {Stage} stage @param {Look} is @param {number} v @param {number} x @param {number} y @param {number} r */
export function alphaMarks(stage, is, v, x, y, r) {
  const [fill, kind] = stageOf(is);
  /** @type {Marks} */
  const parts = [mark("circle", {cx: x, cy: y, r, fill, stroke: "var(--ink)", "stroke-width": BLANK_RIM, "data-mark": kind}),
    textMark(x, y, r * BLANK_SIZE, "var(--ink)", is.pulse, {"font-weight": "bold"})];
  parts.push(...portMarks(stage, is, v, x, y, r));
  if (typeof is.found === "string") parts.push(...resultWords(x, stage.wordsAt(v, 10), 11, is.found, stage.roomBeyond(v)));
  else if (is.found) parts.push(...channelCircle(x + 0.95 * r, y + 0.75 * r, Math.max(6, r * 0.5), is.found));
  return parts;
}
// On a node's border, towards each neighbour: what is awaited of it, or what came early from it and is kept.
/** @param {Stage} stage @param {Look} is @param {number} v @param {number} x @param {number} y @param {number} r @returns {Marks} */
function portMarks(stage, is, v, x, y, r) {
  const due = byNeighbour(is.waits.slice().reverse()), kept = byNeighbour(is.keeps);
  return stage.near(v).filter(w => due.has(w) || kept.has(w)).map(w => {
    const m = stage.middle(v, w), far = Math.hypot(m[0] - x, m[1] - y) || 1, isKept = kept.has(w);
    const hue = isKept ? (kept.get(w) === "safe" ? WIRES.safe : WIRES.payload) : AWAITS[due.get(w) || ""];
    const kind = isKept ? "early" : due.get(w) === "ack" ? "await_ack" : "await_safe";
    return mark("circle", {cx: x + (m[0] - x) / far * r, cy: y + (m[1] - y) / far * r, r: Math.max(3, r * 0.2),
      fill: isKept ? hue : "var(--paper)", stroke: hue, "stroke-width": 2, "data-mark": kind});
  });
}
// The fill of a node by its stage, and which kind of mark that is.
/** @param {Look} is @returns {[string, string]} */
function stageOf(is) { return is.done ? ["var(--done)", "done_node"] : is.safe ? ["var(--safe)", "safe_node"] : ["var(--paper)", "pulse"]; }
/** @param {OfNeighbour[]} list @returns {Map<number, string>} */
function byNeighbour(list) { return new Map(list.map(([what, w]) => [w, what])); }
/** @param {OfNeighbour[]} list */
function grouped(list) {
  const by = new Map();
  list.forEach(([what, w]) => by.set(what, (by.get(what) || []).concat(w)));
  return Array.from(by, ([what, ws]) => `${what} of ${ws.join(", ")}`).join("; ");
}
// What a node waits for, in words. After the `last` pulse there is none that it could make.
/** @param {Look} is @param {number} last */
export function waitsWords(is, last) {
  if (is.done) return "done";
  return grouped(is.waits) || (is.pulse < last ? `nothing: may make pulse ${is.pulse + 1}` : "nothing: it has only to close its links");
}
// What a node has and waits for, in words, for whoever doesn't see its marks.
/** @param {Look} is @param {number} last */
export function lookWords(is, last) {
  const waits = is.done ? "done" : "waits for " + waitsWords(is, last);
  return [`pulse ${is.pulse}`, foundWords(is), waits].filter(Boolean).join(", ");
}
// What a node has found, in words.
/** @param {Look} is */
export function foundWords(is) { return typeof is.found === "string" ? is.found : is.found ? `channel ${is.found}` : ""; }
// A table of what each node (or one of many) waits for and keeps. `more(v)` gives a last column.
/** @param {Look[]} looks @param {WaitsOptions} options */
export function waitsTable(looks, {last, only = null, lit = null, head = "", more = () => ""}) {
  const shown = html("table");
  shown.append(row("th", ["node", "pulse", "waits for", "has, and keeps early", head].filter((w, k) => k < 4 || w)));
  looks.forEach((is, k) => {
    if (looks.length > 12 && only !== k + 1) return;
    const keeps = [grouped(is.has), is.keeps.length ? "early: " + grouped(is.keeps) : ""].filter(Boolean).join("; ");
    const cells = [k + 1, is.pulse, waitsWords(is, last), keeps, more(k + 1, is)];
    const line = row("td", head ? cells : cells.slice(0, 4));
    if (lit === k + 1) line.className = "on";
    shown.append(line);
  });
  const box = html("div");
  box.append(shown);
  if (looks.length > 12 && !only) box.append(html("p", "Click a node to see what it waits for.", {class: "soft"}));
  return box;
}
// What some marks mean in a run.
export const RUN_WORDS = {channel: "the channel that it has chosen", ring_glow: "it made the last entry", faded: "it isn’t at the node that is followed",
  ring_edge: "the node that is followed"};

export class RunFilm {
  // `found` has table, last and pulses.
  /** @param {RunFound} found @param {Net} net */
  constructor(found, net) {
    this.found = found;
    this.net = net;
    this.table = found.table;
    // Of each node its entries: how many are made before one, and the number of its look after it.
    /** @type {[number, number][][]} */
    this.own = net.nodes.map(() => []);
    this.table.rows.forEach((row_, at) => this.own[row_[1] - 1].push([at, row_[2]]));
    // Worked out when it is asked for.
    /** @type {[number, number, number][]} */
    this.far = [];
  }
  /** @param {number} stamp */
  rowsBy(stamp) { return firstOf(this.table.rows, one => one[0] <= stamp); }
  /** @param {number} v @param {number} at @returns {Look} */
  look(v, at) {
    const low = firstOf(this.own[v - 1], one => one[0] < at);
    return low ? this.table.looks[this.own[v - 1][low - 1][1]] : this.table.start[v - 1];
  }
  /** @param {number} at */
  looks(at) { return this.net.nodes.map((_, k) => this.look(k + 1, at)); }
  /** @param {number} at */
  last(at) { return at ? this.table.rows[at - 1] : null; }
  /** @param {number} at */
  said(at) {
    const last = this.last(at);
    return last ? `entry ${at.toLocaleString("en")}, stamp ${last[0]}: node ${last[1]} ${this.table.texts[last[3]]}`
      : "nothing has happened yet";
  }
  // How far apart the pulses of two neighbours, and of any two nodes, have been so far.
  /** @param {number} at @returns {[number, number]} */
  farthest(at) {
    if (!this.far.length) this.far = this.farAll();
    const before = firstOf(this.far, one => one[0] <= at);
    return before ? [this.far[before - 1][1], this.far[before - 1][2]] : [0, 0];
  }
  // [how many entries have been made, how far apart neighbours have been, and any two nodes], where that has grown.
  /** @returns {[number, number, number][]} */
  farAll() {
    const pulses = this.table.start.map(is => is.pulse), near = this.net.nodes.map(() => /** @type {number[]} */ ([]));
    this.net.edges.forEach(([v, w]) => { near[v - 1].push(w - 1); near[w - 1].push(v - 1); });
    /** @type {[number, number, number][]} */
    const found = [[0, 0, 0]];
    this.table.rows.forEach((one, k) => {
      const v = one[1] - 1, {pulse} = this.table.looks[one[2]], [, most, all] = found[found.length - 1];
      if (pulse === pulses[v]) return;
      pulses[v] = pulse;
      const here = Math.max(most, ...near[v].map(w => Math.abs(pulses[w] - pulse)));
      const far = Math.max(all, Math.max(...pulses) - Math.min(...pulses));
      if (here > most || far > all) found.push([k + 1, here, far]);
    });
    return found;
  }
  // How many stamps the pulse has in which a stamp is, counted by the slowest node.
  /** @param {number} stamp */
  stampsOfPulse(stamp) {
    const {all, stamps} = this.table, next = firstOf(all, one => one[0] <= stamp);
    const from = next ? all[next - 1][0] : stamps[0], to = next < all.length ? all[next][0] : stamps[1];
    return Math.max(1, to - from);
  }
  // The stamp of the next entry, or of the one before, that is wanted. Entries of one stamp are of different nodes, and
  // none depends on another, so they are stepped over together.
  /** @param {number} at @param {number} way @param {(row: Row) => boolean} isWanted */
  stepped(at, way, isWanted = () => true) {
    let next = at;
    do next += way; while (next > 0 && next < this.table.rows.length && !isWanted(this.table.rows[next - 1]));
    if (next <= 0) return this.table.stamps[0];
    const stamp = this.table.rows[Math.min(next, this.table.rows.length) - 1][0];
    return way < 0 && at && stamp === this.table.rows[at - 1][0] ? stamp - 1 : stamp;
  }
  // Where the run is when its last node has made a pulse, and on the way to the next one: {stamp, at, said}.
  /** @param {number} pulse */
  atPulse(pulse) {
    const whole = Math.floor(pulse), {all, rows, stamps} = this.table, k = whole - this.found.pulses[0], from = all[k];
    if (!from) return {stamp: stamps[1], at: rows.length, said: "the end"};
    const said = from[1] ? `node ${rows[from[1] - 1][1]} makes pulse ${whole}, the last to do so` : "the start";
    if (pulse === whole) return {stamp: from[0], at: from[1], said};
    const to = k + 1 < all.length ? all[k + 1][0] : stamps[1], stamp = from[0] + (to - from[0]) * (pulse - whole);
    return {stamp, at: Math.max(from[1], this.rowsBy(stamp)), said: `on the way to pulse ${whole + 1}`};
  }
  /** @param {Stage} stage @param {number} stamp @param {number} at @param {RunOptions} options @returns {Marks} */
  wires(stage, stamp, at, {node, only}) {
    const isLong = isWordy(stage), shown = [];
    for (const wire of this.table.wires) {
      if (wire[3] >= at || wire[5] !== null && wire[5] < at) continue;
      const said = this.table.texts[wire[2]];
      if (only && !said.startsWith("payload")) continue;
      const far = wire[6] === null ? 0.5 : Math.max(0, Math.min(1, (stamp - wire[4]) / (wire[6] - wire[4])));
      const pale = node && wire[0] !== node && wire[1] !== node;
      shown.push(wireMark(stage, wire[0], wire[1], far, said, isLong, {}, pale ? FADED : {}));
    }
    return shown;
  }
  /** @param {Stage} stage @param {number} stamp @param {RunOptions} options */
  draw(stage, stamp, {at = this.rowsBy(stamp), node = null, only = false, slow = [], lazy = []} = {}) {
    const last = this.last(at), waits = new Set(slow.map(e => e.join("-")));
    const isWord = typeof this.table.start[0].found === "string";
    stage.draw({node: (v, x, y, r) => alphaMarks(stage, this.look(v, at), v, x, y, r), bars: false, apart: 4.6,
      above: () => this.wires(stage, stamp, at, {node, only}), below: isWord,
      rings: v => [last && last[1] === v && "var(--glow)", node === v && "var(--edge)"].filter(isColour),
      says: v => lookWords(this.look(v, at), this.found.last), label: v => nameOf(this.net, v) + (lazy.includes(v) ? " (waits)" : ""),
      edge: (v, w) => heldEdge(v, w, waits.has(v + "-" + w))});
    return at;
  }
}
// An edge whose link can be made to wait, also by a key.
/** @param {number} v @param {number} w @param {boolean} isHeld @returns {Attributes} */
export function heldEdge(v, w, isHeld) {
  return {...isHeld ? {stroke: WIRES.payload, "stroke-width": 5, "stroke-dasharray": "2 6", "data-mark": "held"} : {}, tabindex: 0,
    role: "button", "aria-pressed": isHeld, "aria-label": `link ${v}–${w} waits`};
}
