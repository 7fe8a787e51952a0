// The rounds of a network, pulse by pulse, by what src/forestplan/ has worked out.
import {pillHigh, pillWide} from "./geometry.js";
import {BLANK_SIZE, WIRES} from "./hues.js";
import {FADED, HALO, blank, channelCircle, colourSquare, discOf, html, isColour, mark, pill, resultWords, short,
  textMark} from "./marks.js";

const ORIENT = 1, SEED = 2, LAST_BIT_STEP = 6, LAST_COLOUR = 12;
// Above so many messages they are dots, this wide.
const CROWD = 60, DOT = 5;
// How far what lights a node up goes beyond its circle, in radiuses.
const LIT = 0.4;
// What some marks mean in rounds.
export const ROUNDS_WORDS = {payload: "a message", ring_edge: "its identifier decided what the chosen node found"};

export class RoundsFilm {
  /** @param {RoundsFound} found @param {Net} net */
  constructor(found, net) {
    this.found = found;
    this.net = net;
    this.last = found.last;
    this.forests = found.forests;
    this.channels = found.channels;
    // What each node has chosen by a pulse.
    /** @type {Record<number, number>[]} */
    this.merged = [];
    /** @type {Map<string, number>} */
    this.parent = new Map(found.parents.map(([v, f, w]) => [v + " " + f, w]));
    /** @type {Record<number, number>} */
    let now = {};
    found.pulses.forEach((pulse, p) => {
      if (Object.keys(pulse.chosen).length) now = {...now, ...pulse.chosen};
      const alone = p === found.last && !found.forests;
      this.merged.push(alone ? Object.fromEntries(found.first.map((c, k) => [k + 1, c])) : now);
    });
  }
  // The forest of a pulse: the one that is merged, or the one that is looked at.
  /** @param {number} p @param {number} chosen */
  forestAt(p, chosen) {
    const {step} = this.found.pulses[p];
    return step ? step[0] : p >= ORIENT && p <= LAST_COLOUR && this.forests ? chosen : null;
  }
  // Whether nothing is chosen, found or sent in a pulse; and the next one in which something is, or the last one.
  /** @param {number} p */
  isIdle(p) {
    const pulse = this.found.pulses[p], {step, chosen, puts} = pulse;
    return p > 0 && p < this.last && !puts.length
      && (pulse.results ? !pulse.new.length : step && !Object.keys(chosen).length);
  }
  /** @param {number} p */
  nextChange(p) {
    let next = Math.min(p + 1, this.last);
    while (this.isIdle(next)) next++;
    return next;
  }
  // What can be asked of a node at the next pulse: [words, answers to tap], or null.
  /** @param {number} v @param {number} p @param {number} forest @returns {[string, string[]] | null} */
  question(v, p, forest) {
    const next = this.found.pulses[p + 1];
    if (!next || p < 1) return null;
    if (next.results) return [`After pulse ${p + 1}: what has node ${v} found?`, []];
    if (next.step) {
      const width = this.forests ? (this.last - 12) / this.forests / 3 : 0;
      const channels = Array.from({length: Math.min(width, 12)}, (_, k) => String(k + 1));
      return [`In pulse ${p + 1}: which channel does node ${v} choose? (- for none)`, ["-", ...channels]];
    }
    return [`After pulse ${p + 1}: which colour has node ${v} in forest ${forest}?`,
      p + 1 < 6 ? [] : ["0", "1", "2", "3", "4", "5"]];
  }
  // The colours that a node compares in the next pulse, if that is a bit step; and whether the reason for what it has
  // after a pulse has that in it.
  /** @param {number} v @param {number} p @param {number} forest @returns {[string, Numeral][]} */
  compared(v, p, forest) {
    if (p < SEED || p >= LAST_BIT_STEP || !this.found.pulses[p].colours) return [];
    const up = this.parent.get(v + " " + forest), own = /** @type {[string, Numeral]} */ ([`node ${v}`, this.colourAt(p, v, forest)]);
    return up ? [own, [`its parent ${up}`, this.colourAt(p, up, forest)]] : [own];
  }
  /** @param {number} p */
  reasonTells(p) { return Boolean(this.found.pulses[p].results || this.found.pulses[p].step); }
  // What a node has at a pulse, in words.
  /** @param {number} v @param {number} p @param {number | null} forest */
  stateText(v, p, forest) {
    const {results, colours} = this.found.pulses[p];
    if (results) return results[v - 1] || "nothing found yet";
    const channel = v in this.merged[p] ? `channel ${this.merged[p][v] + 1}` : "no channel yet";
    return colours && forest !== null ? `colour ${colours[v - 1][forest]} in forest ${forest}` : channel;
  }
  /** @param {number} v @param {number} p */
  hasChosen(v, p) {
    const [, three, old] = this.found.pulses[p].step || [0, 0, 0], width = (this.last - 12) / this.forests / 3;
    for (let at = p - three * width - old; at <= p; at++) if (v in this.found.pulses[at].chosen) return true;
    return false;
  }
  /** @param {Stage} stage @param {number} p @param {number | null} forest @param {number} v @param {number} x @param {number} y @param {number} r @returns {Marks} */
  node(stage, p, forest, v, x, y, r) {
    const pulse = this.found.pulses[p], lit = mark("circle", {cx: x, cy: y, r: (1 + LIT) * r,
      fill: "var(--chosen)", stroke: "var(--glow)", "stroke-width": 1.5, "data-mark": "lit"});
    /** @type {Marks} */
    const parts = [];
    if (pulse.results) return [pulse.new.includes(v) && lit, ...this.resultMarks(stage, pulse, v, x, y, r)];
    if (pulse.colours && forest !== null) {
      const colour = pulse.colours[v - 1][forest];
      parts.push(...colourSquare(x, y, r, colour, p > SEED && Number(colour) <= 5));
    } else if (v in this.merged[p]) {
      parts.push(v in pulse.chosen && lit, ...channelCircle(x, y, r, this.merged[p][v] + 1));
    } else parts.push(...blank(x, y, r));
    return parts;
  }
  // What a node of another program has found: in words, and by its colour; or its channel.
  /** @param {Stage} stage @param {PulseOfProgram} pulse @param {number} v @param {number} x @param {number} y @param {number} r */
  resultMarks(stage, pulse, v, x, y, r) {
    const [colour, partner] = pulse.drawn[v] || [null, null], found = pulse.results[v - 1] + (partner ? ` to ${partner}` : "");
    if (this.channels) return channelCircle(x, y, r, Number(colour) + 1);
    const [fill, ink] = discOf(colour || 0);
    const disc = colour === null ? blank(x, y, r, v) : [mark("circle", {cx: x, cy: y, r, fill,
      stroke: "var(--ink)", class: "found-colour", "data-mark": "found"}), textMark(x, y, r * BLANK_SIZE, ink, v)];
    return [...disc, ...resultWords(x, stage.wordsAt(v, 12), Math.min(11.5, r), found, stage.roomBeyond(v))];
  }
  // The colour of a node in a forest after one of the pulses 2 to 12.
  /** @param {number} p @param {number} v @param {number} forest */
  colourAt(p, v, forest) {
    const {colours} = this.found.pulses[p];
    return colours ? colours[v - 1][forest] : 0;
  }
  // When it is a node's turn in a merge: its colour in the forest, and its old colour.
  /** @param {number} p @param {number} forest @param {number} v @param {number} x @param {number} y @param {number} r */
  turnMark(p, forest, v, x, y, r) {
    const old = v in this.merged[p] ? this.merged[p][v] : this.found.first[v - 1], half = 0.45 * r;
    const colour = this.colourAt(LAST_COLOUR, v, forest);
    return [...colourSquare(x - 0.9 * r, y + 1.55 * r, half, colour, true),
      textMark(x + 0.15 * r, y + 1.55 * r, half * 1.9, "var(--ink)", old, {...HALO, "font-weight": "bold", "data-mark": "pair"})];
  }
  /** @param {Stage} stage @param {number} p @param {number | null} forest */
  arrows(stage, p, forest) {
    const pulse = this.found.pulses[p], upTo = p === ORIENT ? this.forests : pulse.step ? pulse.step[0] + 1 : null;
    /** @type {Mark[]} */
    const links = [];
    this.parent.forEach((w, key) => {
      const [v, f] = key.split(" ").map(Number);
      if (upTo !== null ? f >= upTo : f !== forest) return;
      const mine = f === forest;
      links.push(...stage.arrow(v, w, mine ? "var(--strong)" : "var(--edge)", mine ? 2 : 1.4));
    });
    Object.entries(pulse.drawn || {}).forEach(([v, [, w]]) => {
      if (w) links.push(...stage.arrow(+v, w, "var(--ink)", 3.2, "partner"));
    });
    return links;
  }
  // The messages of a pulse, `part` of the way. `why` fades those that didn't decide the chosen node's channel.
  // Of a crowd only those of the chosen node have their numbers: pills would hide the network.
  /** @param {Stage} stage @param {number} p @param {number} part @param {number} chosen @param {{why: WhyFound | null, node: number | null}} of @returns {Marks} */
  messages(stage, p, part, chosen, {why, node}) {
    const heard = new Set(why ? why.messages.map(m => m.join(" ")) : []), shown = [];
    const size = Math.max(9, Math.min(stage.largest - 10, stage.radius * 0.6));
    const puts = this.found.pulses[p].puts.filter(([v, w, word]) => word !== "colour" || this.parent.get(w + " " + chosen) === v);
    // They begin and end slowly.
    const far = part * part * (3 - 2 * part), isCrowd = puts.length > CROWD;
    for (const [v, w, word, sent] of puts) {
      const said = short(word === "chosen" || word === "anew" ? Number(sent) + 1 : sent);
      const whole = Math.hypot(stage.X(v) - stage.X(w), stage.Y(v) - stage.Y(w)), start = Math.min(0.12, 12 / whole);
      if (isCrowd && v !== node && w !== node) {
        const [x, y] = stage.beside(v, w, start + (1 - start) * far, DOT, DOT);
        shown.push(mark("circle", {class: "token", cx: x, cy: y, r: DOT / 2, fill: WIRES.payload, "data-mark": "dot"}));
        continue;
      }
      const [x, y] = stage.beside(v, w, start + (1 - start) * far, pillWide(said.length, size), pillHigh(size));
      const look = why && !heard.has([p, v, w].join(" ")) ? FADED : {};
      shown.push(mark("g", {class: "token"},
        [mark("title", {}, `${v} tells ${w}: ${word} ${sent}`), ...pill(x, y, said, "payload", size, look)]));
    }
    return shown;
  }
  /** @param {Stage} stage @param {number} at @param {RoundsOptions} options */
  draw(stage, at, {forest = 0, node = null, why = null, quiet = false, plain = false} = {}) {
    const p = Math.min(this.last, Math.floor(at)), pulse = this.found.pulses[p], shown = this.forestAt(p, forest);
    const names = new Set(why ? why.identifiers : []);
    /** @type {OfNode<Marks>} */
    const turn = (v, x, y, r) => plain || !pulse.step || this.hasChosen(v, p) ? []
      : this.turnMark(p, pulse.step[0], v, x, y, r);
    stage.draw({node: (v, x, y, r) => [...this.node(stage, p, shown, v, x, y, r), ...turn(v, x, y, r)], links: () => this.arrows(stage, p, shown),
      above: () => quiet ? [] : this.messages(stage, p, at - p, forest, {why, node}),
      // In all pulses, so that labels stay where they are.
      bars: !pulse.results || Boolean(this.channels), words: Boolean(pulse.results && !this.channels), below: Boolean(pulse.results ? !this.channels : this.forests && !plain),
      says: v => `pulse ${p}, ${this.stateText(v, p, shown)}`,
      label: pulse.results && !this.channels ? v => this.net.nodes[v - 1].label
        : quiet ? v => stage.radius < 9 ? "" : String(v) : null,
      rings: v => [v === node && "var(--glow)", names.has(v) && "var(--edge)"].filter(isColour),
      around: v => pulse.results ? pulse.new.includes(v) ? LIT * stage.radius : 0
        : v in pulse.chosen ? LIT * stage.radius : 0,
      edge: () => ({"stroke-width": p === 0 ? 1.6 : 0.8}), still: [this, p, forest, node, why, quiet, plain]});
    return p;
  }
  // [caption, sentence] of a pulse, with what the chosen node has found.
  /** @param {number} p @param {number | null} node */
  said(p, node) {
    const {caption, said, results} = this.found.pulses[p];
    return [caption.split(" · ").slice(1).join(" · ") || caption, said + (results && node
      ? ` Node ${node} has found: ${results[node - 1] || "nothing yet"}${this.partnerWords(p, node)}.` : "")];
  }
  // The channels that nodes have at a pulse, each less 1: of the colouring, or of another program.
  /** @param {number} p @returns {Record<number, number>} */
  channelsAt(p) {
    const {drawn} = this.found.pulses[p];
    return drawn && this.channels ? Object.fromEntries(Object.entries(drawn).map(([v, [colour]]) => [v, Number(colour)])) : this.merged[p];
  }
  // Who is at the port that a node has found.
  /** @param {number} p @param {number} v */
  partnerWords(p, v) {
    const [, partner] = (this.found.pulses[p].drawn || {})[v] || [null, null];
    return partner ? `, the port that leads to node ${partner}` : "";
  }
  // Buttons of the forests; `choose(f)` is called by a click.
  /** @param {number} p @param {number} chosen @param {(forest: number) => void} choose */
  chips(p, chosen, choose) {
    if (this.forests < 2) return [];
    const {step} = this.found.pulses[p];
    return Array.from({length: this.forests}, (_, f) => {
      const chip = html("button", "forest " + f, {"aria-pressed": f === (step ? step[0] : chosen), "data-forest": f});
      chip.disabled = Boolean(step);
      chip.onclick = () => choose(f);
      return chip;
    });
  }
  // The colours of a node and of its parent, forest by forest, after the pulses 2 to 12: a size and marks.
  /** @param {number} p @param {number} v @returns {[string, Marks]} */
  strips(p, v) {
    const side = 19;
    /** @type {[number, number, string][]} */
    const rows = [];
    /** @type {Marks} */
    const parts = [];
    for (let f = 0; f < this.forests; f++) {
      const up = this.parent.get(v + " " + f);
      if (up) rows.push([up, f, "parent " + up]);
      rows.push([v, f, `forest ${f}, node ${v}${up ? "" : ", a root"}`]);
    }
    // The first column is to the right of all that is said of the rows.
    const first = Math.max(132, 14 + 5.4 * Math.max(0, ...rows.map(([, , said]) => said.length)));
    for (let q = SEED; q <= LAST_COLOUR; q++) {
      const x = first + (q - SEED) * 20;
      parts.push(textMark(x, 7, 9, "var(--soft)", q, {"font-weight": q === p ? "bold" : "normal"}));
    }
    rows.forEach(([who, f, said], k) => {
      const y = 16 + k * (side + 3) + side / 2;
      parts.push(textMark(0, y, 10.5, who === v ? "var(--ink)" : "var(--soft)", said, {"text-anchor": "start"}));
      for (let q = SEED; q <= LAST_COLOUR; q++) {
        const colour = this.colourAt(q, who, f), x = first + (q - SEED) * 20;
        parts.push(...colourSquare(x, y, side / 2 - 0.5, colour, q > SEED && Number(colour) <= 5),
          q === p && mark("rect", {x: x - 10, y: y - 10, width: 20, height: 20, fill: "none", stroke: "var(--glow)",
            "stroke-width": 2}));
      }
    });
    return [`0 0 ${first + 218} ${16 + rows.length * (side + 3)}`, parts];
  }
}
