// A legend: a swatch and a few words for each kind of mark that a picture has now, and for no other one. A mark says by
// its attribute `data-mark` of which kind it is.
import {PALE, WIRES} from "./hues.js";
import {blank, channelCircle, colourSquare, html, mark, patch, pill, pointed} from "./marks.js";

const WIDE = 26, HIGH = 18, X = WIDE / 2, Y = HIGH / 2, R = 7;

/** @param {string} stroke @returns {Marks} */
function ring(stroke) { return [mark("circle", {cx: X, cy: Y, r: R - 1, fill: "none", stroke, "stroke-width": 3})]; }
/** @param {Attributes} look @returns {Marks} */
function line(look) { return [mark("line", {x1: 1, y1: Y, x2: WIDE - 1, y2: Y, stroke: "var(--edge)", "stroke-width": 2, ...look})]; }
// A node with a small circle on its border.
/** @param {Attributes} look @returns {Marks} */
function port(look) {
  return [mark("circle", {cx: X - 4, cy: Y, r: R, fill: "var(--paper)", stroke: "var(--ink)", "stroke-width": 1.4}),
    mark("circle", {cx: X - 4 + R, cy: Y, r: 3.6, "stroke-width": 2, ...look})];
}
/** @param {string} fill @param {string} ink @returns {Marks} */
function node(fill, ink) { return [mark("circle", {cx: X, cy: Y, r: R, fill, stroke: ink, "stroke-width": 1.4})]; }
// What each kind looks like, and what it means where a page says nothing else; in the order of a legend.
/** @type {Record<string, [() => Marks, string]>} */
const KINDS = {
  channel: [() => channelCircle(X, Y, R, 1), "a node’s channel"],
  blank: [() => blank(X, Y, R), "no channel yet"],
  colour: [() => colourSquare(X, Y, R, 1, true), "its colour in the forest, from 0"],
  name: [() => colourSquare(X, Y, R, 9, false), "a colour that isn’t below 6 yet, at first the identifier"],
  long_name: [() => colourSquare(X, Y, R, "340282366920938463463374607431768211455", false), "128d: a colour of 128 binary digits"],
  pair: [() => [...colourSquare(X - 5, Y, 5, 1, true), mark("text", {x: X + 7, y: Y + 4, "font-size": 11, fill: "var(--ink)", "text-anchor": "middle"}, "0")],
    "the pair of its turn: colour in the forest, merged colour"],
  found: [() => [mark("circle", {cx: X, cy: Y, r: R, fill: "var(--strong)", stroke: "var(--ink)"})], "what it has found is beside it"],
  lit: [() => [mark("circle", {cx: X, cy: Y, r: R + 1, fill: "var(--chosen)", stroke: "var(--glow)", "stroke-width": 1.5})], "it has just chosen"],
  pulse: [() => node("var(--paper)", "var(--ink)"), "a node, with its pulse"],
  reacting: [() => node("var(--paper)", "var(--ink)"), "a node; beside it, its result so far"],
  acted: [() => [...node("var(--paper)", "var(--ink)"), mark("text", {x: X, y: Y + 4, "font-size": 11, fill: "var(--ink)", "text-anchor": "middle"}, "1")],
    "how often it has acted"],
  message: [() => [mark("rect", {x: 2, y: 3, width: WIDE - 4, height: HIGH - 6, rx: 6, fill: WIRES.payload, stroke: "var(--rim)"})],
    "a message: each word has its colour"],
  safe_node: [() => node("var(--safe)", "var(--ink)"), "it has said safe"],
  done_node: [() => node("var(--done)", "var(--ink)"), "it is done"],
  await_ack: [() => port({fill: "var(--paper)", stroke: WIRES.ack}), "it waits for an ack from there"],
  await_safe: [() => port({fill: "var(--paper)", stroke: WIRES.safe}), "it waits for a safe or a close from there"],
  early: [() => port({fill: WIRES.payload, stroke: WIRES.payload}), "filled: it keeps what came early from there"],
  payload: [() => pill(X, Y, "7", "payload", 10), "a payload"],
  dot: [() => [mark("circle", {cx: X, cy: Y, r: 2.5, fill: WIRES.payload})], "a message; click a node to see its own ones"],
  ack: [() => pill(X, Y, "a", "ack", 10), "an ack"],
  safe: [() => pill(X, Y, "s", "safe", 10), "a safe"],
  close: [() => pill(X, Y, "c", "close", 10), "a close"],
  faded: [() => [mark("rect", {x: 3, y: 3, width: WIDE - 6, height: HIGH - 6, rx: 6, fill: "var(--paper)", stroke: "var(--edge)", "stroke-dasharray": "2 2"})],
    "it decided nothing here"],
  later: [() => [mark("rect", {x: 3, y: 3, width: WIDE - 6, height: HIGH - 6, rx: 6, fill: PALE.payload, stroke: WIRES.payload, "stroke-dasharray": "3 2", opacity: 0.6})],
    "dashed: it can’t be taken yet"],
  arrow: [() => [...line({stroke: "var(--strong)"}), mark("path", {d: `M${WIDE - 1} ${Y}l-8 -4v8z`, fill: "var(--strong)"})], "from a child to its parent"],
  partner: [() => line({stroke: "var(--ink)", "stroke-width": 4}), "partners, or the way back"],
  bar: [() => [mark("circle", {cx: X, cy: Y, r: R, fill: "none", stroke: "var(--edge)"}),
    mark("line", {x1: X - 6, y1: Y + 6, x2: X + 6, y2: Y - 6, stroke: "var(--wrong)", "stroke-width": 1.5})], "a barred channel"],
  held: [() => line({stroke: WIRES.payload, "stroke-width": 4, "stroke-dasharray": "2 5"}), "a link that waits"],
  clash: [() => line({stroke: "var(--wrong)", "stroke-width": 3, "stroke-dasharray": "5 4"}), "one channel at both ends"],
  ring_glow: [() => ring("var(--glow)"), "the chosen node"],
  ring_edge: [() => ring("var(--edge)"), "the chosen node"],
  ring_good: [() => ring("var(--good)"), "it can make its pulse now: click it"],
  ring_wrong: [() => ring("var(--wrong)"), "here the plan is wrong"],
};

// Which kinds of marks pictures have now.
/** @param {Element[]} pictures */
export function kindsIn(pictures) {
  const found = new Set();
  pictures.forEach(one => one.querySelectorAll("[data-mark]").forEach(is => found.add(is.getAttribute("data-mark"))));
  return Object.keys(KINDS).filter(kind => found.has(kind));
}
/** @type {WeakMap<HTMLElement, string>} */
const shown = new WeakMap();
// Shows the legend of some pictures; `meanings` has what some kinds mean there.
/** @param {HTMLElement} place @param {Element[]} pictures @param {Record<string, string>} meanings */
export function legend(place, pictures, meanings = {}) {
  const kinds = kindsIn(pictures), said = kinds.map(kind => meanings[kind] || KINDS[kind][1]), key = kinds.concat(said).join();
  if (shown.get(place) === key) return;
  shown.set(place, key);
  place.replaceChildren(...kinds.map((kind, k) => {
    const one = html("span", null, {class: "swatch", "data-kind-of-mark": kind});
    const svg = document.createElementNS("http://www.w3.org/2000/svg", "svg");
    Object.entries({viewBox: `0 0 ${WIDE} ${HIGH}`, width: WIDE, height: HIGH, "aria-hidden": "true"})
      .forEach(([name, value]) => svg.setAttribute(name, String(value)));
    patch(svg, KINDS[kind][0]());
    one.append(svg, pointed(said[k]));
    return one;
  }));
}
