// The marks of the pictures, as light descriptions that `patch` makes into elements.
import {BASELINE, CROSSED, ROUNDED, pillHigh, pillWide, ringWide, sizeIn, textWide} from "./geometry.js";
import {BAR_SIZES, BLANK_RIM, BLANK_SIZE, FORESTS, GREYS, HUES, INK, LOOKS, MOST_DIGITS, PALE, PERIOD, PILL_RIM,
  SQUARE_SIZES, WHITE, WIRES, WRONG} from "./hues.js";

const SVG = "http://www.w3.org/2000/svg", LEAST_SIZE = 8, FEWEST_LETTERS = 8, MOST_LETTERS = 15, NOTE = 11.5;
// `inside` is a text or a list of marks.
/** @type {(name: string, attributes?: Attributes, inside?: Inside) => Mark} */
export function mark(name, attributes = {}, inside = null) { return {name, attributes, inside}; }

// Makes a parent's children what a list says. Elements are kept from frame to frame, and only what differs is changed.
/** @param {Element} parent @param {Marks} list */
export function patch(parent, list) {
  let child = /** @type {Shown | null} */ (parent.firstChild);
  for (const wanted of list) {
    if (!wanted || wanted === true) continue;
    if (!child || child.nodeName !== wanted.name) {
      const fresh = document.createElementNS(SVG, wanted.name);
      if (child) parent.replaceChild(fresh, child); else parent.append(fresh);
      child = fresh;
    }
    if (child.mark !== wanted) update(child, wanted);
    child.mark = wanted;
    child = nextOf(child);
  }
  while (child) {
    const next = nextOf(child);
    child.remove();
    child = next;
  }
}
/** @param {Shown} child */
function nextOf(child) { return /** @type {Shown | null} */ (child.nextSibling); }
/** @param {Shown} element @param {Mark} wanted */
function update(element, wanted) {
  const before = element.shown || {}, now = wanted.attributes;
  for (const key in now) {
    if (now[key] === before[key]) continue;
    if (now[key] === null || now[key] === undefined) element.removeAttribute(key);
    else element.setAttribute(key, String(now[key]));
  }
  for (const key in before) if (!(key in now)) element.removeAttribute(key);
  element.shown = now;
  if (Array.isArray(wanted.inside)) patch(element, wanted.inside);
  else if (element.inside !== wanted.inside) element.textContent = element.inside = wanted.inside;
}

// Whether a ring is there: of what isn't so none is.
/** @type {(one: string | false | null) => one is string} */
export function isColour(one) { return Boolean(one); }

// What an event is of, which is an element of the page.
/** @param {Event} event */
export function targetOf(event) { return /** @type {HTMLElement} */ (event.target); }
// An element of the page by its name, which it has to have.
/** @type {<K extends keyof Elements>(id: K) => Elements[K]} */
export function element(id) { return /** @type {any} */ (document.getElementById(id)); }
// Whether a finger points: then texts say *tap* for *click*, and nothing of keys.
export const isTouched = typeof matchMedia === "function" && matchMedia("(pointer: coarse)").matches;
/** @param {string} said */
export function pointed(said) {
  return isTouched ? said.replace(/\b([Cc])lick(s?)\b(?!\.\w)/g, (_, first, end) => `${first === "C" ? "T" : "t"}ap${end}`) : said;
}
/** @type {<K extends keyof HTMLElementTagNameMap>(name: K, text?: string | number | null, attributes?: Attributes) => HTMLElementTagNameMap[K]} */
export function html(name, text = null, attributes = {}) {
  const element = document.createElement(name);
  if (text !== undefined && text !== null) element.textContent = name === "code" || name === "pre" ? String(text) : pointed(String(text));
  for (const key in attributes) element.setAttribute(key, String(attributes[key]));
  return element;
}
// A sentence of the server, in which what is between two backquotes is code.
/** @param {string} said @returns {(string | HTMLElement)[]} */
export function coded(said) {
  return said.split("`").map((part, k, all) => k % 2 && k + 1 < all.length ? html("code", part) : k % 2 ? "`" + part : part);
}
/** @param {string} said @param {Attributes} attributes */
export function sentence(said, attributes = {}) {
  const place = html("p", null, attributes);
  place.append(...coded(said));
  return place;
}
// A row of a table, with `th` or `td`.
/** @param {"th" | "td"} name @param {(string | number)[]} cells */
export function row(name, cells) {
  const line = html("tr");
  cells.forEach(text => line.append(html(name, text)));
  return line;
}
// What a channel looks like: its hue, whether it is a ring, and the ink and the size of its number. The looks of
// channels come again.
/** @param {number} channel */
function lookOf(channel) {
  const more = Math.max(0, channel - LOOKS.length);
  return LOOKS[channel - 1 - Math.ceil(more / PERIOD) * PERIOD];
}
// The fill and the ink of a disc of a colour from 0.
/** @param {number} colour */
export function discOf(colour) { return HUES[colour % HUES.length]; }
/** @param {Numeral} number */
function digitsOf(number) { return BigInt(number).toString(2).length; }
// A number as a mark has room for: 128d is one of 128 binary digits.
/** @param {Numeral} number */
export function short(number) {
  const digits = String(number);
  return digits.length > MOST_DIGITS ? digitsOf(digits) + "d" : digits;
}
/** @param {number} x @param {number} y @param {number} wanted @param {string} fill @param {string | number} said @param {Attributes} more */
export function textMark(x, y, wanted, fill, said, more = {}) {
  const size = Math.max(LEAST_SIZE, wanted);
  return mark("text", {x, y: y + BASELINE * size, "font-size": size.toFixed(1), fill, "text-anchor": "middle", ...more},
    String(said));
}
// What a node has found, in words at it. In less room than they need, `wide` pixels, they are smaller; then they are
// cut, and whole in their title. Of too few letters nothing is seen.
/** @param {number} x @param {number} y @param {number} wanted @param {string} said @param {number} wide @returns {Marks} */
export function resultWords(x, y, wanted, said, wide) {
  const size = Math.max(LEAST_SIZE, Math.min(wanted, wide / textWide(said.length, 1)));
  const most = Math.min(MOST_LETTERS, Math.floor(wide / textWide(1, size) + 0.01)), fits = said.length <= most;
  return [fits ? null : mark("title", {}, said), (fits || most >= FEWEST_LETTERS)
    && textMark(x, y, size, "var(--ink)", fits ? said : said.slice(0, most - 1) + "…", HALO)];
}
const BOLD = {"font-weight": "bold"};
export const HALO = {"paint-order": "stroke", stroke: "var(--paper)", "stroke-width": 3};
// A channel: its hue, full or as a ring, and its number.
/** @param {number} x @param {number} y @param {number} r @param {number} channel @returns {Marks} */
export function channelCircle(x, y, r, channel) {
  const {hue, is_ring: isRing, ink, size} = lookOf(channel), wide = ringWide(r);
  return [isRing && mark("circle", {cx: x, cy: y, r: r - wide / 2, fill: WHITE, stroke: hue, "stroke-width": wide}),
    mark("circle", {cx: x, cy: y, r, fill: isRing ? "none" : hue, stroke: "var(--rim)", "data-mark": "channel"}),
    textMark(x, y, r * size, ink, channel, BOLD)];
}
// A colour of 0 to 5 in a forest, or in grey a number that is none yet.
/** @param {number} x @param {number} y @param {number} half @param {Numeral} colour @param {boolean} isColour @returns {Marks} */
export function colourSquare(x, y, half, colour, isColour) {
  const said = isColour ? String(colour) : short(colour), size = half * sizeIn(SQUARE_SIZES, said.length);
  const [fill, ink] = isColour ? FORESTS[Number(colour)] : GREYS[Math.min(digitsOf(colour), GREYS.length - 1)];
  // What is as wide as its square is set closer.
  const close = said.length > 3 ? {textLength: 1.7 * half, lengthAdjust: "spacingAndGlyphs"} : {};
  return [mark("rect", {x: x - half, y: y - half, width: 2 * half, height: 2 * half, rx: ROUNDED * half, fill,
    stroke: "var(--rim)", "data-mark": isColour ? "colour" : said === String(colour) ? "name" : "long_name"}), textMark(x, y, size, ink, said, {...BOLD, ...close})];
}
/** @param {number} x @param {number} y @param {number} r @param {string | number} [said] @returns {Marks} */
export function blank(x, y, r, said) {
  return [mark("circle", {cx: x, cy: y, r, fill: "var(--paper)", stroke: "var(--ink)", "stroke-width": BLANK_RIM, "data-mark": "blank"}),
    said === undefined ? null : textMark(x, y, r * BLANK_SIZE, "var(--ink)", said, BOLD)];
}
/** @param {number} x @param {number} y @param {number} r @param {number} channel @returns {Marks} */
export function barMark(x, y, r, channel) {
  return [mark("circle", {cx: x, cy: y, r, fill: WHITE, stroke: lookOf(channel).hue, "data-mark": "bar"}),
    mark("line", {x1: x - CROSSED * r, y1: y + CROSSED * r, x2: x + CROSSED * r, y2: y - CROSSED * r, stroke: WRONG,
      "stroke-width": 1.5}), textMark(x, y, r * sizeIn(BAR_SIZES, String(channel).length), INK, channel, BOLD)];
}
// How a message looks that isn't looked at.
export const FADED = {fill: "var(--paper)", stroke: "var(--edge)", "stroke-dasharray": "2 2", ink: "var(--soft)", "data-mark": "faded"};
// A pill with words: a message on its way.
/** @type {(x: number, y: number, said: string, kind: string, size: number, look?: Attributes & {ink?: string}) => Marks} */
export function pill(x, y, said, kind, size, {ink = INK, ...more} = {}) {
  const wide = pillWide(said.length, size), high = pillHigh(size);
  return [mark("rect", {x: x - wide / 2, y: y - high / 2, width: wide, height: high, rx: high / 2, fill: PALE[kind],
    stroke: WIRES[kind], "stroke-width": PILL_RIM, "data-mark": kind, ...more}), textMark(x, y, size, ink, said)];
}
/** @param {string} said */
export function noteWidth(said) { return textWide(said.length, NOTE) + 12; }
// A red note on a white ground.
/** @param {number} x @param {number} y @param {string} said @returns {Marks} */
export function note(x, y, said) {
  const wide = noteWidth(said);
  return [mark("rect", {x: x - wide / 2, y: y - 10, width: wide, height: 20, rx: 10, fill: WHITE, stroke: WRONG,
    "stroke-width": 1.5}), textMark(x, y, NOTE, WRONG, said, BOLD)];
}
