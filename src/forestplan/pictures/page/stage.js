// A picture of a network: where things are on the screen, what is drawn, and what is under the pointer.
import {CORNER, SHRINK, SMALL_RADIUS, WORDS_BELOW, along, arrowHead, bendsOf, fitted, isCrowd, labelHalf, labelSize, labelsAt,
  largestIn, leastApart, marginsOf, onLink, radiusIn, radiusPassed, towardsOf, wordsWide} from "./geometry.js";
import {BAR_GAP, BAR_RADIUS, MOST_BARS, NEXT_RING, OUTER_RING, RING_GAP} from "./hues.js";
import {HALO, barMark, mark, patch, textMark} from "./marks.js";

const BAR_STEP = 2 * BAR_RADIUS + BAR_GAP;

export class Stage {
  // `net` has nodes {x, y, id, name, bars, label} from 0, and edges [v, w] from 1.
  /** @param {SVGSVGElement} svg @param {Net} net */
  constructor(svg, net) {
    this.svg = svg;
    this.net = net;
    // If a node is dragged `dragged` is its number, and what isn't at it is kept.
    this.dragged = 0;
    /** @type {Mark[]} */
    this.lines = [];
    /** @type {Mark[]} */
    this.groups = [];
    this.to = {scale: 1, x: 0, y: 0};
    // The radius of a node at most.
    this.largest = 22;
    this.radius = this.largest;
    this.wide = 1;
    this.high = 1;
    this.apart = 2.9;
    this.least = 0;
    this.isZoomed = false;
    this.key = "";
    /** @type {unknown[]} */
    this.still = [];
    /** @type {Map<string, Point | null>} */
    this.bends = new Map();
    /** @type {Spot[]} */
    this.spots = [];
    /** @type {Label[][]} */
    this.texts = [];
    // The places of nodes now, and when labels were placed.
    /** @type {Point[]} */
    this.places = [];
    /** @type {Point[]} */
    this.measured = [];
    // What a drawing depended on, by which it is seen what stays.
    /** @type {string[]} */
    this.drawn = [];
    this.sized = "";
    // Whether the radius has just been found, and may be too large for labels.
    this.isFresh = false;
    /** @type {number[][]} */
    this.close = [];
    // How far what is around a node goes beyond its circle.
    /** @type {(v: number) => number} */
    this.around = () => 0;
    patch(svg, Array.from({length: 4}, () => mark("g", {}, [])));
    const [edges, arrows, nodes, over] = svg.children;
    this.edges = edges;
    this.arrows = arrows;
    this.nodes = nodes;
    this.over = over;
  }

  // The scale that fits the network into the stage; it is kept while the network is drawn on.
  fit() {
    const box = this.svg.getBoundingClientRect(), {nodes} = this.net;
    this.wide = box.width || 1;
    this.high = box.height || 1;
    this.isZoomed = false;
    // The radius is found anew.
    this.sized = "";
    if (!nodes.length) { this.to = {scale: 1, x: 0, y: 0}; return; }
    const largest = largestIn(this.wide, this.high, this.largest), size = labelSize(largest, this.largest);
    const words = Math.max(...nodes.map((_, k) => nameOf(this.net, k + 1).length));
    const margins = marginsOf(this.wide, this.high, largest, labelHalf(words, size));
    const [scale, x, y] = fitted(nodes.map(n => [n.x, n.y]), this.wide, this.high, ...margins);
    this.to = {scale, x, y};
  }
  // Fits it once more if there is another size for it; what somebody has zoomed or moved stays where it is.
  refit() {
    const {width, height} = this.svg.getBoundingClientRect();
    if (width === this.wide && height === this.high) return;
    if (!this.isZoomed) return this.fit();
    this.wide = width || 1;
    this.high = height || 1;
  }
  /** @param {number} by @param {number} x @param {number} y */
  zoom(by, x = this.wide / 2, y = this.high / 2) {
    const scale = Math.max(0.02, Math.min(20, this.to.scale * by)), real = scale / this.to.scale;
    this.to = {scale, x: x - real * (x - this.to.x), y: y - real * (y - this.to.y)};
    this.isZoomed = true;
  }
  /** @param {number} dx @param {number} dy */
  pan(dx, dy) {
    this.to = {...this.to, x: this.to.x + dx, y: this.to.y + dy};
    this.isZoomed = true;
  }
  isOutside() {
    return this.net.nodes.some((_, k) => this.X(k + 1) < 0 || this.Y(k + 1) < 0 || this.X(k + 1) > this.wide
      || this.Y(k + 1) > this.high);
  }
  /** @param {number} v */
  X(v) { return this.net.nodes[v - 1].x * this.to.scale + this.to.x; }
  /** @param {number} v */
  Y(v) { return this.net.nodes[v - 1].y * this.to.scale + this.to.y; }
  // A point of the window on the stage, and in the network.
  /** @param {MouseEvent} event @returns {Point} */
  point(event) {
    const box = this.svg.getBoundingClientRect();
    return [event.clientX - box.left, event.clientY - box.top];
  }
  /** @param {MouseEvent} event */
  placeOf(event) {
    const [x, y] = this.point(event);
    return {x: Math.round((x - this.to.x) / this.to.scale), y: Math.round((y - this.to.y) / this.to.scale)};
  }
  /** @param {MouseEvent} event @param {number} slack @returns {number | null} */
  nodeAt(event, slack = 8) {
    const [x, y] = this.point(event);
    /** @type {number | null} */
    let best = null;
    let near = this.radius + slack;
    this.net.nodes.forEach((_, k) => {
      const far = Math.hypot(this.X(k + 1) - x, this.Y(k + 1) - y);
      if (far < near) { near = far; best = k + 1; }
    });
    return best;
  }
  /** @param {MouseEvent} event @returns {Edge | null} */
  edgeAt(event) {
    const [x, y] = this.point(event);
    /** @type {Edge | null} */
    let best = null;
    let near = 11;
    this.net.edges.forEach(edge => {
      for (let t = 0.04; t < 1; t += 0.02) {
        const at = this.along(edge[0], edge[1], t), far = Math.hypot(at[0] - x, at[1] - y);
        if (far < near) { near = far; best = edge; }
      }
    });
    return best;
  }
  /** @param {number} v @returns {number[]} */
  near(v) { return this.close[v - 1] || []; }

  // Where a node that is let go on another one has room beside it, in the network: all nodes are as small as the two
  // that are nearest to each other need. `radius` was that of the nodes before. Null if it has room where it is.
  /** @param {number} v @param {number} radius @returns {{x: number, y: number} | null} */
  roomBeside(v, radius) {
    const near = 2 * radius + 8, x = this.X(v), y = this.Y(v), others = this.net.nodes.map((_, k) => k + 1).filter(w => w !== v);
    /** @type {(x: number, y: number, far: number) => number | undefined} */
    const onWhich = (x_, y_, far) => others.find(w => Math.hypot(this.X(w) - x_, this.Y(w) - y_) < far);
    const w = onWhich(x, y, near);
    if (w === undefined) return null;
    const begin = Math.atan2(y - this.Y(w), x - this.X(w));
    for (let k = 0; k < 48; k++) {
      // To the left and to the right of where it came from, and then farther away.
      const angle = Math.ceil((k % 12) / 2) * (k % 2 ? 1 : -1) * Math.PI / 6, far = this.apart * radius * (1.05 + Math.floor(k / 12));
      const at = [this.X(w) + far * Math.cos(begin + angle), this.Y(w) + far * Math.sin(begin + angle)];
      if (onWhich(at[0], at[1], this.apart * radius) === undefined) {
        return {x: Math.round((at[0] - this.to.x) / this.to.scale), y: Math.round((at[1] - this.to.y) / this.to.scale)};
      }
    }
    return null;
  }
  // Where all is by the rules of geometry.js: first the circles. Their radius stays while nodes are only moved: one that
  // is dragged over another shrinks none.
  /** @param {boolean} hasWords */
  space(hasWords) {
    const {nodes, edges} = this.net, {wide, high, apart, largest} = this;
    const sized = [nodes.length, edges.length, this.to.scale, wide, high, apart, largest, hasWords].join();
    this.places = nodes.map((_, k) => this.place(k + 1));
    if (sized === this.sized) return;
    this.sized = sized;
    this.isFresh = true;
    this.least = Math.min(1e9, leastApart(this.places));
    this.radius = radiusPassed(this.places, edges, radiusIn(this.least, apart, largestIn(wide, high, largest), hasWords ? WORDS_BELOW : 0), this.room());
  }
  // Then bends and labels. `isBelow` says that something is below each node, `hasWords` that it is words, and `isBarred`
  // that its barred channels are drawn.
  /** @param {boolean} isBelow @param {boolean} hasWords @param {boolean} isBarred */
  measure(isBelow, hasWords, isBarred) {
    const {places, texts, radius, wide, high} = this, {nodes, edges} = this.net, bars = isBarred && nodes.map(n => n.bars.length);
    const now = JSON.stringify([places, edges, texts, radius, wide, high, isBelow, hasWords, bars]);
    if (now === this.key) return;
    this.still = [];
    // In a crowd bends and labels stay while a node is dragged, but for its own label.
    if (this.isDragged() && isCrowd(nodes.length, edges.length)) return this.carryLabel();
    this.key = now;
    this.close = nodes.map(() => []);
    edges.forEach(([v, w]) => { this.close[v - 1].push(w); this.close[w - 1].push(v); });
    this.close.forEach(list => list.sort((a, b) => a - b));
    const bends = bendsOf(places, edges, radius, this.room());
    this.bends = new Map(edges.map(([a, b], k) => [a + " " + b, bends[k]]));
    const boxes = texts.map(own => own.map(({said, size}) => /** @type {Point} */ ([labelHalf(said.length, size), 0.55 * size])));
    this.measured = places.slice();
    this.spots = labelsAt(places, edges, bends, radius, CORNER * radius, boxes, this.taken(isBelow, hasWords, isBarred), wide, high);
  }
  // Makes circles smaller if a label has no room, but for a crowd's; and says whether it has.
  shrinks() {
    const {nodes, edges} = this.net, isFree = this.spots.every(([text], k) => text >= 0 || !this.texts[k].length);
    this.isFresh = this.isFresh && !this.isZoomed && !isFree && this.radius > SMALL_RADIUS && !isCrowd(nodes.length, edges.length);
    if (this.isFresh) this.radius = Math.max(SMALL_RADIUS, SHRINK * this.radius);
    return this.isFresh;
  }
  // Whether what a node has found is written above it: all its links lead down. Else it is below.
  /** @param {number} v */
  isTop(v) {
    const near = this.near(v), low = this.Y(v) + this.radius;
    return near.length > 0 && near.every(w => this.Y(w) > low);
  }
  // How wide what is written below a node may be, or above it: up to other circles and the border.
  /** @param {number} v */
  roomBeyond(v) {
    const [x, y] = this.place(v), at = this.isTop(v) ? y - 2 * this.radius - WORDS_BELOW - 1 : y;
    return Math.min(wordsWide(this.places, [x, at], this.radius, this.least), 2 * Math.min(x, this.isZoomed ? x : this.wide - x));
  }
  // The height at which it is written, so far from the circle.
  /** @param {number} v @param {number} far */
  wordsAt(v, far) { return this.Y(v) + (this.isTop(v) ? -1 : 1) * (this.radius + far); }
  carryLabel() {
    const v = this.dragged, [text, side, x, y] = this.spots[v - 1], [toX, toY] = this.places[v - 1], [fromX, fromY] = this.measured[v - 1];
    this.spots[v - 1] = [text, side, x + toX - fromX, y + toY - fromY];
    this.measured[v - 1] = [toX, toY];
  }
  // Where something else is: words or a pair at nodes, and their barred channels.
  /** @param {boolean} isBelow @param {boolean} hasWords @param {boolean} isBarred @returns {Box[]} */
  taken(isBelow, hasWords, isBarred) {
    const r = this.radius;
    /** @type {Box[]} */
    const found = [];
    /** @type {(v: number, x: number, y: number) => Box} */
    const below = (v, x, y) => hasWords ? [x, this.wordsAt(v, WORDS_BELOW / 2), Math.min(44, this.roomBeyond(v) / 2), WORDS_BELOW / 2]
      : [x - 0.45 * r, y + 1.55 * r, 0.9 * r, 0.45 * r];
    this.places.forEach(([x, y], k) => {
      const bars = isBarred ? Math.min(this.net.nodes[k].bars.length, MOST_BARS + 1) : 0;
      if (isBelow) found.push(below(k + 1, x, y));
      if (bars) found.push([x + r - 1 + bars * BAR_STEP / 2, y + r + 5, bars * BAR_STEP / 2, BAR_RADIUS]);
    });
    return found;
  }
  // Where edges are bent into: the stage, or if it is zoomed anywhere.
  /** @returns {Box} */
  room() { return this.isZoomed ? [-1e9, -1e9, 1e9, 1e9] : [0, 0, this.wide, this.high]; }
  isDragged() {
    return this.dragged > 0 && this.groups.length === this.net.nodes.length && this.lines.length === this.net.edges.length;
  }
  // By how much the point is moved aside towards which an edge is drawn, or null if it is straight.
  /** @param {number} a @param {number} b */
  bend(a, b) { return this.bends.get(Math.min(a, b) + " " + Math.max(a, b)) || null; }
  /** @param {number} v @returns {Point} */
  place(v) { return [this.X(v), this.Y(v)]; }
  // The point towards which the edge from a to b is drawn.
  /** @param {number} a @param {number} b @returns {Point} */
  middle(a, b) { return towardsOf(this.place(a), this.place(b), this.bend(a, b)); }
  /** @param {number} a @param {number} b @param {number} t @returns {Point} */
  along(a, b, t) { return along(this.place(a), this.middle(a, b), this.place(b), t); }
  // A place on the way from a to b, to the right of it and off the nodes, for something of this size.
  /** @param {number} a @param {number} b @param {number} t @param {number} wide @param {number} high @returns {Point} */
  beside(a, b, t, wide, high, aside = 0) {
    return onLink(this.place(a), this.middle(a, b), this.place(b), t, this.radius, wide, high, aside);
  }
  /** @param {number} a @param {number} b @param {Attributes} attributes */
  line(a, b, attributes) {
    const m = this.middle(a, b), from = `M${this.X(a)} ${this.Y(a)}`, to = `${this.X(b)} ${this.Y(b)}`;
    return mark("path", {d: this.bend(a, b) ? `${from}Q${m[0]} ${m[1]} ${to}` : `${from}L${to}`, fill: "none",
      ...attributes});
  }
  // An arrow from a to b, whose head touches b.
  /** @param {number} a @param {number} b @param {string} stroke @param {number} width @param {string} kind @returns {Mark[]} */
  arrow(a, b, stroke, width, kind = "arrow") {
    const m = this.middle(a, b), dx = this.X(b) - m[0], dy = this.Y(b) - m[1], far = Math.hypot(dx, dy) || 1;
    const size = Math.max(6, Math.min(10, this.radius * 0.6)), end = (this.radius + this.around(b) + 2) / far;
    const [tip, one, other] = arrowHead([this.X(b) - dx * end, this.Y(b) - dy * end], [dx, dy], size);
    return [this.line(a, b, {stroke, "stroke-width": width, "data-mark": kind}), mark("path", {fill: stroke,
      d: `M${tip.join(" ")}L${one.join(" ")}L${other.join(" ")}Z`})];
  }
  // Draws all. `edge(v, w)` gives an edge's attributes, `node(v, x, y, r)` the marks of a node, `label(v)` its words;
  // `links()` and `above()` are marks; `rings(v)` are the colours of rings around it. `below` says that
  // something is drawn below each node, and `words` that circles leave room for it. `still` is all that they depend on but for what is above: as long as it is
  // the same, only that is drawn anew. `says(v)` is what a node shows, in words; `around(v)` is how far what `node`
  // draws goes beyond the circle.
  /** @param {Drawing} drawing */
  draw({edge, node, label, says = () => "", rings = () => [], around = () => 0, links = () => [], above = () => [], bars = true,
    apart = 2.9, below = false, words = below, still}) {
    this.apart = apart;
    this.around = v => around(v) + ringsWide(rings(v));
    const {nodes, edges} = this.net;
    /** @type {(v: number) => string} */
    const saidOf = v => label ? label(v) : nameOf(this.net, v);
    this.space(words);
    do {
      this.texts = this.textsOf(saidOf);
      this.measure(below, words, bars);
    } while (this.shrinks());
    const isStill = still && still.length === this.still.length && still.every((one, k) => one === this.still[k]);
    this.still = still || [];
    if (!isStill) {
      const box = `0 0 ${this.wide} ${this.high}`;
      if (this.svg.getAttribute("viewBox") !== box) this.svg.setAttribute("viewBox", box);
      // While a node is dragged, what isn't at it and is where it was is kept.
      const isDragged = this.isDragged(), before = this.drawn, drawn = [...edges.map(([v, w]) => String(this.bend(v, w))), ...this.spots.map(String)];
      /** @type {(at: number, ...vs: number[]) => boolean} */
      const isKept = (at, ...vs) => isDragged && !vs.includes(this.dragged) && drawn[at] === before[at];
      this.drawn = drawn;
      this.lines = edges.map(([v, w], k) => isKept(k, v, w) ? this.lines[k] : this.line(v, w,
        {stroke: "var(--edge)", "stroke-width": 1.6, ...(edge ? edge(v, w) : {}), "data-edge": v + "-" + w}));
      patch(this.edges, this.lines);
      patch(this.arrows, links());
      const look = {node, says, rings, around, bars};
      this.groups = nodes.map((_, k) => isKept(edges.length + k, k + 1) ? this.groups[k]
        : this.group(k + 1, {...look, said: saidOf(k + 1)}));
      patch(this.nodes, this.groups);
    }
    patch(this.over, above());
  }
  // What may be written beside each node, the best first: all of its label, or only its number; and that smaller.
  /** @param {(v: number) => string} saidOf @returns {Label[][]} */
  textsOf(saidOf) {
    const size = labelSize(Math.min(this.radius, largestIn(this.wide, this.high, this.largest)), this.largest);
    return this.net.nodes.map((_, k) => {
      const said = saidOf(k + 1), number = said.startsWith(String(k + 1)) ? String(k + 1) : "";
      const all = [{said, size}, said !== number && {said: number, size}, {said: number, size: 8}];
      return all.filter(/** @returns {one is Label} */ one => one && one.said !== "");
    });
  }
  // The label of a node where it has room. In a crowd it is left out without room, but for a node that is ringed.
  /** @param {number} v @param {string} said @param {boolean} isRinged @returns {Mark | null} */
  labelMark(v, said, isRinged) {
    const [text, , x, y] = this.spots[v - 1], texts = this.texts[v - 1];
    if (!texts.length || text < 0 && !isRinged && isCrowd(this.net.nodes.length, this.net.edges.length)) return null;
    // A node that is ringed has all of its label.
    const {said: shown, size} = texts[isRinged ? 0 : Math.max(0, text)], wide = labelHalf(shown.length, size);
    const more = wide - labelHalf(texts[Math.max(0, text)].said.length, texts[Math.max(0, text)].size), aside = x + Math.sign(x - this.X(v)) * more;
    return textMark(...this.outside(v, [aside, y], wide, size), size, "var(--soft)", shown, {...HALO, "data-label": v});
  }
  // The place of a label, farther out where something around its node would cover it.
  /** @param {number} v @param {Point} spot @param {number} wide @param {number} size @returns {Point} */
  outside(v, spot, wide, size) {
    const dx = spot[0] - this.X(v), dy = spot[1] - this.Y(v), far = Math.hypot(dx, dy) || 1, around = this.around(v);
    // The point of its box that is nearest to the node.
    const gap = Math.hypot(Math.max(0, Math.abs(dx) - wide), Math.max(0, Math.abs(dy) - size / 2)) - this.radius - 1;
    const more = around ? Math.max(0, around - gap) : 0;
    return [spot[0] + dx / far * more, spot[1] + dy / far * more];
  }
  /** @param {number} v @param {LookOfNode} look @returns {Mark} */
  group(v, {node, said, says, rings, around, bars}) {
    const x = this.X(v), y = this.Y(v), r = this.radius, colours = rings(v), own = this.net.nodes[v - 1].bars;
    /** @type {Marks} */
    const parts = [...ringMarks(x, y, r + around(v), colours), ...node(v, x, y, r), this.labelMark(v, said, colours.length > 0)];
    if (bars) own.slice(0, MOST_BARS).forEach((bar, n) => parts.push(...barMark(x + r + 8 + n * BAR_STEP, y + r + 5, BAR_RADIUS, bar)));
    const more = `+${own.length - MOST_BARS}`;
    if (bars && own.length > MOST_BARS) parts.push(textMark(x + r + 10 + MOST_BARS * BAR_STEP, y + r + 5, 11, "var(--wrong)", more, HALO));
    return mark("g", {class: "node", tabindex: 0, role: "button", "data-node": v, "aria-label": [`node ${said || v}`, says(v)].filter(Boolean).join(": ")},
      parts);
  }
}
// How far rings go beyond what they are around.
/** @param {string[]} colours */
function ringsWide(colours) { return colours.length ? RING_GAP + OUTER_RING + (colours.length - 1) * NEXT_RING : 0; }
// A ring of each colour, one around the other, so that none hides another.
/** @param {number} x @param {number} y @param {number} r @param {string[]} colours @returns {Mark[]} */
function ringMarks(x, y, r, colours) {
  return colours.map((colour, k) => mark("circle", {cx: x, cy: y, r: r + RING_GAP + OUTER_RING / 2 + k * NEXT_RING, fill: "none",
    stroke: colour, "stroke-width": OUTER_RING, "data-mark": colour.replace(/var\(--(\w+)\)/, "ring_$1")}));
}
// A node's number, with its name and its identifier if it has them.
/** @param {Net} net @param {number} v */
export function nameOf(net, v) { return `${v} ${net.nodes[v - 1].label}`.trim(); }
