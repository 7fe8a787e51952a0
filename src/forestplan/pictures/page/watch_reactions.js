// A page that plays a run of nodes that react to messages, without rounds: D is {net, run}. The place is a stamp.
import {element, html, isColour, row} from "./marks.js";
import {legend} from "./legend.js";
import {MESSAGES, hueOf, reactedMarks, reactedWords} from "./messages.js";
import {firstOf, isWordy, wireMark} from "./run.js";
import {Stage, nameOf} from "./stage.js";
import {followPlace, openPage} from "./time.js";

const {net, run} = D, picture = new Stage(element("net"), net);
// Of each node its entries: how many are made before one, and the number of its look after it.
/** @type {[number, number][][]} */
const own = net.nodes.map(() => []);
run.rows.forEach((entry, place) => own[entry[1] - 1].push([place, entry[2]]));
// Each word has its hue, wherever the page begins.
run.wires.forEach(one => hueOf(run.texts[one[2]]));
/** @type {number | null} */
let chosen = null;
let at = 0;

// A node after so many entries.
/** @param {number} v */
function lookOf_(v) {
  const made = firstOf(own[v - 1], one => one[0] < at);
  return made ? run.looks[own[v - 1][made - 1][1]] : run.start[v - 1];
}
/** @param {number} stamp @returns {Marks} */
function messagesAt(stamp) {
  const isLong = isWordy(picture);
  return run.wires.filter(one => one[3] < at && (one[5] === null || one[5] >= at)).map(([v, w, text, , put, , take]) => {
    const said = run.texts[text], far = take === null ? 0.5 : Math.max(0, Math.min(1, (stamp - put) / (take - put)));
    return wireMark(picture, v, w, far, said, isLong, {}, MESSAGES.look(said), MESSAGES.shown(said, isLong));
  });
}
/** @param {number} stamp */
function show(stamp) {
  at = firstOf(run.rows, one => one[0] <= stamp);
  const last = at ? run.rows[at - 1] : null;
  picture.draw({node: (v, x, y, r) => reactedMarks(picture, lookOf_(v), v, x, y, r), bars: false, apart: 4.6, below: true,
    above: () => messagesAt(stamp), says: v => reactedWords(lookOf_(v)), label: v => nameOf(net, v),
    rings: v => [last && last[1] === v && "var(--glow)", v === chosen && "var(--edge)"].filter(isColour)});
  element("when").textContent = "stamp " + Math.floor(stamp);
  element("said").textContent = last ? `entry ${at}, stamp ${last[0]}: node ${last[1]} ${run.texts[last[3]]}` : "nothing has happened yet";
  element("table").replaceChildren(resultsTable(last ? last[1] : 0));
  legend(element("legend"), [picture.svg], {ring_glow: "it made the last entry", ring_edge: "the node that is followed"});
  return `#entry-${at}` + (chosen ? `-node-${chosen}` : "");
}
// What each node has found, and how often it has acted.
/** @param {number} made */
function resultsTable(made) {
  const shown_ = html("table");
  shown_.append(row("th", ["node", "acts", "result"]));
  net.nodes.forEach((_, k) => {
    const is = lookOf_(k + 1), line_ = row("td", [k + 1, is.acts, is.found]);
    if (made === k + 1) line_.className = "on";
    shown_.append(line_);
  });
  return shown_;
}
// The stamp of the next entry, or of the one before, of the node that is followed. Entries of one stamp are of
// different nodes, and are stepped over together.
/** @param {number} way */
function step(way) {
  let next = at;
  do next += way; while (next > 0 && next < run.rows.length && chosen && run.rows[next - 1][1] !== chosen);
  if (next <= 0) return clock.set(run.stamps[0]);
  const stamp = run.rows[Math.min(next, run.rows.length) - 1][0];
  clock.set(way < 0 && at && stamp === run.rows[at - 1][0] ? stamp - 1 : stamp);
}
/** @param {string} place */
function follow(place) {
  const found = /^#entry-(\d+)(?:-node-(\d+))?$/.exec(place), n = found ? +found[1] : 0, v = found ? Number(found[2] || 0) : 0;
  chosen = v <= net.nodes.length && v || null;
  clock.set(n && run.rows.length ? run.rows[Math.min(n, run.rows.length) - 1][0] : run.stamps[0]);
}
const clock = openPage([picture], {show, follow, step, rate: () => 2.5, click(v) { chosen = v === chosen ? null : v; }});
element("second").toggleAttribute("hidden", true);
clock.range(...run.stamps);
followPlace(clock, follow);
