// A page that plays a run without a clock, or two of one network beside each other: D is {net, runs, pulses, last,
// same, sent}. The place is a stamp, or of two runs a pulse.
import {element, html, row} from "./marks.js";
import {legend} from "./legend.js";
import {RUN_WORDS, RunFilm, waitsTable} from "./run.js";
import {Stage} from "./stage.js";
import {followPlace, openPage} from "./time.js";

const films = D.runs.map(table => new RunFilm({table, last: D.last, pulses: D.pulses}, D.net)), two = films.length > 1;
const stages = [element("net"), element("second")].slice(0, films.length).map(svg => new Stage(svg, D.net));
/** @type {number | null} */
let chosen = null;
let at = 0;

/** @param {number} place */
function show(place) {
  const only = element("payloads").checked, options = {node: chosen, only};
  if (two) return showTwo(place, options);
  at = films[0].draw(stages[0], place, options);
  const last = films[0].last(at);
  element("when").textContent = "stamp " + Math.floor(place);
  element("said").textContent = films[0].said(at);
  element("table").replaceChildren(waitsTable(films[0].looks(at), {last: D.last, only: chosen, lit: last && last[1], head: "found",
    more: (v, is) => is.found || ""}));
  legend(element("legend"), [stages[0].svg], RUN_WORDS);
  return `#entry-${at}` + (chosen ? `-node-${chosen}` : "");
}
/** @param {number} place @param {RunOptions} options */
function showTwo(place, options) {
  const p = Math.floor(place), k = Math.min(p, D.pulses[1]) - D.pulses[0], table = html("table");
  table.append(row("th", ["", "stamp", "pulses of nodes 1 to " + D.net.nodes.length]));
  films.forEach((film, n) => {
    const there = film.atPulse(place);
    film.draw(stages[n], there.stamp, {...options, at: there.at});
    table.append(row("td", [`${D.runs[n].name}: ${there.said}`, Math.floor(there.stamp),
      film.looks(there.at).map(is => is.pulse).join(" ")]));
  });
  element("when").textContent = "pulse " + p;
  const after = place > p || p > D.pulses[1];
  element("said").textContent = (after ? "after " : "") + "pulse " + Math.min(p, D.pulses[1]);
  const sent = D.sent[k].map(([v, w, said]) => `${v} → ${w}: ${said}`).join("; ") || "none";
  element("table").replaceChildren(table, html("h2", `Payloads of pulse ${k + D.pulses[0]}, ${D.same[k]
    ? "the same in both runs" : "which differ"}`), html("p", sent, {class: "soft"}));
  legend(element("legend"), stages.map(one => one.svg), RUN_WORDS);
  return "#pulse-" + p;
}
/** @param {number} way */
function step(way) {
  if (two) return time.set(way > 0 ? Math.floor(time.at + 1) : Math.ceil(time.at - 1));
  const only = element("payloads").checked, {texts} = D.runs[0];
  time.set(films[0].stepped(at, way, entry => (!only || / payload /.test(texts[entry[3]]))
    && (!chosen || entry[1] === chosen)));
}
/** @param {string} place */
function follow(place) {
  const found = /^#(entry|pulse)-(\d+)(?:-node-(\d+))?$/.exec(place), n = found ? +found[2] : 0;
  const isPulse = found !== null && found[1] === "pulse", v = found ? Number(found[3] || 0) : 0;
  chosen = v <= D.net.nodes.length && v || null;
  if (two) time.set(isPulse ? n : D.pulses[0]);
  else time.set(isPulse ? stampOfPulse(n) : stampOfEntry(n));
}
// The stamps of a pulse and of an entry of one run; of one that isn't shown that of its start.
/** @param {number} pulse */
function stampOfPulse(pulse) { return (D.runs[0].all[pulse - D.pulses[0]] || D.runs[0].stamps)[0]; }
/** @param {number} n */
function stampOfEntry(n) {
  const {rows, stamps} = D.runs[0];
  return n ? (rows[Math.min(n, rows.length) - 1] || stamps)[0] : stamps[0];
}
element("second").toggleAttribute("hidden", !two);
element("stage").classList.toggle("two", two);
element("only").hidden = false;
const time = openPage(stages, {show, follow, step, rate: () => two ? 0.4 : 2.5,
  click(v) { chosen = v === chosen ? null : v; }});
element("payloads").onchange = () => time.set(time.at);
if (two) time.range(D.pulses[0], D.pulses[1] + 1);
else time.range(...D.runs[0].stamps);
followPlace(time, follow);
