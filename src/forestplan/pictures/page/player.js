// A page that plays the rounds: D is {net, film}.
import {legend} from "./legend.js";
import {ROUNDS_WORDS, RoundsFilm} from "./rounds.js";
import {Stage} from "./stage.js";
import {element, html} from "./marks.js";
import {followPlace, openPage} from "./time.js";

const film = new RoundsFilm(D.film, D.net), stage = new Stage(element("net"), D.net);
let forest = 0;
/** @type {number | null} */
let chosen = null;

/** @param {number} at */
function show(at) {
  const p = film.draw(stage, at, {forest, node: chosen}), [caption, said] = film.said(p, chosen);
  element("when").textContent = `pulse ${p} of ${film.last}`;
  element("said").replaceChildren(html("b", `pulse ${p} of ${film.last} · ${caption}`), html("br"), said);
  element("forests").replaceChildren(...film.chips(p, forest, f => { forest = f; time.set(time.at); }));
  legend(element("legend"), [stage.svg], ROUNDS_WORDS);
  return `#pulse-${p}` + (forest ? `-forest-${forest}` : "");
}
/** @param {string} place */
function follow(place) {
  const found = /^#pulse-(\d+)(?:-forest-(\d+))?$/.exec(place);
  if (found) forest = Math.min(+found[2] || 0, Math.max(0, film.forests - 1));
  time.set(found ? +found[1] : 0);
}
const time = openPage([stage], {show, follow, rate: () => 0.8, click(v) { chosen = v === chosen ? null : v; },
  step: way => time.set(way > 0 ? Math.floor(time.at + 1) : Math.ceil(time.at - 1))});
time.range(0, film.last);
followPlace(time, follow);
