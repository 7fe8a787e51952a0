// The tab Rounds: the network at each pulse, why a node has its channel, and what goes wrong without a rule.
import {call} from "./api.js";
import {KEYS, all, announce, asks, by, capital, count, fill, go, hang, hello, hide, hooks, leftOutWords, picture, programNamed, ruleBoxes,
  rulesOf, say, sayLast, seen, show, showOptions, stage, tabs, time, timeAt, tried} from "./base.js";
import {html, patch, sentence} from "./marks.js";
import {load as load_, net, text} from "./model.js";
import {enterFile, markRan} from "./own.js";
import {Question} from "./predict.js";
import {RoundsFilm} from "./rounds.js";

/** @type {Rounds} */
export const rounds = {forest: 0, why: null, whyOf: null, film: null, of: null, without: "", predicts: false};
const question = new Question("question", () => {
  const film = ready();
  if (!rounds.predicts || !film) return null;
  const p = Math.floor(time.at), {forest} = rounds, {node} = seen;
  if (!node) return {text: "Click a node: what will it have after the next pulse?"};
  const found = film.question(node, p, forest);
  if (!found) return {text: p < 1 ? "Go on to pulse 1." : "This is the last pulse."};
  return {text: found[0], picks: found[1], call: "predict", compared: film.compared(node, p, forest),
    tells: film.reasonTells(p + 1), asked: {network: text(), program: programNamed(), node, pulse: p + 1, forest}};
}, () => time.set(Math.floor(time.at) + 1));

// How often the tab has been entered.
let entered = 0;

/** @param {string} program */
export async function load(program = programNamed()) {
  const asked = text(), key = program + asked;
  if (key === rounds.of) return true;
  const got = await call("rounds", {network: asked, program});
  if (!got) return false;
  Object.assign(rounds, {film: new RoundsFilm(got, net), of: key, why: null, whyOf: null});
  return true;
}
// The film, if it is of the program and the network that are chosen.
function ready() { return rounds.film && rounds.of === programNamed() + text() ? rounds.film : null; }
// The first screen's story of the rounds: few sentences, each for as long as it is read in.
/** @param {RoundsFilm} film @param {number} p */
function storyOf(film, p) {
  if (p === film.last) return endOf(film.merged[p]);
  if (p < 1) return "Each node knows only its own number, and tells it to its neighbours.";
  if (p < 2) return "It numbers its links to higher neighbours. The links of one number are a forest.";
  return film.found.pulses[p].step ? "Now they take turns: each takes the least channel that it may have."
    : "Each compares its number with a neighbour’s, again and again, until none is above 2.";
}
/** @param {Record<number, number>} chosen What each node has chosen, from 0. */
function endOf(chosen) {
  const alike = net.edges.filter(([v, w]) => chosen[v] === chosen[w]).length;
  return alike ? `${count(alike, "link")} have one channel at both ends.`
    : `Done: ${count(new Set(Object.values(chosen)).size, "channel")}, no two neighbours alike, and nobody was in charge.`;
}
// What has been reached at the last pulse; of another program with what the chosen node has found.
/** @param {RoundsFilm} film @param {number} p @param {string} told */
function endSaid(film, p, told) {
  if (film.forests) return endOf(film.merged[p]);
  const done = film.channels ? endOf(film.channelsAt(p)) : "Done: at each node is what it has found.";
  return `${done} ${told.replace(/^.*Nothing is sent\./, "")}`.trim();
}
function showAt() {
  const film = ready();
  if (!film) return false;
  const {node} = seen;
  // What decided a channel isn't on the network as long as something is asked.
  const why = rounds.whyOf === node && !hidesWhy() ? rounds.why : null;
  rounds.forest = Math.min(rounds.forest, Math.max(0, film.forests - 1));
  const isFirst = !by("welcome").hidden, p = film.draw(stage, time.at, {forest: rounds.forest, node, why, plain: isFirst});
  const [caption, told] = film.said(p, node), said = p === film.last ? endSaid(film, p, told) : told;
  say("when", `pulse ${p} of ${film.last}`);
  markRan(p ? ["step", "next"] : ["greet"], 0);
  if (isFirst) say("story", storyOf(film, p));
  const ofNode = node ? ` Node ${node}: ${film.stateText(node, p, film.forestAt(p, rounds.forest))}.` : "";
  announce(`pulse ${p}. ${said}${ofNode}`);
  fill("said", caption + said, () => [said, html("br"), html("span", caption, {class: "soft"})]);
  const hasFocus = by("forests").contains(document.activeElement);
  fill("forests", [p, rounds.forest, film.forests].join(), () => film.chips(p, rounds.forest, f => {
    rounds.forest = f;
    show();
  }));
  if (hasFocus) all("#forests button").slice(rounds.forest, rounds.forest + 1).forEach(one => one.focus());
  // What comes is seen when it is looked at.
  question.show();
  by("why").hidden = hidesWhy();
  const [box, parts] = node && film.forests && !rounds.predicts ? film.strips(p, node) : ["0 0 350 0", []];
  hide("strips", !parts.length);
  by("strips").setAttribute("viewBox", box);
  patch(by("strips"), parts);
}
// Why a node has its channel isn't said as long as something is asked, nor in a lesson before the one that says what it
// is.
const LESSON_OF_WHY = 4;
function hidesWhy() {
  const {lesson, step} = seen, of = hello().lessons.find(one => one.number === lesson);
  return rounds.predicts || of !== undefined && of.number < LESSON_OF_WHY && of.steps[(step || 1) - 1].tab === "rounds";
}
// Why the chosen node has its channel.
async function askWhy() {
  const place = by("why"), v = seen.program === "colouring" ? seen.node : null;
  if (!v) { rounds.why = rounds.whyOf = null; place.replaceChildren(); return show(); }
  if (rounds.whyOf === v && rounds.why) return show();
  const got = await call("why", {network: text(), node: v});
  if (!got || seen.node !== v) return;
  Object.assign(rounds, {why: got, whyOf: v});
  const [head, summary, ...lines] = got.lines, more = html("details"), list = html("ul");
  more.append(html("summary", "step by step, back to identifiers (colours count from 0)"), list);
  lines.forEach(line => list.append(html("li", line.trim().replace(/\bchosen (\d+)/, (said, colour) =>
    `${said} (channel ${+colour + 1})`))));
  place.replaceChildren(html("h2", head.replace(" of this network", "")), html("p", summary), more, bitsOf(v));
  show();
}
/** @param {number} v */
function bitsOf(v) {
  const bits = html("details"), kept = html("figure");
  bits.append(html("summary", "bit by bit"), html("p", "A click on the picture makes it large.", {class: "soft", "data-live": ""}),
    kept);
  bits.ontoggle = () => {
    if (!bits.open || kept.childNodes.length) return;
    asks("picture", {network: text(), kind: "bits", node: v, forest: rounds.forest}, "drawing", svg => {
      kept.append(picture(svg, `bit steps of node ${v}`));
      setTimeout(() => bits.scrollIntoView({block: "nearest"}), 100);
      kept.onclick = () => { if (!hello().published) go("pictures", {kind: "bits"}); };
    }, "bits");
  };
  return bits;
}
// What goes wrong without a rule of the rounds. A file of one's own has none.
function rulesHere() {
  const of = hello().rules.rounds;
  return Object.hasOwn(of, seen.program) ? of[seen.program] : {};
}
function askBroken() {
  const place = by("broken"), isLeft = Boolean(rounds.without);
  // What goes wrong is on the stage, in place of the rounds with all rules.
  stageHas(isLeft);
  by("picture").replaceChildren();
  place.replaceChildren();
  if (!isLeft) return stage.fit();
  const asked = {network: text(), name: net.name, without: rounds.without, program: programNamed()};
  asks("broken", asked, "looking for what goes wrong", ({here, lines, found, picture: svg}) => {
    if (seen.tab !== "rounds") return;
    const draw = html("button", "draw this smallest network"), back = html("button", "back to all rules");
    draw.onclick = () => { if (found) load_(found); };
    back.onclick = () => leaveOut("");
    place.append(html("p", leftOutWords(rulesHere(), rounds.without), {class: "soft"}), sentence(
      lines.map(capital).join(". ") + (found ? "; the picture is of a smallest network on which they go wrong." : "."),
      {class: here ? "bad" : ""}), found ? draw : "", " ", back);
    if (svg) hang(svg, "without " + rounds.without); else { stageHas(false); stage.fit(); show(); }
  });
}
/** @param {boolean} isPicture */
function stageHas(isPicture) {
  by("picture").hidden = !isPicture;
  by("net").style.display = isPicture ? "none" : "";
  by("time").hidden = by("allrules").hidden = isPicture;
}
/** @param {string} left */
function leaveOut(left) {
  rounds.without = left;
  showRules();
  askBroken();
  show();
  hooks.link();
}
function showRules() {
  ruleBoxes("without2", rulesHere(), rounds.without, leaveOut);
  by("rules2").hidden = !Object.keys(rulesHere()).length;
}
tabs.rounds = {
  load, forest: () => rounds.forest, show: showAt,
  hint: () => rounds.without ? ""
    : `Click a node to see ${seen.program === "colouring" ? "why it has its channel" : "all it has found"}. ${KEYS}`,
  click(v) {
    if (!v) return;
    seen.node = v === seen.node ? null : v;
    tried("why", "looking for the reasons", askWhy);
  },
  enter(more = {}) {
    by("program2").value = seen.program;
    showOptions();
    enterFile();
    all(".noown").forEach(one => { one.hidden = Object.keys(hello().own).some(name => !hello().samples.includes(name)); });
    rounds.without = rulesOf(rulesHere(), rounds.without);
    showRules();
    const mine = ++entered;
    tried("rounds", "asking for the rounds", async () => {
      // Another place has been entered since.
      if (!await load() || mine !== entered || seen.tab !== "rounds" || !rounds.film) return;
      time.range(0, rounds.film.last);
      time.set(time.at);
      sayLast(more, rounds.film.last, "pulse");
      if (more.play) time.toggle();
      await askWhy();
    });
    if (!ready()) {
      fill("said", "", () => []);
      fill("forests", "", () => []);
      by("why").replaceChildren();
      hide("strips", true);
    }
    askBroken();
  },
  step: way => time.set(way > 0 ? Math.floor(time.at + 1) : Math.ceil(time.at - 1)),
  rate: () => 0.8,
  // What plays leaves out the pulses in which nothing happens.
  past(at) {
    const film = ready(), p = Math.floor(at);
    return film && film.isIdle(p) ? film.nextChange(p) : at;
  },
  link() {
    const {forest, without, predicts} = rounds;
    return {at: timeAt(), forest, node: seen.node, broken: without, predict: predicts};
  },
  follow({forest = 0, broken = "", predict = false}) {
    Object.assign(rounds, {forest, without: broken, predicts: predict});
    by("predicts").checked = predict;
  },
};
by("program2").onchange = () => { seen.program = by("program2").value; time.at = 0; tabs.rounds.enter(); };
by("change").onclick = () => {
  time.stop();
  if (rounds.film) time.set(rounds.film.nextChange(Math.floor(time.at)));
};
by("predicts").onchange = () => { rounds.predicts = by("predicts").checked; show(); hooks.link(); };
