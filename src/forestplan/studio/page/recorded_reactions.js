// The runs that are made step by step on a published page, of nodes that react to messages, without rounds.
import {byChance, make, possible, rowOf, shown, start, stateOf, withSteps} from "./recorded_steps.js";

// `first` is what `always` has refused first, and `refused` what it refuses where the run is now; `ran` the function of
// the file that ran last, and the node whose step that was.
/** @typedef {Played & {acts: number[], first: string, refused: string, ran: Ran}} PlayedReactions */

/** @param {AllReactions} is @param {Played} run */
function resultsOf(is, run) { return is.nodes.map((_, k) => is.looks[stateOf(is, run, k + 1).look].found); }
// What the file says of where the run is.
/** @param {AllReactions} is @param {PlayedReactions} run */
function askAlways(is, run) {
  run.refused = is.always ? is.always[resultsOf(is, run).join("\n")] || "" : "";
  if (!run.refused) return;
  run.first = run.first || run.refused;
  run.fault = run.fault || withSteps(is.fault, run.made.length, run.refused);
}
/** @param {AllReactions} is @param {PlayedReactions} run @param {string} step */
function makeStep(is, run, step) {
  const v = parseInt(step, 10), isOwn = !step.includes("-");
  if (!make(is, run, step, () => [`node ${v} acts`, `act ${v}`])) return false;
  if (isOwn) run.acts[v - 1]++;
  run.ran = {function: isOwn ? "act" : `on_${run.wire.split(" ")[0]}`, node: v};
  askAlways(is, run);
  return true;
}
// The run that some steps make; null if one of them isn't possible.
/** @param {AllReactions} is @param {string[]} steps @returns {PlayedReactions | null} */
export function playedReactions(is, steps) {
  const run = {...start(is), acts: is.nodes.map(() => 0), first: "", refused: "", ran: {function: "start", node: 0}};
  askAlways(is, run);
  return steps.every(step => makeStep(is, run, step)) ? run : null;
}
/** @param {AllReactions} is @param {PlayedReactions} run @param {string} dare @returns {DareJudged} */
function dareOf(is, run, dare) {
  const steps = run.made.length;
  if (dare === "always") return {won: run.first !== "", said: withSteps(run.first ? is.refused : is.kept, steps, run.first), impossible: ""};
  if (possible(is, run).length) return is.no_end;
  const judged = is.ends[resultsOf(is, run).join("\n")].dares[dare];
  return {...judged, said: withSteps(judged.said, steps)};
}
/** @param {AllReactions} is @param {PlayedReactions} run @param {StepsCall} asked @returns {ReactionsFound} */
export function reactionsFound(is, run, asked) {
  byChance(is, run, asked, step => makeStep(is, run, step));
  const ended = !possible(is, run).length, end = is.ends[resultsOf(is, run).join("\n")];
  const nodes = is.nodes.map((_, k) => ({...is.looks[stateOf(is, run, k + 1).look], acts: run.acts[k]}));
  return {...shown(is, run), nodes, ended, ran: run.ran, dares: is.dares, always: is.always && {ok: !run.refused, said: run.refused},
    right: ended ? end.right : null, ...asked.dare ? {dare: dareOf(is, run, asked.dare)} : {}};
}
// What a node sends in a step that comes next, and why.
/** @param {AllReactions} is @param {PlayedReactions} run @param {string} step @returns {Explained | null} */
export function sentIn(is, run, step) {
  const row = rowOf(is, run, step);
  if (!row) return null;
  makeStep(is, run, step);
  const puts = row.puts || [], said = puts.map(([w, wire]) => `\`${wire}\` to ${w}`);
  const sent = [said.slice(0, -1).join(", "), ...said.slice(-1)].filter(Boolean).join(" and ") || "nothing";
  const found = Array.from(new Set(puts.map(([w, wire]) => `${wire.split(" ")[0]} ${w}`))).sort().join(", ");
  return {found, why: `\`${run.ran.function}\` runs, and sends ${sent}.`};
}
// Whether an exercise is done, and how far it is.
/** @param {AllReactions} is @param {PlayedReactions} run @param {ReactionsJudged} goal @returns {ExerciseJudged} */
export function exerciseOf(is, run, {results, lacks, unfinished, done, kept}) {
  const steps = run.made.length, has = resultsOf(is, run);
  if (kept) return run.refused ? {done: true, said: withSteps(done, steps, run.refused)} : {done: false, said: kept};
  const lacking = Object.keys(results).map(Number).find(v => has[v - 1] !== results[v]);
  if (lacking !== undefined) return {done: false, said: withSteps(lacks[lacking], steps, has[lacking - 1])};
  return unfinished && possible(is, run).length ? {done: false, said: unfinished} : {done: true, said: withSteps(done, steps)};
}
