// The runs that are made step by step on a published page, under the synchroniser.
import {byChance, free, make, shown, start, stateOf, withSteps} from "./recorded_steps.js";

/** @typedef {Played & {most: Record<string, number>, pulses: number[]}} PlayedPulses */

// One step, if it is possible.
/** @param {AllRuns} is @param {PlayedPulses} run @param {string} step */
function makeStep(is, run, step) {
  const isMade = make(is, run, step, v => [`node ${v} makes pulse ${run.pulses[v - 1] + 1}`, `pulse ${v}`]);
  if (!isMade || run.over) return isMade;
  const v = parseInt(step, 10);
  run.pulses[v - 1] = is.looks[stateOf(is, run, v).look].pulse;
  Object.entries(is.dares).forEach(([dare, {pairs}]) => {
    run.most[dare] = Math.max(run.most[dare] || 0, ...pairs.map(([a, b]) => Math.abs(run.pulses[a - 1] - run.pulses[b - 1])));
  });
  return true;
}
// The run that some steps make; null if one of them isn't possible.
/** @param {AllRuns} is @param {string[]} steps @returns {PlayedPulses | null} */
export function played(is, steps) {
  const run = {...start(is), most: {}, pulses: is.nodes.map(() => 0)};
  return steps.every(step => makeStep(is, run, step)) ? run : null;
}
// Each node makes one pulse: what can come comes first.
/** @param {AllRuns} is @param {PlayedPulses} run @param {StepsCall} asked */
function inStep(is, run, asked) {
  for (const goal = Math.min(...run.pulses) + 1; !run.over && !(goal <= is.last && Math.min(...run.pulses) >= goal);) {
    const steps = free(is, run, asked), behind = steps.filter(step => !step.includes("-") && run.pulses[+step - 1] < goal);
    const next = steps.find(step => step.includes("-")) || behind[0];
    if (!next) return;
    makeStep(is, run, next);
  }
}
/** @param {AllRuns} is @param {PlayedPulses} run @param {string} dare @returns {DareJudged} */
export function dareOf(is, run, dare) {
  const {pairs, least, said, impossible} = is.dares[dare], steps = run.made.length;
  if (pairs.length) {
    const most = run.most[dare] || 0;
    return {won: most >= least, said: withSteps(said, steps, most), impossible};
  }
  if (said) return {won: run.fault !== null, said: withSteps(said, steps, run.fault || "nothing is wrong"), impossible};
  const looks = is.nodes.map((_, k) => is.looks[stateOf(is, run, k + 1).look]);
  const end = run.over || !looks.every(look => look.done) ? 0 : looks.every((look, k) => look.found === is.results[k]) ? 1 : 2;
  return {...is.ends[end], impossible};
}
/** @param {AllRuns} is @param {PlayedPulses} run @param {number} v @returns {Explained} */
export function waitedFor(is, run, v) { return run.over ? is.over : is.waits[stateOf(is, run, v).waits]; }
// What the tab Adversary shows of a run, after the steps that are left to chance.
/** @param {AllRuns} is @param {PlayedPulses} run @param {StepsCall} asked @returns {StepsFound} */
export function foundBy(is, run, asked) {
  byChance(is, run, asked, step => makeStep(is, run, step));
  if (asked.in_step) inStep(is, run, asked);
  return {...shown(is, run), last: is.last, looks: is.nodes.map((_, k) => is.looks[stateOf(is, run, k + 1).look]),
    ...asked.dare ? {dare: dareOf(is, run, asked.dare)} : {}};
}
