// The calls of a published page: it asks no server, since their answers were recorded
// (src/forestplan/studio/recording.py). They are in pieces, each a script that is loaded when an answer is looked for
// in it. This module takes the place of api.js.
import {opened} from "./recorded_address.js";
import {exerciseOf, playedReactions, reactionsFound, sentIn} from "./recorded_reactions.js";
import {dareOf, foundBy, played, waitedFor} from "./recorded_runs.js";
import {withSteps} from "./recorded_steps.js";

export const token = "published";
export class Wrong extends Error {}
const NO_ANSWER = "This page was recorded, and has no answer to that. The studio itself has, a program for a computer: `forestlab studio` starts it.";

/** @type {Map<string, Piece>} */
const pieces = new Map();
/** @type {Map<string, Promise<void>>} */
const loads = new Map();
window.recorded = (name, piece) => { pieces.set(name, piece); };
/** @param {string} name @returns {Promise<void>} */
function load(name) {
  const begun = loads.get(name);
  if (begun) return begun;
  const script = document.createElement("script");
  /** @type {Promise<void>} */
  const loaded = new Promise((done, fails) => {
    script.onload = () => done();
    script.onerror = () => {
      loads.delete(name);
      fails(new Wrong(`the file answers/${name}.js can’t be read: it has to be beside this page`));
    };
  });
  script.src = `answers/${name}.js`;
  document.head.append(script);
  loads.set(name, loaded);
  return loaded;
}
// The pieces in the order in which an answer is looked for: those that are there, the one of the lesson, all others.
function inOrder() {
  const [, lesson] = /[#&]lesson=(\d+)/.exec(location.hash) || ["", ""];
  /** @param {string} name */
  const rank = name => pieces.has(name) ? 0 : name === `lesson${lesson}` ? 1 : 2;
  return RECORDED.pieces.slice().sort((a, b) => rank(a) - rank(b));
}
/** @type {<Found>(look: (piece: Piece) => Found | undefined) => Promise<Found | undefined>} */
async function find(look) {
  for (const name of inOrder()) {
    await load(name);
    const piece = pieces.get(name), found = piece && look(piece);
    if (found !== undefined) return found;
  }
  return undefined;
}
/** @type {<Found>(found: Found | undefined) => Found} */
function must(found) {
  if (found === undefined) throw new Wrong(NO_ANSWER);
  return found;
}

// A network without places and names, on which no answer depends that is recorded.
/** @param {string} text */
function bare(text) { return text.replace(/^c .*\n/gm, ""); }
/** @param {unknown} value */
function sorted(value) {
  return Array.isArray(value) ? value.slice().sort((a, b) => a - b || a[0] - b[0] || a[1] - b[1]) : value;
}
// By what an answer is found (`key_of` of recording.py): what is asked but for what is usual.
/** @param {string} name @param {Record<string, unknown>} asked */
function keyOf(name, asked) {
  const usual = RECORDED.usual[name] || {}, network = typeof asked.network === "string" ? bare(asked.network) : "";
  const rest = Object.keys(asked).sort().filter(one => one !== "network" && !(one === "name" && network)
    && asked[one] !== null && asked[one] !== undefined && JSON.stringify(asked[one]) !== JSON.stringify(usual[one]));
  const said = Object.fromEntries(rest.map(one => [one, one === "slow" || one === "lazy" ? sorted(asked[one]) : asked[one]]));
  return `${name} ${network}${JSON.stringify(said)}`;
}
/** @param {string} name @param {Record<string, unknown>} asked */
async function kept(name, asked) {
  const key = keyOf(name, asked);
  const {answer, wrong} = must(await find(({answers, values}) => values[answers[key]]));
  if (wrong !== undefined) throw new Wrong(wrong);
  return answer;
}
/** @param {{network: string, program?: string | null, without?: string | null}} asked */
async function runsOf(asked) { return must(await find(piece => piece.runs[keyOfRuns(asked)])); }
/** @param {{network: string, program?: string | null, without?: string | null}} asked */
async function reactionsOf(asked) { return must(await find(piece => piece.reactions[keyOfRuns(asked)])); }
/** @param {{network: string, program?: string | null, without?: string | null}} asked */
function keyOfRuns({network, program, without}) {
  return `steps ${bare(network)}${program || "colouring"} ${(without || "").split(",").sort().join()}`;
}
/** @param {string | null | undefined} steps */
function stepsIn(steps) { return (steps || "").split("_").filter(Boolean); }
/** @param {unknown} said */
function small(said) { return String(said).toLowerCase().split(/\s+/).filter(Boolean).join(" "); }

/** @param {CheckCall} asked @returns {Promise<GoodPlan | BadPlan>} */
async function checked({network, plan}) {
  const key = `check ${bare(network)}`, is = must(await find(piece => piece.verdicts[key]));
  for (const [k, channel] of plan.entries()) {
    if (channel > is.most) return is.above[k];
    if (is.of[k][channel]) return is.of[k][channel];
  }
  const blank = is.blank.findIndex((_, k) => !plan[k]);
  if (blank >= 0) return is.blank[blank];
  const alike = is.alike.find(([v, w]) => plan[v - 1] === plan[w - 1]);
  return alike ? alike[2] : is.good[Math.max(...plan) - 1];
}
/** @param {ExerciseCall} asked @returns {Promise<ExerciseJudged>} */
async function exercise(asked) {
  const {lesson, step, network} = asked, key = `exercise ${lesson} ${step}`;
  const own = await find(piece => piece.guesses[key] || piece.plans[key] || piece.steps[key] || piece.reacted[key]);
  if (!own) return /** @type {ExerciseJudged} */ (await kept("exercise", {lesson, step, network}));
  if ("lacks" in own) {
    const runs = await reactionsOf(asked);
    return exerciseOf(runs, must(playedReactions(runs, stepsIn(asked.steps)) || undefined), own);
  }
  return "right" in own ? judgedGuess(own, asked) : "blank" in own ? judgedPlan(own, asked) : judgedSteps(own, asked);
}
/** @param {PlanJudged} is @param {ExerciseCall} asked @returns {Promise<ExerciseJudged>} */
async function judgedPlan(is, asked) {
  const plan = asked.plan || [], verdict = await checked({network: asked.network, plan}), left = plan.filter(one => !one).length;
  if (verdict.ok) return {done: true, said: is.proper[new Set(plan).size - 1]};
  return {done: false, said: left ? is.blank[left - 1] : verdict.sentence};
}
/** @param {StepsJudged} is @param {ExerciseCall} asked @returns {Promise<ExerciseJudged>} */
async function judgedSteps({dare, enough, more, before, after}, asked) {
  const runs = await runsOf(asked), at = must(played(runs, stepsIn(asked.steps)) || undefined);
  if (before && after) {
    const is = at.pulses.some(Boolean) ? after : before;
    return {...is, said: withSteps(is.said, at.made.length)};
  }
  const {won, said} = dareOf(runs, at, dare), isLong = enough !== null && at.made.length > enough;
  return won && isLong ? {done: false, said: said + more} : {done: won, said};
}
/** @param {GuessJudged} is @param {ExerciseCall} asked @returns {ExerciseJudged} */
function judgedGuess({right, done, other, none}, asked) {
  const guess = small(asked.guess || "");
  if (guess === right) return done;
  return guess ? {...other, said: other.said.replace("\ue002", String(asked.guess).trim().slice(0, 60))} : none;
}
/** @param {PredictCall} asked @returns {Promise<Predicted>} */
async function predict({network, program, node, pulse, forest, guess}) {
  const key = `predict ${bare(network)}${program || "colouring"} ${node} ${pulse} ${forest || 0}`;
  const {found, why} = must(await find(piece => piece.questions[key]));
  return {right: small(guess) === small(found), found, why};
}
/** @param {WaitsCall} asked @returns {Promise<Predicted>} */
async function waits(asked) {
  const runs = await runsOf(asked), at = must(played(runs, stepsIn(asked.steps)) || undefined);
  return judgedList(waitedFor(runs, at, asked.node), asked.guess);
}
// Whether all of a list is said, with commas between; of none it is `nothing`.
/** @param {Explained} is @param {unknown} answer @returns {Predicted} */
function judgedList({found, why}, answer) {
  const said = String(answer).split(",").map(small).filter(Boolean).sort().join(", ");
  return {right: said === (found || "nothing") || !found && !said, found: found || "nothing", why};
}
/** @param {SendsCall} asked @returns {Promise<Predicted>} */
async function sends(asked) {
  const runs = await reactionsOf(asked), at = must(playedReactions(runs, stepsIn(asked.steps)) || undefined);
  return judgedList(must(sentIn(runs, at, asked.step) || undefined), asked.guess);
}
/** @param {StepsCall} asked @returns {Promise<StepsFound | ReactionsFound>} */
async function steps(asked) {
  if (asked.list !== null && asked.list !== undefined) throw new Wrong(NO_ANSWER);
  const {hello} = RECORDED, made = stepsIn(asked.steps);
  if (hello.own[asked.program || ""] === "reactions") {
    const runs = await reactionsOf(asked);
    return reactionsFound(runs, must(playedReactions(runs, made) || undefined), asked);
  }
  const runs = await runsOf(asked);
  return foundBy(runs, must(played(runs, made) || undefined), asked);
}
// What an address opens. It is read here, as the page writes it; `src/forestplan/studio/address.py` is the command's.
/** @param {AddressCall} asked @returns {Promise<FoundAddress>} */
async function address({place, nodes, edges}) {
  const found = await opened(place, RECORDED.hello, {nodes: nodes || 0, edges: edges || []},
    name => call("example", {name}, {key: "example of an address"}));
  if (!found) throw new Wrong("this address can’t be read: nobody has written it by this page, or it was cut");
  return found;
}
// The text of a sample, if the page hasn't got it already.
/** @param {FileCall} asked @returns {Promise<FileText>} */
async function fileText({own, seen}) {
  const is = /** @type {FileText} */ (await kept("file_text", {own}));
  return is.version === seen ? {version: is.version} : is;
}
/** @type {Record<string, (asked: any) => Promise<unknown>>} */
const ANSWERS = {address, file_text: fileText, check: checked, exercise, predict, sends, steps, waits};

/** @type {Map<string, object>} */
const running = new Map();
/** @param {string} key */
export function cancel(key) { running.delete(key); }
// The answer; null if a later call of the key, or cancel, has overtaken it.
/** @type {<K extends keyof Asks, A extends Asks[K]>(name: K, asked: A & Only<A, Asks[K]>, options?: CallOptions) => Promise<Answers[K] | null>} */
export async function call(name, asked, {key = name} = {}) {
  const mine = {};
  running.set(key, mine);
  try {
    const {[name]: own} = ANSWERS, found = await (own ? own(asked) : kept(name, asked));
    return running.get(key) === mine ? structuredClone(found) : null;
  } catch (fault) {
    if (running.get(key) === mine) throw fault;
    return null;
  } finally {
    if (running.get(key) === mine) running.delete(key);
  }
}
export async function hello() { return RECORDED.hello; }
