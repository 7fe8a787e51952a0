// A run that is made step by step on a published page: what a step of a node leads to is looked up by the node's state
// and the message that it takes. src/forestplan/studio/recording.py has worked that out for all states of all nodes.

// What stands in a text for a number of steps, and for what is known only then.
/** @param {string} said @param {number} steps @param {string | number} most */
export function withSteps(said, steps, most = "") {
  return said.replace("\ue001", String(most)).replace("\ue000", `${steps.toLocaleString("en")} step${steps === 1 ? "" : "s"}`);
}
/** @param {TableOfRuns} is @returns {Played} */
export function start(is) {
  /** @type {Played} */
  const run = {made: [], at: is.nodes.map(() => 0), links: new Map(), lines: [], entries: 0, said: "", wire: "", fault: null,
    over: false};
  is.nodes.forEach(({puts}, k) => put(is, run, k + 1, puts));
  return run;
}
// The wires on the link from v to w.
/** @param {Played} run @param {number} v @param {number} w */
function link(run, v, w) {
  const key = `${v}-${w}`, wires = run.links.get(key) || [];
  run.links.set(key, wires);
  return wires;
}
/** @param {TableOfRuns} is @param {Played} run @param {number} v @param {[number, string][]} puts */
function put(is, run, v, puts) {
  puts.forEach(([w, wire]) => {
    link(run, v, w).push(wire);
    run.lines.push(`put ${v} ${is.nodes[v - 1].near.indexOf(w)}`);
    run.entries++;
  });
}
/** @param {TableOfRuns} is @param {Played} run @param {number} v */
export function stateOf(is, run, v) { return is.nodes[v - 1].states[run.at[v - 1]]; }
// What a step leads to that is possible; none if it isn't.
/** @param {TableOfRuns} is @param {Played} run @param {string} step @returns {LocalRow | null} */
export function rowOf(is, run, step) {
  const [v, w, place] = step.split("-").map(Number), node = is.nodes[v - 1];
  if (run.over || !node) return null;
  const state = stateOf(is, run, v);
  if (!w) return state.own;
  const wire = link(run, w, v)[place || 0];
  if (wire === undefined || place && !is.overtakes) return null;
  const number = node.wires.findIndex(one => one[0] === w && one[1] === wire);
  // A wire without a row is one that the node refuses.
  return state.same.includes(number) ? {to: run.at[v - 1]} : state.takes[number] || {};
}
// One step, if it is possible; `own` says what a node's own step is called, in words and in a list of events.
/** @param {TableOfRuns} is @param {Played} run @param {string} step @param {(v: number) => [string, string]} own */
export function make(is, run, step, own) {
  const row = rowOf(is, run, step), [v, w, place] = step.split("-").map(Number);
  if (!row) return false;
  run.made.push(step);
  if (w) take(is, run, row, v, w, place || 0);
  else {
    const [said, line] = own(v);
    run.said = said;
    run.lines.push(line);
  }
  if (row.to === undefined) {
    run.over = true;
    run.fault = run.fault || row.fault || `node ${v} can't take what came from ${w}`;
    return true;
  }
  run.at[v - 1] = row.to;
  run.fault = run.fault || row.fault || null;
  run.entries++;
  put(is, run, v, row.puts || []);
  return true;
}
/** @param {TableOfRuns} is @param {Played} run @param {LocalRow} row @param {number} v @param {number} w @param {number} place */
function take(is, run, row, v, w, place) {
  const wires = link(run, w, v);
  run.wire = wires[place];
  if (row.to !== undefined) wires.splice(place, 1);
  else if (place) wires.unshift(...wires.splice(place, 1));
  run.said = `node ${v} takes ${run.wire} from ${w}`;
  run.lines.push(`take ${v} ${is.nodes[v - 1].near.indexOf(w)}${place ? " " + place : ""}`);
}
/** @param {TableOfRuns} is @param {Played} run */
export function possible(is, run) {
  if (run.over) return [];
  return is.nodes.flatMap(({near}, k) => {
    const v = k + 1, own = stateOf(is, run, v).own ? [String(v)] : [];
    return own.concat(near.flatMap(w => link(run, w, v).flatMap((_, place) => place && !is.overtakes ? []
      : [place ? `${v}-${w}-${place}` : `${v}-${w}`])));
  });
}
// The steps that nothing holds, and that overtake nothing: chance chooses among these.
/** @param {TableOfRuns} is @param {Played} run @param {StepsCall} asked */
export function free(is, run, {slow, lazy}) {
  return possible(is, run).filter(step => {
    const [v, w, place] = step.split("-").map(Number);
    if (!w) return !(lazy || []).includes(v);
    return !place && !(slow || []).some(edge => edge.includes(v) && edge.includes(w));
  });
}
// So many steps more, by chance; `makes` makes one.
/** @param {TableOfRuns} is @param {Played} run @param {StepsCall} asked @param {(step: string) => unknown} makes */
export function byChance(is, run, asked, makes) {
  for (let left = asked.by || 0; left > 0; left--) {
    const steps = free(is, run, asked);
    if (!steps.length) return;
    makes(steps[Math.floor(Math.random() * steps.length)]);
  }
}
// What the tab Adversary shows of any run.
/** @param {TableOfRuns} is @param {Played} run */
export function shown(is, run) {
  const wires = is.nodes.flatMap(({near}, k) => near.map(w => /** @type {[number, number, string[]]} */ ([k + 1, w, link(run, k + 1, w)])));
  return {made: run.made, steps: possible(is, run), wires: wires.filter(row => row[2].length), said: run.said, fault: run.fault,
    over: run.over, list: run.lines, entries: run.entries};
}
