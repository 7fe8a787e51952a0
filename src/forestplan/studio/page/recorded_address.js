// The addresses of a published page. It has no server that reads them (src/forestplan/studio/address.py and drawn.py),
// so they are read here by the same rules: what the studio refuses is refused, and what it leaves out is left out.

// Letters of an address, steps that are made by hand, channels that are typed and barred, and faults that are named.
const MOST_LETTERS = 2 << 20, MOST_STEPS = 6000, MOST_CHANNEL = 9999, MOST_BARRED = 2048, MOST_NAMED = 5;
const WHOLE = /^\d{1,6}$/;
const TABS = ["draw", "rounds", "run", "adversary", "check", "pictures"], KINDS = ["plan", "results", "rounds", "bits", "why", "run"];

// What each name of an address has to be, if it isn't just of its kind.
/** @typedef {{nodes: number, edges: [number, number][]}} Here */
/** @type {Record<string, (value: any, hello: Hello, here: Here, values: Values) => boolean>} */
const FITS = {
  program: (value, {programs, own}) => programs.includes(value) || Object.hasOwn(own, value),
  tab: value => TABS.includes(value),
  passes: (value, {passes}) => value >= 1 && value <= passes,
  root: (value, _, {nodes}) => value >= 1 && value <= nodes,
  node: (value, _, {nodes}) => value >= 1 && value <= nodes,
  forest: (value, _, {nodes}) => value <= Math.max(0, nodes - 2),
  lazy: (value, _, {nodes}) => value.every((/** @type {number} */ v) => v >= 1 && v <= nodes),
  slow: (value, _, {edges}) => value.every((/** @type {Edge} */ one) => edges.some(edge => edge.join() === one.join())),
  steps: value => value.length <= MOST_STEPS,
  plan: (value, _, {nodes}) => value.length <= nodes && value.every((/** @type {number} */ channel) => channel <= MOST_CHANNEL),
  kind: value => KINDS.includes(value),
  how: value => value === "seed",
  policy: (value, {policies}) => Object.hasOwn(policies, value),
  other: (value, {policies}) => Object.hasOwn(policies, value.policy),
  dare: (value, hello, _, values) => Object.hasOwn(reacts(hello, values) ? hello.own_dares : hello.dares, value),
  without: (value, hello, _, values) => areRules(value, reacts(hello, values) ? hello.rules.links : hello.rules.orders),
  broken: (value, {rules}, _, {program = "colouring"}) => areRules(value, rules.rounds[program] || {}),
  lesson: (value, {lessons}) => value >= 1 && value <= lessons.length,
  step: (value, {lessons}, _, {lesson = 0}) => value >= 1 && value <= (lessons[lesson - 1] || {steps: []}).steps.length,
  lecture: (value, {lecture}) => value >= 1 && value <= lecture.length,
};
// Whether the nodes of the address's program react to messages, without rounds.
/** @param {Hello} hello @param {Values} values */
function reacts({own}, {program = ""}) { return own[program] === "reactions"; }
// Whether these are names of rules with commas between, each once.
/** @param {string} value @param {Record<string, unknown>} rules */
function areRules(value, rules) {
  const names = value.split(",");
  return new Set(names).size === names.length && names.every(rule => Object.hasOwn(rules, rule));
}

// What an address says; null if its network or its place can't be read. An example is found by its name.
/** @param {string} place @param {Hello} hello @param {Here} before @param {(name: string) => Promise<Net | null>} find @returns {Promise<FoundAddress | null>} */
export async function opened(place, hello, before, find) {
  if (place.length > MOST_LETTERS) return null;
  const {pairs: written, unread} = pairsOf(place, hello), pairs = placeOpened(written, hello);
  if (!pairs || hasTwo(pairs, unread)) return null;
  const net = pairs.get("net"), example = pairs.get("example"), isThere = net !== undefined || example !== undefined;
  const network = example ? await find(example) : net === undefined ? null : netOf(net, hello.most);
  if (isThere && !network) return null;
  const here = network ? {nodes: network.nodes.length, edges: network.edges} : before;
  return {network, ...valuesOf(pairs, hello, here, unread)};
}
// Whether an address has two networks.
/** @param {Map<string, string>} pairs @param {string[]} unread */
function hasTwo(pairs, unread) {
  const names = ["example", "net"], there = names.filter(name => pairs.has(name));
  return there.length > 1 || !there.length && names.some(name => unread.includes(name));
}
// The values of an address by their names, as they are written; and what is no name, or is there twice.
/** @param {string} place @param {Hello} hello @returns {{pairs: Map<string, string>, unread: string[]}} */
function pairsOf(place, {address}) {
  /** @type {Map<string, string>} */
  const pairs = new Map();
  /** @type {Set<string>} */
  const twice = new Set();
  /** @type {string[]} */
  const unread = [];
  for (const part of place.split("&").filter(Boolean)) {
    const [name] = part.split("=", 1), value = part.slice(name.length + 1);
    if (!Object.hasOwn(address, name)) unread.push(part);
    else if (pairs.has(name)) twice.add(name);
    else if (value || name === "seed" || name === "net") pairs.set(name, value);
  }
  twice.forEach(name => pairs.delete(name));
  return {pairs, unread: [...unread, ...twice]};
}
// A lesson or the lecture without a tab opens its place; null if there is none.
/** @param {Map<string, string>} pairs @param {Hello} hello @returns {Map<string, string> | null} */
function placeOpened(pairs, hello) {
  if (pairs.has("tab") || !pairs.has("lesson") && !pairs.has("lecture")) return pairs;
  if (pairs.has("lecture")) {
    const at = wholeOf(pairs.get("lecture")), there = hello.lecture[at - 1];
    return there ? new Map([...pairsOf(there.place, hello).pairs, ["lecture", String(at)]]) : null;
  }
  const lesson = wholeOf(pairs.get("lesson")), {steps} = hello.lessons[lesson - 1] || {steps: []}, step = wholeOf(pairs.get("step") || "1");
  const own = step <= steps.length && steps.slice(0, step).map(one => one.place).filter(Boolean).pop();
  return own ? new Map([...pairsOf(own, hello).pairs, ["lesson", String(lesson)], ["step", String(step)]]) : null;
}
// A number that is written as such; 0 if it isn't.
/** @param {string | undefined} said */
function wholeOf(said) { return said !== undefined && WHOLE.test(said) ? +said : 0; }

/** @type {Record<string, RegExp>} */
const ITEMS = {steps: /^\d{1,5}(-\d{1,5}){0,2}$/, slow: /^\d{1,6}-\d{1,6}$/};
/** @type {Record<Written, (said: string, name: string) => unknown>} */
const READ = {
  network: said => said,
  word: said => said,
  text: said => said,
  rules: said => said,
  number: (said, name) => (name === "at" ? /^\d{1,9}(\.\d{1,9})?$/ : WHOLE).test(said) ? +said : undefined,
  flag: said => said === "1" ? true : said === "0" ? false : undefined,
  run: said => {
    const [policy, ...seed] = said.split(".");
    return {policy, seed: seed.length ? seed.join(".") : "1"};
  },
  list: (said, name) => {
    const items = said.split("_").filter(Boolean);
    if (!items.every(item => (ITEMS[name] || WHOLE).test(item))) return undefined;
    if (name === "steps") return items;
    return name === "slow" ? items.map(item => item.split("-").map(Number).sort((a, b) => a - b)) : items.map(Number);
  },
};
// What `%` and two digits of 16 stand for; nothing if they stand for no letter.
/** @param {string} said */
function decoded(said) {
  try { return decodeURIComponent(said); } catch { return undefined; }
}
/** @param {Map<string, string>} pairs @param {Hello} hello @param {Here} here @param {string[]} before @returns {{values: Values, unread: string}} */
function valuesOf(pairs, hello, here, before) {
  /** @type {Values} */
  const values = {};
  const unread = before.slice();
  // In the order of the grammar: what comes later may be of the program or the lesson.
  for (const name of Object.keys(hello.address).filter(one => pairs.has(one))) {
    const said = pairs.get(name) || "", text = name === "net" ? said : decoded(said), fits = FITS[name];
    const value = text === undefined ? undefined : READ[hello.address[name]](text, name);
    if (value === undefined || fits && !fits(value, hello, here, values)) unread.push(`${name}=${said}`);
    else Object.assign(values, {[name]: value});
  }
  const named = unread.slice(0, MOST_NAMED).map(one => one.slice(0, 60)), left = unread.length - named.length;
  return {values, unread: (left ? [...named, `and ${left.toLocaleString("en")} more`] : named).join(", ")};
}

const SPOT = /^(-?\d{1,6})\.(-?\d{1,6})$/, PAIR = /^(\d{1,5})-(\d{1,5})$/, OF_NODE = /^(\d{1,5})-([^]*)$/;
/** @param {string} said */
function listed(said) { return said ? said.split("_") : []; }
// The network of an address, x.y_x.y~1-2_1-3 and more (`codeOf` of address.js); null if it isn't one, or has too many
// nodes.
/** @param {string} code @param {number} most @returns {Net | null} */
function netOf(code, most) {
  const [places, links = "", ...more] = code.split("~"), spots = listed(places).map(spot => SPOT.exec(spot));
  const edges = edgesOf(links, spots.length), kinds = new Set(more.map(part => part[0]));
  if (spots.length > most || !spots.every(Boolean) || !edges || kinds.size < more.length) return null;
  const nodes = spots.map(spot => ({x: +(spot || [])[1], y: +(spot || [])[2], id: "", name: "", bars: /** @type {number[]} */ ([]),
    label: ""}));
  return more.every(part => isAdded(nodes, part)) ? {name: "", nodes, edges} : null;
}
// The edges, the lower node first, ascending; null if one of them is wrong, or is there twice.
/** @param {string} said @param {number} nodes @returns {Edge[] | null} */
function edgesOf(said, nodes) {
  const edges = listed(said).map(pair => {
    const [, v, w] = PAIR.exec(pair) || ["", "0", "0"];
    return /** @type {Edge} */ ([Math.min(+v, +w), Math.max(+v, +w)]);
  });
  const isRead = edges.every(([v, w]) => v >= 1 && v < w && w <= nodes) && new Set(edges.map(String)).size === edges.length;
  return isRead ? edges.sort((a, b) => a[0] - b[0] || a[1] - b[1]) : null;
}
// What can be said of a node: its identifier, channels that are barred, and its name. Each is said once.
/** @type {Record<string, (node: NetNode, said: string) => Partial<NetNode> | null>} */
const ADDS = {
  i: ({id}, said) => !id && /^\d{1,39}$/.test(said) ? {id: said} : null,
  b: ({bars}, said) => {
    const isChannel = /^\d{1,4}$/.test(said) && +said >= 1 && +said <= MOST_BARRED;
    return isChannel && !bars.includes(+said) ? {bars: [...bars, +said]} : null;
  },
  n: ({name}, said) => {
    const text = decoded(said);
    return name || text === undefined ? null : {name: text};
  },
};
// Whether a part of the network's code says something of nodes, which then have it.
/** @param {NetNode[]} nodes @param {string} part */
function isAdded(nodes, part) {
  const kind = part.slice(0, 1);
  return Object.hasOwn(ADDS, kind) && listed(part.slice(1)).every(pair => {
    const [, v = "0", said = ""] = OF_NODE.exec(pair) || [], node = nodes[+v - 1], more = node && ADDS[kind](node, said);
    return Boolean(more && Object.assign(node, more));
  });
}
