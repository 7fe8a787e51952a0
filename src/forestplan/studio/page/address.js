// The address, as the page writes it: NAME=VALUE with & between, after the #. `names` is the grammar, which the server
// gives (src/forestplan/studio/address.py): how the value of each name is written. The server reads an address, too.

// What can't be written in an address becomes %XX; half a letter, which no text should have, becomes a mark.
/** @param {unknown} said */
function escaped(said) { return encodeURIComponent(String(said).replace(/\p{Surrogate}/gu, "\ufffd")); }
/** @param {string} name */
function escapedName(name) { return escaped(name).replace(/[~_]/g, c => c === "~" ? "%7E" : "%5F"); }
/** @param {unknown[]} items */
function list(items) { return items.map(item => Array.isArray(item) ? item.join("-") : item).join("_"); }

// x.y_x.y~1-2_1-3, and after them the identifiers ~i1-17, the bars ~b1-3 and the names ~n1-Oslo.
/** @param {Net} network */
export function codeOf({nodes, edges}) {
  const parts = [nodes.map(n => Math.round(n.x) + "." + Math.round(n.y)).join("_"), list(edges)];
  /** @type {(letter: string, rows: string[]) => void} */
  const more = (letter, rows) => { if (rows.length) parts.push(letter + rows.join("_")); };
  more("i", nodes.flatMap((n, k) => n.id !== "" ? [`${k + 1}-${n.id}`] : []));
  more("b", nodes.flatMap((n, k) => n.bars.map(bar => `${k + 1}-${bar}`)));
  more("n", nodes.flatMap((n, k) => n.name ? [`${k + 1}-${escapedName(n.name)}`] : []));
  return parts.join("~");
}
/** @type {Record<Written, (value: any) => string>} */
const WRITE = {network: codeOf, word: escaped, text: escaped, number: String, flag: () => "1", rules: String, list,
  run: ({policy, seed}) => `${policy}.${escaped(seed)}`};

// What has no value isn't written; a text may be empty.
/** @param {unknown} value @param {Written} kind */
function hasValue(value, kind) {
  return kind === "text" ? value !== null : Boolean(value) && !(Array.isArray(value) && !value.length);
}
/** @param {State} values @param {Record<string, Written>} names */
export function written(values, names) {
  return Object.entries(values).filter(([name, value]) => hasValue(value, names[name]))
    .map(([name, value]) => `${name}=${WRITE[names[name]](value)}`).join("&");
}
