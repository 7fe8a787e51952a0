// What this browser keeps of the studio; if it refuses to, what this page keeps as long as it is open.
/** @type {Map<string, string>} */
const here = new Map();
// Whether the browser keeps it.
export let isKept = true;

/** @param {string} name @returns {string} */
export function kept(name) {
  try { return localStorage.getItem(name) || ""; } catch {
    isKept = false;
    return here.get(name) || "";
  }
}
/** @param {string} name @param {string} text */
export function keep(name, text) {
  here.set(name, text);
  try { localStorage.setItem(name, text); } catch { isKept = false; }
}
// A list that is kept, or what is kept by names. What isn't one, as somebody else has kept it, is as good as nothing.
/** @param {string} name @returns {string[]} */
export function keptList(name) {
  const found = parsed(kept(name));
  return Array.isArray(found) ? found.filter(one => typeof one === "string") : [];
}
/** @param {string} name @returns {Map<string, number>} */
export function keptNumbers(name) {
  const found = parsed(kept(name));
  const pairs = found && typeof found === "object" && !Array.isArray(found) ? Object.entries(found) : [];
  return new Map(pairs.filter(([, number]) => Number.isInteger(number)));
}
/** @param {string} text @returns {unknown} */
function parsed(text) {
  try { return JSON.parse(text || "null"); } catch { return null; }
}
