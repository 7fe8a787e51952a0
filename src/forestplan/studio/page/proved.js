// Whether the proved programs answer or Python's definitions, and the build that a button begins.
import {Wrong, call} from "./api.js";
import {by, hello, wrong} from "./base.js";

/** @type {() => unknown} */
let ready = () => 0;
let timer = 0;
// `done` is called when the programs have been built.
/** @param {() => unknown} done */
export function watchBuild(done) {
  ready = done;
  show({proved: hello().proved, lines: [], ended: false});
  if (!hello().proved && !hello().published) look();
}
/** @param {Build} is */
function show(is) {
  by("unproved").hidden = hello().proved;
  by("begin").hidden = is.lines.length > 0 && !is.ended;
  // A crate may take minutes, and has a line only when it begins and ends.
  const quiet = is.quiet || 0, since = is.ended || quiet <= 20 ? "" : ` (${Math.round(quiet / 6) / 10} min ago)`;
  by("progress").textContent = is.lines.slice(is.ended ? -3 : -1).join(" · ") + since;
  by("progress").title = is.lines.join("\n");
}
/** @param {"build" | "built"} name */
async function ask(name) {
  clearTimeout(timer);
  try {
    const is = await call(name, {});
    if (!is) return;
    wrong("", "built");
    if (is.proved && !hello().proved) { await ready(); return show(is); }
    show(is);
    if (is.lines.length && !is.ended) lookIn(2000);
  } catch (fault) {
    if (!(fault instanceof Wrong)) throw fault;
    wrong(fault.message, "built");
    // A call that failed says nothing of the build.
    if (name === "built" && by("begin").hidden) lookIn(5000);
  }
}
function look() { return ask("built"); }
/** @param {number} moment */
function lookIn(moment) { timer = setTimeout(look, moment); }
by("begin").onclick = () => ask("build");
