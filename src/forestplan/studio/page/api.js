// Calls of the server. A later call of the same key ends the one before: the server ends its process then.
import {keep, kept} from "./kept.js";

const KEPT = "studio-token", before = kept(KEPT);
const given = new URLSearchParams(location.search).get("token");
if (given) history.replaceState(null, "", location.pathname + location.hash);
export let token = given || before;
/** @type {Map<string, AbortController>} */
const running = new Map();

// What the server says isn't so.
export class Wrong extends Error {}
// Of what is asked of the network, and of nothing else, a TypeError says that it can't be reached.
/** @param {unknown} fault @returns {never} */
function lost(fault) {
  throw fault instanceof TypeError ? new Wrong("the server doesn’t answer: has the command studio been ended?") : fault;
}

/** @param {string} key */
export function cancel(key) {
  const control = running.get(key);
  if (control) control.abort();
  running.delete(key);
}

// What comes as lines of JSON, one after another.
/** @param {Response} got */
async function* linesOf(got) {
  if (!got.body) return;
  const reader = got.body.getReader(), decoder = new TextDecoder();
  for (let rest = "", isDone = false; !isDone;) {
    const {value, done} = await reader.read().catch(lost);
    const lines = (rest + decoder.decode(value || new Uint8Array(), {stream: !done})).split("\n");
    rest = lines.pop() || "";
    isDone = done;
    for (const line of lines) yield JSON.parse(line);
  }
}
// The answer that the last line of a call has.
/** @type {<Answer>(last: {answer?: Answer, wrong?: string}) => Answer} */
function answerOf({answer, wrong}) {
  if (wrong !== undefined) throw new Wrong(wrong);
  if (answer === undefined) throw new Wrong("the call was ended: it took too much time or memory");
  return answer;
}
// The answer; null if a later call of the key, or cancel, ended it.
/** @type {<K extends keyof Asks, A extends Asks[K]>(name: K, asked: A & Only<A, Asks[K]>, options?: CallOptions) => Promise<Answers[K] | null>} */
export async function call(name, asked, {key = name, progress, part} = {}) {
  cancel(key);
  const control = new AbortController();
  running.set(key, control);
  try {
    const got = await fetch("/call/" + name, {method: "POST", signal: control.signal, body: JSON.stringify(asked),
      headers: {"X-Token": token, "Content-Type": "application/json"}}).catch(lost);
    if (!got.ok) throw new Wrong(await got.text());
    let last = null;
    for await (const line of linesOf(got)) {
      last = line;
      if (line.of && progress) progress(line.done, line.of);
      if (line.part && part) part(line.part);
    }
    return answerOf(last || {});
  } catch (fault) {
    if (control.signal.aborted) return null;
    throw fault;
  } finally {
    if (running.get(key) === control) running.delete(key);
  }
}

// What there is to choose from. A token counts when the server has taken it: a wrong one in an address takes away none
// that was kept.
export async function hello() {
  const got = await call("hello", {}).catch(fault => {
    if (!before || token === before) throw fault;
    token = before;
    return call("hello", {});
  });
  if (got) keep(KEPT, token);
  return got;
}
