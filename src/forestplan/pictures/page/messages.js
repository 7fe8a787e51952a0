// Nodes that react to messages, without rounds, and their messages.
import {BLANK_RIM, BLANK_SIZE, HUES} from "./hues.js";
import {mark, resultWords, textMark} from "./marks.js";

// Each word of messages has a hue, and the ink on it, in the order in which they are first seen.
/** @type {Map<string, [string, string]>} */
const hues = new Map();
/** @param {string} said */
export function hueOf(said) {
  const [word] = said.split(" "), hue = hues.get(word) || HUES[hues.size % HUES.length];
  hues.set(word, hue);
  return hue;
}
// What a message on a link looks like: all of it, or if there is no room its first letter and its first number.
/** @type {LooksOfMessages} */
export const MESSAGES = {
  shown: (said, isLong) => isLong && said.length <= 16 ? said : said[0] + (said.split(" ")[1] || "").slice(0, 3),
  look: said => ({fill: hueOf(said)[0], stroke: "var(--rim)", ink: hueOf(said)[1], "data-mark": "message"}),
};
// A node, with how often it has acted, and at it what it has found.
/** @param {Stage} stage @param {ReactedLook} is @param {number} v @param {number} x @param {number} y @param {number} r @returns {Marks} */
export function reactedMarks(stage, is, v, x, y, r) {
  return [mark("circle", {cx: x, cy: y, r, fill: "var(--paper)", stroke: "var(--ink)", "stroke-width": BLANK_RIM, "data-mark": is.acts ? "acted" : "reacting"}),
    textMark(x, y, r * BLANK_SIZE, "var(--ink)", is.acts || "", {"font-weight": "bold"}),
    ...resultWords(x, stage.wordsAt(v, 14), stage.largest / 2, is.found, stage.roomBeyond(v))];
}
// What a node has found, how often it has acted and whether it may, in words.
/** @param {ReactedLook} is @param {boolean} isBrief */
export function reactedWords(is, isBrief = false) {
  const acted = is.acts ? `has acted ${is.acts === 1 ? "once" : `${is.acts} times`}` : "";
  return [isBrief ? is.found : `result: ${is.found || "nothing"}`, acted, is.able && !isBrief ? "may act" : ""].filter(Boolean).join(", ");
}
