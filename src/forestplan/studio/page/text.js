// A page of docs/learn as elements: paragraphs, lists, tables, pictures, and lines to type. None of it is taken as
// HTML.
import {html, pointed} from "./marks.js";

const INLINE = /`([^`]+)`|\*\*([^*]+)\*\*|\*([^*\s][^*]*)\*|!\[([^\]]*)\]\(([^)]+)\)|\[([^\]]+)\]\(([^)]+)\)/g;
const ITEM = /^(- |\d+\. )/, STUDIO = "http://127.0.0.1:8321/", PANEL = "panel:", KEYS = "keys:";

// The number that an answer names, in digits or in a word; an answer with none, or with several, is as it was.
const NUMBERS = "zero one two three four five six seven eight nine ten eleven twelve".split(" ");
/** @param {string} answer */
export function numberIn(answer) {
  const words = answer.toLowerCase().split(/[^a-z0-9]+/).map(word => NUMBERS.includes(word) ? String(NUMBERS.indexOf(word)) : word);
  const found = words.filter(word => /^\d+$/.test(word));
  return found.length === 1 && !/[-−.]\d/.test(answer) ? found[0] : answer;
}
// A link to a place of the studio leads there, and one to a part of the panel shows it; words on keys aren't seen where
// a finger points; a link to another page has its words alone.
/** @param {string} text @param {string} to */
function link(text, to) {
  if (to.startsWith(PANEL)) return pointer(text, to.slice(PANEL.length));
  if (to === KEYS) return html("span", text, {class: "keys"});
  const place = /^#\w+=/.test(to) ? to : to.startsWith(STUDIO + "#") ? to.slice(STUDIO.length) : null;
  return place ? html("a", text, {href: place}) : text;
}
// Words that name a part of the panel: who clicks on them has it in sight, marked for a moment.
const MARKED = 2500;
/** @param {string} text @param {string} name */
function pointer(text, name) {
  const button = html("button", text, {type: "button", class: "pointer"});
  button.onclick = () => {
    const part = document.getElementById(name);
    if (!part) return;
    part.scrollIntoView({block: "nearest"});
    part.classList.add("pointed");
    setTimeout(() => part.classList.remove("pointed"), MARKED);
  };
  return button;
}
/** @param {RegExpMatchArray} found */
function shown([whole, code, bold, italic, said, picture, text, to]) {
  if (code) return html("code", code);
  if (bold) return html("b", bold);
  if (italic) return html("i", italic);
  if (picture) return html("img", null, {alt: said, src: picture.replace(/^\.\.\//, "")});
  return text ? link(text, to) : whole;
}
/** @param {"p" | "td" | "th"} name @param {string} said */
function inline(name, said) {
  const place = html(name);
  let at = 0;
  for (const found of said.matchAll(INLINE)) {
    const from = found.index || 0;
    place.append(pointed(said.slice(at, from)), shown(found));
    at = from + found[0].length;
  }
  place.append(pointed(said.slice(at)));
  return place;
}
/** @param {string[]} lines */
function table(lines) {
  /** @type {(line: string) => string[]} */
  const cells = line => line.split("|").slice(1, -1).map(cell => cell.trim()), place = html("table");
  lines.filter(line => !/^[|\- ]+$/.test(line)).forEach((line, k) => {
    const row = html("tr");
    row.append(...cells(line).map(cell => inline(k ? "td" : "th", cell)));
    place.append(row);
  });
  return place;
}
// The lines of one block, taken from the front of `lines`: while `isOne` is true, or a line is empty and one follows.
/** @param {string[]} lines @param {(line: string) => boolean} isOne */
function taken(lines, isOne) {
  const block = [];
  while (lines.length && goesOn(lines, isOne)) block.push(...lines.splice(0, 1));
  return block;
}
/** @param {string[]} lines @param {(line: string) => boolean} isOne */
function goesOn(lines, isOne) {
  const next = lines.find(line => line.trim());
  return isOne(lines[0]) || !lines[0].trim() && next !== undefined && isOne(next);
}
/** @param {string[]} lines @returns {HTMLElement} */
function blockOf(lines) {
  const [line] = lines;
  if (line.startsWith("#")) return html("h3", lines.splice(0, 1)[0].replace(/^#+ /, ""));
  if (line.startsWith("    ")) {
    return html("pre", taken(lines, one => one.startsWith("    ")).map(one => one.slice(4)).join("\n"));
  }
  if (line.startsWith("|")) return table(taken(lines, one => one.startsWith("|")));
  if (!ITEM.test(line)) {
    const ends = lines.findIndex((one, k) => k > 0 && (!one.trim() || ITEM.test(one)));
    return inline("p", lines.splice(0, ends < 0 ? lines.length : ends).join(" "));
  }
  lines.shift();
  const inside = taken(lines, one => /^ {2}/.test(one)), item = html("li"), [mark] = ITEM.exec(line) || [""];
  /** @param {string} one */
  const strip = one => one.slice(Math.min(mark.length, one.search(/\S|$/)));
  item.append(...textOf([line.slice(mark.length), ...inside.map(strip)].join("\n")));
  return item;
}
// One line as the parts of a paragraph.
/** @param {string} said */
export function partsOf(said) { return Array.from(inline("p", said).childNodes); }
/** @param {string} text */
export function textOf(text) {
  const lines = text.split("\n"), blocks = [];
  while (lines.length) if (lines[0].trim()) blocks.push(blockOf(lines)); else lines.shift();
  return blocks;
}
