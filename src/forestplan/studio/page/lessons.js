// The card of a lesson's step, or of a place of the lecture: one instruction, its exercise, and the way on and back.
import {Wrong, call} from "./api.js";
import {all, by, capital, hello, hooks, messageOf, option, programNamed, seen, show, time} from "./base.js";
import {check} from "./check.js";
import {isKept} from "./kept.js";
import {coded, html} from "./marks.js";
import {net, text} from "./model.js";
import {steps} from "./steps_tab.js";
import {numberIn, partsOf, textOf} from "./text.js";
import {countOf, isDone, tick} from "./ticks.js";

// What is shown: so that a card is made anew only if it is another one.
let shown = "";
// The call that judges what is seen: what it has asked, and when it asks.
let asked = "", asking = 0;
// How many answers have been given on this page.
let answers = 0;
// Whether the exercise of the step has been done since the step was opened.
let isFresh = false;

// The lesson that is open, and its step.
function lessonSeen() { return hello().lessons.find(one => one.number === seen.lesson); }
/** @returns {LessonStep | undefined} */
function stepSeen() {
  const lesson = lessonSeen();
  return lesson && lesson.steps[(seen.step || 1) - 1];
}
// The card, if it isn't there already: of a lesson, of the lecture, or none.
export function showCard() {
  const {lesson, step, lecture} = seen, isAway = isElsewhere(), key = [lesson, step, lecture, isAway].join();
  document.body.classList.toggle("carded", lecture !== null || lesson !== null);
  if (key === shown) return look();
  shown = key;
  asked = "";
  isFresh = false;
  const box = by("lesson"), parts = lecture ? partsOfPlace(lecture) : lesson ? partsOfStep() : [];
  box.hidden = !parts.length;
  box.setAttribute("aria-label", lecture ? "lecture" : "lesson");
  box.classList.toggle("away", isAway);
  keepQuiet();
  Object.values(HOMES).forEach(bring => bring());
  box.replaceChildren(...parts);
  const slot = box.querySelector(".asked");
  if (slot && !isAway) slot.append(by(seen.tab === "adversary" ? "question2" : "question"));
  box.classList.remove("done");
  if (parts.length) showTop();
  look();
}
// Shows the title of the card. On a phone the whole page scrolls below a drawing that stays where it is, and the title
// may be behind the drawing: then it comes just below, once the step is drawn.
function showTop() {
  by("side").scrollTop = 0;
  requestAnimationFrame(() => {
    const over = by("left").getBoundingClientRect().bottom - by("lesson").getBoundingClientRect().top;
    if (getComputedStyle(by("left")).position === "sticky" && over > 0) scrollBy(0, -over - 8);
  });
}
// The tabs' own questions: that of a step's exercise is in its card, and brought back to its panel when the step is
// left.
/** @param {"question" | "question2"} id */
function homeOf(id) {
  const {parentNode, nextSibling} = by(id);
  return () => { if (parentNode) parentNode.insertBefore(by(id), nextSibling); };
}
const HOMES = {question: homeOf("question"), question2: homeOf("question2")};
// Whether another tab is seen than that of the step, or another network than the one that it speaks of.
function isElsewhere() {
  const step = stepSeen();
  return step !== undefined && (step.tab !== seen.tab || isOther(step));
}
// What is drawn after *clear* has no name. A step whose exercise is done on the drawing lets it be changed.
/** @param {LessonStep} step */
function isOther({exercise}) {
  const {steps: all_} = lessonSeen() || {steps: []}, place = all_.slice(0, seen.step || 1).map(one => one.place).filter(Boolean).pop() || "";
  return place.startsWith("example=") && net.name === "" && !(exercise && exercise.kind === "seen");
}
/** @param {string} title @param {string} what */
function head(title, what) {
  const box = html("div", null, {class: "head"}), close = html("button", "×", {class: "quiet", "aria-label": `close ${what}`});
  close.onclick = () => { Object.assign(seen, {lesson: null, step: null, lecture: null}); showCard(); hooks.link(); };
  box.append(html("h2", title), close);
  return box;
}
function partsOfStep() {
  const lesson = lessonSeen(), step = stepSeen();
  if (!lesson || !step) return [];
  const body = html("div", null, {class: "instruction"}), back = html("button", "back to this step", {class: "away"});
  back.onclick = () => { go(lesson.number, seen.step || 1, true); };
  if (seen.step === 1) body.append(written("p", lesson.ask, {class: "ask"}));
  body.append(...textOf(step.do));
  if (step.exercise) body.append(exerciseBox(lesson.number, step.exercise));
  return [head(`${lesson.number}. ${lesson.title}`, "the lesson"), body, back, arrowsOfStep(lesson), footer(lesson),
    folded("the whole lesson, to read", "Lines that begin with `$` are typed in a shell; here nothing has to be typed.\n\n" + lesson.text)];
}
// The arrows, with the number of the step between them. After the last step comes the next lesson.
/** @param {Lesson} lesson */
function arrowsOfStep({number, steps: list}) {
  const at = seen.step || 1, {lessons} = hello(), before = lessons[number - 2], next = lessons[number];
  return arrows(`step ${at} of ${list.length}`, ["↺", "this step from its beginning", () => go(number, at, true)],
    at > 1 ? ["◂", "the step before", () => go(number, at - 1)]
      : before && ["◂", `the last step of lesson ${number - 1}`, () => go(number - 1, before.steps.length)],
    at < list.length ? [`step ${at + 1} ▸`, "the next step", () => go(number, at + 1)]
      : next && [`lesson ${number + 1} ▸`, `the first step of lesson ${number + 1}`, () => go(number + 1, 1)]);
}
/** @typedef {[string, string, () => void] | undefined} Way */
/** @param {string} where @param {Way} again @param {Way} back @param {Way} on */
function arrows(where, again, back, on) {
  const box = html("nav", null, {class: "arrows", "aria-label": "back and on"});
  /** @type {(way: Way, more: Attributes) => HTMLElement} */
  const button = (way, more) => {
    const [label, name, does] = way || ["", "", () => 0], one = html("button", label, {"aria-label": name, title: name, ...more});
    one.onclick = does;
    one.hidden = !way;
    return one;
  };
  box.append(button(back, {"data-way": "back"}), html("span", where), button(again, {class: "quiet"}),
    button(on, {"data-way": "on", class: "primary"}));
  return box;
}
// How each step was left, by its lesson and number: an address. Who comes back by the arrows finds it so.
/** @type {Map<string, string>} */
const leftAt = new Map();
// Goes to a step, as it was left, or from its beginning. One without a place of its own goes on where the step before
// it has led to.
/** @param {number} lesson @param {number} step @param {boolean} isAgain */
function go(lesson, step, isAgain = false) {
  const {place} = hello().lessons[lesson - 1].steps[step - 1], isOn = seen.lesson === lesson && seen.step === step - 1;
  const from = isElsewhere() ? "" : keyOf(seen.lesson, seen.step), was = isAgain ? undefined : leftAt.get(keyOf(lesson, step));
  if (!place && isOn && !isAgain && !was) {
    leftAt.set(from, hooks.here());
    Object.assign(seen, {step});
    return show();
  }
  const left = hooks.open(was || `lesson=${lesson}&step=${step}`);
  if (from && !isAgain) leftAt.set(from, left);
}
/** @param {number | null} lesson @param {number | null} step */
function keyOf(lesson, step) { return lesson === null ? "" : `${lesson}.${step || 1}`; }
// All lessons, each with a tick if its exercises are done.
/** @param {Lesson} lesson */
function footer({number}) {
  const box = html("nav", null, {class: "all", "aria-label": "all lessons"});
  box.append(html("span", "lessons", {class: "soft"}));
  hello().lessons.forEach(one => {
    const [of, done] = countOf(one), isWhole = done === of;
    const link = html("a", `${one.number}${isWhole ? "✓" : ""}`, {href: `#lesson=${one.number}&step=1`, title: one.title,
      "aria-label": `lesson ${one.number}: ${one.title}, ${done} of ${of} exercises done`});
    if (one.number === number) link.setAttribute("aria-current", "page");
    box.append(link);
  });
  return box;
}
// A line of the table as the steps are written, with words in italics and code.
/** @type {<K extends "p" | "label" | "button">(name: K, said: string, attributes?: Attributes) => HTMLElementTagNameMap[K]} */
function written(name, said, attributes = {}) {
  const place = html(name, null, attributes);
  place.append(...partsOf(said));
  return place;
}
/** @param {number} lesson @param {Exercise} is */
function exerciseBox(lesson, is) {
  const box = html("div", null, {class: "exercise"}), said = html("p", null, {role: "status", class: "judged"});
  if (is.kind === "said") box.append(form(lesson, is));
  if (is.kind === "predicted") box.append(html("div", null, {class: "asked"}));
  box.append(said, folded("a hint", is.hint), folded("the answer", is.answer));
  queueMicrotask(() => say(lesson, is, isDone(lesson, is) ? "Done." : ""));
  return box;
}
// The question of an exercise, with a field or with answers to pick.
/** @param {number} lesson @param {Exercise} is */
function form(lesson, is) {
  const place = html("form"), label = written("label", is.asks), row = html("div", null, {class: "row"});
  const field = html("input", null, {type: "text", size: 8, maxlength: 60, autocomplete: "off"});
  /** @param {string} guess */
  const judge = async guess => {
    if (!guess) {
      answers++;
      return say(lesson, is, "An answer is missing.");
    }
    const step = (seen.step || 1);
    await judged(lesson, is, {network: "", lesson, step, guess});
    // On a phone it may be said below what is seen.
    all("#lesson .judged").forEach(one => one.scrollIntoView({block: "nearest"}));
  };
  place.onsubmit = event => { event.preventDefault(); judge(numberIn(field.value.trim())); };
  if (is.picks.length) {
    const question = written("p", is.asks);
    place.append(question, row);
    place.setAttribute("aria-label", question.textContent || "");
  } else {
    label.append(field);
    place.append(label);
    row.append(html("button", "is it so?"));
    place.append(row);
  }
  is.picks.forEach(pick => {
    const button = written("button", pick, {type: "button"});
    button.onclick = () => {
      row.querySelectorAll("button").forEach(one => one.setAttribute("aria-pressed", String(one === button)));
      judge(pick);
    };
    row.append(button);
  });
  return place;
}
// Asks for the verdict on an exercise, and says it; one that is done is ticked off.
/** @param {number} lesson @param {Exercise} is @param {ExerciseCall} what */
async function judged(lesson, is, what) {
  const mine = ++answers;
  try {
    const found = await call("exercise", what);
    // Another answer has been given since.
    if (!found || mine !== answers || !isOpen(lesson, is)) return;
    if (found.done) {
      finish(lesson, is, whole(found.said));
    } else if (!isDone(lesson, is)) say(lesson, is, notYet(found.said));
    else if (is.kind === "said") say(lesson, is, `It was done before, but not by this: ${whole(found.said)}`);
  } catch (fault) {
    if (!(fault instanceof Wrong)) throw fault;
    if (isOpen(lesson, is) && !isDone(lesson, is)) say(lesson, is, notYet(messageOf(fault)));
  }
}
// What is lacking, as a sentence: a published page says in whole ones what it can't judge.
/** @param {string} text */
function notYet(text) { return `Not yet: ${whole(text)}`; }
/** @param {string} text */
function whole(text) { return text + (text.endsWith(".") ? "" : "."); }
/** @param {number} lesson @param {Exercise} is */
function isOpen(lesson, is) {
  const step = stepSeen();
  return seen.lesson === lesson && step !== undefined && step.exercise === is;
}
/** @param {number} lesson @param {Exercise} is @param {string} text */
function finish(lesson, is, text) {
  const isNew = !isDone(lesson, is);
  tick(lesson, is);
  if (isNew) showTicks();
  say(lesson, is, text);
  isFresh = true;
  keepQuiet();
  show();
}
// As long as a question is asked, what has its answer isn't said: all that is of the class `tells`.
function keepQuiet() {
  const step = stepSeen(), is = step && !isElsewhere() ? step.exercise : null;
  document.body.classList.toggle("asking", Boolean(is && is.kind === "said" && !isDone(seen.lesson || 0, is)));
}
// What is said below the network once the exercise of the step is done: on a phone the card may be out of sight.
export function doneWords() {
  const lesson = lessonSeen(), step = seen.step || 1;
  if (!isFresh || !lesson) return "";
  const open = lesson.steps.findIndex(one => one.exercise && !isDone(lesson.number, one.exercise)) + 1;
  return `☑ Done. ${step < lesson.steps.length ? `Go on with “step ${step + 1} ▸”.`
    : open ? `Step ${open} isn’t done yet.` : `Lesson ${lesson.number} ends here.`}`;
}
// What is said of an exercise, behind a box that is ticked if it is done.
/** @param {number} lesson @param {Exercise} is @param {string} text */
function say(lesson, is, text) {
  // The answer to a question is written as the steps are, with words in italics.
  const isIt = isDone(lesson, is), parted = isIt && is.kind === "said" ? partsOf : coded, notKept = isIt && !isKept ? " This browser keeps no ticks, so they go with this page." : "";
  by("lesson").classList.toggle("done", isIt);
  all("#lesson .judged").forEach(place => {
    place.className = `judged ${isIt ? "good" : ""}`;
    place.replaceChildren(html("span", isIt ? "☑ " : "☐ ", {class: "box"}), ...parted(capital(text || "Not done yet.") + notKept));
  });
}
// The footer, and the menu of the lessons, with what is done now.
function showTicks() {
  const lesson = lessonSeen(), place = document.querySelector("#lesson .all");
  if (lesson && place) place.replaceWith(footer(lesson));
  fillMenu();
}
export function fillMenu() {
  const list = by("lessons");
  Array.from(list.options).slice(1).forEach(one => one.remove());
  hello().lessons.forEach(one => {
    const [of, done] = countOf(one);
    option(list, one.number, `${one.number}. ${one.title}${done === of ? " ✓" : done ? ` (${done} of ${of})` : ""}`);
  });
}
// Has what the page shows judged, if that is the exercise and it is something else than before.
function look() {
  const step = stepSeen(), {lesson} = seen, is = step && step.exercise;
  if (!lesson || !is || is.kind !== "seen" || time.timer || isDone(lesson, is)) return;
  const what = {network: text(), program: programNamed(), lesson, step: seen.step || 1, plan: check.plan,
    without: steps.without, steps: steps.made.join("_")};
  const key = JSON.stringify(what);
  if (key === asked) return;
  asked = key;
  // What is said of the step before isn't left beside what is seen now.
  all("#lesson .judged").forEach(place => { place.classList.add("old"); });
  clearTimeout(asking);
  asking = setTimeout(() => judged(lesson, is, what), 40);
}
// A question of a tab has been answered rightly: it may be that of the exercise.
hooks.answered = asked_ => {
  const step = stepSeen(), {lesson} = seen, is = step && step.exercise;
  if (!lesson || !is || is.kind !== "predicted" || asked_.node !== is.node) return;
  if (("pulse" in asked_ ? asked_.pulse : 0) === is.pulse) finish(lesson, is, "Done.");
};
// A text that is made when it is opened.
/** @param {string} title @param {string} text */
function folded(title, text) {
  const place = html("details");
  place.append(html("summary", title));
  place.addEventListener("toggle", () => { if (place.open) place.append(...textOf(text)); }, {once: true});
  return place;
}

// The lecture. What the speaker says isn't on a screen for the class, which is the large one.
/** @param {number} at */
function partsOfPlace(at) {
  const {lecture} = hello(), place = lecture[at - 1], speech = html("div", null, {class: "speaker"});
  if (!place) return [];
  speech.append(...textOf(capital(place.say)), html("p", "In the large mode (the key F) these words aren’t seen. Open this page in a second window"
    + " (“link” copies its address): it goes along with this one, and keeps them. The keys PageDown and PageUp lead on and back.", {class: "soft"}));
  return [head(capital(place.title), "the lecture"), speech,
    arrows(`${at} of ${lecture.length}, minutes ${place.minutes}`, ["↺", "this place from its beginning", () => goTo(at)], at > 1 ? ["◂", "the place before", () => goTo(at - 1)] : undefined,
      at < lecture.length ? ["next ▸", "the next place", () => goTo(at + 1)] : undefined)];
}
// Windows of one browser with the lecture go along with each other.
const others = typeof BroadcastChannel === "undefined" ? null : new BroadcastChannel("studio-lecture");
/** @param {number} at */
function goTo(at) {
  if (others) others.postMessage(at);
  hooks.open("lecture=" + at);
}
if (others) {
  others.onmessage = ({data}) => { if (seen.lecture && Number.isInteger(data) && data !== seen.lecture) hooks.open("lecture=" + data); };
}
// The keys that lead on and back: N and P, and in the lecture those of a presenter.
/** @param {string} key */
export function turns(key) {
  const isLecture = seen.lecture !== null;
  const way = key === "n" || isLecture && key === "PageDown" ? "on" : key === "p" || isLecture && key === "PageUp" ? "back" : "";
  const button = way && all(`#lesson [data-way=${way}]`).find(one => !one.hidden);
  if (button) button.click();
  return Boolean(button);
}
