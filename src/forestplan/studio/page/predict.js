// Predict, then look: a question on the chosen node, whose answer the server judges, with the reason. A first answer
// that isn't right may be mended; after the second one the right one is said.
import {asks, by, capital, hooks, show} from "./base.js";
import {coded, html} from "./marks.js";
import {numberIn} from "./text.js";

// How many questions were asked on this page, and how many of them were answered rightly at once.
const score = {right: 0, asked: 0};

export class Question {
  // `ask()` gives the question that there is now, or null; `next()` leads to the next one.
  /** @param {"question" | "question2"} id @param {() => Asked | null} ask @param {() => void} next */
  constructor(id, ask, next) {
    this.id = id;
    this.ask = ask;
    this.next = next;
    this.key = "";
    this.tries = 0;
    // Whether the right answer is known.
    this.isTold = false;
  }
  show() {
    const is = this.ask(), key = JSON.stringify(is);
    /** @type {HTMLElement} */
    const place = by(this.id);
    place.hidden = !is;
    if (!is || key === this.key) return;
    this.key = key;
    this.tries = 0;
    this.isTold = false;
    place.replaceChildren(html("p", is.text));
    if (is.call) place.append(this.form(is), html("div", null, {role: "status"}));
  }
  // Of an answer that is a list its parts are ticked.
  /** @param {OfRounds | OfWaits | OfSends} is */
  form(is) {
    const form = html("form", null, {class: "row chips"}), said = html("input", null, {size: 14, "aria-label": "your answer"});
    const boxes = (is.choices || []).map(choice => html("input", null, {type: "checkbox", value: choice}));
    const between = is.call === "sends" ? "to" : "of";
    form.append(...boxes.length ? boxes.map(box => labelled(box, between)) : [said], html("button", "is it so?"), ...(is.picks || []).map(pick => {
      const button = html("button", pick, {type: "button"});
      button.onclick = () => this.judge(is, pick);
      return button;
    }));
    form.onsubmit = event => {
      event.preventDefault();
      const ticked = boxes.filter(box => box.checked).map(box => box.value).join(", ") || "nothing";
      const answer = boxes.length ? ticked : said.value.trim();
      if (answer) this.judge(is, answer); else this.say("soft", ["An answer is missing."]);
    };
    return form;
  }
  /** @param {string} kind @param {(string | HTMLElement)[]} parts */
  say(kind, parts) {
    const place = by(this.id).lastElementChild;
    if (!place) return;
    place.className = "verdict " + kind;
    place.replaceChildren(...parts);
  }
  /** @param {OfRounds | OfWaits | OfSends} is @param {string} answer */
  judge(is, answer) {
    const guess = is.call === "predict" && is.text.includes("which ") ? numberIn(answer) : answer.replace(/ to (node )?\d+$/, "");
    /** @param {Predicted} answer */
    const told = ({right, found, why}) => {
      this.tries++;
      if (this.tries === 1) {
        score.asked++;
        if (right) score.right++;
      }
      if (right && is.call !== "sends") hooks.answered(is.asked);
      const reason = html("span", null, {class: "soft"}), next = html("button", "look, and the next question",
        {type: "button", class: "quiet"});
      reason.append(...coded(capital(why) + " "));
      next.onclick = this.next;
      if (!right && this.tries === 1) return this.say("soft", notYet(is, guess, is.tells ? "" : reason));
      this.isTold = true;
      show();
      const verdict = right ? `✓ Yes: ${found}. ` : `✗ Not ${guess}: ${found}. `;
      // In a lesson's step the lesson leads on.
      const isOfStep = by(this.id).closest("#lesson") !== null;
      this.say(right ? "good" : "bad", isOfStep ? [verdict, reason]
        : [verdict, reason, html("span", `${score.right} of ${score.asked} at the first try. `), next]);
    };
    if (is.call === "sends") return asks("sends", {...is.asked, guess}, "looking for the answer", told);
    return is.call === "waits" ? asks("waits", {...is.asked, guess}, "looking for the answer", told)
      : asks("predict", {...is.asked, guess}, "looking for the answer", told);
  }
}
/** @param {HTMLInputElement} box @param {string} between */
function labelled(box, between) {
  const label = html("label", null, {class: "tick"}), [word, of] = box.value.split(" ");
  label.append(box, ` ${word} ${between} ${of}`);
  return label;
}
// What is said of a first answer that isn't right: the numbers of which it is made, below each other.
/** @param {OfRounds | OfWaits | OfSends} is @param {string} guess @param {string | HTMLElement} reason */
function notYet({compared = []}, guess, reason) {
  const wide = Math.max(0, ...compared.map(([who]) => who.length));
  const digits = compared.map(([, number]) => BigInt(number).toString(2));
  const long = Math.max(0, ...digits.map(one => one.length));
  const rows = compared.map(([who, number], k) => `${who.padEnd(wide)}  ${digits[k].padStart(long, "0")} = ${number}`);
  return [`Not yet: it isn’t ${guess}. Try once more. `, reason, rows.length ? html("pre", rows.join("\n")) : ""];
}
