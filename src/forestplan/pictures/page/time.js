import {element, targetOf} from "./marks.js";

// A slider with a play button. `show` is called with each new place; `speed` says how much of it passes in a second;
// `past` leaves out places where nothing happens.
export class Time {
  /** @param {Controls} controls @param {Watcher} watcher */
  constructor({slider, play, back, next, speed}, {show, step, rate, ended = () => 0, past = at => at}) {
    this.slider = slider;
    this.button = play;
    this.speed = speed;
    this.show = show;
    this.step = step;
    this.rate = rate;
    this.ended = ended;
    this.past = past;
    // The frame that is asked for while it plays.
    /** @type {number | null} */
    this.timer = null;
    this.at = 0;
    play.onclick = () => this.toggle();
    back.onclick = () => { this.stop(); step(-1); };
    next.onclick = () => { this.stop(); step(1); };
    slider.oninput = () => { const value = +slider.value; this.stop(); this.set(value); };
  }
  /** @param {number} least @param {number} most */
  range(least, most) {
    this.slider.min = String(least);
    this.slider.max = String(most);
  }
  /** @param {number} value */
  set(value) {
    this.at = Math.max(+this.slider.min, Math.min(+this.slider.max, value));
    this.slider.value = String(this.at);
    this.show(this.at);
  }
  stop() {
    if (this.timer) cancelAnimationFrame(this.timer);
    this.timer = null;
    this.button.textContent = "▶ play";
  }
  toggle() {
    if (this.timer) { this.stop(); return this.ended(); }
    if (this.at >= +this.slider.max) this.set(+this.slider.min);
    this.button.textContent = "❚❚ stop";
    /** @type {number | null} */
    let before = null;
    /** @type {(now: number) => unknown} */
    const tick = now => {
      const more = before === null ? 0 : Math.min(100, now - before) / 1000 * +this.speed.value * this.rate();
      if (more) this.set(this.past(this.at + more));
      before = now;
      if (this.at >= +this.slider.max) { this.stop(); return this.ended(); }
      this.timer = requestAnimationFrame(tick);
    };
    this.timer = requestAnimationFrame(tick);
  }
  // The keys that all pages with a slider have; whether it was one of them.
  /** @param {KeyboardEvent} event */
  key(event) {
    const on = targetOf(event).tagName, {key} = event;
    if (key === "ArrowRight" || key === "ArrowLeft") { this.stop(); this.step(key === "ArrowRight" ? 1 : -1); }
    else if (key === " " && on !== "BUTTON" && on !== "SUMMARY") this.toggle();
    else return false;
    event.preventDefault();
    return true;
  }
}
// Follows the address of a page that stands alone. One that ends in `play` plays from there.
/** @param {Time} time @param {(place: string) => unknown} follow */
export function followPlace(time, follow) {
  const {hash} = location, plays = /[#-]play$/.test(hash);
  time.stop();
  follow(hash.replace(/[#-]play$/, ""));
  if (plays && !matchMedia("(prefers-reduced-motion: reduce)").matches) time.toggle();
}
// A page that stands alone: its slider, keys, clicks on nodes, and its address. `show(at)` returns the fragment.
/** @param {Stage[]} stages @param {PageThatStandsAlone} page */
export function openPage(stages, {show, follow, step, rate, click}) {
  const controls = {slider: element("slider"), play: element("play"), back: element("back"), next: element("next"),
    speed: element("speed")};
  let linked = "";
  /** @param {string} place */
  const link = place => {
    if (time.timer || location.hash === place) return;
    linked = place;
    try { history.replaceState(null, "", place); } catch (refused) { location.hash = place; }
  };
  /** @param {number} at */
  const see = at => link(show(at));
  /** @type {Time} */
  const time = new Time(controls, {show: see, step, rate, ended: () => see(time.at)});
  stages.forEach(stage => {
    stage.svg.onclick = event => {
      const v = stage.nodeAt(event);
      if (v) { click(v); see(time.at); }
    };
  });
  document.onkeydown = event => {
    const on = targetOf(event), node = Number(on.dataset && on.dataset.node);
    if (event.ctrlKey || event.altKey || event.metaKey || on.tagName === "SELECT") return;
    if (node && event.key === "Enter") { click(node); see(time.at); } else time.key(event);
  };
  window.onhashchange = () => { if (location.hash !== linked) followPlace(time, follow); };
  new ResizeObserver(() => { stages.forEach(stage => stage.fit()); see(time.at); }).observe(element("stage"));
  return time;
}
