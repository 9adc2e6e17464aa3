// The history bar: all events in stamp order. The slider shows the drawing as it was behind any of them, play and keys walk
// through by gestures where these are known, and a card says who did what, when, and how a late one was repaired.

import { around, boxOf } from "../board/boxes.js";
import { personColour } from "../board/colours.js";
import { Arrivals } from "./arrivals.js";
import { Card, placeOf } from "./card.js";
import { deedOf, isRepaired, repairOf, stepDeedOf, voidOf } from "./deeds.js";
import { button, h, keyText } from "./h.js";
import { icon } from "./icons.js";
import { Lane } from "./lane.js";
import { under } from "./putting.js";
import { stepAt, stepFrom } from "./steps.js";
import { count } from "./words.js";

/** @typedef {import("../core/types.js").Event} Event */

const IN_PAST = "you look at the past, go back to now to draw";
/** How long playing takes in all, a step at least and at most, and how many times longer it stays at a late event. */
const PLAY = { all: 15_000, least: 40, most: 400, late: 6 };
const STAYS = 600_000;

export class HistoryBar {
  /**
   * @param {Ed} ed
   * @param {HTMLElement} host
   */
  constructor(ed, host) {
    this.ed = ed;
    this.host = host;
    /** How many events are shown, or null where that is all, now and later. @type {number | null} */
    this.at = null;
    /** @type {number | null} */
    this.over = null;
    this.timer = 0;
    this.frame = 0;
    this.lane = new Lane(ed);
    this.arrivals = new Arrivals(ed);
    this.range = h("input", { type: "range", min: 0, step: 1, "aria-label": "History: the drawing after this edit" });
    this.tip = h("div", { class: "hist-tip", hidden: true });
    this.track = h("div", { class: "lane" }, this.lane.canvas, this.range, this.tip);
    this.playing = button("play", "Play the history", () => this.play(), { key: "Shift+P" });
    const lateProps = { type: "button", class: "late-count", "data-tip": `Next late edit · ${keyText("Alt+L")}` };
    this.late = h("button", lateProps, icon("late", 16), h("span"));
    this.now = h("button", { type: "button", class: "now" }, "Now");
    this.card = new Card(ed, this);
    host.append(this.playing, this.track, this.late, this.now);
    this.listen();
  }

  listen() {
    this.range.addEventListener("input", () => {
      this.stop();
      this.go(Number(this.range.value));
    });
    this.track.addEventListener("pointermove", (event) => this.hover(event));
    for (const each of ["pointerleave", "pointercancel"]) this.track.addEventListener(each, () => this.leave());
    addEventListener("blur", () => this.leave());
    this.late.addEventListener("click", () => this.lateStep());
    this.now.addEventListener("click", () => this.toNow());
    new ResizeObserver(() => this.draw()).observe(this.track);
  }

  get events() {
    return this.ed.node.events;
  }

  /** How many events lie in front of each late one that was repaired, and itself. */
  lates() {
    return this.events.flatMap((event, k) => (isRepaired(event) ? [k + 1] : []));
  }

  /** Shows that there are other events. */
  update() {
    const { events } = this;
    this.arrivals.update();
    if (this.at !== null) this.at = Math.min(this.at, events.length);
    this.range.max = String(events.length);
    this.range.value = String(this.at ?? events.length);
    const lates = this.lates().length;
    this.late.hidden = !lates;
    /** @type {HTMLElement} */ (this.late.lastElementChild).textContent = String(lates);
    this.late.setAttribute("aria-label", `${count(lates, "late edit")}: go to the next`);
    this.host.hidden = !events.length;
    if (this.at === null) this.range.setAttribute("aria-valuetext", `Now, after ${count(events.length, "edit")}`);
    this.draw();
  }

  /** Draws the lane with the next frame. */
  draw() {
    if (this.frame) return;
    this.frame = requestAnimationFrame(() => {
      this.frame = 0;
      this.lane.draw(this.at ?? this.events.length, this.over ?? (this.at === null ? null : this.at - 1));
    });
  }

  /** @param {PointerEvent} event */
  hover(event) {
    const box = this.track.getBoundingClientRect();
    const k = this.lane.eventAt(event.clientX - box.left);
    if (this.over !== k) {
      this.over = k;
      this.draw();
    }
    const seen = this.events[k];
    // The card says it where there is one, and stands in its place.
    this.tip.hidden = !seen || event.pointerType === "touch" || this.at !== null;
    if (!seen || this.tip.hidden) return;
    const { who, what } = deedOf(this.ed, seen);
    const note = isRepaired(seen) && h("span", { class: "late-note" }, repairOf(this.ed, seen));
    const name = h("b", { vars: { "--who": personColour(seen.site, this.ed.scene.dark) } }, who);
    this.tip.replaceChildren(name, ` ${what}`, ...(note ? [note] : []));
    const left = Math.max(-60, Math.min(box.width - this.tip.offsetWidth + 60, this.lane.x(k) - this.tip.offsetWidth / 2));
    this.tip.style.transform = `translateX(${left}px)`;
  }

  leave() {
    this.over = null;
    this.tip.hidden = true;
    this.draw();
  }

  /**
   * Shows the drawing behind the first `k` events.
   * @param {number} k
   */
  go(k) {
    const { ed, events } = this;
    const at = Math.max(0, Math.min(events.length, k));
    if (this.at === null && !this.enterPast()) return;
    this.at = at;
    this.tip.hidden = true;
    ed.model.show(ed.node.itemsAt(at));
    ed.overlay.flashes = [];
    const step = stepAt(ed.node, at);
    if (step.length) this.light(step, at);
    this.range.value = String(at);
    this.range.setAttribute("aria-valuetext", step.length ? this.words(step, at) : "Before the first edit");
    this.card.show(step, at);
    this.draw();
    ed.setReadOnly(IN_PAST);
    ed.touch("scene");
  }

  /** @returns {boolean} whether one can look at the past now */
  enterPast() {
    const { ed } = this;
    if (!ed.editor.commit()) return false;
    ed.settle();
    ed.selection.clear();
    if (ed.tool !== "hand") ed.setTool("select");
    document.body.dataset.past = "1";
    return true;
  }

  /**
   * Lights what a step is about: the objects, or where they were, and what was done again for a late event.
   * @param {Event[]} step
   * @param {number} at
   */
  light(step, at) {
    const { ed } = this;
    const event = step[step.length - 1];
    const { who, what } = stepDeedOf(ed, step);
    const ids = [...new Set(step.map((each) => each.id))].filter((id) => ed.model.byId.has(id));
    const place = ids.length ? null : this.placeBefore(step, at);
    const redone = event.late?.redone ?? [];
    const came = event.late?.what === "dropped" ? "came late, covered by a later edit" : `came late, ${count(redone.length, "edit")} redone`;
    const isLate = isRepaired(event);
    const text = isLate ? `${who}: ${came}` : `${who} ${what.split(" ")[0]}`;
    ed.overlay.flash(ids, event.late && isLate ? event.late.what : "applied", text, STAYS, place);
    if (!isLate) return;
    const others = redone.map((stamp) => ed.node.history.byStamp.get(stamp)?.id ?? "");
    const shown = [...new Set(others)].filter((id) => ed.model.byId.has(id) && !ids.includes(id));
    if (shown.length) ed.overlay.flash(shown, "undone", null, STAYS, null);
  }

  /**
   * Where the objects of a step were before it.
   * @param {Event[]} step
   * @param {number} at
   * @returns {Box | null}
   */
  placeBefore(step, at) {
    const were = under(this.ed.node.itemsAt(at - step.length), new Set(step.map((event) => event.id)));
    return around(were.map((was) => (was.kind === "group" ? null : boxOf(was.x, was.y, was.w, was.h))));
  }

  /**
   * @param {Event[]} step
   * @param {number} at
   */
  words(step, at) {
    const { who, what } = stepDeedOf(this.ed, step);
    const event = step[step.length - 1];
    return `${placeOf(step, at, this.events.length)}: ${who} ${what}. ${repairOf(this.ed, event) || voidOf(this.ed, event)}`;
  }

  /** @param {1 | -1} by */
  step(by) {
    this.stop();
    this.go(stepFrom(this.ed.node, this.at ?? this.events.length, by));
  }

  /** Goes to the next late event that was repaired, behind the last one to the first. */
  lateStep() {
    this.stop();
    const lates = this.lates();
    if (!lates.length) return;
    this.goTo(lates.find((k) => k > (this.at ?? 0)) ?? lates[0]);
  }

  /**
   * Goes to an event and brings it into view.
   * @param {number} k
   */
  goTo(k) {
    const { ed } = this;
    this.go(k);
    if (this.at === null) return;
    const event = this.events[this.at - 1];
    const box = event && (ed.model.boxOf([event.id]) ?? this.placeBefore([event], this.at));
    if (box) ed.camera.reveal(box, ed.pad());
    ed.say(event ? this.words(stepAt(ed.node, this.at), this.at) : "");
  }

  play() {
    if (this.timer) {
      this.stop();
      return;
    }
    const { length } = this.events;
    const each = Math.max(PLAY.least, Math.min(PLAY.most, PLAY.all / Math.max(1, length)));
    const stride = Math.max(1, Math.round((length * each) / PLAY.all));
    let k = this.at === null || this.at >= length ? 0 : this.at;
    this.showPlaying(true);
    const tick = () => {
      const late = this.lates().find((one) => one > k) ?? Infinity;
      k = Math.min(stepFrom(this.ed.node, k + stride - 1, 1), late);
      this.go(k);
      if (k >= this.events.length || this.at === null) this.toNow();
      else this.timer = setTimeout(tick, isRepaired(this.events[k - 1]) ? each * PLAY.late : each);
    };
    tick();
  }

  /** @param {boolean} isOn */
  showPlaying(isOn) {
    this.playing.replaceChildren(icon(isOn ? "pause" : "play"));
    const title = isOn ? "Pause" : "Play the history";
    this.playing.setAttribute("aria-label", title);
    this.playing.dataset.tip = `${title} · ${keyText("Shift+P")}`;
  }

  stop() {
    clearTimeout(this.timer);
    this.timer = 0;
    this.showPlaying(false);
  }

  toNow() {
    const { ed } = this;
    this.stop();
    if (this.at === null) return;
    this.at = null;
    ed.overlay.flashes = [];
    this.card.hide();
    this.leave();
    document.body.dataset.past = "";
    ed.setReadOnly(ed.standing.readOnly());
    ed.changed();
    this.update();
    ed.focusBoard();
    ed.say("Back to now");
  }
}
