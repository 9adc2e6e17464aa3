// The card of the step that is looked at: who did what, when, and how a late event was repaired.

import { personColour } from "../board/colours.js";
import { isRepaired, ordinalOf, repairOf, stepDeedOf, timeOf, voidOf } from "./deeds.js";
import { button, h, keyText } from "./h.js";
import { icon } from "./icons.js";
import { putBack, takenBy } from "./putting.js";

/** @typedef {import("../core/types.js").Event} Event */
/** @typedef {{events: Event[], step: (by: 1 | -1) => void, toNow: () => void}} Walk what goes through the events */

/**
 * Which edits of how many a step has, in words.
 * @param {Event[]} step
 * @param {number} at how many events are shown
 * @param {number} all
 */
export const placeOf = (step, at, all) =>
  step.length > 1 ? `Edits ${at - step.length + 1} to ${at} of ${all}` : `Edit ${at} of ${all}`;

export class Card {
  /**
   * @param {Ed} ed
   * @param {Walk} walk
   */
  constructor(ed, walk) {
    this.ed = ed;
    this.walk = walk;
    this.el = h("div", { class: "hist-card island", role: "group", "aria-label": "Edit", hidden: true });
    document.body.append(this.el);
  }

  /**
   * @param {Event[]} step none in front of the first one
   * @param {number} at how many events are shown
   */
  show(step, at) {
    const first = h("div", { class: "hist-line" }, "Before the first edit");
    this.el.replaceChildren(...(step.length ? this.parts(step, at) : [first]), this.acts(at));
    this.el.hidden = false;
  }

  hide() {
    this.el.hidden = true;
  }

  /**
   * @param {Event[]} step
   * @param {number} at
   */
  parts(step, at) {
    const { ed } = this;
    const event = step[step.length - 1];
    const { who, what } = stepDeedOf(ed, step);
    const dot = h("i", { class: "dot", vars: { "--who": personColour(event.site, ed.scene.dark) } });
    const where = [placeOf(step, at, this.walk.events.length), timeOf(event), ordinalOf(ed, event)].filter(Boolean).join(" · ");
    const line = h("div", { class: "hist-line" }, dot, h("b", { dir: "auto" }, who), ` ${what}`);
    const more = isRepaired(event) ? repairOf(ed, event) : voidOf(ed, event);
    const taken = takenBy(ed, step, at);
    const back = taken.length > 0 && h("button", { type: "button", class: "quiet", onclick: () => putBack(ed, taken) }, "Put back as new");
    const late = more && h("div", { class: "hist-late" }, icon("late", 14), more);
    return [line, h("div", { class: "hist-more" }, where), late, back].filter((part) => part instanceof Node);
  }

  /**
   * What one can do in the past: a step back or on, and to go back to now.
   * @param {number} at
   */
  acts(at) {
    const { walk } = this;
    const back = h("button", { type: "button", class: "primary", onclick: () => walk.toNow() }, "Back to now");
    const previous = button("prev", "One step back", () => walk.step(-1), {
      key: keyText("Alt+ArrowLeft"), props: { disabled: at === 0 },
    });
    const next = button("next", "One step on", () => walk.step(1), {
      key: keyText("Alt+ArrowRight"), props: { disabled: at === walk.events.length },
    });
    return h("div", { class: "hist-acts" }, previous, next, back);
  }
}
