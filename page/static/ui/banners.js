// What the page says: banners under the top, bubbles beside an object, and words for assistive technology alone. Banners stand
// where the pointer isn't, let a gesture see through, and one that stays is soon a few words alone.

import { h, keyText } from "./h.js";
import { icon } from "./icons.js";
import { plainWords } from "./words.js";

/**
 * @typedef {object} Banner
 * @property {string} text
 * @property {"calm" | "late" | "warn"} [tone]
 * @property {string} [icon]
 * @property {boolean} [stays] whether it stays until it is taken away by who made it
 * @property {string} [short] what it says in a few words, once it has stayed for a while
 * @property {string} [action] the words of its button
 * @property {string} [key] the key that does the same
 * @property {() => void} [run] what its button does
 * @property {number} [lasts] for how many milliseconds it is shown; without it, until it is dismissed
 */

const BUBBLE_LASTS = 4200;
const SHRINKS_AFTER = 6000;
/** In pixels: a pointer or a text that is so near to the top middle has what is said at the bottom. */
const NEAR = { x: 360, y: 190 };

/**
 * Puts `say`, `banner`, `refuse` and `patience` on `ed`. What it gives is to be updated when the selection or the view has changed.
 * @param {Ed} ed
 * @param {HTMLElement} said
 * @param {HTMLElement} banners
 * @param {HTMLElement} bubbles
 * @returns {{update: () => void}}
 */
export function makeBanners(ed, said, banners, bubbles) {
  ed.patience = 1;
  const goes = (/** @type {HTMLElement} */ made, /** @type {number} */ after) => setTimeout(() => made.remove(), after * ed.patience);
  ed.say = (text) => {
    // The same words are only said again where they went away in between.
    said.textContent = "";
    requestAnimationFrame(() => {
      said.textContent = text;
    });
  };
  ed.banner = (banner) => {
    // One that stays leaves the others beside it.
    const old = /** @type {HTMLElement[]} */ ([...banners.children]).filter((each) => !each.dataset.stays);
    if (!banner?.stays) for (const each of old) each.remove();
    if (!banner) return null;
    const made = bannerOf(banner);
    if (!banners.children.length) banners.dataset.low = isTopInUse(ed) ? "1" : "";
    if (banner.short) setTimeout(() => shrink(made), SHRINKS_AFTER * ed.patience);
    if (banner.stays) banners.prepend(made);
    else banners.append(made);
    if (isOverQuick(banners)) banners.dataset.low = "1";
    if (banner.lasts) goes(made, banner.lasts);
    return made;
  };
  ed.refuse = (refusals, at) => {
    if (!refusals.length) return;
    const made = bubbleOf(ed, refusals, at);
    bubbles.replaceChildren(made);
    goes(made, BUBBLE_LASTS);
  };
  return {
    update: () => {
      if (banners.children.length && !banners.dataset.low && isOverQuick(banners)) banners.dataset.low = "1";
    },
  };
}

/**
 * Whether the bar of what is selected lies behind the banners.
 * @param {HTMLElement} banners
 */
function isOverQuick(banners) {
  const quick = document.getElementById("quick");
  if (!quick || quick.hidden) return false;
  const [a, b] = [banners, quick].map((each) => each.getBoundingClientRect());
  return a.left < b.right && b.left < a.right && a.top < b.bottom && b.top < a.bottom;
}

/**
 * Whether one draws or writes where banners stand else.
 * @param {Ed} ed
 */
function isTopInUse(ed) {
  if (ed.history.at !== null) return false;
  const { x, y } = ed.editing ? ed.editor.field.getBoundingClientRect() : { x: ed.pointer?.px ?? 0, y: ed.pointer?.py ?? innerHeight };
  return Math.abs(x - innerWidth / 2) < NEAR.x && y < NEAR.y;
}

/** @param {HTMLElement} made */
const wordsOf = (made) => /** @type {HTMLElement} */ (made.querySelector("span"));

/** @param {HTMLElement} made */
function shrink(made) {
  made.dataset.small = "1";
  wordsOf(made).textContent = made.dataset.short ?? "";
}

/**
 * Says another thing in a banner that is there.
 * @param {HTMLElement} made
 * @param {string} text
 * @param {string} short
 */
export function retell(made, text, short) {
  made.dataset.short = short;
  wordsOf(made).textContent = made.dataset.small ? short : text;
}

/** @param {Banner} banner */
function bannerOf(banner) {
  const tone = banner.tone ?? "calm";
  const made = h("div", { class: `banner island ${tone}`, "data-stays": banner.stays ? "1" : null, "data-short": banner.short });
  const act = () => {
    if (!banner.stays) made.remove();
    banner.run?.();
  };
  const dismiss = { type: "button", class: "tool small", "aria-label": "Dismiss", onclick: () => made.remove() };
  const parts = [
    icon(banner.icon ?? "info", 18),
    h("span", { dir: "auto" }, banner.text),
    banner.action && h("button", { type: "button", class: "quiet", onclick: act }, banner.action, banner.key && keyOf(banner.key)),
    !banner.stays && h("button", dismiss, icon("close", 16)),
  ];
  made.append(...parts.filter((part) => part instanceof Node));
  return made;
}

/** @param {string} key */
const keyOf = (key) => h("kbd", { class: "for-keys", "aria-hidden": "true" }, keyText(key));

/**
 * A bubble at the object of the first refusal, at the selection, or at the pointer. One that is said at a place of its own is no
 * refusal of an edit.
 * @param {Ed} ed
 * @param {{line?: string, why: string}[]} refusals
 * @param {[number, number]} [at] a place of the window
 */
function bubbleOf(ed, refusals, at) {
  const words = deletedBy(ed, refusals[0]) ?? plainWords(refusals[0].why);
  const isMany = refusals.length > 1;
  const text = at ? words : isMany ? `${refusals.length} edits weren’t done: ${words}` : `Not done: ${words}`;
  const [x, y] = at ?? placeOf(ed, refusals[0].line);
  const vars = { "--x": `${clamp(x, 120, innerWidth - 120)}px`, "--y": `${clamp(y - 14, 90, innerHeight)}px` };
  return h("div", { class: "bubble", vars }, icon("info", 16), text);
}

/**
 * Who deleted the object of a line, in words, or null where it isn't that or isn't known.
 * @param {Ed} ed
 * @param {import("../core/types.js").Refusal} refusal
 */
function deletedBy(ed, { line, why }) {
  const id = why.endsWith("NoObject") ? line?.split(" ")[1] : null;
  if (!id) return null;
  const gone = [...ed.node.events].reverse().find((event) => event.op === "delete" && event.id === id);
  if (!gone) return null;
  const name = ed.people.name(gone.site);
  return `${name === "You" ? "you" : name} deleted it`;
}

/**
 * @param {Ed} ed
 * @param {string} [line]
 */
function placeOf(ed, line) {
  const id = line?.split(" ")[1];
  const box = (id && ed.model.byId.get(id)?.box) || ed.model.boxOf(ed.selection.ids);
  if (box) return ed.camera.toWindow((box.x0 + box.x1) / 2, box.y0);
  return ed.pointer ? [ed.pointer.px, ed.pointer.py] : [innerWidth / 2, innerHeight / 2];
}

/**
 * @param {number} value
 * @param {number} low
 * @param {number} high
 */
const clamp = (value, low, high) => Math.max(low, Math.min(high, value));
