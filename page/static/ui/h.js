// Makes elements. Nothing here sets a style attribute or markup, so the strictest CSP is kept.

import { icon } from "./icons.js";

/** @typedef {Node | string | null | undefined | false} Child */

/**
 * Makes an element.
 * @template {keyof HTMLElementTagNameMap} Tag
 * @param {Tag} tag
 * @param {Record<string, any>} [props] `class`; `onclick` and the like; `vars`, custom properties of CSS; all others are
 *   attributes, and properties where there is one and the value is no text
 * @param {...(Child | Child[])} children those that are null or false are left out
 * @returns {HTMLElementTagNameMap[Tag]}
 */
export function h(tag, props = {}, ...children) {
  const made = document.createElement(tag);
  for (const [key, value] of Object.entries(props)) set(made, key, value);
  for (const child of children.flat()) {
    if (child !== null && child !== undefined && child !== false) made.append(child);
  }
  return made;
}

/**
 * @param {HTMLElement} made
 * @param {string} key
 * @param {any} value
 */
function set(made, key, value) {
  if (value === undefined || value === null || value === false) return;
  if (key === "class") made.className = value;
  else if (key.startsWith("on")) made.addEventListener(key.slice(2), value);
  else if (key === "vars") {
    for (const [name, each] of Object.entries(value)) made.style.setProperty(name, String(each));
  } else if (key in made && typeof value !== "string" && !key.startsWith("aria")) Object.assign(made, { [key]: value });
  else made.setAttribute(key, value === true ? "" : String(value));
}

/**
 * A button with an icon; its name is said, and shown as a tip with its key.
 * @param {string} name the icon's
 * @param {string} title
 * @param {(event: MouseEvent) => void} act
 * @param {{class?: string, key?: string, props?: Record<string, any>, children?: Child[]}} [more]
 */
export function button(name, title, act, more = {}) {
  const props = {
    type: "button", class: `tool ${more.class ?? ""}`.trim(), "aria-label": title, onclick: act,
    "data-tip": more.key ? `${title} · ${more.key}` : title, ...more.props,
  };
  return h("button", props, icon(name), more.children);
}

export const isMac = /Mac|iP(hone|ad)/.test(navigator.platform);
const KEYS = /** @type {Record<string, string>} */ ({
  Mod: isMac ? "⌘" : "Ctrl", Alt: isMac ? "⌥" : "Alt", Shift: isMac ? "⇧" : "Shift",
  ArrowUp: "↑", ArrowDown: "↓", ArrowLeft: "←", ArrowRight: "→",
  Escape: "Esc", Delete: "Del", Backspace: "⌫", " ": "Space",
});

/**
 * How a key of a command is shown, as `Ctrl+Shift+Z`.
 * @param {string} key
 */
export function keyText(key) {
  return key.split("+").map((part) => KEYS[part] ?? part).join(isMac ? "" : "+");
}

/**
 * Makes a toolbar one stop of the Tab key: arrows walk in it.
 * @param {HTMLElement} bar
 */
export function roving(bar) {
  const stops = () => {
    const all = /** @type {HTMLButtonElement[]} */ ([...bar.querySelectorAll("button")]);
    return all.filter((each) => each.offsetParent && !each.disabled);
  };
  /** @param {HTMLElement} [to] */
  const settle = (to) => {
    const all = stops();
    const stop = to ?? all.find((each) => each.tabIndex === 0) ?? all[0];
    for (const each of all) each.tabIndex = each === stop ? 0 : -1;
  };
  bar.addEventListener("keydown", (event) => {
    const step = { ArrowRight: 1, ArrowLeft: -1 }[event.key];
    if (!step || event.altKey || /** @type {HTMLElement} */ (event.target).closest("input")) return;
    const all = stops();
    const at = all.indexOf(/** @type {HTMLButtonElement} */ (document.activeElement));
    const to = all[(at + step + all.length) % all.length];
    if (!to) return;
    event.preventDefault();
    event.stopPropagation();
    settle(to);
    to.focus();
  });
  bar.addEventListener("focusin", (event) => {
    const at = /** @type {HTMLElement} */ (event.target).closest("button");
    if (at) settle(at);
  });
  requestAnimationFrame(() => settle());
}
