// An empty board says in three lines how to begin.

import { h, keyText } from "./h.js";

/** @param {...string} keys */
const keys = (...keys) => keys.map((key) => h("kbd", {}, keyText(key)));

/**
 * @param {Ed} ed
 * @param {HTMLElement} host
 * @returns {{update: () => void}}
 */
export function makeEmpty(ed, host) {
  const open = h("button", { type: "button", class: "quiet", onclick: () => ed.importing.choose() }, "Import a file");
  host.append(
    h("h2", {}, "Draw together, even when the network doesn’t"),
    h("p", { class: "for-keys" }, ...keys("R", "O", "L", "T"), " pick a tool, then drag. Double click anywhere to write."),
    h("p", { class: "for-keys" }, ...keys("Space"), " and drag to pan, ", ...keys("Mod", "K"), " finds every command."),
    h("p", { class: "for-touch" }, "Pick a tool, then draw with a finger. Tap twice to write."),
    h("p", { class: "for-touch" }, "Two fingers pan and zoom, a long press opens the menu."),
    h("p", {}, "Go on while you are cut off: it all comes together later, and a history shows how."),
    h("div", { class: "empty-acts" }, open),
  );
  const update = () => {
    const isEmpty = ed.node.isReady && ed.model.items.length === 0 && ed.history.at === null;
    host.hidden = !isEmpty || Boolean(ed.busy) || Boolean(ed.editing) || ed.watcher;
  };
  return { update };
}
