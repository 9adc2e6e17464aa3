// The two bars at the bottom: undo, redo and zoom at the left; the list, the palette and the help at the right.

import { commandOf, run } from "./commands.js";
import { button, h, keyText, roving } from "./h.js";

/**
 * A button that does a command.
 * @param {Ed} ed
 * @param {string} id
 * @param {{class?: string, props?: Record<string, any>}} [more]
 */
export function commandButton(ed, id, more = {}) {
  const { icon, title, keys } = commandOf(id);
  const key = keys.length ? keyText(keys[0]) : undefined;
  return button(icon, title, () => run(ed, id), { ...more, key, props: { "data-run": id, ...more.props } });
}

/**
 * Puts `stacks` on `ed`, which shows what can be undone and redone.
 * @param {Ed} ed
 * @param {HTMLElement} bar
 * @returns {{update: () => void}}
 */
export function makeZoom(ed, bar) {
  const [undo, redo] = ["undo", "redo"].map((id) => commandButton(ed, id));
  const level = h("button", { type: "button", class: "tool zoomtext", "data-tip": "Zoom to 100 % · Shift+0" });
  level.addEventListener("click", () => run(ed, "zoom100"));
  const [out, into] = ["zoomOut", "zoomIn"].map((id) => commandButton(ed, id, { class: "wide-only" }));
  const lens = h("span", { class: "lens", role: "presentation" }, out, level, into, commandButton(ed, "fit"));
  bar.append(undo, redo, h("span", { class: "rule", role: "separator" }), lens);
  roving(bar);
  ed.stacks = () => {
    tell(undo, "Undo", ed.edits.due("undo"), commandOf("undo").when(ed));
    tell(redo, "Redo", ed.edits.due("redo"), commandOf("redo").when(ed));
  };
  let shown = 0;
  const update = () => {
    ed.stacks();
    const percent = Math.round(ed.camera.zoom * 100);
    if (percent === shown) return;
    shown = percent;
    level.textContent = `${percent} %`;
    level.setAttribute("aria-label", `Zoom ${percent} %: back to 100 %`);
  };
  return { update };
}

/**
 * @param {HTMLButtonElement} made
 * @param {string} title
 * @param {string | null} what the gesture that it is about
 * @param {boolean} can
 */
function tell(made, title, what, can) {
  if (made.disabled === can) made.disabled = !can;
  const tip = `${what ? `${title}: ${what}` : title} · ${keyText(title === "Undo" ? "Mod+Z" : "Mod+Shift+Z")}`;
  if (made.dataset.tip !== tip) made.dataset.tip = tip;
}

/**
 * @param {Ed} ed
 * @param {HTMLElement} bar
 */
export function makeAid(ed, bar) {
  bar.append(...["objects", "palette", "help"].map((id) => commandButton(ed, id)));
  roving(bar);
}
