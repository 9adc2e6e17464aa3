// The island of the file: the menu, the name of the board, and the state of the node in words.

import { button, h } from "./h.js";

const PICTURES = ["saveSvg", "savePng", "savePdf"];
const COPIES = ["saveLog", "saveJson", "saveText", "saveEvents"];
const SAVES = [PICTURES, COPIES];
const MENU = [
  ["palette", "objects"],
  ["open", ...PICTURES, "print", "copySvg", "copyPng"],
  COPIES,
  ["roster", "invite", "rename"],
  ["theme", "help"],
];

/** @typedef {{showName: (name: string) => void, showState: (kind: string, text: string) => void}} FileIsland */

/**
 * Fills the island, and puts `openSaves` on `ed`.
 * @param {Ed} ed
 * @param {HTMLElement} host
 * @returns {FileIsland}
 */
export function makeFile(ed, host) {
  const menu = button("menu", "Menu", () => (ed.menu.isOpen ? ed.menu.close() : open(MENU)), {
    props: { "aria-haspopup": "menu", "aria-expanded": "false" },
  });
  /**
   * @param {string[][]} parts
   * @param {string} [note]
   */
  const open = (parts, note) => {
    const box = menu.getBoundingClientRect();
    ed.menu.open(box.left, box.bottom + 8, parts, menu, note);
  };
  ed.openSaves = () => open(SAVES, `All is kept already, in ${ed.node.journal || "the drawing’s file"}`);
  const name = h("h1", { class: "board-name", title: "" });
  const dot = h("span", { class: "dot-state", "aria-hidden": "true" });
  const words = h("span", { class: "state-words" });
  const state = h("p", { class: "state", role: "status", "data-kind": "on" }, dot, words);
  host.append(menu, name, state);
  return {
    showName: (text) => {
      name.textContent = text;
      name.title = text;
      document.title = `${text} · groupdesign`;
    },
    showState: (kind, text) => {
      state.dataset.kind = kind;
      if (words.textContent !== text) words.textContent = text;
    },
  };
}
