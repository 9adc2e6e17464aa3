// The help: all keys, made of the list of commands, and the gestures.

import { COMMANDS } from "./commands.js";
import { button, h, keyText } from "./h.js";

const GESTURES = [
  ["Pan", "Space + drag, middle button, wheel, two fingers"],
  ["Zoom", "Ctrl + wheel, pinch"],
  ["Write", "Double click, tap twice"],
  ["Add to the selection", "Shift + click, Shift + drag"],
  ["Enter a group", "Double click"],
  ["Connect", "Drag from a dot of what is selected to another object"],
  ["Copy", "Alt + drag"],
  ["Keep proportions, straight lines", "Shift while dragging"],
  ["From the middle", "Alt while resizing"],
  ["Without snapping", "Ctrl while dragging"],
  ["Keep a tool", "Double click on the tool"],
  ["Make one in the middle", "Enter, with its tool"],
  ["Move by 1, by 10", "Arrows, Shift + arrows"],
  ["Resize by 1, by 10", "Alt + arrows"],
  ["Menu", "Right click, long press"],
  ["Import", "Drop a file, or paste"],
];
const GROUPS = ["Tools", "Edit", "Arrange", "View", "History", "File", "Help"];

/**
 * @param {string} title
 * @param {[string, (Node | string)[]][]} rows
 */
function section(title, rows) {
  const list = rows.map(([name, how]) => h("div", { class: "help-row" }, h("dt", {}, name), h("dd", {}, ...how)));
  return h("section", {}, h("h3", {}, title), h("dl", {}, ...list));
}

/** @param {string} group */
function keysOf(group) {
  const commands = COMMANDS.filter((command) => command.group === group && command.keys.length);
  return section(group, commands.map(({ title, keys }) => [title, keys.slice(0, 2).map((key) => h("kbd", {}, keyText(key)))]));
}

export class Help {
  constructor() {
    const gestures = section("Gestures", GESTURES.map(([name, how]) => [name, [how]]));
    const grid = h("div", { class: "help-grid" }, gestures, ...GROUPS.map(keysOf));
    this.box = h("dialog", { class: "help", "aria-label": "Keys and gestures" });
    const close = button("close", "Close", () => this.box.close());
    this.box.append(h("header", {}, h("h2", {}, "Keys and gestures"), close), grid);
    this.box.addEventListener("pointerdown", (event) => event.target === this.box && this.box.close());
    document.body.append(this.box);
  }

  open() {
    this.box.showModal();
  }
}
