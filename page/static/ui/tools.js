// The tools: one is chosen; a double click keeps it chosen behind a gesture.

import { createLines } from "../board/edits.js";
import { COMMANDS } from "./commands.js";
import { button, h, roving } from "./h.js";
import { Sheet } from "./sheet.js";

/** @typedef {import("../core/types.js").Tool} Tool */
/** @typedef {import("../core/types.js").Style} Style */

const MAKING = new Set(["rect", "ellipse", "line", "text"]);
const NAMES = /** @type {Record<string, string>} */ ({ rect: "rectangle", ellipse: "ellipse", line: "line" });

/**
 * Puts `setTool`, `styleFor` and `sheet` on `ed`, and the buttons of the tools into a bar.
 * @param {Ed} ed
 * @param {HTMLElement} bar
 * @returns {{update: () => void}}
 */
export function makeTools(ed, bar) {
  const tools = COMMANDS.filter((command) => command.tool);
  const buttons = new Map(tools.map((command) => [command.id, toolButton(ed, command)]));
  const style = button("style", "Style", () => sheet.turn(!sheet.isOpen), { class: "slim" });
  const sheet = new Sheet(ed, style);
  for (const [id, made] of buttons) {
    bar.append(made);
    if (id === "hand") bar.append(h("span", { class: "rule", role: "separator" }));
  }
  bar.append(h("span", { class: "rule slim", role: "separator" }), style);
  roving(bar);
  const show = () => {
    ed.board.dataset.tool = ed.tool;
    for (const [id, made] of buttons) {
      const isChosen = id === ed.tool;
      made.setAttribute("aria-pressed", String(isChosen));
      made.dataset.lock = isChosen && ed.lockTool ? "1" : "";
    }
  };
  ed.setTool = (tool, lock = false) => {
    ed.settle();
    if (ed.editing && tool !== "select") ed.editor.commit();
    Object.assign(ed, { tool, lockTool: lock, hover: null });
    if (MAKING.has(tool)) ed.selection.clear();
    show();
    ed.rested();
    ed.touch("overlay");
  };
  ed.styleFor = (kind) => styleFor(ed, kind);
  ed.sheet = (on) => sheet.turn(on);
  return {
    update: () => {
      for (const command of tools) /** @type {HTMLElement} */ (buttons.get(command.id)).ariaDisabled = String(!command.when(ed));
      sheet.update();
    },
  };
}

/**
 * @param {Ed} ed
 * @param {import("./commands.js").Command} command
 */
function toolButton(ed, { id, icon, title, keys }) {
  const tool = /** @type {Tool} */ (id);
  /** @param {boolean} lock */
  const choose = (lock) => {
    if (ed.readOnly && MAKING.has(tool)) ed.refuse([{ why: ed.readOnly }]);
    else ed.setTool(tool, lock);
    ed.focusBoard();
    if (lock) ed.say(`${title} stays chosen`);
  };
  const made = button(icon, title, (event) => event.detail < 2 && choose(false), {
    key: keys.slice(0, 2).join(" or "),
    props: { "data-tool": id, "aria-pressed": "false", "aria-keyshortcuts": keys.join(" ") },
    children: [h("small", { "aria-hidden": "true" }, keys[1] ?? keys[0])],
  });
  made.addEventListener("dblclick", () => choose(MAKING.has(tool)));
  return made;
}

/**
 * The style of a shape that is made now.
 * @param {Ed} ed
 * @param {string} kind
 * @returns {Style}
 */
function styleFor(ed, kind) {
  const { stroke, fill, width } = ed.style;
  const isText = kind === "text";
  const hasFill = kind === "rect" || kind === "ellipse";
  return { stroke, fill: hasFill ? fill : null, width: isText ? 1 : width, font: 16, align: isText ? "left" : "center" };
}

/** How large a shape is that is made by a key. */
const USUAL = { rect: [160, 80], ellipse: [160, 80], line: [160, 0] };

/**
 * Makes a shape of a usual size with the tool, in the middle of what is seen, or begins a text there.
 * @param {Ed} ed
 * @returns {boolean} whether the tool makes one
 */
export function makeHere(ed) {
  const { tool } = ed;
  if (ed.readOnly || !MAKING.has(tool)) return false;
  const box = ed.camera.box();
  const [x, y] = [Math.round((box.x0 + box.x1) / 2), Math.round((box.y0 + box.y1) / 2)];
  if (!ed.lockTool) ed.setTool("select");
  if (tool === "text") {
    ed.editor.openNew(x, y);
    return true;
  }
  const [w, h] = USUAL[/** @type {keyof typeof USUAL} */ (tool)];
  const kind = /** @type {keyof typeof USUAL} */ (tool);
  const shape = { ...ed.styleFor(kind), kind, x: x - w / 2, y: y - h / 2, w, h, label: "" };
  ed.edits.do(`Made ${tool === "ellipse" ? "an" : "a"} ${NAMES[tool]}`, createLines(1, shape), (ids) => [ids[0]]);
  return true;
}
