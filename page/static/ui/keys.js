// Keys. A letter goes by what it types where that is Latin, else by where it lies, so that any layout works.

import { COMMANDS, run } from "./commands.js";
import { makeHere } from "./tools.js";
import { count } from "./words.js";

const LATIN = /^[a-z]$/i;
const FIELDS = "input:not([type=range]), textarea, [contenteditable], select, dialog";
const PRESSED = "button, a, [role=option], [role=treeitem], [role=menuitem]";
const PANNED = { plain: 50, shift: 200 };

const COMMAND_OF = new Map(COMMANDS.flatMap((command) => command.keys.map((key) => [key, command])));

/**
 * What a key is called in the commands.
 * @param {Pick<KeyboardEvent, "code" | "key" | "shiftKey" | "altKey" | "ctrlKey" | "metaKey">} event
 */
export function keyName(event) {
  const { code, key } = event;
  if (code.startsWith("Digit") && (event.shiftKey || event.altKey)) return code.slice(5);
  if (code === "BracketLeft") return "[";
  if (code === "BracketRight") return "]";
  if (LATIN.test(key) && !event.altKey) return key.toUpperCase();
  const isTyped = event.altKey || event.ctrlKey || event.metaKey || key.length === 1;
  return code.startsWith("Key") && isTyped ? code.slice(3) : key;
}

/**
 * The key of a command, with what is held down: `Mod+Shift+Z`.
 * @param {Pick<KeyboardEvent, "code" | "key" | "shiftKey" | "altKey" | "ctrlKey" | "metaKey">} event
 */
export function chordOf(event) {
  const name = keyName(event);
  const hasShift = event.shiftKey && name !== "?" && name !== "+";
  return `${event.ctrlKey || event.metaKey ? "Mod+" : ""}${event.altKey ? "Alt+" : ""}${hasShift ? "Shift+" : ""}${name}`;
}

/**
 * Listens to the keys of the whole window.
 * @param {Ed} ed
 * @param {HTMLElement} board
 * @param {Ed["gestures"]} gestures
 */
export function listen(ed, board, gestures) {
  addEventListener("keydown", (event) => {
    if (!event.isComposing) pressed(ed, board, gestures, event);
  });
  // A click on a button of an island leaves the keys to the board; who presses it by a key stays there.
  addEventListener("click", (event) => {
    const { target } = event;
    const button = target instanceof Element ? target.closest(":is(#style, #zoom, #aid, #quick, #history) button") : null;
    if (button && event.detail && document.activeElement === button) ed.focusBoard();
  });
  // Where the focus is is shown on the board to who walks by keys.
  addEventListener("keydown", (event) => event.key === "Tab" && showKeys(true), true);
  addEventListener("pointerdown", () => showKeys(false), true);
  addEventListener("keyup", (event) => {
    if (event.key === " ") setSpace(board, gestures, false);
  });
  addEventListener("blur", () => {
    setSpace(board, gestures, false);
    gestures.cancel();
  });
}

/** @param {boolean} isOn */
function showKeys(isOn) {
  document.body.dataset.keys = isOn ? "1" : "";
}

/**
 * @param {HTMLElement} board
 * @param {Ed["gestures"]} gestures
 * @param {boolean} isDown
 */
function setSpace(board, gestures, isDown) {
  gestures.space = isDown;
  board.dataset.space = isDown ? "1" : "";
}

/**
 * @param {Ed} ed
 * @param {HTMLElement} board
 * @param {Ed["gestures"]} gestures
 * @param {KeyboardEvent} event
 */
function pressed(ed, board, gestures, event) {
  const target = /** @type {HTMLElement} */ (event.target);
  if (target.closest(FIELDS)) return;
  if (event.key === " " && !target.closest(PRESSED)) {
    setSpace(board, gestures, true);
    event.preventDefault();
    return;
  }
  if (isTakenBy(target, event)) return;
  const isArrow = event.key.startsWith("Arrow");
  const isDragging = Boolean(gestures.act?.moved);
  if (isArrow && isDragging) {
    event.preventDefault();
    return;
  }
  if (isArrow && (target === board || target === document.body) && arrow(ed, event)) {
    event.preventDefault();
    return;
  }
  if (event.key === "Enter" && target === board && !isDragging && makeHere(ed)) {
    event.preventDefault();
    return;
  }
  const command = COMMAND_OF.get(chordOf(event));
  if (!command || command.native) return;
  event.preventDefault();
  // In the middle of a gesture the one key is Escape.
  if (isDragging && command.id !== "escape") return;
  if (event.repeat && command.tool) return;
  run(ed, command.id);
}

/**
 * Whether what has the focus has a use of its own for a key.
 * @param {HTMLElement} target
 * @param {KeyboardEvent} event
 */
function isTakenBy(target, event) {
  const { key } = event;
  if ((key === "Enter" || key === " ") && target.closest(PRESSED)) return true;
  if (target.closest("input[type=range]") && /^(Arrow|Home|End|Page)/.test(key) && !event.altKey) return true;
  const isMod = event.ctrlKey || event.metaKey;
  return Boolean(target.closest("[role=menu], [role=tree]")) && !isMod && /^(Arrow|Home|End|Enter|Escape|Page|.$)/.test(key);
}

/**
 * Arrows move what is selected, and with Alt change its size; where nothing is selected they move the view.
 * @param {Ed} ed
 * @param {KeyboardEvent} event
 * @returns {boolean} whether there was something to do
 */
function arrow(ed, event) {
  if (event.ctrlKey || event.metaKey || (event.altKey && ed.history.at !== null)) return false;
  const by = event.shiftKey ? 10 : 1;
  const x = { ArrowLeft: -1, ArrowRight: 1 }[event.key] ?? 0;
  const y = { ArrowUp: -1, ArrowDown: 1 }[event.key] ?? 0;
  if (ed.selection.ids.size) {
    if (event.altKey) return resize(ed, x * by, y * by);
    ed.nudge(x * by, y * by);
    return true;
  }
  if (event.altKey) return false;
  const step = event.shiftKey ? PANNED.shift : PANNED.plain;
  ed.camera.pan(x * step, y * step);
  return true;
}

/**
 * @param {Ed} ed
 * @param {number} dx
 * @param {number} dy
 */
function resize(ed, dx, dy) {
  const shapes = ed.selection.list();
  if (shapes.some((item) => item.kind === "group")) return false;
  // The end of a line may lie at any side of its start.
  const least = (/** @type {string} */ kind) => (kind === "line" ? -Infinity : 1);
  const lines = shapes.map(({ id, kind, w, h }) => {
    const [width, height] = [w + dx, h + dy].map((each) => Math.max(least(kind), each));
    return `resize ${id} ${width} ${height}`;
  });
  ed.edits.do(`Resized ${count(shapes.length)}`, lines);
  return true;
}
