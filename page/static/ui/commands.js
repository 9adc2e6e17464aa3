// Every command once: its name, keys, icon, when it can be done, and how. The palette, the menus, the help and the keys
// are made of this list.

import { align, connect, duplicate, enter, group, remove, selectAll, spread, ungroup } from "./arrange.js";

/**
 * @typedef {object} Command
 * @property {string} id
 * @property {string} title
 * @property {string} group
 * @property {string} icon
 * @property {string[]} keys
 * @property {(ed: Ed) => boolean} when
 * @property {(ed: Ed) => unknown} run
 * @property {boolean} [tool] whether it chooses a tool
 * @property {boolean} [native] whether the browser itself makes an event of its keys
 * @property {boolean} [hidden] whether the palette leaves it out
 */

const always = () => true;
/** @param {Ed} ed */
const canWrite = (ed) => !ed.readOnly;
/** @param {Ed} ed */
const hasSome = (ed) => ed.selection.ids.size > 0;
/** @param {Ed} ed */
const hasEvents = (ed) => ed.node.events.length > 0;
/** @param {Ed} ed */
const hasItems = (ed) => ed.model.items.length > 0;
/** @param {number} least */
const withAtLeast = (least) => (/** @type {Ed} */ ed) => ed.selection.ids.size >= least && !ed.readOnly;
const withSome = withAtLeast(1);
/**
 * What is selected, in no order.
 * @param {Ed} ed
 */
const chosen = (ed) => [...ed.selection.ids].map((id) => ed.model.byId.get(id));

/** @typedef {(ed: Ed) => boolean} When */
/** @typedef {(ed: Ed) => unknown} Run */

/**
 * The commands of a group. A row has the id, the title, the icon, the keys, when it can be done, how, and what else is said.
 * @param {string} group
 * @param {[string, string, string, string[], When, Run, Partial<Command>?][]} rows
 * @returns {Command[]}
 */
const commandsOf = (group, rows) =>
  rows.map(([id, title, icon, keys, when, run, more]) => ({ id, title, icon, keys, group, when, run, ...more }));

/** @param {string} id */
const choose = (id) => (/** @type {Ed} */ ed) => ed.setTool(/** @type {import("../core/types.js").Tool} */ (id));
const isTool = { tool: true };

// The numbers are those of Excalidraw. 3, 5 and 7 stand there for tools that aren't here.
const TOOLS = commandsOf("Tools", [
  ["select", "Select", "select", ["V", "1"], always, choose("select"), isTool],
  ["hand", "Hand", "hand", ["H"], always, choose("hand"), isTool],
  ["rect", "Rectangle", "rect", ["R", "2"], canWrite, choose("rect"), isTool],
  ["ellipse", "Ellipse", "ellipse", ["O", "4", "E"], canWrite, choose("ellipse"), isTool],
  ["line", "Line", "line", ["L", "6"], canWrite, choose("line"), isTool],
  ["text", "Text", "text", ["T", "8"], canWrite, choose("text"), isTool],
]);

/** @type {When} */
const canUndo = (ed) => canWrite(ed) && ed.edits.due("undo") !== null;
/** @type {When} */
const canRedo = (ed) => canWrite(ed) && ed.edits.due("redo") !== null;
/** @type {When} */
const withOne = (ed) => withSome(ed) && ed.selection.ids.size === 1;
const isNative = { native: true };

const EDIT = commandsOf("Edit", [
  ["undo", "Undo", "undo", ["Mod+Z"], canUndo, (ed) => ed.edits.undo()],
  ["redo", "Redo", "redo", ["Mod+Shift+Z", "Mod+Y"], canRedo, (ed) => ed.edits.redo()],
  ["cut", "Cut", "cut", ["Mod+X"], withSome, (ed) => ed.clipboard.cut(), isNative],
  ["copy", "Copy", "copy", ["Mod+C"], hasSome, (ed) => ed.clipboard.copy(), isNative],
  ["paste", "Paste", "paste", ["Mod+V"], canWrite, (ed) => ed.clipboard.paste(), isNative],
  ["duplicate", "Duplicate", "dup", ["Mod+D"], withSome, duplicate],
  ["delete", "Delete", "trash", ["Delete", "Backspace"], withSome, remove],
  ["edit", "Edit text", "edit", ["Enter", "F2"], withOne, enter],
  ["all", "Select all", "select", ["Mod+A"], always, selectAll],
  ["escape", "Leave off, or leave the group", "close", ["Escape"], always, (ed) => ed.escape(), { hidden: true }],
]);

/** @type {When} */
const canGroup = (ed) => withAtLeast(2)(ed) && chosen(ed).every((item) => item?.parent === null);
/** @type {When} */
const canUngroup = (ed) => withSome(ed) && chosen(ed).some((item) => item?.kind === "group");
/** @type {When} */
const canConnect = (ed) => withAtLeast(2)(ed) && ed.selection.ids.size === 2 && chosen(ed).every((item) => item && item.kind !== "connector");
/** @param {string} way */
const aligning = (way) => (/** @type {Ed} */ ed) => align(ed, way);
/** @type {Run} */
const toFront = (ed) => ed.edits.do("Brought to front", ed.selection.list().map((item) => `raise ${item.id}`));
// The lowest goes last, so that they stay in their order.
/** @type {Run} */
const toBack = (ed) => ed.edits.do("Sent to back", ed.selection.list().reverse().map((item) => `lower ${item.id}`));

const ARRANGE = commandsOf("Arrange", [
  ["group", "Group", "group", ["Mod+G"], canGroup, group],
  ["ungroup", "Ungroup", "ungroup", ["Mod+Shift+G"], canUngroup, ungroup],
  ["connect", "Connect", "connector", ["C"], canConnect, connect],
  ["front", "Bring to front", "front", ["]", "Shift+]"], withSome, toFront],
  ["back", "Send to back", "back", ["[", "Shift+["], withSome, toBack],
  ["alignL", "Align left", "alignL", ["Alt+A"], withAtLeast(2), aligning("alignL")],
  ["alignC", "Align centres", "alignC", ["Alt+H"], withAtLeast(2), aligning("alignC")],
  ["alignR", "Align right", "alignR", ["Alt+D"], withAtLeast(2), aligning("alignR")],
  ["alignT", "Align top", "alignT", ["Alt+W"], withAtLeast(2), aligning("alignT")],
  ["alignM", "Align middles", "alignM", ["Alt+V"], withAtLeast(2), aligning("alignM")],
  ["alignB", "Align bottom", "alignB", ["Alt+S"], withAtLeast(2), aligning("alignB")],
  ["distH", "Spread evenly across", "distH", ["Alt+Shift+H"], withAtLeast(3), (ed) => spread(ed, "x")],
  ["distV", "Spread evenly down", "distV", ["Alt+Shift+V"], withAtLeast(3), (ed) => spread(ed, "y")],
]);

/** @type {Run} */
const zoomToSelection = (ed) => ed.camera.fit(ed.model.boxOf(ed.selection.ids), ed.pad(), 4);
/** @type {Run} */
const turnTheme = (ed) => ed.setTheme(document.documentElement.dataset.theme === "dark" ? "light" : "dark");

const VIEW = commandsOf("View", [
  ["zoomIn", "Zoom in", "plus", ["Mod+=", "+", "="], always, (ed) => ed.camera.zoomTo(ed.camera.zoom * 1.25)],
  ["zoomOut", "Zoom out", "minus", ["Mod+-", "-"], always, (ed) => ed.camera.zoomTo(ed.camera.zoom / 1.25)],
  ["zoom100", "Zoom to 100 %", "search", ["Shift+0", "Mod+0"], always, (ed) => ed.camera.zoomTo(1)],
  ["fit", "Zoom to fit", "fit", ["Shift+1"], hasItems, (ed) => ed.fit()],
  ["zoomSel", "Zoom to selection", "fit", ["Shift+2"], hasSome, zoomToSelection],
  ["nextObject", "Next object", "next", ["."], hasItems, (ed) => ed.walk(1)],
  ["prevObject", "Previous object", "prev", [","], hasItems, (ed) => ed.walk(-1)],
  ["objects", "List of objects", "list", ["Mod+Shift+O"], always, (ed) => ed.objects.toggle()],
  ["theme", "Light or dark", "moon", ["Alt+Shift+D"], always, turnTheme],
]);

/** @type {When} */
const hasLate = (ed) => ed.history.lates().length > 0;
/** @type {When} */
const isPast = (ed) => ed.history.at !== null;

const HISTORY = commandsOf("History", [
  ["histPrev", "One step back", "prev", ["Alt+ArrowLeft"], hasEvents, (ed) => ed.history.step(-1)],
  ["histNext", "One step on", "next", ["Alt+ArrowRight"], hasEvents, (ed) => ed.history.step(1)],
  ["histPlay", "Play the history", "play", ["Shift+P"], hasEvents, (ed) => ed.history.play()],
  ["histLate", "Next late edit", "late", ["Alt+L"], hasLate, (ed) => ed.history.lateStep()],
  ["histNow", "Back to now", "now", ["Alt+N"], isPast, (ed) => ed.history.toNow()],
]);

const FILE = commandsOf("File", [
  ["open", "Import a file", "open", ["Mod+O"], canWrite, (ed) => ed.importing.choose()],
  ["save", "Save or export", "save", ["Mod+S"], always, (ed) => ed.openSaves()],
  ["saveSvg", "Export as SVG", "image", [], hasItems, (ed) => ed.exporting.saveSvg()],
  ["savePng", "Export as PNG", "image", [], hasItems, (ed) => ed.exporting.savePng()],
  ["savePdf", "Export as PDF", "image", [], hasItems, (ed) => ed.exporting.savePdf()],
  ["print", "Print", "print", ["Mod+P"], hasItems, (ed) => ed.exporting.print()],
  ["copySvg", "Copy as SVG", "image", ["Mod+Shift+C"], hasItems, (ed) => ed.exporting.copySvg()],
  ["copyPng", "Copy as PNG", "image", ["Alt+Shift+C"], hasItems, (ed) => ed.exporting.copyPng()],
  ["saveLog", "Save the whole file with its history (journal)", "history", [], always, (ed) => ed.exporting.saveFrom("log")],
  ["saveJson", "Save as JSON", "save", [], always, (ed) => ed.exporting.saveFrom("json")],
  ["saveText", "Save as lines", "save", [], always, (ed) => ed.exporting.saveFrom("text")],
  ["saveEvents", "Save the list of all edits (events)", "history", [], always, (ed) => ed.exporting.saveFrom("events")],
]);

const PEOPLE = commandsOf("People", [
  ["roster", "Who is here", "people", [], always, (ed) => ed.roster.open()],
  ["rename", "Your name", "edit", [], (ed) => !ed.watcher, (ed) => ed.roster.rename()],
  ["invite", "Invite somebody", "plus", [], (ed) => !ed.watcher, (ed) => ed.inviting.ask()],
]);

const HELP = commandsOf("Help", [
  ["palette", "Command palette", "search", ["Mod+K", "Mod+/"], always, (ed) => ed.palette.open()],
  ["help", "Keys and gestures", "help", ["?"], always, (ed) => ed.help.open()],
]);

export const COMMANDS = [...TOOLS, ...EDIT, ...ARRANGE, ...VIEW, ...HISTORY, ...FILE, ...PEOPLE, ...HELP];
const BY_ID = new Map(COMMANDS.map((command) => [command.id, command]));

/**
 * The command of that id, which has to be one.
 * @param {string} id
 */
export const commandOf = (id) => /** @type {Command} */ (BY_ID.get(id));

/**
 * Does a command where it can be done, and says why not where one can only look.
 * @param {Ed} ed
 * @param {string} id
 */
export function run(ed, id) {
  const command = commandOf(id);
  if (command.when(ed)) command.run(ed);
  else if (ed.readOnly) ed.refuse([{ why: ed.readOnly }]);
}
