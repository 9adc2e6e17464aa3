// The clipboard has the printed lines of what was copied, as text: it goes into a chat, a file, and back onto any board.

import { around } from "../board/boxes.js";
import { copyLines, createLines } from "../board/edits.js";
import { lay } from "../board/text.js";
import { printed } from "../core/lines.js";
import { withMembers } from "./arrange.js";
import { labelOf } from "./editor.js";
import { readDrawing } from "./reading.js";
import { labelsOf } from "./splitting.js";
import { count } from "./words.js";

const TEXT_WIDTH = 480;
const GAP = 8;
/** In units: how far a further copy is from the last one where the pointer is still there; and so near it is, in pixels. */
const STEP = 20;
const NEAR = 4;

/**
 * Whether an event of the clipboard is for the board.
 * @param {Event} event
 */
const isFree = ({ target }) => !(target instanceof Element && target.closest("input, textarea, dialog"));

export class Clipboard {
  /** @param {Ed} ed */
  constructor(ed) {
    this.ed = ed;
    /** What was put last, where, how many times there, and the objects that it became. */
    this.last = { text: "", x: 0, y: 0, times: 0, ids: /** @type {string[]} */ ([]) };
    document.addEventListener("copy", (event) => isFree(event) && this.take(event, false));
    document.addEventListener("cut", (event) => isFree(event) && !ed.readOnly && this.take(event, true));
    document.addEventListener("paste", (event) => isFree(event) && this.pasted(event));
    // The middle button moves the view. Where a system has a second clipboard, it would paste that too.
    document.addEventListener("mouseup", (event) => event.button === 1 && isFree(event) && event.preventDefault());
  }

  /** What is selected, as printed lines. A group that isn't copied whole isn't named by its members, and a connector goes along with both its ends alone. */
  text() {
    const all = withMembers(this.ed);
    const own = new Set(all.map((item) => item.id));
    const items = all.filter(({ kind, from, to }) => kind !== "connector" || (own.has(from ?? "") && own.has(to ?? "")));
    const lines = items.map((item) => printed({ ...item, parent: item.parent && own.has(item.parent) ? item.parent : null }));
    return `${lines.join("\n")}\nend ${items.length}\n`;
  }

  /**
   * @param {ClipboardEvent} event
   * @param {boolean} isCut
   */
  take(event, isCut) {
    const { size } = this.ed.selection.ids;
    // Text that is marked on the page is copied as such.
    if (!size || !event.clipboardData || String(getSelection())) return;
    event.clipboardData.setData("text/plain", this.text());
    event.preventDefault();
    if (isCut) this.drop();
    else this.ed.say(`Copied ${count(size)}`);
  }

  /** @param {ClipboardEvent} event */
  pasted(event) {
    const data = event.clipboardData;
    if (!data) return;
    event.preventDefault();
    if (data.files[0]) this.ed.importing.take(data.files[0]);
    else this.put(data.getData("text/plain"));
  }

  drop() {
    const ids = this.ed.selection.list().map((item) => item.id);
    this.ed.edits.do(`Cut ${count(ids.length)}`, ids.map((id) => `delete ${id}`));
  }

  async copy() {
    const { size } = this.ed.selection.ids;
    if (await write(this.ed, this.text())) this.ed.say(`Copied ${count(size)}`);
  }

  async cut() {
    if (await write(this.ed, this.text())) this.drop();
  }

  async paste() {
    try {
      this.put(await navigator.clipboard.readText());
    } catch {
      this.ed.banner({ text: "The browser keeps the clipboard closed here: use the keys to paste", lasts: 5000 });
    }
  }

  /**
   * Puts a text on the board: drawn objects where it has any, else a text. It stands at the pointer, else in the middle.
   * @param {string} text
   * @param {string} [name] what it is called
   * @returns {boolean} whether there was something to put
   */
  put(text, name = "Pasted") {
    const { ed } = this;
    if (!text.trim()) return false;
    if (ed.readOnly) {
      ed.refuse([{ why: ed.readOnly }]);
      return false;
    }
    const drawing = readDrawing(text);
    const at = this.placeFor(text);
    if (drawing) this.putItems(drawing.items, name, at);
    else this.putText(text.trim(), name, at);
    this.last.ids = [...ed.selection.ids];
    if (drawing?.left) ed.banner({ text: `${count(drawing.left, "part")} of it couldn’t be taken: turned ones, paths, pictures`, lasts: 8000 });
    return true;
  }

  /** The place of the board where things are put. */
  place() {
    const { pointer, camera } = this.ed;
    const box = camera.box();
    return pointer ?? { x: (box.x0 + box.x1) / 2, y: (box.y0 + box.y1) / 2 };
  }

  /**
   * The place for a text: where the same was put there already, and is there still, a little beside the last one.
   * @param {string} text
   */
  placeFor(text) {
    const { ed, last } = this;
    const { x, y } = this.place();
    const isThere = Math.hypot(x - last.x, y - last.y) * ed.camera.zoom < NEAR;
    const isAgain = text === last.text && isThere && last.ids.some((id) => ed.model.byId.has(id));
    this.last = { text, x, y, times: isAgain ? last.times + 1 : 0, ids: [] };
    const by = this.last.times * STEP;
    return { x: x + by, y: y + by };
  }

  /**
   * @param {import("./reading.js").Drawn[]} items
   * @param {string} name
   * @param {{x: number, y: number}} at
   */
  putItems(items, name, at) {
    const shapes = items.filter(({ kind }) => kind !== "group" && kind !== "connector");
    const box = around(shapes.map((item) => ({
      x0: Math.min(item.x, item.x + item.w), y0: Math.min(item.y, item.y + item.h),
      x1: Math.max(item.x, item.x + item.w), y1: Math.max(item.y, item.y + item.h),
    })));
    if (!box) return;
    const [dx, dy] = [Math.round(at.x - (box.x0 + box.x1) / 2), Math.round(at.y - (box.y0 + box.y1) / 2)];
    const { lines, made } = copyLines(/** @type {any} */ (items), dx, dy);
    const tops = items.filter((item) => !item.parent && made.has(item.id));
    const pick = (/** @type {(string | null)[]} */ ids) => tops.map((top) => ids[(made.get(top.id) ?? 0) - 1]);
    this.ed.edits.do(`${name} ${count(tops.length)}`, lines, pick);
  }

  /**
   * A text of more bytes than a label has becomes several, one below the other.
   * @param {string} text
   * @param {string} name
   * @param {{x: number, y: number}} at
   */
  putText(text, name, { x, y }) {
    const { ed } = this;
    const style = ed.styleFor("text");
    let top = y;
    /** @type {string[]} */
    const lines = [];
    /** @type {number[]} */
    const firsts = [];
    for (const label of labelsOf(labelOf(text))) {
      const laid = lay(label, style.font, TEXT_WIDTH);
      const size = { x: x - laid.w / 2, y: top, w: Math.ceil(laid.w) + 1, h: laid.h };
      firsts.push(lines.length);
      lines.push(...createLines(lines.length + 1, { ...style, ...size, kind: "text", label }));
      top += laid.h + GAP;
    }
    ed.edits.do(`${name} a text`, lines, (ids) => firsts.map((first) => ids[first]));
  }
}

/**
 * @param {Ed} ed
 * @param {string} text
 */
async function write(ed, text) {
  try {
    await navigator.clipboard.writeText(text);
    return true;
  } catch {
    ed.banner({ text: "The browser keeps the clipboard closed here: use the keys to copy", lasts: 5000 });
    return false;
  }
}
