// Text is edited in place: a field lies over the shape with the board's own font, wraps where the board wraps, and grows.
// What was typed is never lost: one that is too long keeps its field, and one whose shape another one deletes goes on as a text of
// its own. The field goes along where another one moves the shape.

import { inkOn } from "../board/colours.js";
import { BREAK, lay } from "../board/text.js";
import { bytesOf, MOST_LABEL } from "../core/lines.js";
import { Aside } from "./aside.js";
import { deleterOf, objectName, writerOf } from "./deeds.js";
import { asTextBox, fittedBox, roomIn, WIDEST } from "./fitting.js";
import { h } from "./h.js";
import { count } from "./words.js";
import { changeText, makeText } from "./writing.js";

const CONTROLS = /[\u0000-\u0009\u000b-\u001f\u007f-\u009f]/g;

/**
 * A text as a label: control characters but line feeds are spaces.
 * @param {string} text
 */
export const labelOf = (text) => text.replace(/\r\n?|\n/g, BREAK).replace(CONTROLS, " ");

export class Editor {
  /**
   * @param {Ed} ed
   * @param {HTMLElement} host
   */
  constructor(ed, host) {
    this.ed = ed;
    this.field = h("textarea", {
      class: "label-field", hidden: true, dir: "auto", rows: 1, spellcheck: "false", "aria-label": "Text",
    });
    /** @type {Item} */
    this.item = /** @type {any} */ (null);
    /** What the node says of the item, and the text that the field began with. @type {Plain | undefined} */
    this.plain = undefined;
    this.began = "";
    /** @type {string[]} the groups in which the item is, from the inner one on */
    this.groups = [];
    this.isNew = false;
    this.isAuto = false;
    host.append(this.field);
    this.aside = new Aside(host);
    this.field.addEventListener("input", () => this.grow());
    this.field.addEventListener("keydown", (event) => this.key(event));
    this.field.addEventListener("blur", () => setTimeout(() => this.left()));
    this.field.addEventListener("wheel", (event) => this.wheel(event), { passive: false });
  }

  get text() {
    return labelOf(this.field.value);
  }

  /** How many bytes the text has too many, or 0. */
  get over() {
    return Math.max(0, bytesOf(this.text) - MOST_LABEL);
  }

  /** @param {KeyboardEvent} event */
  key(event) {
    if (event.isComposing) return;
    const isDone = event.key === "Tab" || event.key === "Escape" || (event.key === "Enter" && (event.ctrlKey || event.metaKey));
    if (!isDone) return;
    if (this.commit()) this.ed.focusBoard();
    event.preventDefault();
    event.stopPropagation();
  }

  /** Another thing has the focus now. */
  left() {
    if (!this.ed.editing || document.activeElement === this.field || !document.hasFocus()) return;
    this.commit();
  }

  /** @param {WheelEvent} event */
  wheel(event) {
    if (!event.ctrlKey) return;
    event.preventDefault();
    this.ed.camera.zoomAt(event.clientX, event.clientY, Math.exp(-event.deltaY * 0.0025));
  }

  /**
   * Edits the text of a shape.
   * @param {string} id
   */
  open(id) {
    const item = this.ed.model.at(id);
    if (item && item.kind !== "group" && !this.ed.readOnly) this.begin(item, false, false);
  }

  /**
   * Begins a text of its own at a place of the board.
   * @param {number} x
   * @param {number} y
   * @param {number} [width] where it is given, the text wraps there; else it grows
   */
  openNew(x, y, width) {
    if (this.ed.readOnly) return;
    const style = this.ed.styleFor("text");
    const [w, height] = [width ?? 2, lay(" ", style.font).h];
    /** @type {Item} */
    const item = {
      ...style, id: "~new", kind: "text", parent: null, label: "", by: this.ed.node.site, z: 0, ends: null,
      x, y, w, h: height, box: { x0: x, y0: y, x1: x + w, y1: y + height },
    };
    this.begin(item, true, width !== undefined);
  }

  /**
   * @param {Item} item
   * @param {boolean} isNew
   * @param {boolean} isFixed whether the width is given
   */
  begin(item, isNew, isFixed) {
    const { ed, field } = this;
    if (ed.editing && !this.commit()) return;
    this.isNew = isNew;
    // A text that its words fill goes on growing; one that was made narrower wraps.
    this.isAuto = item.kind === "text" && !isFixed && (isNew || Math.abs(lay(item.label, item.font).w - item.w) < 3);
    this.take(item);
    this.groups = ed.model.groupsOf(item);
    field.hidden = false;
    this.fill(item.label);
    this.grow();
    ed.touch("scene");
    ed.touch("overlay");
    field.focus({ preventScroll: true });
    field.select();
    ed.rested();
  }

  /** @param {Item} item whose text is edited now */
  take(item) {
    const { ed } = this;
    this.item = item;
    this.plain = ed.model.plains.get(item.id);
    ed.editing = item.id;
    ed.scene.skip = item.id;
  }

  /** @param {string} label */
  fill(label) {
    this.began = label;
    this.field.value = label.replaceAll("\u2028", "\n");
  }

  /** Looks what became of the item since it was looked at, and goes along. */
  follow() {
    const { ed } = this;
    if (!ed.editing || this.isNew || ed.history.at !== null) return;
    const item = ed.model.byId.get(this.item.id);
    if (!item) {
      this.lose();
      return;
    }
    if (ed.model.plains.get(item.id) === this.plain) return;
    this.take(item);
    if (item.label !== this.began) this.meet(item);
    this.grow();
  }

  /**
   * Another one has written something else. It is in the field where nothing was written here.
   * @param {Item} item
   */
  meet({ id, label }) {
    if (this.text === this.began) {
      this.fill(label);
      this.field.select();
    } else this.aside.say(`${writerOf(this.ed, id)} wrote something else here meanwhile: yours replaces it`);
    this.began = label;
  }

  /** The item is gone. What was written stays in its field, and is a text of its own then. */
  lose() {
    const { ed, item } = this;
    const why = `${deleterOf(ed, [item.id, ...this.groups])} deleted ${objectName(ed, item.id)}`;
    const { text } = this;
    if (text === this.began || !text.replaceAll(BREAK, "").trim()) {
      const at = ed.camera.toWindow((item.box.x0 + item.box.x1) / 2, item.box.y0);
      this.close();
      ed.focusBoard();
      ed.refuse([{ why }], at);
      return;
    }
    const style = ed.styleFor("text");
    const isText = item.kind === "text";
    const box = isText ? this.fitted() : asTextBox(text, style.font, item.box);
    const size = { x: box.x0, y: box.y0, w: box.x1 - box.x0, h: box.y1 - box.y0 };
    this.isNew = true;
    this.isAuto ||= !isText;
    this.take({ ...item, ...style, ...size, font: isText ? item.font : style.font, id: "~new", kind: "text", parent: null, box, fill: null, ends: null });
    this.aside.say(`${why}. Your words become a text of their own`, "Leave them out", () => this.leaveOut());
    this.grow();
  }

  leaveOut() {
    this.close();
    this.ed.focusBoard();
  }

  /** The box of the item with the text as it is now. */
  fitted() {
    return fittedBox(this.item, this.text || " ", this.isAuto);
  }

  grow() {
    const { ed, item } = this;
    const box = this.fitted();
    const [w, height] = [box.x1 - box.x0, box.y1 - box.y0];
    if (!this.isNew && !item.ends) {
      const isOther = height !== Math.abs(item.h) || w !== Math.abs(item.w);
      ed.model.preview(new Map(isOther ? [[item.id, { x: box.x0, y: box.y0, w, h: height }]] : []));
    }
    this.place(box);
    this.tell();
  }

  /** Says how many bytes are left, or too many. */
  tell() {
    const left = MOST_LABEL - bytesOf(this.text);
    this.aside.tell(left);
    this.field.setAttribute("aria-invalid", String(left < 0));
  }

  /**
   * Puts the field where the text is in the window.
   * @param {Box} [given]
   */
  place(given) {
    const { ed, item, field } = this;
    if (!ed.editing) return;
    const box = given ?? this.fitted();
    const isText = item.kind === "text";
    const room = roomIn(item, box);
    const laid = lay(this.text || " ", item.font, isText && this.isAuto ? WIDEST : room);
    const wide = item.ends ? Math.max(60, laid.w + 8) : Math.max(isText ? 24 : 8, room + (isText ? 4 : 0));
    const x = isText ? box.x0 : (box.x0 + box.x1 - wide) / 2;
    const y = isText ? box.y0 : (box.y0 + box.y1 - laid.h) / 2;
    const [left, top] = ed.camera.toWindow(x, y);
    Object.assign(field.style, {
      width: `${wide}px`, height: `${laid.h + 1}px`, fontSize: `${item.font}px`,
      textAlign: item.align === "left" ? "start" : "center",
      transform: `translate(${left}px, ${top}px) scale(${ed.camera.zoom})`, color: inkOn(item, ed.scene.dark),
      whiteSpace: this.isAuto && laid.lines.length === 1 ? "pre" : "pre-wrap",
    });
    field.dataset.kind = item.kind;
    this.aside.place(left, top + laid.h * ed.camera.zoom + 14);
  }

  close() {
    const { ed } = this;
    ed.editing = null;
    ed.scene.skip = null;
    this.field.hidden = true;
    this.aside.hide();
    ed.model.preview(new Map());
    ed.touch("scene");
    ed.touch("overlay");
    ed.rested();
  }

  /**
   * Types what was written. A text that is too long keeps its field open.
   * @returns {boolean} whether the field is closed now
   */
  commit() {
    const { ed, item, field } = this;
    if (!ed.editing) return true;
    if (this.over) {
      this.tell();
      ed.say(`The text has ${count(this.over, "byte")} too many`);
      field.focus({ preventScroll: true });
      return false;
    }
    const { text } = this;
    const box = this.fitted();
    const isBlank = !text.replaceAll(BREAK, "").trim();
    this.close();
    if (this.isNew) {
      if (!isBlank) makeText(ed, text, box);
    } else if (text === this.began) return true;
    else if (isBlank && item.kind === "text") ed.edits.do("Deleted an empty text", [`delete ${item.id}`]);
    else changeText(ed, item, isBlank ? "" : text, box);
    return true;
  }
}
