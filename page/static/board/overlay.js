// Paints what isn't the drawing: what is selected, handles, a band, guides, what others look at, flashes of what came.

import { grown } from "./boxes.js";
import { personColour } from "./colours.js";
import { Flashes } from "./flashes.js";
import { dotsOf } from "./joins.js";
import { paint } from "./paint.js";
import { Pen } from "./pen.js";

/** @typedef {import("../core/types.js").Guide} Guide */
/** @typedef {"nw" | "n" | "ne" | "e" | "se" | "s" | "sw" | "w"} Handle */

/** Where each handle is, as parts of the frame's width and height. @type {Record<Handle, [number, number]>} */
export const HANDLES = { nw: [0, 0], n: [0.5, 0], ne: [1, 0], e: [1, 0.5], se: [1, 1], s: [0.5, 1], sw: [0, 1], w: [0, 0.5] };
const PADDING = 5;
/** So far outside of the frame are the dots from which connectors are drawn, and where fingers draw. */
const DOT_GAP = 16;
const DOT_GAP_TOUCH = 36;
const SMALL = 22;
const LEAST_SIDE = 64;
const MOST_OUTLINES = 400;

export class Overlay {
  /**
   * @param {HTMLCanvasElement} canvas
   * @param {Ed} ed
   */
  constructor(canvas, ed) {
    this.canvas = canvas;
    this.ed = ed;
    this.pen = new Pen(canvas.getContext("2d"), ed);
    this.flashing = new Flashes(ed, this.pen);
    this.ratio = 1;
    this.isClean = false;
    this.theme();
  }

  theme() {
    const style = getComputedStyle(document.documentElement);
    const get = (/** @type {string} */ name) => style.getPropertyValue(name).trim();
    Object.assign(this.pen, { accent: get("--accent"), guide: get("--guide"), face: get("--handle"), onTone: get("--on-accent") });
    this.look = { dark: get("--is-dark") === "1", paper: get("--board"), skip: null };
    this.flashing.tones = { applied: get("--good"), reworked: get("--late"), dropped: get("--muted"), undone: get("--late") };
  }

  /**
   * @param {number} width
   * @param {number} height
   * @param {number} ratio
   */
  size(width, height, ratio) {
    this.isClean = false;
    this.ratio = ratio;
    this.canvas.width = Math.round(width * ratio);
    this.canvas.height = Math.round(height * ratio);
  }

  /** What is flashing. The history sets it to none. */
  get flashes() {
    return this.flashing.list;
  }

  set flashes(list) {
    this.flashing.list = list;
    this.ed.touch("overlay");
  }

  /**
   * Marks objects for a while: what came, and how.
   * @param {Iterable<string>} ids
   * @param {"applied" | "reworked" | "dropped" | "undone"} what
   * @param {string | null} tag
   * @param {number} [lasts] in milliseconds
   * @param {Box | null} [where] what is marked where none of them is shown
   */
  flash(ids, what, tag, lasts = 2200, where = null) {
    this.flashing.add({ ids: new Set(ids), what, tag, from: performance.now(), lasts, where });
    this.ed.touch("overlay");
  }

  /**
   * Which handles a selection of this size on the window has.
   * @param {number} w
   * @param {number} h
   * @returns {Handle[]}
   */
  handlesOf(w, h) {
    if (w < SMALL && h < SMALL) return ["se"];
    const isText = this.isText();
    return /** @type {Handle[]} */ (Object.keys(HANDLES)).filter((handle) => {
      if (handle.length === 2) return true;
      // The height of a text goes by its letters.
      return handle === "n" || handle === "s" ? w >= LEAST_SIDE && !isText : h >= LEAST_SIDE || isText;
    });
  }

  /** Whether one text alone is selected. */
  isText() {
    const [id, other] = this.ed.selection.ids;
    return Boolean(id && !other && this.ed.model.byId.get(id)?.kind === "text");
  }

  /** The places of the window from which a connector of the one selected object is drawn: outside of its frame, so that no handle is there. @returns {[number, number][]} */
  dots() {
    const [id, other] = this.ed.selection.ids;
    const item = id && !other ? this.ed.model.byId.get(id) : null;
    if (!item || item.ends || this.ed.readOnly || this.ed.editing || this.ed.tool !== "select") return [];
    const frame = this.frame();
    if (!frame) return [];
    const isTouched = matchMedia("(pointer: coarse)").matches;
    return dotsOf(grown(frame, isTouched ? DOT_GAP_TOUCH : DOT_GAP));
  }

  /** The window's box around the selection, with its padding; null where one line or one connector is selected, or nothing. */
  frame() {
    const { selection, model, camera } = this.ed;
    const [id, other] = selection.ids;
    if (!id || (!other && model.byId.get(id)?.ends)) return null;
    const box = model.boxOf(selection.ids);
    return box && grown(camera.boxToWindow(box), PADDING);
  }

  /** Whether there is anything to paint. */
  get hasMarks() {
    const { ed } = this;
    const { ids, scope } = ed.selection;
    if (ids.size || scope || ed.ghosts || ed.band || ed.hover || ed.guides?.length || this.flashing.list.length) return true;
    return ed.people.others().some((seat) => seat.selection.size);
  }

  /**
   * Draws a frame.
   * @param {number} now
   */
  draw(now) {
    const has = this.hasMarks;
    if (!has && this.isClean) return;
    this.isClean = !has;
    // A canvas that isn't there costs nothing when the page is put together.
    this.canvas.style.visibility = has ? "visible" : "hidden";
    if (!has) return;
    const { c } = this.pen;
    c.setTransform(1, 0, 0, 1, 0, 0);
    c.clearRect(0, 0, this.canvas.width, this.canvas.height);
    c.setTransform(this.ratio, 0, 0, this.ratio, 0, 0);
    this.paintOthers();
    this.flashing.paint(now);
    this.paintGhosts();
    this.paintHover();
    this.paintScope();
    this.paintSelection();
    this.paintBand();
    for (const guide of this.ed.guides ?? []) this.pen.guideLine(guide);
  }

  /** What others look at. */
  paintOthers() {
    const { people, model, camera } = this.ed;
    const { c } = this.pen;
    for (const seat of people.others()) {
      const box = seat.selection.size ? model.boxOf(seat.selection) : null;
      if (!box) continue;
      const colour = personColour(seat.site, this.look.dark);
      const frame = camera.boxToWindow(box);
      c.strokeStyle = colour;
      c.lineWidth = 1.5;
      this.pen.round(grown(frame, 4), 6);
      c.stroke();
      this.pen.tag(seat.name, frame.x0 - 4, frame.y0 - 25, colour);
    }
  }

  /** What is being made, or copied. */
  paintGhosts() {
    const { ghosts, camera } = this.ed;
    if (!ghosts?.length) return;
    const { c } = this.pen;
    c.save();
    c.transform(camera.zoom, 0, 0, camera.zoom, -camera.x * camera.zoom, -camera.y * camera.zoom);
    c.globalAlpha = ghosts[0].faint ? 0.55 : 1;
    for (const ghost of ghosts) paint(c, ghost, camera.zoom, this.look);
    c.restore();
    const [only] = ghosts;
    if (this.ed.busy === "create" && !only.ends) this.paintSize(camera.boxToWindow(only.box), only.box);
  }

  paintHover() {
    const { hover, tool, selection, model } = this.ed;
    if (!hover || tool !== "select" || selection.ids.has(hover)) return;
    const { c } = this.pen;
    c.strokeStyle = this.pen.accent;
    c.lineWidth = 1.5;
    c.globalAlpha = 0.7;
    for (const leaf of model.leaves(hover).slice(0, MOST_OUTLINES)) {
      this.pen.outline(leaf);
      c.stroke();
    }
    c.globalAlpha = 1;
  }

  /** The group that was entered. */
  paintScope() {
    const { selection, model, camera } = this.ed;
    const box = selection.scope && model.boxOf([selection.scope]);
    if (!box) return;
    const { c } = this.pen;
    const frame = grown(camera.boxToWindow(box), 10);
    c.strokeStyle = this.pen.accent;
    c.lineWidth = 1;
    c.globalAlpha = 0.8;
    c.setLineDash([4, 4]);
    c.strokeRect(frame.x0, frame.y0, frame.x1 - frame.x0, frame.y1 - frame.y0);
    c.setLineDash([]);
    c.globalAlpha = 1;
  }

  paintSelection() {
    const { ed } = this;
    const { c } = this.pen;
    c.strokeStyle = this.pen.accent;
    const [id, other] = ed.selection.ids;
    if (other || ed.model.byId.get(id)?.kind === "group") this.paintOutlines();
    const frame = this.frame();
    if (frame) this.paintFrame(frame);
    else if (id) this.paintEnds(ed.model.at(id));
  }

  paintOutlines() {
    const { model, selection } = this.ed;
    const { c } = this.pen;
    c.lineWidth = 1;
    c.globalAlpha = 0.75;
    for (const leaf of model.leavesOf(selection.ids).slice(0, MOST_OUTLINES)) {
      this.pen.outline(leaf);
      c.stroke();
    }
    c.globalAlpha = 1;
  }

  /** @param {Box} frame */
  paintFrame(frame) {
    const { ed, pen } = this;
    pen.c.lineWidth = 1.5;
    pen.round(frame, 4);
    pen.c.stroke();
    const isHandled = ed.busy !== "move" && !ed.editing && !ed.readOnly;
    const [w, h] = [frame.x1 - frame.x0, frame.y1 - frame.y0];
    for (const handle of isHandled ? this.handlesOf(w, h) : []) {
      const [atX, atY] = HANDLES[handle];
      pen.knob(frame.x0 + w * atX, frame.y0 + h * atY, handle.length === 1 ? 3.5 : 4.5);
    }
    if (isHandled && !ed.busy) for (const [x, y] of this.dots()) pen.knob(x, y, 3);
    if (ed.busy === "resize") this.paintSize(frame, ed.model.boxOf(ed.selection.ids));
  }

  /**
   * The size of what is being made or resized, below it.
   * @param {Box} frame
   * @param {Box} box
   */
  paintSize(frame, box) {
    const text = `${Math.round(box.x1 - box.x0)} × ${Math.round(box.y1 - box.y0)}`;
    this.pen.tag(text, (frame.x0 + frame.x1 - this.pen.tagWidth(text)) / 2, frame.y1 + 8, this.pen.accent);
  }

  /** @param {Item | undefined} item a line */
  paintEnds(item) {
    const { ed, pen } = this;
    if (!item?.ends) return;
    pen.c.lineWidth = 1.5;
    pen.c.globalAlpha = 0.6;
    pen.outline(item);
    pen.c.stroke();
    pen.c.globalAlpha = 1;
    if (ed.editing || ed.readOnly) return;
    const [x0, y0, x1, y1] = item.ends;
    for (const [x, y] of [[x0, y0], [x1, y1]]) pen.knob(...ed.camera.toWindow(x, y), 6);
  }

  paintBand() {
    const { band, camera } = this.ed;
    if (!band) return;
    const { c } = this.pen;
    const { x0, y0, x1, y1 } = camera.boxToWindow(band);
    c.fillStyle = c.strokeStyle = this.pen.accent;
    c.globalAlpha = 0.1;
    c.fillRect(x0, y0, x1 - x0, y1 - y0);
    c.globalAlpha = 1;
    c.lineWidth = 1;
    c.strokeRect(x0 + 0.5, y0 + 0.5, x1 - x0, y1 - y0);
  }
}
