// Paints what lies in a box of the board on a canvas: paper, dots and items.

import { grown, meet } from "./boxes.js";
import { Ground } from "./ground.js";
import { paint } from "./paint.js";

/** @typedef {import("./model.js").Model} Model */
/** @typedef {{box: Box, zoom: number, lift?: Set<string> | null}} View what a canvas shows; what is lifted isn't on it */

/** So far beyond its box an item may reach, by its stroke. */
const REACH = 34;

export class Painter {
  /**
   * @param {Model} model
   * @param {import("./paint.js").Look} [look] that of another painter, which is shared
   */
  constructor(model, look = { dark: false, paper: "", skip: null }) {
    this.model = model;
    this.ground = new Ground();
    this.ratio = 1;
    this.look = look;
  }

  /** What is previewed, and so is painted over a sheet that is without it; null where that is nothing. */
  lifted() {
    const { shadow } = this.model;
    return shadow.size ? new Set(shadow.keys()) : null;
  }

  theme() {
    const style = getComputedStyle(document.documentElement);
    this.look.dark = style.getPropertyValue("--is-dark").trim() === "1";
    this.look.paper = style.getPropertyValue("--board").trim();
    this.ground.theme(this.look.paper, style.getPropertyValue("--dot").trim());
  }

  /**
   * Lets a canvas show what is in a box.
   * @param {CanvasRenderingContext2D} c
   * @param {View} view
   */
  face(c, { box, zoom }) {
    const scale = zoom * this.ratio;
    c.setTransform(scale, 0, 0, scale, -box.x0 * scale, -box.y0 * scale);
    // The font is set by the first text, whatever it was before.
    c.font = "1px x";
  }

  /**
   * Paints paper and dots, and lets the canvas show a box.
   * @param {CanvasRenderingContext2D} c
   * @param {View} view
   */
  prepare(c, view) {
    this.ground.paint(c, { x: view.box.x0, y: view.box.y0, zoom: view.zoom }, this.ratio);
    this.face(c, view);
  }

  /**
   * Paints an item where it is in the box. Says whether it is.
   * @param {CanvasRenderingContext2D} c
   * @param {View} view
   * @param {Item} item
   */
  item(c, view, item) {
    if (view.lift?.has(item.id) || !meet(item.ink, view.box)) return false;
    paint(c, item, view.zoom, this.look);
    return true;
  }

  /**
   * Paints all. Gives how many items that were.
   * @param {CanvasRenderingContext2D} c
   * @param {View} view
   */
  whole(c, view) {
    this.prepare(c, view);
    let count = 0;
    for (const item of this.model.visible(view.box)) if (this.item(c, view, item)) count += 1;
    return count;
  }

  /**
   * Paints anew what lies in a box of a canvas.
   * @param {CanvasRenderingContext2D} c
   * @param {View} view
   * @param {Box} box
   */
  patch(c, view, box) {
    const scale = view.zoom * this.ratio;
    const wide = grown(box, REACH);
    const [x0, y0] = [Math.floor((wide.x0 - view.box.x0) * scale), Math.floor((wide.y0 - view.box.y0) * scale)];
    const [w, h] = [Math.ceil((wide.x1 - wide.x0) * scale) + 1, Math.ceil((wide.y1 - wide.y0) * scale) + 1];
    if (x0 + w < 0 || y0 + h < 0 || x0 > c.canvas.width || y0 > c.canvas.height) return;
    c.save();
    c.setTransform(1, 0, 0, 1, 0, 0);
    c.beginPath();
    c.rect(x0, y0, w, h);
    c.clip();
    this.prepare(c, view);
    const around = { ...view, box: grown(wide, REACH) };
    for (const item of this.model.visible(around.box)) this.item(c, around, item);
    c.restore();
  }

  /**
   * Paints items of these ids over what is there, as they are shown now.
   * @param {CanvasRenderingContext2D} c
   * @param {View} view
   * @param {Set<string>} ids
   */
  over(c, view, ids) {
    this.face(c, view);
    const items = [...ids].map((id) => this.model.at(id)).filter(Boolean);
    for (const item of items.sort((a, b) => a.z - b.z)) paint(c, item, view.zoom, this.look);
  }
}
