// What is drawn again and again over the board: outlines, tags, knobs, guide lines.

import { FAMILY } from "./text.js";

/** @typedef {import("../core/types.js").Guide} Guide */

const TAG_FONT = `600 11px ${FAMILY}`;
const TAG_HEIGHT = 18;
const TAG_PAD = 6;
const TICK = 5;
const CROSS = 3;

export class Pen {
  /**
   * @param {CanvasRenderingContext2D} c
   * @param {Ed} ed
   */
  constructor(c, ed) {
    this.c = c;
    this.ed = ed;
    this.accent = "";
    this.guide = "";
    this.face = "";
    this.onTone = "";
  }

  /**
   * A path with round corners.
   * @param {Box} box
   * @param {number} radius
   */
  round(box, radius) {
    this.c.beginPath();
    this.c.roundRect(box.x0, box.y0, box.x1 - box.x0, box.y1 - box.y0, radius);
  }

  /**
   * The path around an item as it is shown now.
   * @param {Item} item
   * @param {number} [by] so many pixels beside it
   */
  outline(item, by = 0) {
    const { c } = this;
    const { camera, model } = this.ed;
    const at = model.at(item.id) ?? item;
    if (at.ends) {
      c.beginPath();
      c.moveTo(...camera.toWindow(at.ends[0], at.ends[1]));
      c.lineTo(...camera.toWindow(at.ends[2], at.ends[3]));
      return;
    }
    const { x0, y0, x1, y1 } = camera.boxToWindow(at.box);
    if (at.kind !== "ellipse" || by) {
      this.round({ x0: x0 - by, y0: y0 - by, x1: x1 + by, y1: y1 + by }, 3 + Math.min(6, by));
      return;
    }
    c.beginPath();
    c.ellipse((x0 + x1) / 2, (y0 + y1) / 2, (x1 - x0) / 2, (y1 - y0) / 2, 0, 0, 2 * Math.PI);
  }

  /** @param {string} text */
  tagWidth(text) {
    this.c.font = TAG_FONT;
    return this.c.measureText(text).width + 2 * TAG_PAD;
  }

  /**
   * @param {string} text
   * @param {number} x
   * @param {number} y
   * @param {string} colour
   */
  tag(text, x, y, colour) {
    const { c } = this;
    const width = this.tagWidth(text);
    c.textBaseline = "middle";
    c.textAlign = "left";
    c.direction = "ltr";
    c.fillStyle = colour;
    this.round({ x0: x, y0: y, x1: x + width, y1: y + TAG_HEIGHT }, 5);
    c.fill();
    c.fillStyle = this.onTone;
    c.fillText(text, x + TAG_PAD, y + TAG_HEIGHT / 2 + 0.5);
  }

  /**
   * @param {number} x
   * @param {number} y
   * @param {number} radius
   */
  knob(x, y, radius) {
    const { c } = this;
    c.beginPath();
    c.arc(x, y, radius, 0, 2 * Math.PI);
    c.fillStyle = this.face;
    c.fill();
    c.lineWidth = 1.5;
    c.strokeStyle = this.accent;
    c.stroke();
  }

  /** @param {Guide} guide */
  guideLine(guide) {
    const { c } = this;
    const { x0, y0, x1, y1 } = this.ed.camera.boxToWindow(guide);
    const isAcross = Math.abs(x1 - x0) > Math.abs(y1 - y0);
    c.strokeStyle = this.guide;
    c.lineWidth = 1;
    c.beginPath();
    c.moveTo(x0, y0);
    c.lineTo(x1, y1);
    for (const [x, y] of [[x0, y0], [x1, y1]]) {
      if (guide.gap === undefined) this.cross(x, y);
      else this.tick(x, y, isAcross);
    }
    c.stroke();
    if (guide.gap === undefined) return;
    const text = String(Math.round(guide.gap));
    if (isAcross) this.tag(text, (x0 + x1 - this.tagWidth(text)) / 2, y0 + 7, this.guide);
    else this.tag(text, x0 + 8, (y0 + y1 - TAG_HEIGHT) / 2, this.guide);
  }

  /**
   * @param {number} x
   * @param {number} y
   */
  cross(x, y) {
    this.c.moveTo(x - CROSS, y - CROSS);
    this.c.lineTo(x + CROSS, y + CROSS);
    this.c.moveTo(x + CROSS, y - CROSS);
    this.c.lineTo(x - CROSS, y + CROSS);
  }

  /**
   * @param {number} x
   * @param {number} y
   * @param {boolean} isAcross
   */
  tick(x, y, isAcross) {
    this.c.moveTo(isAcross ? x : x - TICK, isAcross ? y - TICK : y);
    this.c.lineTo(isAcross ? x : x + TICK, isAcross ? y + TICK : y);
  }
}
