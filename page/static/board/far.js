// The far sheet shows what lies around the window, at a quarter of its size. It is painted while nothing else is to be done, and
// is seen where the view goes over the end of the sheet proper before that is painted anew.

import { within } from "./boxes.js";
import { Painting, Sheet } from "./sheet.js";

/** @typedef {import("./camera.js").Camera} Camera */

/** It shows so many times more than the window each way; it may be so many times coarser than that. */
const FAR = 4;
const COARSER = 2;
/** In milliseconds. */
const SLICE = 5;
/** It is there where there are so many items: fewer are painted at once. */
export const MANY = 400;

export class FarSheet extends Sheet {
  /** @param {import("./painter.js").Painter} painter one of its own, since it keeps the rows of other dots */
  constructor(painter) {
    super(painter);
    /** @type {Painting | null} */
    this.job = null;
  }

  drop() {
    this.view = this.job = null;
  }

  /** @param {Box[]} damage */
  repair(damage) {
    this.job?.damage.push(...damage);
    return super.repair(damage);
  }

  /**
   * Paints some more of it where it isn't right for a view. Says whether there is more to paint.
   * @param {Camera} camera
   * @param {Box} near what is on the sheet proper
   */
  go(camera, near) {
    if (!this.job && this.isRight(camera, near)) return false;
    this.job ??= new Painting(this, this.viewOf(camera));
    if (this.job.go(SLICE)) this.job = null;
    return this.job !== null;
  }

  /** @param {Camera} camera */
  viewOf(camera) {
    const box = camera.box();
    const [byX, byY] = [box.x1 - box.x0, box.y1 - box.y0].map((side) => (side * (FAR - 1)) / 2);
    const wide = { x0: box.x0 - byX, y0: box.y0 - byY, x1: box.x1 + byX, y1: box.y1 + byY };
    return { zoom: camera.zoom / FAR, box: wide, lift: this.painter.lifted() };
  }

  /**
   * Whether it has what lies around the window and isn't on the sheet proper, and isn't too coarse.
   * @param {Camera} camera
   * @param {Box} near
   */
  isRight(camera, near) {
    const all = this.painter.model.all();
    const { x0, y0, x1, y1 } = camera.box();
    const [w, h] = [x1 - x0, y1 - y0];
    const around = all && {
      x0: Math.max(all.x0, x0 - w), y0: Math.max(all.y0, y0 - h), x1: Math.min(all.x1, x1 + w), y1: Math.min(all.y1, y1 + h),
    };
    if (!around || within(around, near)) return true;
    return this.covers(around) && this.view.zoom * FAR * COARSER >= camera.zoom;
  }
}
