// A sheet: a canvas on which a part of the board is painted, and from which it is copied onto the window while the view moves.

import { within } from "./boxes.js";

/** @typedef {import("./painter.js").Painter} Painter */
/**
 * What a sheet has been painted for.
 * @typedef {object} View
 * @property {number} zoom
 * @property {Box} box what it shows
 * @property {Set<string> | null} lift what is previewed, and so isn't on the sheet
 */

/** So many boxes are repainted alone; where there are more, all is. */
const MOST_BOXES = 200;

/**
 * A canvas without transparency, which is copied faster.
 * @param {HTMLCanvasElement} canvas
 */
export const contextOf = (canvas) => canvas.getContext("2d", { alpha: false });

export class Sheet {
  /** @param {Painter} painter */
  constructor(painter) {
    this.painter = painter;
    this.c = contextOf(document.createElement("canvas"));
    /** What it shows, or null where nothing on it is right. @type {View | null} */
    this.view = null;
  }

  /**
   * @param {number} width in pixels of the screen
   * @param {number} height
   */
  size(width, height) {
    Object.assign(this.c.canvas, { width, height });
    this.view = null;
  }

  /**
   * Paints all that it is to show.
   * @param {View} view
   */
  paint(view) {
    this.painter.whole(this.c, view);
    this.view = view;
  }

  /** @param {Box} box */
  covers(box) {
    return this.view !== null && within(box, this.view.box);
  }

  /**
   * Repaints where something has changed. Says how many boxes that were; where they are too many, nothing on it is right.
   * @param {Box[]} damage
   */
  repair(damage) {
    const { view } = this;
    if (!view) return 0;
    const boxes = [...damage, ...this.liftedBoxes(view)];
    if (boxes.length > MOST_BOXES) this.view = null;
    else for (const box of boxes) this.painter.patch(this.c, view, box);
    return boxes.length;
  }

  /**
   * Where it isn't right since something else is previewed now, which is painted over a sheet that is without it.
   * @param {View} view
   */
  liftedBoxes(view) {
    const { shadow, byId } = this.painter.model;
    const was = view.lift;
    /** @type {(Box | undefined)[]} */
    const boxes = [];
    for (const id of was ?? []) if (!shadow.has(id)) boxes.push(byId.get(id)?.ink);
    for (const id of shadow.keys()) if (!was?.has(id)) boxes.push(byId.get(id)?.ink);
    view.lift = this.painter.lifted();
    return boxes.filter((box) => box !== undefined);
  }

  /**
   * Copies a part of it to where that is in the window, or all of it.
   * @param {CanvasRenderingContext2D} c
   * @param {{x: number, y: number, zoom: number}} camera
   * @param {Box} [part] in pixels of the screen
   */
  copy(c, camera, part) {
    const { ratio } = this.painter;
    const { canvas } = this.c;
    const stretch = camera.zoom / this.view.zoom;
    const [x, y] = [this.view.box.x0 - camera.x, this.view.box.y0 - camera.y].map((far) => far * camera.zoom * ratio);
    if (part) {
      const [w, h] = [part.x1 - part.x0, part.y1 - part.y0];
      c.drawImage(canvas, (part.x0 - x) / stretch, (part.y0 - y) / stretch, w / stretch, h / stretch, part.x0, part.y0, w, h);
    } else if (stretch === 1) c.drawImage(canvas, Math.round(x), Math.round(y));
    else c.drawImage(canvas, x, y, canvas.width * stretch, canvas.height * stretch);
  }
}

/** A sheet that is being painted, some of its items at a time. It shows nothing until it is whole. */
export class Painting {
  /**
   * @param {Sheet} sheet
   * @param {View} view
   */
  constructor(sheet, view) {
    this.sheet = sheet;
    this.view = view;
    this.items = sheet.painter.model.visible(view.box);
    this.at = 0;
    this.cost = 0;
    /** @type {Box[]} what has changed meanwhile */
    this.damage = [];
    sheet.view = null;
    sheet.painter.prepare(sheet.c, view);
  }

  /**
   * Paints for so many milliseconds. Says whether it is whole.
   * @param {number} most
   */
  go(most) {
    const { sheet, view, items } = this;
    const start = performance.now();
    for (; this.at < items.length; this.at += 1) {
      if ((this.at & 31) === 0 && performance.now() - start > most) {
        this.cost += performance.now() - start;
        return false;
      }
      sheet.painter.item(sheet.c, view, items[this.at]);
    }
    this.cost += performance.now() - start;
    sheet.view = view;
    sheet.repair(this.damage);
    return true;
  }
}
