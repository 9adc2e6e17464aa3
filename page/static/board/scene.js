// Paints the board: paper, dots, items. All is painted on a sheet that is wider than the window, which then is copied to it
// while the view moves. The next sheet is painted in slices before that one ends, and a change repaints its boxes alone.
// While the view zooms over much the sheet is copied larger or smaller, with what is around it from a sheet that shows more at
// a quarter of its size; once the zoom rests, all is painted sharp.

import { grown, partOf } from "./boxes.js";
import { FarSheet, MANY } from "./far.js";
import { isWithoutCard } from "./machine.js";
import { Painter } from "./painter.js";
import { contextOf, Painting, Sheet } from "./sheet.js";

/** @typedef {import("./model.js").Model} Model */
/** @typedef {import("./camera.js").Camera} Camera */
/** @typedef {import("./sheet.js").View} View */

/** In milliseconds: a whole paint that takes longer is dear; so long the view rests before it is sharp; a slice, and one at rest. */
const DEAR = 6;
const REST = 120;
const SLICE = 5;
const SLICE_AT_REST = 10;
/** In pixels: how much wider than the window a sheet is at each side, and from which margin the next one is begun. */
const MARGIN = 320;
const BEGIN = MARGIN * 0.6;
/** A sheet that is stretched further is painted anew also while the view zooms, and one that fills so little of the window. */
const STRETCH = 2.5;
const LEAST_PART = 0.5;
/** So many items in the window are painted anew in each frame of a zoom: without a graphics card, and with one. */
const FEW = 50;
const FEW_BY_CARD = 400;

export class Scene {
  /**
   * @param {HTMLCanvasElement} canvas
   * @param {Model} model
   * @param {Camera} camera
   */
  constructor(canvas, model, camera) {
    this.canvas = canvas;
    this.model = model;
    this.camera = camera;
    this.c = contextOf(canvas);
    this.painter = new Painter(model);
    this.sheet = new Sheet(this.painter);
    this.other = new Sheet(this.painter);
    this.far = new FarSheet(new Painter(model, this.painter.look));
    this.cost = 0;
    this.isStale = true;
    /** Whether the window doesn't show yet what the sheet does. */
    this.isOwed = true;
    /** Whether the sheet is stretched until the view rests, and whether the last frame was painted without it. */
    this.isStretched = false;
    this.wasSharp = false;
    this.movedAt = 0;
    /** For so many milliseconds the view rests until it is painted sharp. */
    this.restAfter = REST;
    this.last = "";
    /** @type {Painting | null} */
    this.job = null;
    /** @type {Box[]} where the board has changed */
    this.damage = [];
    this.hasNoCard = true;
    setTimeout(() => (this.hasNoCard = isWithoutCard()), 1000);
    this.theme();
  }

  get dark() {
    return this.painter.look.dark;
  }

  /** What the sheet shows. */
  get kept() {
    return this.sheet.view;
  }

  /** Whether the sheet is of another zoom. */
  get isZooming() {
    return this.kept !== null && this.kept.zoom !== this.camera.zoom;
  }

  /** The object whose text isn't painted, since it is being edited. */
  get skip() {
    return this.painter.look.skip;
  }

  set skip(id) {
    const was = this.skip;
    this.painter.look.skip = id;
    for (const each of [was, id]) {
      const item = each && this.model.at(each);
      if (item) this.damage.push(item.ink);
    }
  }

  theme() {
    this.painter.theme();
    this.far.painter.theme();
    this.isStale = true;
  }

  /**
   * @param {number} width
   * @param {number} height
   * @param {number} ratio
   */
  size(width, height, ratio) {
    this.painter.ratio = this.far.painter.ratio = ratio;
    this.canvas.width = Math.round(width * ratio);
    this.canvas.height = Math.round(height * ratio);
    for (const each of [this.sheet, this.other]) {
      each.size(Math.round((width + 2 * MARGIN) * ratio), Math.round((height + 2 * MARGIN) * ratio));
    }
    this.far.size(this.canvas.width, this.canvas.height);
    this.isStale = true;
  }

  /**
   * Draws a frame. Says whether another should follow.
   * @param {number} now
   */
  draw(now) {
    this.noteMove(now);
    this.repair();
    const isMoving = now - this.movedAt <= this.restAfter;
    if (!isMoving) this.isStretched = false;
    this.wasSharp = isMoving && this.isZooming && this.isLittle();
    if (this.wasSharp) {
      this.paintWindow();
      return true;
    }
    const isDear = this.cost >= DEAR;
    if (this.isStale || !this.holds(isDear) || (this.isZooming && !isMoving && !isDear)) this.paintSheet();
    else if (this.job || this.isEnding(isMoving)) this.slice(isMoving ? SLICE : SLICE_AT_REST);
    this.blit();
    if (this.job || this.isZooming) return true;
    return this.model.items.length > MANY && (isMoving || this.far.go(this.camera, this.kept.box));
  }

  /** @param {number} now */
  noteMove(now) {
    const { x, y, zoom } = this.camera;
    const key = `${x} ${y} ${zoom}`;
    if (key === this.last) return;
    this.movedAt = now;
    this.isOwed = true;
    this.last = key;
  }

  /** Repaints where something has changed on the sheets. */
  repair() {
    const { damage } = this;
    this.damage = [];
    if (this.isStale || !this.kept) {
      this.isStale = true;
      this.far.drop();
      return;
    }
    // A sheet that is being painted gets the change once it is whole.
    this.job?.damage.push(...damage);
    this.far.repair(damage);
    if (this.sheet.repair(damage)) this.isOwed = true;
    this.isStale = !this.kept;
  }

  /**
   * Whether so little is in the window that each frame of a zoom can paint it sharp. Else the sheet is stretched until the view
   * rests: what changed from one to the other and back would flicker.
   */
  isLittle() {
    if (this.isStretched) return false;
    const most = this.hasNoCard ? FEW : FEW_BY_CARD;
    if (this.model.visible(this.camera.box()).length <= most) return true;
    this.isStretched = true;
    // What was sharp until now isn't blurred at once.
    this.isStale ||= this.wasSharp;
    return false;
  }

  /**
   * Whether what the window shows is on the sheet; where that is dear, it may also be on the far one until it is.
   * @param {boolean} isDear
   */
  holds(isDear) {
    const box = this.camera.box();
    return this.sheet.covers(box) || (isDear && this.kept !== null && this.far.covers(box));
  }

  /**
   * Whether the next sheet should be begun: the window comes to the end of this one, or it is stretched.
   * @param {boolean} isMoving
   */
  isEnding(isMoving) {
    const { kept, camera } = this;
    const box = camera.box();
    if (this.isZooming && isMoving) {
      const stretch = camera.zoom / kept.zoom;
      return stretch > STRETCH || stretch < 1 / STRETCH || partOf(box, kept.box) < LEAST_PART;
    }
    const sides = [box.x0 - kept.box.x0, kept.box.x1 - box.x1, box.y0 - kept.box.y0, kept.box.y1 - box.y1];
    return this.isZooming || Math.min(...sides) * camera.zoom < BEGIN;
  }

  /** What a sheet is to show now. @returns {View} */
  nextView() {
    const { camera } = this;
    return { zoom: camera.zoom, box: grown(camera.box(), MARGIN / camera.zoom), lift: this.painter.lifted() };
  }

  /** Paints a whole sheet. */
  paintSheet() {
    const start = performance.now();
    this.sheet.paint(this.nextView());
    this.isStale = false;
    this.isOwed = true;
    this.job = null;
    this.noteCost(performance.now() - start);
  }

  /** Paints what the window shows right on it. The sheet stays as it is. */
  paintWindow() {
    const { camera } = this;
    this.painter.whole(this.c, { box: camera.box(), zoom: camera.zoom });
    this.isOwed = true;
  }

  /** @param {number} took */
  noteCost(took) {
    this.cost = this.cost ? (this.cost + took) / 2 : took;
  }

  /**
   * Paints some more of the next sheet, and takes it where it is whole.
   * @param {number} most for how many milliseconds
   */
  slice(most) {
    this.job ??= new Painting(this.other, this.nextView());
    if (!this.job.go(most)) return;
    this.noteCost(this.job.cost);
    this.job = null;
    [this.sheet, this.other] = [this.other, this.sheet];
    this.isOwed = true;
  }

  /** Puts the sheet onto the window's canvas, and over it what is previewed. */
  blit() {
    const { kept, camera, c } = this;
    if (!this.isOwed && !kept.lift) return;
    this.isOwed = false;
    c.setTransform(1, 0, 0, 1, 0, 0);
    // Without a graphics card smooth stretching takes longer than all else of a frame.
    c.imageSmoothingEnabled = !this.hasNoCard;
    if (!this.sheet.covers(camera.box())) for (const part of this.partsAround()) this.far.copy(c, camera, part);
    this.sheet.copy(c, camera);
    if (kept.lift) this.painter.over(c, { box: camera.box(), zoom: camera.zoom }, kept.lift);
  }

  /** The parts of the window around the sheet, in pixels of the screen, and a little of what is under its edge. */
  partsAround() {
    const { kept, camera } = this;
    const { ratio } = this.painter;
    const { width, height } = this.canvas;
    const box = camera.boxToWindow(kept.box);
    const [x0, x1] = [Math.ceil(box.x0 * ratio) + 1, Math.floor(box.x1 * ratio) - 1].map((x) => Math.max(0, Math.min(width, x)));
    const [y0, y1] = [Math.ceil(box.y0 * ratio) + 1, Math.floor(box.y1 * ratio) - 1].map((y) => Math.max(0, Math.min(height, y)));
    if (x0 >= x1 || y0 >= y1) return [{ x0: 0, y0: 0, x1: width, y1: height }];
    const parts = [
      { x0: 0, y0: 0, x1: width, y1: y0 }, { x0: 0, y0: y1, x1: width, y1: height },
      { x0: 0, y0, x1: x0, y1 }, { x0: x1, y0, x1: width, y1 },
    ];
    return parts.filter((part) => part.x0 < part.x1 && part.y0 < part.y1);
  }
}
