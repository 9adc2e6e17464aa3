// The lane of the history bar: a row for each person with a tick for each event, marks where late ones belong, and of the
// one that is looked at an arc from where it came in.

import { personColour } from "../board/colours.js";
import { h } from "./h.js";
import { isRepaired } from "./deeds.js";

/** @typedef {import("../core/types.js").Event} Event */

const SIDE = 8;
const TOP = 13;
const MARKS = 7;
const HIGHEST_ROW = 7;
const TOKENS = ["lane", "late", "muted", "surface", "text"];

export class Lane {
  /** @param {Ed} ed */
  constructor(ed) {
    this.ed = ed;
    this.canvas = h("canvas", { "aria-hidden": "true" });
    this.ticks = document.createElement("canvas");
    this.shown = "";
    this.width = 0;
    this.height = 0;
    /** @type {Record<string, string>} */
    this.colours = {};
    /** @type {number[]} */
    this.sites = [];
  }

  /**
   * Where the border in front of event `k` is.
   * @param {number} k
   */
  x(k) {
    return SIDE + ((this.width - 2 * SIDE) * k) / Math.max(1, this.ed.node.events.length);
  }

  /**
   * The event at a place of the lane; a late one near to it goes first.
   * @param {number} x
   */
  eventAt(x) {
    const { events } = this.ed.node;
    const last = events.length - 1;
    const at = Math.max(0, Math.min(last, Math.floor(((x - SIDE) / (this.width - 2 * SIDE)) * events.length)));
    for (let near = Math.max(0, at - 6); near <= Math.min(last, at + 6); near += 1) {
      if (isRepaired(events[near]) && Math.abs(this.x(near + 0.5) - x) < 6) return near;
    }
    return at;
  }

  get rowHeight() {
    return Math.min(HIGHEST_ROW, (this.height - TOP - 4) / Math.max(1, this.sites.length));
  }

  /**
   * @param {number} here how many events are shown
   * @param {number | null} focus the event that is looked at
   */
  draw(here, focus) {
    const { clientWidth: width, clientHeight: height } = this.canvas;
    if (!width) return;
    const { events } = this.ed.node;
    const { dark } = this.ed.scene;
    const key = `${width} ${height} ${devicePixelRatio} ${dark} ${events.length} ${events.at(-1)?.stamp}`;
    if (key !== this.shown) {
      this.shown = key;
      Object.assign(this, { width, height });
      this.drawTicks(events, dark);
    }
    const c = this.fresh(this.canvas);
    c.drawImage(this.ticks, 0, 0, this.width, this.height);
    this.veil(c, here);
    if (focus !== null && events[focus]?.late) this.drawRepair(c, events, focus);
    c.fillStyle = this.colours.text;
    const x = this.x(here);
    c.fillRect(x - 1, TOP - 4, 2, this.sites.length * this.rowHeight + 7);
    disc(c, x, TOP - 4, 4);
  }

  /** @param {HTMLCanvasElement} canvas */
  fresh(canvas) {
    canvas.width = Math.round(this.width * devicePixelRatio);
    canvas.height = Math.round(this.height * devicePixelRatio);
    const c = /** @type {CanvasRenderingContext2D} */ (canvas.getContext("2d"));
    c.setTransform(devicePixelRatio, 0, 0, devicePixelRatio, 0, 0);
    return c;
  }

  /**
   * @param {Event[]} events
   * @param {boolean} dark
   */
  drawTicks(events, dark) {
    const style = getComputedStyle(document.documentElement);
    this.colours = Object.fromEntries(TOKENS.map((name) => [name, style.getPropertyValue(`--${name}`).trim()]));
    this.sites = [...new Set(events.map((event) => event.site))].sort((a, b) => a - b);
    const c = this.fresh(this.ticks);
    const row = this.rowHeight;
    c.fillStyle = this.colours.lane;
    this.sites.forEach((_, at) => c.fillRect(SIDE, TOP + at * row + 0.5, this.width - 2 * SIDE, row - 1.5));
    const tick = Math.max(1.5, (this.width - 2 * SIDE) / events.length - 0.5);
    this.tickRows(c, events, tick, dark);
    events.forEach((event, k) => event.late && this.mark(c, event, this.x(k + 0.5), 3));
  }

  /**
   * The ticks of all. Where half a pixel has several of one person it is painted once.
   * @param {CanvasRenderingContext2D} c
   * @param {Event[]} events
   * @param {number} tick
   * @param {boolean} dark
   */
  tickRows(c, events, tick, dark) {
    const row = this.rowHeight;
    const made = (/** @type {number} */ site, /** @type {number} */ at) => ({
      y: TOP + at * row + 0.5, colour: personColour(site, dark), last: -1,
    });
    const rows = new Map(this.sites.map((site, at) => [site, made(site, at)]));
    events.forEach((event, k) => {
      const own = rows.get(event.site);
      const x = this.x(k + 0.5);
      if (!own || x - own.last < 0.5) return;
      own.last = x;
      c.fillStyle = own.colour;
      c.fillRect(x - tick / 2, own.y, tick, row - 1.5);
    });
  }

  /**
   * @param {CanvasRenderingContext2D} c
   * @param {Event} event
   * @param {number} x
   * @param {number} size
   */
  mark(c, event, x, size) {
    const { late, muted, surface } = this.colours;
    if (!isRepaired(event)) {
      c.fillStyle = muted;
      disc(c, x, MARKS, 1.6);
      return;
    }
    const isDropped = event.late?.what === "dropped";
    c.beginPath();
    c.moveTo(x, MARKS - size);
    c.lineTo(x + size, MARKS);
    c.lineTo(x, MARKS + size);
    c.lineTo(x - size, MARKS);
    c.closePath();
    c.fillStyle = isDropped ? surface : late;
    c.strokeStyle = isDropped ? muted : late;
    c.lineWidth = 1.2;
    c.fill();
    c.stroke();
  }

  /**
   * Pales what isn't shown.
   * @param {CanvasRenderingContext2D} c
   * @param {number} here
   */
  veil(c, here) {
    const x = this.x(here);
    c.globalAlpha = 0.7;
    c.fillStyle = this.colours.surface;
    c.fillRect(x, TOP, this.width - x, this.sites.length * this.rowHeight);
    c.globalAlpha = 1;
  }

  /**
   * Where a late event came in, what was done again for it, and an arc to where it belongs.
   * @param {CanvasRenderingContext2D} c
   * @param {Event[]} events
   * @param {number} focus
   */
  drawRepair(c, events, focus) {
    const event = events[focus];
    const row = this.rowHeight;
    let from = focus + 1;
    events.forEach((each, at) => {
      if (each.came < event.came && at >= from) from = at + 1;
    });
    const [x, fromX] = [this.x(focus + 0.5), this.x(Math.min(events.length - 0.5, from))];
    const { late } = this.colours;
    c.fillStyle = c.strokeStyle = late;
    c.lineWidth = 1.5;
    c.globalAlpha = 0.16;
    c.fillRect(x, TOP, fromX - x, this.sites.length * row);
    c.globalAlpha = 1;
    const redone = new Set(event.late?.redone);
    events.forEach((each, at) => {
      if (!redone.has(each.stamp)) return;
      c.strokeRect(this.x(at + 0.5) - 3, TOP + this.sites.indexOf(each.site) * row - 0.5, 6, row + 0.5);
    });
    c.beginPath();
    c.moveTo(fromX, TOP);
    c.bezierCurveTo(fromX, 0, x, 0, x, TOP - 3);
    c.stroke();
    disc(c, fromX, TOP, 2.2);
    this.mark(c, event, x, 4.5);
  }
}

/**
 * @param {CanvasRenderingContext2D} c
 * @param {number} x
 * @param {number} y
 * @param {number} radius
 */
function disc(c, x, y, radius) {
  c.beginPath();
  c.arc(x, y, radius, 0, 7);
  c.fill();
}
