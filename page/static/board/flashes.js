// Flashes: what came is marked for a while, and how. Green was applied, amber reworked, grey and dashed overwritten.

/** @typedef {import("./pen.js").Pen} Pen */
/** @typedef {"applied" | "reworked" | "dropped" | "undone"} What */
/** @typedef {{ids: Set<string>, what: What, tag: string | null, from: number, lasts: number, where: Box | null}} Flash */

/** In milliseconds: how long it shrinks and fades in its end, how long it changes at all, and how often it is painted then. */
const SHRINKS = 420;
const FADES = 400;
const BEGINS = 450;
const ENDS = 450;
const STEP = 50;
const MOST = 200;

export class Flashes {
  /**
   * @param {Ed} ed
   * @param {Pen} pen
   */
  constructor(ed, pen) {
    this.ed = ed;
    this.pen = pen;
    /** @type {Flash[]} */
    this.list = [];
    /** @type {Record<What, string>} */
    this.tones = { applied: "", reworked: "", dropped: "", undone: "" };
    this.timer = 0;
  }

  /** @param {Flash} flash */
  add(flash) {
    this.list.push(flash);
    if (this.list.length > MOST) this.list.shift();
  }

  /**
   * Paints all, and sees to it that they are painted again while they change. Not each frame: a window full of canvas is dear.
   * @param {number} now
   */
  paint(now) {
    this.list = this.list.filter((flash) => now - flash.from < flash.lasts);
    const isStill = matchMedia("(prefers-reduced-motion: reduce)").matches;
    for (const flash of this.list) this.one(flash, now - flash.from, isStill);
    clearTimeout(this.timer);
    if (!this.list.length) return;
    const isChanging = !isStill && this.list.some(({ from, lasts }) => now - from < BEGINS || lasts - (now - from) < ENDS);
    const next = Math.min(...this.list.map(({ from, lasts }) => lasts - (isStill ? 0 : ENDS) - (now - from)));
    this.timer = setTimeout(() => this.ed.touch("overlay"), isChanging ? STEP : Math.max(STEP, next));
  }

  /**
   * @param {Flash} flash
   * @param {number} age
   * @param {boolean} isStill
   */
  one(flash, age, isStill) {
    const { c } = this.pen;
    const leaves = this.ed.model.leavesOf(flash.ids);
    if (!leaves.length && flash.where) leaves.push(/** @type {Item} */ ({ id: "", kind: "rect", box: flash.where }));
    if (!leaves.length) return;
    c.globalAlpha = isStill ? 1 : Math.min(1, (flash.lasts - age) / FADES);
    c.strokeStyle = this.tones[flash.what];
    c.lineWidth = 2.5;
    if (flash.what === "undone" || flash.what === "dropped") c.setLineDash([5, 4]);
    const by = isStill ? 5 : 5 + 9 * Math.max(0, 1 - age / SHRINKS);
    for (const leaf of leaves) {
      this.pen.outline(leaf, by);
      c.stroke();
    }
    c.setLineDash([]);
    if (flash.tag) this.tag(flash);
    c.globalAlpha = 1;
  }

  /** @param {Flash} flash */
  tag(flash) {
    const { model, camera } = this.ed;
    const box = model.boxOf(flash.ids) ?? flash.where;
    const { x0, y1 } = camera.boxToWindow(box);
    this.pen.tag(flash.tag, x0 - 4, y1 + 9, this.tones[flash.what]);
  }
}
