// The camera: which place of the board is at the window's top left, and how large a unit is.

/** @typedef {[number, number, number, number]} Pad what islands take at the top, right, bottom and left */
/** @typedef {{x: number, y: number, zoom: number}} View */

export const LEAST = 0.05;
export const MOST = 8;
const GLIDE = 220;

/** @param {number} zoom */
const inRange = (zoom) => Math.min(MOST, Math.max(LEAST, zoom));

export class Camera {
  constructor() {
    this.x = 0;
    this.y = 0;
    this.zoom = 1;
    this.width = 0;
    this.height = 0;
    this.frame = 0;
    this.wasShown = false;
    /** Where it goes or went by itself, until it is moved again. @type {View | null} */
    this.goal = null;
    /** @type {() => void} */
    this.hear = () => {};
  }

  /**
   * @param {number} x
   * @param {number} y
   * @param {number} zoom
   */
  set(x, y, zoom) {
    this.stop();
    this.goal = null;
    this.put(x, y, zoom);
  }

  /** @returns {View} */
  view() {
    const { x, y, zoom } = this;
    return { x, y, zoom };
  }

  /**
   * @param {number} x
   * @param {number} y
   * @param {number} zoom
   */
  put(x, y, zoom) {
    this.zoom = inRange(zoom);
    this.x = x;
    this.y = y;
    this.hear();
  }

  /**
   * @param {number} px
   * @param {number} py
   * @returns {[number, number]}
   */
  toBoard(px, py) {
    return [px / this.zoom + this.x, py / this.zoom + this.y];
  }

  /**
   * @param {number} x
   * @param {number} y
   * @returns {[number, number]}
   */
  toWindow(x, y) {
    return [(x - this.x) * this.zoom, (y - this.y) * this.zoom];
  }

  /**
   * A box of the board in pixels of the window.
   * @param {Box} box
   * @returns {Box}
   */
  boxToWindow(box) {
    const [x0, y0] = this.toWindow(box.x0, box.y0);
    const [x1, y1] = this.toWindow(box.x1, box.y1);
    return { x0, y0, x1, y1 };
  }

  /** What the window shows. */
  box() {
    return { x0: this.x, y0: this.y, x1: this.x + this.width / this.zoom, y1: this.y + this.height / this.zoom };
  }

  /**
   * @param {number} dx pixels
   * @param {number} dy
   */
  pan(dx, dy) {
    this.set(this.x + dx / this.zoom, this.y + dy / this.zoom, this.zoom);
  }

  /**
   * Zooms so that the place under a point of the window stays there.
   * @param {number} px
   * @param {number} py
   * @param {number} factor
   */
  zoomAt(px, py, factor) {
    const [x, y] = this.toBoard(px, py);
    const zoom = inRange(this.zoom * factor);
    this.set(x - px / zoom, y - py / zoom, zoom);
  }

  /** @param {number} zoom */
  zoomTo(zoom) {
    this.zoomAt(this.width / 2, this.height / 2, zoom / this.zoom);
  }

  /**
   * Shows a box between the islands.
   * @param {Box | null} box
   * @param {Pad} pad
   * @param {number} [most] the largest zoom
   */
  fit(box, pad, most = 1) {
    if (!box) return;
    const w = Math.max(40, this.width - pad[1] - pad[3]);
    const h = Math.max(40, this.height - pad[0] - pad[2]);
    const zoom = inRange(Math.min(w / Math.max(1, box.x1 - box.x0), h / Math.max(1, box.y1 - box.y0), most));
    const [middleX, middleY] = [(box.x0 + box.x1) / 2, (box.y0 + box.y1) / 2];
    this.glide(middleX - (pad[3] + w / 2) / zoom, middleY - (pad[0] + h / 2) / zoom, zoom);
  }

  /**
   * Brings a box into the window by the least way, where it isn't there.
   * @param {Box} box
   * @param {Pad} pad
   * @returns {boolean} whether it goes anywhere
   */
  reveal(box, pad) {
    const shown = this.box();
    const z = this.zoom;
    const [x0, x1] = [shown.x0 + pad[3] / z, shown.x1 - pad[1] / z];
    const [y0, y1] = [shown.y0 + pad[0] / z, shown.y1 - pad[2] / z];
    if (box.x1 - box.x0 > x1 - x0 || box.y1 - box.y0 > y1 - y0) {
      this.fit(box, pad, z);
      return true;
    }
    const gap = 24 / z;
    const dx = wayInto(box.x0, box.x1, x0, x1, gap);
    const dy = wayInto(box.y0, box.y1, y0, y1, gap);
    if (dx || dy) this.glide(this.x + dx, this.y + dy, z);
    return Boolean(dx || dy);
  }

  stop() {
    cancelAnimationFrame(this.frame);
  }

  /**
   * Goes to a place on a short way that can be seen, unless motion isn't wanted.
   * @param {number} x
   * @param {number} y
   * @param {number} zoom
   */
  glide(x, y, zoom) {
    this.stop();
    this.goal = { x, y, zoom };
    if (!this.wasShown || matchMedia("(prefers-reduced-motion: reduce)").matches) {
      this.wasShown = true;
      this.put(x, y, zoom);
      return;
    }
    const from = { x: this.x + this.width / 2 / this.zoom, y: this.y + this.height / 2 / this.zoom, zoom: this.zoom };
    const to = { x: x + this.width / 2 / zoom, y: y + this.height / 2 / zoom };
    const start = performance.now();
    const step = (/** @type {number} */ now) => {
      const done = Math.min(1, (now - start) / GLIDE);
      if (done === 1) {
        this.put(x, y, zoom);
        return;
      }
      const part = 1 - (1 - done) ** 3;
      const z = from.zoom * (zoom / from.zoom) ** part;
      const middleX = from.x + (to.x - from.x) * part;
      const middleY = from.y + (to.y - from.y) * part;
      this.put(middleX - this.width / 2 / z, middleY - this.height / 2 / z, z);
      this.frame = requestAnimationFrame(step);
    };
    this.frame = requestAnimationFrame(step);
  }
}

/**
 * How far a camera goes so that what lies from `low` to `high` is shown between two places.
 * @param {number} low
 * @param {number} high
 * @param {number} from
 * @param {number} to
 * @param {number} gap
 */
function wayInto(low, high, from, to, gap) {
  if (low < from) return low - from - gap;
  return high > to ? high - to + gap : 0;
}
