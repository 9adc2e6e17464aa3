// The paper and its dots: those each 20 units fade out as they come close, those each 100 stay.

/** @typedef {{x: number, y: number, zoom: number}} At what is at the canvas's top left, and how large a unit is */

const STEP = 20;
const NEXT = 5;
const CLOSEST = 11;
const FADE = 14;
const LEAST_ALPHA = 0.03;

/**
 * Where the first of places in a row is, from 0 on.
 * @param {number} start
 * @param {number} gap
 */
const firstOf = (start, gap) => -(((start % gap) + gap) % gap);

export class Ground {
  constructor() {
    this.paper = "";
    this.dot = "";
    // A pattern that isn't a whole number of pixels large is slow, and a dot at a time too: so some rows of dots are
    // painted once, and copied.
    this.rows = document.createElement("canvas").getContext("2d", { alpha: false });
    this.key = "";
  }

  /**
   * @param {string} paper
   * @param {string} dot
   */
  theme(paper, dot) {
    this.paper = paper;
    this.dot = dot;
    this.key = "";
  }

  /**
   * @param {CanvasRenderingContext2D} c
   * @param {At} at
   * @param {number} ratio pixels of the screen to one of the window
   */
  paint(c, at, ratio) {
    let step = STEP;
    while (step * at.zoom < CLOSEST) step *= NEXT;
    const gap = step * at.zoom * ratio;
    this.paintRows(c.canvas.width, at, ratio, gap);
    const height = gap * NEXT;
    c.setTransform(1, 0, 0, 1, 0, 0);
    const first = firstOf(at.y * at.zoom * ratio, height);
    for (let row = 0; first + row * height < c.canvas.height; row += 1) {
      c.drawImage(this.rows.canvas, 0, Math.round(first + row * height));
    }
  }

  /**
   * Paints the rows from one of the large dots to the next one.
   * @param {number} width
   * @param {At} at
   * @param {number} ratio
   * @param {number} gap
   */
  paintRows(width, at, ratio, gap) {
    const x = firstOf(at.x * at.zoom * ratio, gap * NEXT);
    const key = `${width} ${x.toFixed(2)} ${gap}`;
    if (key === this.key) return;
    this.key = key;
    const { rows: c } = this;
    const height = Math.ceil(gap * NEXT) + 1;
    if (c.canvas.width !== width || c.canvas.height !== height) Object.assign(c.canvas, { width, height });
    c.globalAlpha = 1;
    c.fillStyle = this.paper;
    c.fillRect(0, 0, width, height);
    c.fillStyle = this.dot;
    const radius = Math.max(0.8, Math.min(1.5, 0.75 + at.zoom * 0.25)) * ratio;
    const fade = Math.min(1, (gap / ratio - CLOSEST) / FADE) * 0.9;
    if (fade >= LEAST_ALPHA) this.dots(x, gap, radius, fade);
    this.dots(x, gap * NEXT, radius, 1);
  }

  /**
   * @param {number} x
   * @param {number} gap
   * @param {number} radius
   * @param {number} alpha
   */
  dots(x, gap, radius, alpha) {
    const { rows: c } = this;
    const { width, height } = c.canvas;
    c.globalAlpha = alpha;
    c.beginPath();
    for (let down = 0; down < height; down += gap) {
      for (let across = x; across < width + radius; across += gap) {
        c.moveTo(across + radius, down);
        c.arc(across, down, radius, 0, 2 * Math.PI);
      }
    }
    c.fill();
  }
}
