// A spatial index: cells of 512 units; what covers more than 16 of them stands in a list of its own.

import { meet } from "./boxes.js";

const CELL = 512;
const MOST_CELLS = 16;
const ROW = 67108864;

/**
 * The cells that a box meets: the first and the last column, the first and the last row.
 * @param {Box} box
 */
const cellsOf = (box) => [box.x0, box.x1, box.y0, box.y1].map((place) => Math.floor(place / CELL));

/**
 * @param {number} x0
 * @param {number} x1
 * @param {number} y0
 * @param {number} y1
 */
function keysOf(x0, x1, y0, y1) {
  const keys = [];
  for (let x = x0; x <= x1; x += 1) for (let y = y0; y <= y1; y += 1) keys.push(x * ROW + y);
  return keys;
}

export class Grid {
  constructor() {
    /** @type {Map<number, Set<Item>>} */
    this.cells = new Map();
    /** @type {Set<Item>} */
    this.large = new Set();
    /** @type {Map<string, {item: Item, keys: number[] | null}>} each item with its cells, or null for the list of the large */
    this.where = new Map();
  }

  /** @param {Item} item */
  put(item) {
    this.take(item.id);
    const [x0, x1, y0, y1] = cellsOf(item.ink);
    const isLarge = (x1 - x0 + 1) * (y1 - y0 + 1) > MOST_CELLS;
    const keys = isLarge ? null : keysOf(x0, x1, y0, y1);
    if (!keys) this.large.add(item);
    else for (const key of keys) this.cell(key).add(item);
    this.where.set(item.id, { item, keys });
  }

  /** @param {number} key */
  cell(key) {
    let cell = this.cells.get(key);
    if (!cell) this.cells.set(key, (cell = new Set()));
    return cell;
  }

  /** @param {string} id */
  take(id) {
    const was = this.where.get(id);
    if (!was) return;
    this.where.delete(id);
    if (!was.keys) this.large.delete(was.item);
    else for (const key of was.keys) this.leave(key, was.item);
  }

  /**
   * @param {number} key
   * @param {Item} item
   */
  leave(key, item) {
    const cell = this.cells.get(key);
    cell.delete(item);
    if (!cell.size) this.cells.delete(key);
  }

  /**
   * The items that meet a box, with the room of their labels; each once, in no order.
   * @param {Box} box
   */
  query(box) {
    /** @type {Set<Item>} */
    const found = new Set();
    for (const list of this.near(box)) for (const item of list) if (meet(item.ink, box)) found.add(item);
    return found;
  }

  /**
   * The lists in which what meets a box stands.
   * @param {Box} box
   * @returns {Set<Item>[]}
   */
  near(box) {
    const [x0, x1, y0, y1] = cellsOf(box);
    const lists = [this.large];
    if ((x1 - x0 + 1) * (y1 - y0 + 1) > this.cells.size) return [...lists, ...this.cells.values()];
    for (let x = x0; x <= x1; x += 1) {
      for (let y = y0; y <= y1; y += 1) {
        const cell = this.cells.get(x * ROW + y);
        if (cell) lists.push(cell);
      }
    }
    return lists;
  }
}
