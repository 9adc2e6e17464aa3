// What one press of a pointer begins. An act is told of each move, and of the end; it previews, and types at the end alone.

/**
 * @typedef {object} Act
 * @property {boolean} [eager] whether it begins with the press, and not once the pointer has gone a little way
 * @property {boolean} [moved] whether it has begun
 * @property {boolean} [pinched] whether it is over, and waits until all fingers are away
 * @property {(at: Place, event: PointerEvent) => void} [begin]
 * @property {(at: Place, event: MouseEvent) => void} [move]
 * @property {(at: Place, event: MouseEvent) => void} [drop] the end of an act that has begun
 * @property {(at: Place, event: MouseEvent) => void} [click] the end of one that hasn't
 * @property {(at: Place, event: MouseEvent) => void} [double] the second click
 * @property {() => void} [pinch] a finger has moved
 */

const { round } = Math;

/**
 * A number of objects, in words.
 * @param {number} number
 */
export const counted = (number) => (number === 1 ? "1 object" : `${number.toLocaleString("en")} objects`);

/**
 * The lines that move objects. Connectors go where their ends go.
 * @param {Item[]} items
 * @param {number} dx
 * @param {number} dy
 */
export const moveLines = (items, dx, dy) =>
  items.filter(({ kind }) => kind !== "connector").map((item) => `move ${item.id} ${round(item.x + dx)} ${round(item.y + dy)}`);

/**
 * Whether dragging is to be free of snapping.
 * @param {MouseEvent} event
 */
export const isFree = (event) => event.ctrlKey || event.metaKey;
