// Steps of the history: the events of one gesture are one step, where it is known that they are. That is told by the bridge, of
// this site's own gestures since it started.

/** @typedef {import("../core/node.js").Node} Node */
/** @typedef {import("../core/types.js").Event} Event */
/** @typedef {Pick<Node, "site" | "events" | "gestures">} Told */

/**
 * The number of the gesture that an event belongs to, or -1.
 * @param {Told} node
 * @param {Event | undefined} event
 */
function gestureOf({ site, gestures }, event) {
  if (event?.site !== site) return -1;
  let [low, high] = [0, gestures.length - 1];
  while (low < high) {
    const middle = (low + high + 1) >> 1;
    if (gestures[middle][0] <= event.clock) low = middle;
    else high = middle - 1;
  }
  const found = gestures[low];
  return found && found[0] <= event.clock && event.clock <= found[1] ? low : -1;
}

/**
 * Whether two steps meet behind the first `k` events.
 * @param {Told} node
 * @param {number} k
 */
function isBorder(node, k) {
  const gesture = gestureOf(node, node.events[k - 1]);
  return gesture < 0 || gesture !== gestureOf(node, node.events[k]);
}

/**
 * How many events are shown one step on from `k` events, or one step back.
 * @param {Told} node
 * @param {number} k
 * @param {1 | -1} by
 */
export function stepFrom(node, k, by) {
  let to = k + by;
  while (to > 0 && to < node.events.length && !isBorder(node, to)) to += by;
  return Math.max(0, Math.min(node.events.length, to));
}

/**
 * The events of the step that ends behind the first `k` events. Where that is the middle of one, only the last of these events.
 * @param {Told} node
 * @param {number} k
 * @returns {Event[]}
 */
export function stepAt(node, k) {
  if (k <= 0) return [];
  const from = isBorder(node, k) ? stepFrom(node, k, -1) : k - 1;
  return node.events.slice(from, k);
}
