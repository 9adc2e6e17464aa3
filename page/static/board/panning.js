// Moving the view: by hand, by two fingers, and along with a drag that comes to the window's edge.

/** @typedef {import("./acts.js").Act} Act */
/** @typedef {import("./gestures.js").Gestures} Gestures */

const EDGE = 24;
const CLOSEST = 20;

/**
 * @param {Gestures} gestures
 * @param {Place} from
 * @returns {Act}
 */
export function panning(gestures, from) {
  const { camera } = gestures.ed;
  gestures.busy("pan");
  let last = from;
  return {
    eager: true,
    move: (at) => {
      camera.pan(last.px - at.px, last.py - at.py);
      last = at;
    },
  };
}

/**
 * @param {Gestures} gestures
 * @returns {Act}
 */
export function pinching(gestures) {
  const { camera } = gestures.ed;
  const now = () => {
    const [one, other] = [...gestures.fingers.values()];
    const far = Math.max(CLOSEST, Math.hypot(one.x - other.x, one.y - other.y));
    return { x: (one.x + other.x) / 2, y: (one.y + other.y) / 2, far };
  };
  let last = now();
  return {
    pinch: () => {
      if (gestures.fingers.size !== 2) return;
      const next = now();
      camera.pan(last.x - next.x, last.y - next.y);
      camera.zoomAt(next.x, next.y, next.far / last.far);
      last = next;
    },
  };
}

/**
 * How far the view goes in a frame where the pointer is at a place of the window.
 * @param {number} at
 * @param {number} size
 */
function pushOf(at, size) {
  if (at < EDGE) return (at - EDGE) / 2;
  return at > size - EDGE ? (at - size + EDGE) / 2 : 0;
}

/**
 * At the window's edge the board moves along, for as long as the pointer stays there.
 * @param {Gestures} gestures
 * @param {Act} act
 * @param {PointerEvent} event
 */
export function edgePush(gestures, act, event) {
  cancelAnimationFrame(gestures.edge);
  const [dx, dy] = [pushOf(event.clientX, innerWidth), pushOf(event.clientY, innerHeight)];
  if (!dx && !dy) return;
  gestures.edge = requestAnimationFrame(() => {
    if (gestures.act !== act) return;
    gestures.ed.camera.pan(dx, dy);
    act.move(gestures.at(event), event);
    gestures.ed.touch("overlay");
    edgePush(gestures, act, event);
  });
}
