// What the machine is good at.

const SIDE = 1024;
const TURNS = 2;
/** In milliseconds: a smooth copy that takes so much longer than a rough one is made by the processor. */
const DEAR = 1.5;

/**
 * The milliseconds that a stretched copy takes until it is there.
 * @param {HTMLCanvasElement} from
 * @param {boolean} isSmooth
 */
function copied(from, isSmooth) {
  // A canvas each: one that is read often is kept where it is read best.
  const canvas = Object.assign(document.createElement("canvas"), { width: SIDE, height: SIDE });
  const c = canvas.getContext("2d", { alpha: false });
  const start = performance.now();
  c.imageSmoothingEnabled = isSmooth;
  c.drawImage(from, 0.3, 0.3, SIDE * 1.2, SIDE * 1.2);
  c.getImageData(0, 0, 1, 1);
  return performance.now() - start;
}

/** Whether no graphics card draws here, so that each pixel takes time of the processor, and a smooth one much more. */
export function isWithoutCard() {
  const from = Object.assign(document.createElement("canvas"), { width: SIDE, height: SIDE });
  // What is blank might not be copied at all.
  from.getContext("2d", { alpha: false }).fillRect(1, 1, SIDE / 2, SIDE / 2);
  const best = (/** @type {boolean} */ isSmooth) => Math.min(...Array.from({ length: TURNS }, () => copied(from, isSmooth)));
  return best(true) - best(false) > DEAR;
}
