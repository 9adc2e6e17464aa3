// Frames: one is drawn where something was touched, and no other.

const MOST_DRAWS = 2000;

export class Frames {
  /** @param {Ed} ed */
  constructor(ed) {
    this.ed = ed;
    this.isTouched = { scene: true, overlay: true };
    this.frame = 0;
    /**
     * How long each drawing of a frame took, in milliseconds.
     * @type {number[]}
     */
    this.draws = [];
  }

  /** @param {"scene" | "overlay"} what */
  touch(what) {
    this.isTouched[what] = true;
    if (what === "scene") this.ed.scene.isStale = true;
    this.ask();
  }

  /** Has both drawn, the scene where it has changed alone. */
  again() {
    this.isTouched.scene = this.isTouched.overlay = true;
    this.ask();
  }

  ask() {
    if (!this.frame) this.frame = requestAnimationFrame((now) => this.draw(now));
  }

  /** @param {number} now */
  draw(now) {
    this.frame = 0;
    const start = performance.now();
    if (this.isTouched.scene) this.isTouched.scene = this.ed.scene.draw(now);
    if (this.isTouched.overlay) {
      this.isTouched.overlay = false;
      this.ed.overlay.draw(now);
    }
    this.draws.push(performance.now() - start);
    if (this.draws.length > MOST_DRAWS) this.draws.splice(0, MOST_DRAWS / 2);
    if (this.isTouched.scene || this.isTouched.overlay) this.ask();
  }
}
