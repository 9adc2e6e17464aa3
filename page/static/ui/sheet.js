// The panel of styles is a sheet where the window is small. While it is open the view goes so that what is selected stays in
// sight beside it, and back to where it was when it is closed, unless it was moved meanwhile.

const MAKING = new Set(["rect", "ellipse", "line", "text"]);

export class Sheet {
  /**
   * @param {Ed} ed
   * @param {HTMLElement} button which opens and closes it
   */
  constructor(ed, button) {
    this.ed = ed;
    this.button = button;
    /** What was selected when it was brought into sight. */
    this.shown = "";
    /** @type {import("../board/camera.js").View | null} where the view was before */
    this.before = null;
    /** @type {import("../board/camera.js").View | null} where it went */
    this.there = null;
  }

  get isOpen() {
    return document.body.dataset.sheet === "1";
  }

  /** Whether there is something to style. */
  get isUseful() {
    return MAKING.has(this.ed.tool) || this.ed.selection.ids.size > 0;
  }

  /** @param {boolean} on */
  turn(on) {
    const { ed } = this;
    const isOn = on && this.isUseful;
    document.body.dataset.sheet = isOn ? "1" : "";
    ed.rested();
    if (on && !isOn) ed.banner({ text: "Choose a shape, or a tool that makes one", lasts: 3000 });
    // Who presses keys goes on in the sheet.
    if (isOn && document.body.dataset.keys === "1") ed.stylePanel.focus();
    if (!on) ed.focusBoard();
  }

  update() {
    if (!this.isUseful) document.body.dataset.sheet = "";
    this.button.setAttribute("aria-pressed", String(this.isOpen));
    if (this.isOpen) this.reveal();
    else this.goBack();
  }

  /** Brings what is selected into sight, once for each selection, and not while a finger is on it. */
  reveal() {
    const { ed } = this;
    const chosen = [...ed.selection.ids].join(" ");
    if (chosen === this.shown || ed.gestures.act) return;
    this.shown = chosen;
    const box = ed.model.boxOf(ed.selection.ids);
    const view = this.before && ed.camera.goal === this.there ? this.before : ed.camera.view();
    if (!box || !ed.camera.reveal(box, ed.pad())) return;
    this.before = view;
    this.there = ed.camera.goal;
  }

  goBack() {
    const { camera } = this.ed;
    const { before, there } = this;
    Object.assign(this, { shown: "", before: null, there: null });
    if (before && there && camera.goal === there) camera.glide(before.x, before.y, before.zoom);
  }
}
