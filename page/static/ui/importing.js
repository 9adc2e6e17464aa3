// Into the board: files that are dropped or chosen.

import { h } from "./h.js";
import { readDrawing } from "./reading.js";

const MOST_BYTES = 8_000_000;
const TAKEN = ".txt,.json,.svg,text/plain,application/json,image/svg+xml";

export class Importing {
  /** @param {Ed} ed */
  constructor(ed) {
    this.ed = ed;
    addEventListener("dragover", (event) => this.over(event, true));
    addEventListener("dragleave", (event) => {
      if (!event.relatedTarget) document.body.dataset.drop = "";
    });
    addEventListener("drop", (event) => this.dropped(event));
  }

  /**
   * @param {DragEvent} event
   * @param {boolean} isOver
   */
  over(event, isOver) {
    if (![...(event.dataTransfer?.types ?? [])].includes("Files")) return;
    event.preventDefault();
    document.body.dataset.drop = isOver ? "1" : "";
  }

  /** @param {DragEvent} event */
  dropped(event) {
    this.over(event, false);
    const file = event.dataTransfer?.files[0];
    if (!file) return;
    const [x, y] = this.ed.camera.toBoard(event.clientX, event.clientY);
    this.ed.pointer = { x, y, px: event.clientX, py: event.clientY };
    this.take(file);
  }

  /** Has a file chosen. */
  choose() {
    const field = h("input", { type: "file", accept: TAKEN });
    field.addEventListener("change", () => {
      this.ed.pointer = null;
      if (field.files?.[0]) this.take(field.files[0]);
    });
    field.click();
  }

  /**
   * Puts what a file has on the board.
   * @param {File} file
   */
  async take(file) {
    const { ed } = this;
    const fail = (/** @type {string} */ why) => ed.banner({ tone: "warn", text: `${file.name} ${why}`, lasts: 6000 });
    if (file.size > MOST_BYTES) {
      fail("is too large: at most 8 MB are taken");
      return;
    }
    const text = await file.text();
    if (!readDrawing(text)) fail("has no drawing: lines of a drawing, JSON and SVG are taken");
    else if (ed.clipboard.put(text, "Imported")) ed.fit();
  }
}
