// Out of the board: as SVG, PNG and PDF, on paper, and what the node itself saves.

import { paint } from "../board/paint.js";
import { h } from "./h.js";
import { pdfOf } from "./pdf.js";
import { pictureBox, svgOf } from "./svg.js";
import { withMembers } from "./arrange.js";

const PAPER = "#FFFFFF";
/** A picture has so many pixels for a unit, and no side has more than the other number. */
const PNG = { scale: 2, most: 8000 };
const FORMS = {
  text: { end: "txt", type: "text/plain" },
  json: { end: "json", type: "application/json" },
  events: { end: "events.jsonl", type: "application/jsonl" },
  log: { end: "log", type: "application/octet-stream" },
};

export class Exporting {
  /** @param {Ed} ed */
  constructor(ed) {
    this.ed = ed;
  }

  /** What is exported, in paint order: what is selected with all in it, else all. */
  items() {
    const { model, selection } = this.ed;
    return selection.ids.size ? withMembers(this.ed) : model.items;
  }

  get title() {
    return document.title.split(" · ")[0];
  }

  svgText() {
    return new XMLSerializer().serializeToString(svgOf(this.items(), this.title));
  }

  /** @returns {Promise<Blob>} */
  png() {
    const items = this.items().filter((item) => item.kind !== "group");
    const box = pictureBox(items);
    const scale = Math.min(PNG.scale, PNG.most / Math.max(box.x1 - box.x0, box.y1 - box.y0));
    const canvas = document.createElement("canvas");
    canvas.width = Math.ceil((box.x1 - box.x0) * scale);
    canvas.height = Math.ceil((box.y1 - box.y0) * scale);
    const c = /** @type {CanvasRenderingContext2D} */ (canvas.getContext("2d"));
    c.fillStyle = PAPER;
    c.fillRect(0, 0, canvas.width, canvas.height);
    c.setTransform(scale, 0, 0, scale, -box.x0 * scale, -box.y0 * scale);
    for (const item of items) paint(c, item, scale, { dark: false, paper: PAPER, skip: null });
    return new Promise((done, fail) => {
      canvas.toBlob((blob) => (blob ? done(blob) : fail(new Error("the picture is too large"))), "image/png");
    });
  }

  /**
   * Hands a file to the browser.
   * @param {Blob} blob
   * @param {string} end of its name
   */
  save(blob, end) {
    const name = `${this.title.toLowerCase().replace(/[^\p{L}\p{N}]+/gu, "-").replace(/^-|-$/g, "") || "board"}.${end}`;
    const link = h("a", { href: URL.createObjectURL(blob), download: name });
    link.click();
    setTimeout(() => URL.revokeObjectURL(link.href), 10_000);
    this.ed.banner({ icon: "check", text: `${name} is with your downloads`, lasts: 3000 });
    this.ed.say(`Saved ${name}`);
  }

  saveSvg() {
    this.save(new Blob([this.svgText()], { type: "image/svg+xml" }), "svg");
  }

  savePng() {
    return this.attempt(async () => this.save(await this.png(), "png"));
  }

  savePdf() {
    return this.attempt(async () => this.save(await pdfOf(this.items(), this.title), "pdf"));
  }

  /**
   * Saves what the node has: the drawing, its events or its journal.
   * @param {keyof typeof FORMS} form
   */
  saveFrom(form) {
    const { end, type } = FORMS[form];
    return this.attempt(async () => {
      const text = await this.ed.node.save(form);
      // The journal is bytes, which come in base64.
      const content = form === "log" ? Uint8Array.from(atob(text), (letter) => letter.charCodeAt(0)) : text;
      this.save(new Blob([content], { type }), end);
    });
  }

  copySvg() {
    return this.copy("SVG", () => navigator.clipboard.writeText(this.svgText()));
  }

  copyPng() {
    return this.copy("PNG", () => navigator.clipboard.write([new ClipboardItem({ "image/png": this.png() })]));
  }

  /**
   * @param {string} what
   * @param {() => Promise<void>} write
   */
  async copy(what, write) {
    if (await this.attempt(write)) this.ed.banner({ icon: "check", text: `${what} is on the clipboard`, lasts: 2500 });
  }

  /**
   * Does what may fail, and says so.
   * @param {() => Promise<void>} act
   * @returns {Promise<boolean>}
   */
  async attempt(act) {
    try {
      await act();
      return true;
    } catch (why) {
      const { message } = /** @type {Error} */ (why);
      this.ed.banner({ tone: "warn", text: `That didn’t work: ${message}`, lasts: 6000 });
      return false;
    }
  }

  /** Prints a clean sheet with the drawing alone. */
  print() {
    const host = /** @type {HTMLElement} */ (document.getElementById("print"));
    host.replaceChildren(svgOf(this.items(), this.title));
    print();
    host.replaceChildren();
  }
}
